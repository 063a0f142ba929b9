"""How a script writes into the repository: only with --write. Without it the script says which files differ from what it would write."""
import argparse
import re
from pathlib import Path

ROOT = Path(__file__).resolve().parent.parent


def options(about):
    """A reader of the command line that knows --write."""
    reader = argparse.ArgumentParser(description=about, formatter_class=argparse.RawDescriptionHelpFormatter)
    reader.add_argument("--write", action="store_true", help="write the files; without this the script only says which differ")
    return reader


def without_layout(proof):
    """A proof without what `rt fmt` decides: white space, and the comma before a closing bracket."""
    return re.sub(r",(?=[)\]}])", "", re.sub(r"\s", "", proof))


def is_same(path, text):
    if not path.is_file():
        return False
    old = path.read_text()
    return without_layout(old) == without_layout(text) if path.suffix == ".antt" else old == text


def finish(files, is_to_write):
    """Writes what differs of these files, texts by paths, or says so; answers the script's exit status."""
    changed = [path for path, text in files.items() if not is_same(path, text)]
    for path in changed:
        print(f"{path.relative_to(ROOT) if path.is_relative_to(ROOT) else path}: {'written' if is_to_write else 'differs'}")
        if is_to_write:
            path.parent.mkdir(parents=True, exist_ok=True)
            path.write_text(files[path])
    print(f"{len(files)} files, {len(changed)} {'written' if is_to_write else 'differ'}")
    return 1 if changed and not is_to_write else 0
