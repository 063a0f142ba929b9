"""Edits of a crate's sources, as `must-fail/*.edit` has them: a line 'file: PATH', then pairs of lines 'old: TEXT' and 'new: TEXT', where
each old text stands once in that file, as the pairs before left it; further files follow in the same way. `applied` makes such changes,
and `check` proves a crate with them in place, over what was proved before. `functions` says which functions an edit changes."""
import os
import re
import subprocess
from pathlib import Path

ROOT = Path(__file__).resolve().parent.parent


class Stale(Exception):
    """An edit that can't be made: its file isn't there, it isn't written as an edit is, or an old text doesn't stand there once."""


def changes(edit):
    """The changes of an edit, in their order: of each the file, and the text before and after."""
    made, path, old = [], None, None
    for line in edit.read_text().splitlines():
        kind, colon, text = line.partition(": ")
        if kind == "file" and colon and old is None:
            path = text
        elif kind == "old" and colon and path and old is None:
            old = text
        elif kind == "new" and colon and old is not None:
            made.append((path, old, text))
            old = None
        else:
            raise Stale(f"{edit.stem}: {line!r} is no line that can stand there")
    if old is not None or not made:
        raise Stale(f"{edit.stem}: there is no change, or half of one, at the end")
    return made


def applied(crate, edits):
    """The sources that these edits change in a crate: two dictionaries by path, of the texts before and after. Raises `Stale`."""
    before, after = {}, {}
    for edit in edits:
        for path, old, new in changes(edit):
            if path not in before:
                file = ROOT / "crates" / crate / path
                if not path.startswith("src/") or not file.is_file():
                    raise Stale(f"{edit.stem}: {path} is no source of the crate")
                before[path] = after[path] = file.read_text()
            if old == new:
                raise Stale(f"{edit.stem}: {old!r} is not changed")
            if after[path].count(old) != 1:
                raise Stale(f"{edit.stem}: {old!r} stands {after[path].count(old)} times in {path}")
            after[path] = after[path].replace(old, new)
    return before, after


def functions(crate, edit):
    """The functions that an edit changes, by the folders below `proofs/` in which their proofs by hand stand, where they have some."""
    found = set()
    for path, old, _ in changes(edit):
        before, there, _ = (ROOT / "crates" / crate / path).read_text().partition(old)
        heads = re.findall(r"(?m)^( *)(?:pub(?:\(\w+\))? )?(?:const )?(?:unsafe )?fn (\w+)", before + there)
        if not there or not heads:
            continue
        indent, name = heads[-1]
        owners = re.findall(r"(?m)^impl(?:<[^\n{]*?>)? (?:(\w+)(?:<[^\n{]*>)? for )?(\w+)", before) if indent else []
        owner = [owners[-1][1] + owners[-1][0]] if owners else []
        modules = [part for part in Path(path).with_suffix("").parts[1:] if part not in ("lib", "main")]
        found.add(Path(*modules, *owner, name))
    return found


def check(crate, edits):
    """How `rt check` ended for this crate with these edits in its sources, which are put back after that. Raises `Stale`."""
    folder = ROOT / "crates" / crate
    before, after = applied(crate, edits)
    try:
        for path, text in after.items():
            (folder / path).write_text(text)
        jobs = os.environ.get("RT_JOBS", "2")
        return subprocess.run(["rt", "check", "--jobs", jobs], cwd=folder, capture_output=True, text=True, errors="replace")
    finally:
        for path, text in before.items():
            (folder / path).write_text(text)
