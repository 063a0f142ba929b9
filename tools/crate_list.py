"""What crates.txt says of the crates of a tree, and the files that they are made from."""
import re
from pathlib import Path

PARTS = ("src", "specs", "proofs")


def stands_on(root: Path, program: str) -> dict[str, set[str]]:
    """The program and what it stands on, lower crates first: each with the crates of this repository that it stands on, itself
    among them."""
    whole: dict[str, set[str]] = {}
    for name, uses in re.findall(r"(?m)^(\w+):(.*)$", (root / "crates.txt").read_text()):
        whole[name] = {name}.union(*(whole.get(use, set()) for use in uses.split()))
    return {name: below for name, below in whole.items() if name in whole[program]}


def uses_of(root: Path, crate: str) -> list[str]:
    """The libraries that a crate's line names: of this repository, and of the kit."""
    listed = re.search(rf"(?m)^{crate}:(.*)$", (root / "crates.txt").read_text())
    return listed[1].split() if listed else []


def sources_of(root: Path, crate: str) -> list[Path]:
    """The files and folders that a crate is made from."""
    parts = [root / "crates" / crate / part for part in PARTS]
    return [path for part in parts if part.is_dir() for path in (part, *part.rglob("*"))]


def changed_at(root: Path, crate: str) -> float:
    """When the sources of a crate last changed."""
    return max(path.stat().st_mtime for path in sources_of(root, crate))
