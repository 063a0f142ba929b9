"""The kit's compiler and its LLVM, called for what `rt` builds nothing for: other processors than this machine's."""
import shutil
import subprocess
import sys
from pathlib import Path
from typing import NoReturn

from crate_list import changed_at, stands_on, uses_of


def stop(why: str) -> NoReturn:
    sys.exit(f"targets: {why}")


class Kit:
    """The kit whose `rt` is on PATH, over the libraries of a tree that were proved and built there."""

    def __init__(self, root: Path) -> None:
        found = shutil.which("rt")
        if not found:
            stop("rt isn't on PATH: install the kit and add its bin/ to PATH")
        self.root, self.at = root, Path(str(found)).resolve().parent.parent
        self.toolchain = self.at / "toolchain"

    def library(self, crate: str) -> Path:
        return self.root / "crates" / crate / "out" / "rlib" / f"{crate}.rlib"

    def check_libraries(self, crates: list[str]) -> None:
        """Ends with a sentence where a library isn't built, or was built before a source that it stands on was changed."""
        for crate in crates:
            folder = self.library(crate)
            changed = max(changed_at(self.root, below) for below in stands_on(self.root, crate))
            if not (folder / "format").is_file() or folder.stat().st_mtime < changed:
                stop(f"the library {crate} isn't built of its sources as they stand: ./remus --prove proves and builds it")

    def build(self, source: Path, name: str, uses: list[str], target: list[str], to: Path, toolchain: Path | None = None) -> None:
        """Checks a crate over these libraries, and compiles it. `source` is its root file."""
        ours = [use for use in uses if (self.root / "crates" / use).is_dir()]
        below = list(dict.fromkeys(crate for use in ours for crate in stands_on(self.root, use)))
        self.check_libraries(below)
        words: list[str | Path] = [self.at / "bin" / "rattle", "build", "--crate-name", name, source]
        for use in ["std", *(use for use in uses if use not in ours)]:
            words += ["--extern", f"{use}={self.at}/rlibs/{use}.rlib"]
        words += ["-L", f"dependency={self.at}/rlibs"]
        for use in ours:
            words += ["--extern", f"{use}={self.library(use)}"]
        for crate in below:
            words += ["-L", f"dependency={self.library(crate).parent}"]
        words += ["--antt-project", f"{self.at}/rattle/logic/antt-project.json", "--logic-built", f"{self.at}/logic_built", "--jobs", "1",
                  "--links", f"{name}=", *target, "--toolchain", toolchain or self.toolchain, "-o", to]
        ran = subprocess.run(words, cwd=source.parent.parent, stdin=subprocess.DEVNULL, stdout=subprocess.PIPE, stderr=subprocess.STDOUT,
                             text=True, errors="replace")
        if ran.returncode:
            said = [line for line in ran.stdout.splitlines() if not line.startswith(("statements ", "library ", "logic "))]
            stop("\n".join([f"{name} isn't proved, or wasn't compiled:", *said[-100:]]))

    def clang(self, *words: str | Path) -> None:
        self.run("clang", *words)

    def link(self, *words: str | Path) -> None:
        self.run("ld.lld", *words)

    def run(self, tool: str, *words: str | Path) -> None:
        ran = subprocess.run([self.toolchain / "bin" / tool, *words], capture_output=True, text=True)
        if ran.returncode:
            stop(f"{tool}: {ran.stderr[-3000:]}")


def crate_build(kit: Kit, crate: str, target: list[str], to: Path) -> None:
    """Builds a program of the tree for a target."""
    kit.build(kit.root / "crates" / crate / "src" / "main.rt", crate, uses_of(kit.root, crate), target, to)
