"""The base of a generation that a live host's own log goes on with, written from files by a process of its own, of low priority, so that
nothing waits for it: the daemon begins it, and `main` is that process."""
import subprocess
import sys
import threading
from collections.abc import Callable
from pathlib import Path

from host.settings import ROOT

BASE = "host.log.write_base"
PROGRAM = [sys.executable, "-m", BASE]


class Basing(threading.Thread):
    """`wrong` is why no base was written, once it `is_done`."""

    def __init__(self, folder: Path, generation: int, most: int, command: list[str], told: Callable[[], None]) -> None:
        super().__init__(name="base", daemon=True)
        self.folder, self.generation, self.most, self.command, self.told = folder.resolve(), generation, most, command, told
        self.process: subprocess.Popen | None = None
        self.wrong: str | None = None
        self.is_done = self.is_ended = False

    def run(self) -> None:
        words = [*PROGRAM, str(self.folder), str(self.generation), str(self.most), *self.command]
        try:
            self.process = subprocess.Popen(words, cwd=ROOT, stdin=subprocess.PIPE, stdout=subprocess.DEVNULL, stderr=subprocess.PIPE)
            if self.is_ended:
                self.process.kill()
            said = self.process.stderr.read().decode(errors="replace").strip()
            if self.process.wait():
                self.wrong = said.splitlines()[-1] if said else f"status {self.process.returncode}"
        except OSError as error:
            self.wrong = error.strerror or str(error)
        self.is_done = True
        self.told()

    def end(self) -> None:
        """It isn't wanted any more. It ends itself, and its node, once its standard input does."""
        self.is_ended = True
        if self.process is not None:
            self.process.kill()
