"""A snapshot that is made from this host's log, by a process of its own, while the guest and its protection go on."""
import json
import os
import shutil
import subprocess
import sys
from pathlib import Path
from typing import Any

from host.settings import ROOT
from host.snapshot import check_replaced
from host.tasks import Tell, refusal

PROGRAM = [sys.executable, "-m", "host.log.save"]
ROOM = "saving"  # beside the log's folder


class Saving:
    """`at` is the generation and the number of a checkpoint that is on the disk. `answer` gets what is to be answered."""

    def __init__(self, host: Any, at: tuple[int, int], path: str, answer: Tell) -> None:
        """Raises OSError."""
        self.host, self.at, self.path, self.answer, self.said = host, at, path, answer, b""
        check_replaced(path)
        words = [host.kept.folder.resolve(), room(host.kept.folder.resolve()), *at, path, *host.settings.node]
        self.process = subprocess.Popen([*PROGRAM, *map(str, words)], cwd=ROOT, stdin=subprocess.PIPE, stdout=subprocess.PIPE)

    def fileno(self) -> int:
        return self.process.stdout.fileno()

    def turn(self) -> None:
        """It has said more, or ended."""
        if data := os.read(self.fileno(), 4096):
            self.said += data
            return
        self.close()
        self.host.saving = None
        self.answer(self.answered())

    def answered(self) -> dict[str, Any]:
        try:
            found = json.loads(self.said)
        except ValueError:
            return refusal("Internal", f"the process that makes the snapshot ended with status {self.process.returncode}")
        if "bytes" not in found:
            return refusal(found["refused"], found["why"])
        generation, number = self.at
        told = f"saved {found['bytes']} bytes as {self.path}"
        self.host.log.info(f"{told}: the guest at checkpoint {number} of generation {generation}")
        return self.host.control.did(told, bytes=found["bytes"], of_generation=generation, checkpoint=number)

    def close(self) -> None:
        """It isn't wanted any more: it ends, and its node, once its standard input does."""
        self.process.stdin.close()
        self.process.stdout.close()
        self.process.wait()


def room(log: Path) -> Path:
    """Where the files that it reads are held."""
    return log.with_name(ROOM)


def forget(log: Path) -> None:
    """What one that was killed has left."""
    shutil.rmtree(room(log), ignore_errors=True)
