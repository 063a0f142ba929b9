"""The state folder: what must outlive the daemon. One file says that a guest was booted or held here, and one, where logs are kept, up to
which generation logs of a guest are outlived by what this host has let out since."""
import fcntl
import json
import os
import time
from pathlib import Path
from typing import BinaryIO

from host.files import written


class State:
    """Raises OSError where the folder can't be used."""

    def __init__(self, folder):
        self.folder = Path(folder)
        self.folder.mkdir(parents=True, exist_ok=True)
        self.file, self.outlived = self.folder / "life.json", self.folder / "outlived.json"
        self.lock = opened_alone(self.folder / "lock")
        try:
            fcntl.flock(self.lock, fcntl.LOCK_EX | fcntl.LOCK_NB)
        except OSError:
            raise OSError(None, f"the state folder {self.folder} is in use by another remus-host") from None

    @property
    def booted_before(self):
        return self.file.exists()

    def keep(self, life, generation, how):
        """Writes down that this life was here; it is on the disk when this returns."""
        written(self.file, json.dumps({"life": life, "generation": generation, "how": how, "at": time.time()}).encode() + b"\n")

    def outlive(self, life: str, generation: int) -> None:
        """Writes down that this host lets out what no log of this life has that is of this generation or an earlier one."""
        written(self.outlived, json.dumps({"life": life, "generation": generation}).encode() + b"\n")

    def outlives(self) -> tuple[str | None, int]:
        """The life and the generation that were written down so last; a file that can't be read says nothing."""
        try:
            found = json.loads(self.outlived.read_bytes())
            return str(found["life"]), int(found["generation"])
        except (OSError, ValueError, KeyError, TypeError):
            return None, 0


def opened_alone(path: Path) -> BinaryIO:
    """A file that is there for its lock, for its owner alone: whoever could open it could hold the lock too, and no daemon would start."""
    file = os.open(path, os.O_RDWR | os.O_CREAT | os.O_CLOEXEC, 0o600)
    os.fchmod(file, 0o600)
    return open(file, "wb")
