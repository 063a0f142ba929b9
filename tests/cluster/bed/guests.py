"""The guests that the rows are tried with, and the clients of each (bed/client.py)."""
import dataclasses
import os
import subprocess
from pathlib import Path

ROOT = Path(__file__).resolve().parents[3]


@dataclasses.dataclass(frozen=True)
class Guest:
    script: Path
    clients: tuple[str, ...]
    steps_per_ms: int = 1000


WEB = Guest(ROOT / "examples/server.sim", ("ping", "count", "big"))
COUNTER = Guest(ROOT / "examples/counter.sim", ("udp",))


class Database:
    """SQLite, with a counter over UDP beside it: from an image that is there, or built into a folder meanwhile, in a minute or two."""

    def __init__(self, image: Path | None, folder: Path, builder: Path = ROOT / "guests/sql/build.sh") -> None:
        self.image, self.building, self.missing = image or folder / "database.sim", None, None
        if image is None:
            with open(self.image, "wb") as words:
                self.building = subprocess.Popen([builder], stdin=subprocess.DEVNULL, stdout=words,
                                                 stderr=subprocess.PIPE, text=True, env={**os.environ, "COUNTER": "1"})

    def guest(self) -> Guest:
        """Once it is built. Where it can't be the web server stands in for it, and `missing` says so."""
        if self.building:
            said = self.building.communicate()[1]
            if self.building.returncode != 0:
                print(f"the database isn't tried: {said.strip()}", flush=True)
                self.image, self.missing = None, "with the web server in the place of the database, which can't be built"
            self.building = None
        return Guest(self.image, ("ping", "udp", "curl", "bank"), 50_000) if self.image else WEB
