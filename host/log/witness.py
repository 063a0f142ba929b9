"""What was heard of the peer's log, about once a second, in a file beside the logs: a log that ends before that has lost what it had synced."""
import struct
from pathlib import Path

from host.log.disk import Disk
from host.log.format import BLOCK, ROOM, SECTOR, is_as_written, seed_of, spelled

NAME, MAGIC = "peer.mark", b"RMLP"
HEARD = struct.Struct("<4sIQQ16s")  # magic, a count that grows, generation, number, life
MOST_LIFE = 16


class Witness:
    """Two blocks are written in turn, so that one of them is whole at any moment."""

    def __init__(self, disk: Disk, folder: Path) -> None:
        self.disk, self.folder, self.seed = disk, folder, seed_of(NAME)
        self.file: int | None = None
        self.count = 0

    def put(self, life: str, generation: int, number: int) -> None:
        """Raises OSError."""
        if self.file is None:
            is_there = NAME in self.disk.names(self.folder)
            self.file = (self.disk.open if is_there else self.disk.create)(self.folder / NAME)
            self.disk.sync_folder(self.folder)
            self.count = max((count for count, *_ in self.blocks(self.file)), default=0)
        self.count += 1
        content = HEARD.pack(MAGIC, self.count, generation, number, life.encode()[:MOST_LIFE])
        place = self.count % 2 * BLOCK
        self.disk.write(self.file, spelled(content + bytes(ROOM - len(content)), self.seed, place // SECTOR)[:SECTOR], place)
        self.disk.sync(self.file)

    def read(self) -> tuple[str, int, int] | None:
        """The life, generation and number that were written last; None where nothing can be read."""
        try:
            if NAME not in self.disk.names(self.folder):
                return None
            file = self.disk.open_to_read(self.folder / NAME)
            try:
                return max(self.blocks(file), default=(0, None))[1]
            finally:
                self.disk.close(file)
        except OSError:
            return None

    def blocks(self, file: int) -> list[tuple[int, tuple[str, int, int]]]:
        found = []
        for place in (0, BLOCK):
            sector = self.disk.read(file, SECTOR, place)
            if len(sector) == SECTOR and sector != bytes(SECTOR) and is_as_written(sector, self.seed, place // SECTOR):
                magic, count, generation, number, life = HEARD.unpack_from(sector, 4)
                if magic == MAGIC:
                    found.append((count, (life.rstrip(b"\0").decode(errors="replace"), generation, number)))
        return found

    def close(self) -> None:
        if self.file is not None:
            self.disk.close(self.file)
            self.file = None
