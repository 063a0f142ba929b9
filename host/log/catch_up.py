"""A standby's node in a later generation, which its log goes on with: made on a thread of its own while texts come, and the base of that
generation with it, at a bounded rate, so that no sync of the log waits for long behind one."""
import time
from collections.abc import Callable
from pathlib import Path

from host.log.disk import Disk
from host.log.format import Head, Rotten
from host.log.recovery import handed_over
from host.log.writer import BaseFile
from host.making import Making
from host.node import Node, NodeEnded, Refused

CHUNK, RATE = 1 << 18, 32e6  # bytes that are synced at a time, and bytes a second


class PacedBase(BaseFile):
    """A base that is written at a bounded rate."""

    def __init__(self, disk: Disk, folder: Path, generation: int, most: int) -> None:
        super().__init__(disk, folder, generation, most)
        self.unsynced = 0

    def write(self, data: bytes) -> None:
        super().write(data)
        self.unsynced += len(data)
        if self.unsynced >= CHUNK:
            self.disk.sync(self.file)
            self.unsynced = 0
            time.sleep(CHUNK / RATE)


class CatchUp(Making):
    """`node` is closed, and another one is made of it; it may be known only later. `wrong` is why no base was written, as where no log is
    kept, and `folder` is None. `also` gets the full checkpoint too."""

    def __init__(self, node: Node | None, command: list[str], disk: Disk, folder: Path | None, head: Head, generation: int, most: int,
                 told: Callable[[], None], also: "Writing | None" = None) -> None:
        super().__init__(node, generation, told)
        self.also = also
        self.command, self.disk, self.folder, self.head, self.most = command, disk, folder, head, most
        self.base: PacedBase | None = None
        self.wrong: str | None = None if folder else "no log is kept"
        self.is_hurried = folder is None  # whether somebody waits for the node, and the base is left out

    def make(self) -> None:
        self.tried(lambda: self.begin())
        try:
            self.made = handed_over(self.node, self.command, self.head, self.generation, self.take)
        except (NodeEnded, Refused, Rotten):
            if self.also is not None:
                self.also.leave()
            raise
        if self.also is not None:
            self.also.ends()
        self.tried(lambda: self.base.finish())

    def take(self, data: bytes) -> None:
        self.tried(lambda: self.base.write(data))
        if self.also is not None:
            self.also.put(data)

    def tried(self, part: Callable[[], None]) -> None:
        """The base may fail, and the log goes on without: it stands on the earlier one."""
        if self.wrong is None and self.is_hurried:
            self.wrong = "the node was needed before"
        if self.wrong is None:
            try:
                part()
            except OSError as error:
                self.wrong = error.strerror or str(error)

    def begin(self) -> None:
        self.base = PacedBase(self.disk, self.folder, self.generation, self.most)

    def finished(self) -> Node:
        self.is_hurried |= not self.is_done
        return super().finished()
