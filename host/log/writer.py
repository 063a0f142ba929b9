"""What is written to a log, in the order in which it may count. Each call may raise OSError, and then nothing more may be written."""
import time
from hashlib import blake2b
from pathlib import Path

from host.log.disk import Disk
from host.log.format import (BASE_HEAD, BASE_MAGIC, BLOCK, FIRST, HEAD, HEADER, JOINED, MAGIC, MARK, MARK_MAGIC, OVER, ROOM, SECTOR, TEXT,
                             Head, chained, generation_of, seed_of, spelled, spelled_head)
from host.log.past import Past
from host.log.reading import Found

RESERVED = 4 << 20  # bytes of room that a log takes at a time, so that a full disk is known before a text comes


class LogFile:
    """A generation's log, open for more. What was written before `sync` began is on the disk when it returns."""

    def __init__(self, disk: Disk, folder: Path, generation: int, session: str, file: int) -> None:
        self.disk, self.folder, self.generation, self.session, self.file = disk, folder, generation, session, file
        self.chain, self.end, self.number = FIRST, 0, 0
        self.seed = seed_of(f"{generation}.log")
        self.synced = self.reserved = 0
        self.is_over = False
        self.is_joined = True  # whether who has it may go live by it

    def put(self, kind: int, number: int, data: bytes) -> None:
        when = time.time_ns() // 1_000_000
        chain = chained(self.chain, kind, self.generation, number, when, self.synced, data)
        body = HEADER.pack(MAGIC, kind, self.generation, number, when, len(data), self.synced, chain) + data
        block = spelled(body, self.seed, self.end // SECTOR)
        if kind != OVER:
            self.reserve(len(block))
        self.disk.write(self.file, block, self.end)
        self.chain, self.end, self.number = chain, self.end + len(block), number

    def reserve(self, count: int) -> None:
        """Room for so many bytes, and for one block more: that the log is over can be written on a full disk too."""
        wanted = count + BLOCK
        if self.end + wanted > self.reserved:
            size = max(wanted, RESERVED)
            self.disk.allocate(self.file, self.end, size)
            self.reserved = self.end + size

    def append(self, number: int, text: bytes) -> None:
        self.put(TEXT, number, text)

    def join(self) -> None:
        """From here on it has all that is let out."""
        if not self.is_joined:
            self.put(JOINED, self.number, b"")
            self.is_joined = True

    def over(self) -> None:
        """Nothing of it is ever loaded again."""
        if not self.is_over:
            self.put(OVER, self.number, b"")
            self.is_over = True

    def sync(self) -> None:
        end = self.end
        self.disk.sync(self.file)
        self.synced = end

    def close(self) -> None:
        self.disk.close(self.file)


def begun(disk: Disk, folder: Path, generation: int, head: Head) -> LogFile:
    """A new generation's log, with its head, on the disk, its name too. What it stands on must be on the disk."""
    log = LogFile(disk, folder, generation, head.session, disk.create(folder / f"{generation}.log"))
    log.is_joined = head.joined
    log.put(HEAD, 0, spelled_head(head))
    log.sync()
    disk.sync_folder(folder)
    return log


def continued(disk: Disk, folder: Path, found: Found) -> LogFile:
    """A log that was judged, to go on behind its end: what was torn goes first, so that it is never read again."""
    log = LogFile(disk, folder, found.generation, found.head.session, disk.open(folder / f"{found.generation}.log"))
    disk.cut(log.file, found.end)
    log.chain, log.number, log.is_joined = found.chain, found.number, found.is_joined
    log.end = log.synced = log.reserved = found.end
    return log


def cut_back(disk: Disk, folder: Path, found: Found, number: int) -> None:
    """A log that was judged ends at an earlier number. Its mark, which knows of more, goes first."""
    disk.remove(folder / f"{found.generation}.mark")
    disk.sync_folder(folder)
    file = disk.open(folder / f"{found.generation}.log")
    try:
        disk.cut(file, found.places[number])
    finally:
        disk.close(file)


class BaseFile:
    """The text of a generation's full checkpoint, piece by piece, with room for so many bytes as it may have at the most. It has its name
    once all of it is on the disk."""

    def __init__(self, disk: Disk, folder: Path, generation: int, most: int) -> None:
        self.disk, self.folder, self.generation = disk, folder, generation
        self.path, self.beside = folder / f"{generation}.base", folder / f"{generation}.base.new"
        self.file = disk.create(self.beside)
        # The room that its log takes at first is had now too, and given back for it once the text is whole.
        disk.allocate(self.file, 0, BLOCK + most + RESERVED)
        self.begin()

    def begin(self) -> None:
        """From its first byte on."""
        self.sum, self.length = blake2b(digest_size=32), 0

    def write(self, data: bytes) -> None:
        self.disk.write(self.file, data, BLOCK + self.length)
        self.sum.update(data)
        self.length += len(data)

    def finish(self) -> str:
        """Puts it in place, and answers its sum."""
        head = BASE_HEAD.pack(BASE_MAGIC, 0, self.generation, self.length, self.sum.digest())
        self.disk.write(self.file, head + bytes(BLOCK - len(head)), 0)
        self.disk.cut(self.file, BLOCK + self.length)
        self.disk.sync(self.file)
        self.disk.close(self.file)
        self.disk.rename(self.beside, self.path)
        self.disk.sync_folder(self.folder)
        return self.sum.hexdigest()

    def discard(self) -> None:
        self.disk.close(self.file)
        self.disk.remove(self.beside)


class Mark:
    """A witness beside a log: up to where that was synced, in one of two blocks in turn, so that one of them is whole at any moment."""

    def __init__(self, disk: Disk, folder: Path, generation: int) -> None:
        self.disk, self.generation, self.turn = disk, generation, 0
        name = f"{generation}.mark"
        self.seed, is_there = seed_of(name), name in disk.names(folder)
        self.file = (disk.open if is_there else disk.create)(folder / name)

    def put(self, number: int, synced: int) -> None:
        content = MARK.pack(MARK_MAGIC, 0, self.generation, number, synced)
        place = self.turn * BLOCK
        self.disk.write(self.file, spelled(content + bytes(ROOM - len(content)), self.seed, place // SECTOR)[:SECTOR], place)
        self.disk.sync(self.file)
        self.turn = 1 - self.turn

    def close(self) -> None:
        self.disk.close(self.file)


def tidy(disk: Disk, folder: Path, kept: set[int], past: Past | None = None, but: str = "") -> None:
    """Removes what is of other generations than these, whose bases and heads are on the disk, their names too; what `past` keeps goes
    there. The file of the last name stays.
    Marks go first, so that none is left without its log, and then the earliest generation, so that none is left without a later one that
    says that its life is over."""
    others = [name for name in disk.names(folder) if generation_of(name) not in (None, *kept) and name != but]
    marks = [name for name in others if name.endswith(".mark")]
    rest = [name for name in others if name not in marks]
    remove(disk, folder, marks)
    for of in sorted(set(map(generation_of, rest))):
        names = [name for name in rest if generation_of(name) == of]
        remove(disk, folder, names if past is None else past.take(of, names))
    if past is not None:
        past.prune()


def remove(disk: Disk, folder: Path, names: list[str]) -> None:
    for name in names:
        disk.remove(folder / name)
    disk.sync_folder(folder)
