"""What a folder holds, as it is judged by its files alone: the log that counts, or why it is refused. Nothing is guessed."""
from collections.abc import Iterator
from hashlib import blake2b
from pathlib import Path
from typing import NamedTuple

from host.log.disk import Disk
from host.log.format import (BASE_HEAD, BASE_MAGIC, BLOCK, FIRST, HEAD, HEADER, JOINED, MAGIC, MARK, MARK_MAGIC, OVER, SECTOR, TEXT, Head,
                             LogBehind, Record, Rotten, chained, content_of, generation_of, is_as_written, read_head, seed_of, size_of)

PIECE = 1 << 20  # bytes that are read at a time
KNOWN = {HEAD, TEXT, OVER, JOINED}
SUM_SIZE = 32


class Found(NamedTuple):
    """A generation's log, up to its end. `places` has where the record of each text begins; `begun` and `ended` when the first record and
    the last were written, in milliseconds of the wall clock; `is_joined` whether its standby could go live by it."""
    generation: int
    head: Head
    places: list[int]
    is_over: bool
    chain: bytes
    end: int
    begun: int
    ended: int
    is_joined: bool = True

    @property
    def number(self) -> int:
        return len(self.places)


class LogReader:
    """The file of a generation's log, open to be read. Of a copy that was made while it was written something may be there that was written
    later than what isn't. Raises OSError."""

    def __init__(self, disk: Disk, folder: Path, generation: int, is_copy: bool = False) -> None:
        self.disk, self.generation, self.name, self.is_copy = disk, generation, f"{generation}.log", is_copy
        self.seed = seed_of(self.name)
        self.file = disk.open_to_read(folder / self.name)
        self.size = disk.size(self.file)

    def close(self) -> None:
        self.disk.close(self.file)

    def rotten(self, why: str) -> Rotten:
        return Rotten(f"{self.name}: {why}")

    def look(self) -> None:
        """The file may be longer by now."""
        self.size = self.disk.size(self.file)

    def header_at(self, place: int) -> tuple[int, int, int] | None:
        """The kind and the number of the record that begins there, and where the next one does, if its first sector is as it was
        written."""
        first = self.disk.read(self.file, SECTOR, place)
        if len(first) < SECTOR or not is_as_written(first, self.seed, place // SECTOR):
            return None
        magic, kind, _, number, _, length, _, _ = HEADER.unpack_from(first, 4)
        return (kind, number, place + size_of(length)) if magic == MAGIC else None

    def record_at(self, place: int) -> Record | None:
        """The record that begins there, if all of its sectors are there as they were written."""
        first = self.disk.read(self.file, BLOCK, place)
        if len(first) < SECTOR or not is_as_written(first[:SECTOR], self.seed, place // SECTOR):
            return None
        magic, kind, generation, number, when, length, synced, chain = HEADER.unpack_from(first, 4)
        size = size_of(length)
        if magic != MAGIC or place + size > self.size:
            return None
        raw = first + self.disk.read(self.file, size - BLOCK, place + BLOCK)
        if (body := content_of(raw, self.seed, place // SECTOR)) is None:
            return None
        data = body[HEADER.size:HEADER.size + length]
        return Record(kind, generation, number, when, synced, chain, data, place + size)

    def judged(self, upto: int | None = None) -> Found | None:
        """The log up to its end, or to that checkpoint; None where not even its head is there. Raises Rotten."""
        place, chain, head, places, is_over, begun, ended, is_joined = 0, FIRST, None, [], False, 0, 0, False
        while (not place or len(places) != upto) and (one := self.record_at(place)) is not None:
            self.follows(one, place, chain, len(places), is_over)
            if one.kind == HEAD:
                head, begun = read_head(one.data), one.when
                is_joined = head.joined
            elif one.kind == TEXT:
                places.append(place)
            is_over |= one.kind == OVER
            is_joined |= one.kind == JOINED
            place, chain, ended = one.behind, one.chain, one.when
        if upto is None:
            self.check_torn(place)
        return None if head is None else Found(self.generation, head, places, is_over, chain, place, begun, ended, is_joined)

    def outlined(self) -> Found | None:
        """The same by the records' first sectors alone: when they were written, and how many there are, unless it is damaged. Raises
        Rotten."""
        if (first := self.record_at(0)) is None or first.kind != HEAD:
            return None
        place, last, places, is_over = first.behind, 0, [], False
        while (found := self.header_at(place)) is not None and found[2] <= self.size:
            kind, _, behind = found
            if kind == TEXT:
                places.append(place)
            is_over |= kind == OVER
            place, last = behind, place
        return Found(self.generation, read_head(first.data), places, is_over, b"", place, first.when, self.when_at(last))

    def when_at(self, place: int) -> int:
        """When the record that begins there was written, in milliseconds of the wall clock."""
        return HEADER.unpack_from(self.disk.read(self.file, SECTOR, place), 4)[4]

    def follows(self, one: Record, place: int, chain: bytes, number: int, is_over: bool) -> None:
        """Whether a record is the next one. Raises Rotten."""
        wanted = chained(chain, one.kind, one.generation, one.number, one.when, one.synced, one.data)
        if one.generation != self.generation or one.chain != wanted:
            raise self.rotten(f"the record at {place} doesn't follow the one before it")
        expected = number + 1 if one.kind == TEXT else number
        if one.kind not in KNOWN or (one.kind == HEAD) != (place == 0) or one.number != expected or is_over or one.synced > place:
            raise self.rotten(f"the record at {place} is out of place")

    def check_torn(self, end: int) -> None:
        """Behind the end there may be what was written and never synced, in any part. Nothing there may be damaged, nor say that what
        begins at the end was synced. Raises Rotten."""
        for begin in range(end, self.size, PIECE):
            raw = self.disk.read(self.file, PIECE, begin)
            if raw == bytes(len(raw)):
                continue
            for at in range(0, len(raw) - SECTOR + 1, SECTOR):
                sector, place = raw[at:at + SECTOR], begin + at
                if sector == bytes(SECTOR):
                    continue
                if not is_as_written(sector, self.seed, place // SECTOR):
                    raise self.rotten(f"the sector at {place} is neither as it was written nor as it was before")
                if self.is_copy or place % BLOCK or sector[4:8] != MAGIC:
                    continue
                if HEADER.unpack_from(sector, 4)[6] > end:
                    raise self.rotten(f"the record at {end} was synced, and isn't there")

    def times(self, found: Found) -> Iterator[int]:
        """When each of the texts of a log that was judged was written, in milliseconds of the wall clock."""
        return (self.when_at(place) for place in found.places)

    def texts(self, found: Found) -> Iterator[bytes]:
        """The texts of a log that was judged. Raises Rotten where one isn't there any more."""
        for place in found.places:
            if (one := self.record_at(place)) is None:
                raise self.rotten(f"the record at {place} can't be read any more")
            yield one.data


def judged_log(disk: Disk, folder: Path, generation: int, is_copy: bool = False) -> Found | None:
    """A generation's log, beside its mark, which says nothing of a copy. Raises Rotten, LogBehind, OSError."""
    reader = LogReader(disk, folder, generation, is_copy)
    try:
        found = reader.judged()
    finally:
        reader.close()
    if not is_copy:
        check_mark(disk, folder, generation, found)
    return found


def head_of(disk: Disk, folder: Path, generation: int) -> Found:
    """A generation's log that is just being written, at its beginning. Raises Rotten, OSError."""
    reader = LogReader(disk, folder, generation)
    try:
        if (one := reader.record_at(0)) is None:
            raise reader.rotten("its first record isn't as it was written")
        return Found(generation, read_head(one.data), [], False, one.chain, one.behind, one.when, one.when)
    finally:
        reader.close()


def check_mark(disk: Disk, folder: Path, generation: int, found: Found | None) -> None:
    """Raises LogBehind where a log ends before its mark, and Rotten where the mark is damaged."""
    name = f"{generation}.mark"
    if name not in disk.names(folder):
        return
    seed, end, file = seed_of(name), found.end if found else 0, disk.open_to_read(folder / name)
    try:
        raw = disk.read(file, 2 * BLOCK, 0)
    finally:
        disk.close(file)
    for place in (0, BLOCK):
        sector = raw[place:place + SECTOR]
        if len(sector) < SECTOR or sector == bytes(SECTOR):
            continue  # it wasn't written yet
        if not is_as_written(sector, seed, place // SECTOR):
            raise Rotten(f"{name}: the sector at {place} isn't as it was written")
        magic, _, of, number, synced = MARK.unpack_from(sector, 4)
        if magic != MARK_MAGIC or of != generation:
            raise Rotten(f"{name}: the sector at {place} isn't a mark of generation {generation}")
        if synced > end:
            raise LogBehind(f"{generation}.log ends at byte {end}, and checkpoint {number}, up to byte {synced}, was synced")


class BaseReader:
    """The text of a generation's base. Raises Rotten where it isn't there, and OSError."""

    def __init__(self, disk: Disk, folder: Path, generation: int) -> None:
        self.disk, self.generation, self.name = disk, generation, f"{generation}.base"
        if self.name not in disk.names(folder):
            raise Rotten(f"{self.name} isn't there")
        self.file = disk.open_to_read(folder / self.name)

    def close(self) -> None:
        self.disk.close(self.file)

    def length(self) -> int:
        """Of the text, as the file has it."""
        return self.disk.size(self.file) - BLOCK

    def pieces(self, wanted: str | None) -> Iterator[bytes]:
        """Its text, piece by piece; the last one is given only where all are as they were written. `wanted` is the sum that the log's head
        has, if it has one. Raises Rotten."""
        head, length = self.disk.read(self.file, BLOCK, 0), self.disk.size(self.file) - BLOCK
        wanted = wanted or head[BASE_HEAD.size - SUM_SIZE:BASE_HEAD.size].hex()
        expected = BASE_HEAD.pack(BASE_MAGIC, 0, self.generation, max(0, length), bytes.fromhex(wanted))
        if head != expected + bytes(BLOCK - BASE_HEAD.size):
            raise Rotten(f"{self.name}: its head isn't as it was written")
        found, place, kept = blake2b(digest_size=32), BLOCK, b""
        while part := self.disk.read(self.file, PIECE, place):
            found.update(part)
            if kept:
                yield kept
            kept, place = part, place + len(part)
        if found.hexdigest() != wanted:
            raise Rotten(f"{self.name}: it isn't as it was written")
        yield kept


def newest(disk: Disk, folder: Path) -> Found | None:
    """The log that counts: of those that aren't over, the one of the greatest generation, where no later log of its life is. None where
    there is none. Raises Rotten, LogBehind, OSError."""
    names, over = disk.names(folder), set()
    check_no_lone_mark(disk, folder, names)
    for generation in sorted((generation_of(name) for name in names if is_log(name)), reverse=True):
        found = judged_log(disk, folder, generation)
        if found is None or found.head.life in over:
            continue
        if not found.is_over:
            return found
        over.add(found.head.life)
    return None


def links(disk: Disk, folder: Path, found: Found, is_copy: bool = False) -> list[Found]:
    """The logs on which one stands, it last, from that on which has its base in the folder. Each but the last has the texts that count of
    it. Raises Rotten, LogBehind, OSError."""
    names, made = disk.names(folder), [found]
    while (earliest := made[0]).head.stands_on is not None and f"{earliest.generation}.base" not in names:
        generation, number = earliest.head.stands_on
        is_there = f"{generation}.log" in names and generation < earliest.generation
        before = judged_log(disk, folder, generation, is_copy) if is_there else None
        if before is None or before.head.life != found.head.life:
            raise Rotten(f"{generation}.log isn't there, and {earliest.generation}.log stands on it")
        if before.number < number:
            raise LogBehind(f"{generation}.log ends at checkpoint {before.number}, and {earliest.generation}.log stands on {number}")
        made.insert(0, before._replace(places=before.places[:number]))
    return made


def texts(disk: Disk, folder: Path, found: Found, has_base: bool) -> Iterator[bytes]:
    """All bytes of a log: of its base, if it has one, piece by piece, and its texts. Raises Rotten, OSError."""
    base, log = BaseReader(disk, folder, found.generation) if has_base else None, LogReader(disk, folder, found.generation)
    try:
        if base is not None:
            yield from base.pieces(found.head.base)
        yield from log.texts(found)
    finally:
        for one in (base, log):
            if one is not None:
                one.close()


def check_all(disk: Disk, folder: Path, made: list[Found]) -> int:
    """Reads all of a log that was judged, and of what it stands on, and answers the bytes of its texts. Raises Rotten, OSError."""
    return sum(len(part) for place, one in enumerate(made) for part in texts(disk, folder, one, place == 0))


def is_log(name: str) -> bool:
    return name.endswith(".log") and generation_of(name) is not None


def check_no_lone_mark(disk: Disk, folder: Path, names: list[str]) -> None:
    """A mark is made once its log's name is on the disk, and goes before it. Raises LogBehind where one is there without its log."""
    for name in names:
        generation = generation_of(name)
        if generation is not None and name.endswith(".mark") and f"{generation}.log" not in names:
            check_mark(disk, folder, generation, None)
