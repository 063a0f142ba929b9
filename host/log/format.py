"""How the files of a log are spelled: docs/LOG.md says it in words."""
import json
import struct
import zlib
from hashlib import blake2b
from typing import NamedTuple

SECTOR, BLOCK = 512, 4096
ROOM = SECTOR - 4  # bytes of a record in a sector, beside the sector's sum
BLOCK_ROOM = BLOCK // SECTOR * ROOM
SUM = struct.Struct("<I")
A_SECTOR, A_ROOM = struct.Struct("<I508s"), struct.Struct("508s")
HEADER = struct.Struct("<4sIQQQQQ16s")  # magic, kind, generation, number, when, length, synced, chain
MAGIC, BASE_MAGIC, MARK_MAGIC = b"RMLG", b"RMLB", b"RMLM"
HEAD, TEXT, OVER, JOINED = 1, 2, 3, 4
BASE_HEAD = struct.Struct("<4sIQQ32s")  # magic, zero, generation, length, sum
MARK = struct.Struct("<4sIQQQ")  # magic, zero, generation, number, synced
FIRST = bytes(16)  # the chain before the first record
ENDINGS = ("log", "base", "base.new", "mark")


class Rotten(Exception):
    """What was synced isn't there as it was written."""


class LogBehind(Exception):
    """The log ends before what a witness knows to have been synced."""


class Record(NamedTuple):
    """`when` is the wall clock's, in milliseconds; `synced` up to where the file was synced when this was written; `behind` its end."""
    kind: int
    generation: int
    number: int
    when: int
    synced: int
    chain: bytes
    data: bytes
    behind: int


class Head(NamedTuple):
    """What a generation's log is of: the guest's life and shape; the attachment, and its standby; and on what it stands: a base, whose sum
    this is, or what the log of an earlier generation holds up to a number, and then a base may come later. `joined` is False where frames
    may have been let out that it lacks, until a record says that it has caught up."""
    life: str
    pages: int
    sectors: int
    session: str
    instance: str
    base: str | None
    stands_on: list[int] | None = None
    joined: bool = True


TYPES = {"life": str, "pages": int, "sectors": int, "session": str, "instance": str, "joined": bool}


def seed_of(name: str) -> int:
    """So that a sector of another file isn't taken for one of this."""
    return zlib.crc32(name.encode())


def sector_sum(content: bytes, seed: int, sector: int) -> int:
    """Never 0, so that no sector that was written is all zero."""
    return zlib.crc32(content, seed + sector & 0xffffffff) or 1


def chained(before: bytes, kind: int, generation: int, number: int, when: int, synced: int, data: bytes) -> bytes:
    found = blake2b(before, digest_size=16)
    found.update(struct.pack("<IQQQQQ", kind, generation, number, when, len(data), synced))
    found.update(data)
    return found.digest()


def spelled(body: bytes, seed: int, sector: int) -> bytes:
    """A record's bytes as sectors with their sums, up to the end of a block; `sector` is the first one's number in the file."""
    body += bytes(-len(body) % BLOCK_ROOM)
    return b"".join([A_SECTOR.pack(zlib.crc32(content, number & 0xffffffff) or 1, content)
                     for number, (content,) in enumerate(A_ROOM.iter_unpack(body), seed + sector)])


def content_of(raw: bytes, seed: int, sector: int) -> bytes | None:
    """The bytes that whole sectors have, the first one's number in the file being that; None where one isn't as it was written."""
    found = []
    for number, (stated, content) in enumerate(A_SECTOR.iter_unpack(raw), seed + sector):
        if stated != (zlib.crc32(content, number & 0xffffffff) or 1):
            return None
        found.append(content)
    return b"".join(found)


def size_of(length: int) -> int:
    """The bytes that a record takes in the file, of so many of data."""
    return -(-(HEADER.size + length) // BLOCK_ROOM) * BLOCK


def is_as_written(sector: bytes, seed: int, number: int) -> bool:
    return SUM.unpack_from(sector)[0] == sector_sum(sector[4:], seed, number)


def spelled_head(head: Head) -> bytes:
    return json.dumps(head._asdict()).encode()


def read_head(data: bytes) -> Head:
    """Raises Rotten."""
    try:
        head = Head(**json.loads(data))
        is_right = all(type(value) is TYPES[name] for name, value in head._asdict().items() if name in TYPES)
        if head.stands_on is None:
            is_right &= type(head.base) is str
        else:
            is_right &= head.base is None and [type(one) for one in head.stands_on] == [int, int]
        bytes.fromhex(head.session)
    except (ValueError, TypeError):
        is_right = False
    if not is_right:
        raise Rotten("its first record isn't a head")
    return head


def generation_of(name: str) -> int | None:
    """Of a file's name like 7.log; None where it isn't one of a log."""
    stem, _, ending = name.partition(".")
    return int(stem) if ending in ENDINGS and stem.isdecimal() and stem.isascii() else None
