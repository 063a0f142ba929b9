"""A snapshot is the text of a full checkpoint, behind a line with its length and its sum, by which a damaged one is known. `promote --from
FILE`: a standby that takes it and goes live is its guest. `promote --boot --disk FILE`: the configured guest is booted over its disk, as a
machine that was switched off and on."""
import hashlib
import os
import secrets
import struct
from collections.abc import Iterable
from typing import Any, BinaryIO

from host.boot import MOST_PAGES, MOST_SECTORS, boot_of
from host.files import reading
from host.live import Live
from host.node import PIECE, Node, NodeEnded, Refused, piece, text_from
from host.settings import Settings
from host.text import COUNT, MOST_PAGE, RECORDS_AT, SECTOR, count_at, sectors_at

HEAD = struct.Struct("<4sIIQQ")  # magic, pages, sectors, generation, number
MAGIC, VERSION = b"remus snapshot ", b"1, "
MOST_TEXT = RECORDS_AT + MOST_PAGES * MOST_PAGE + 3 * COUNT.size + MOST_SECTORS * (COUNT.size + SECTOR)  # bytes
Shape = tuple[int, int, int]  # pages, sectors, generation


class NotASnapshot(Exception):
    """The file isn't a snapshot, or a damaged one."""


class NoBoot(Exception):
    """The node that was to boot the guest for its text ended."""


class Header:
    """The line before a text, as its bytes come."""

    def __init__(self) -> None:
        self.count, self.sum = 0, hashlib.sha256()

    def take(self, data: bytes) -> None:
        self.count += len(data)
        self.sum.update(data)

    def spelled(self) -> bytes:
        return MAGIC + VERSION + b"%012d bytes, sha256 %s\n" % (self.count, self.sum.hexdigest().encode())

    @classmethod
    def room(cls) -> bytes:
        """As many bytes as it takes, for as long as it isn't known."""
        return bytes(len(cls().spelled()))


def load(host: Any, path: str, is_bare: bool) -> None:
    """Makes the guest of a snapshot live. Where it can't, the host is empty. Raises OSError, Refused, NotASnapshot."""
    with reading(path) as file:
        find_text(file, is_bare)
        begin = file.tell()
        head = head_of(file.read(HEAD.size))
        file.seek(begin)
        take(host, head, iter(lambda: file.read(PIECE), b""), f"from {path}")
    host.log.info(f"live with the guest of {path}, in generation {host.generation}: life {host.life}")


def boot_over(host: Any, path: str, is_bare: bool) -> None:
    """Boots the configured guest over the disk of a snapshot. Where it can't, the host is empty. Raises OSError, Refused, NotASnapshot,
    BadGuest, NoBoot."""
    with reading(path) as file:
        find_text(file, is_bare)
        disk = file.read()
    sectors, records = head_of(disk[:HEAD.size])[1], sectors_of(disk)
    text = booted(host.settings)
    head = head_of(text[:HEAD.size])
    if sectors > head[1]:
        raise NotASnapshot(f"its disk has {sectors} sectors, and the configured guest's {head[1]}")
    text = text[:sectors_at(text)] + records + bytes(4)
    take(host, head, (text[at:at + PIECE] for at in range(0, len(text), PIECE)), f"booted over the disk of {path}")
    host.log.info(f"booted {host.settings.guest} over the disk of {path}: life {host.life}")


def check_replaced(path: str) -> None:
    """A snapshot replaces a snapshot, or an empty file, and no other one. Raises OSError."""
    try:
        with reading(path) as file:
            begins = file.read(len(MAGIC))
    except FileNotFoundError:
        return
    if begins and begins != MAGIC:
        raise OSError(None, "what stands there isn't a snapshot, and isn't replaced")


def find_text(file: BinaryIO, is_bare: bool) -> None:
    """Reads on to where the text begins, once it is known to be what was saved. Raises NotASnapshot."""
    line = file.read(len(Header.room()))
    begin = len(line) if line.startswith(MAGIC) else 0
    count = os.fstat(file.fileno()).st_size - begin
    if count > MOST_TEXT:
        raise NotASnapshot(f"it has {count} bytes, which is more than any guest's")
    if begin:
        check_sum(file, line, count)
    elif not is_bare:
        raise NotASnapshot("it doesn't begin as what 'save' writes: 'bare' takes the text of a full checkpoint without a sum")
    file.seek(begin)


def check_sum(file: BinaryIO, line: bytes, count: int) -> None:
    if not line.startswith(MAGIC + VERSION):
        raise NotASnapshot("it is a snapshot of another version")
    header = Header()
    for data in iter(lambda: file.read(PIECE), b""):
        header.take(data)
    if header.spelled() != line:
        raise NotASnapshot(f"it is damaged: its {count} bytes aren't those of which it has the length and the sum")


def head_of(data: bytes) -> Shape:
    """The pages, the sectors and the generation of a full checkpoint."""
    if len(data) < HEAD.size:
        raise NotASnapshot("it is shorter than a checkpoint's head")
    magic, pages, sectors, generation, number_of_it = HEAD.unpack(data)
    if magic not in (b"RMC1", b"RMC2") or number_of_it != 0:
        raise NotASnapshot("it isn't a full checkpoint")
    return pages, sectors, generation


def sectors_of(text: bytes) -> bytes:
    """The sector records of a text, their count before them."""
    try:
        begin = sectors_at(text)
        end = begin + 4 + count_at(text, begin) * (4 + SECTOR)
    except struct.error:
        raise NotASnapshot("it ends inside its checkpoint") from None
    if end + (4 if text[:4] == b"RMC2" else 0) != len(text):
        raise NotASnapshot("it isn't one whole checkpoint")
    return text[begin:end]


def booted(settings: Settings) -> bytes:
    """The text of a full checkpoint of the configured guest as it is at boot, from a node that is then ended. Raises Refused, BadGuest,
    NoBoot."""
    boot = boot_of(settings.guest)
    try:
        node = Node(settings.node)
        try:
            node.ask(boot.line)
            node.ask("protect")
            text, is_whole = bytearray(), False
            while not is_whole:
                more, is_whole = text_from(node, 0, len(text))
                text += more
            return bytes(text)
        finally:
            node.close()
    except NodeEnded as ended:
        raise NoBoot(f"the node that boots the guest for this ended: {ended}") from None


def take(host: Any, head: Shape, data: Iterable[bytes], how: str) -> None:
    """A new life, that of the guest of a full checkpoint's text."""
    pages, sectors, generation = head
    try:
        host.node.ask(f"standby {pages} {sectors} {generation}")
        feed(host.node, data)
        host.node.ask("commit")
        answer, life = host.node.ask("golive"), secrets.token_hex(8)
        host.state.keep(life, answer.number(1), how)
    except Refused as refused:
        host.become_empty()
        raise NotASnapshot(f"the node doesn't take it: {refused}") from None
    except (OSError, NotASnapshot):
        host.become_empty()
        raise
    host.life, host.shape = life, (pages, sectors)
    host.start(Live(host, answer.number(1), answer.number(3), host.link.now()))


def feed(node: Node, data: Iterable[bytes]) -> None:
    is_whole = False
    for one in data:
        if is_whole:
            raise NotASnapshot("it goes on behind its first checkpoint")
        is_whole = node.tell(piece(one))[0].checked().words[0] == b"whole"
    if not is_whole:
        raise NotASnapshot("it ends inside its checkpoint")
