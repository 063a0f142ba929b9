"""A node made of what a log holds: a standby that stands where the log ends."""
from collections import deque
from collections.abc import Callable, Iterable, Iterator
from pathlib import Path

from host.log.disk import Disk
from host.log.format import Head, Rotten
from host.log.reading import BaseReader, Found, LogReader
from host.node import LOOK, PIECE, Answer, Node, Refused, looks, piece, text_from

MOST_ON_ITS_WAY = 900_000  # bytes of lines to a node, which fit into its pipe


def node_of(command: list[str], disk: Disk, folder: Path, made: list[Found], sink: Callable[[bytes], None] = lambda data: None) -> Node:
    """A node that is the standby whose log that is, beside those on which it stands, it last; where it stands on another one, `sink` gets
    the full checkpoint of its generation, piece by piece. Raises Rotten, also where a node takes something otherwise than it was written;
    LogBehind, OSError, NodeEnded."""
    node = Node(command)
    try:
        fill(node, disk, folder, made[0])
        for one in made[1:]:
            node = handed_over(node, command, one.head, one.generation, sink if one is made[-1] else lambda data: None)
            feed_log(node, disk, folder, one)
    except Refused as refused:
        node.close()
        raise Rotten(f"{made[-1].generation}.log: the node refuses what it holds: {refused}") from None
    except BaseException:
        node.close()
        raise
    return node


def fill(node: Node, disk: Disk, folder: Path, found: Found) -> None:
    """Makes a node that has nothing the standby of a log that has its base. Raises Refused, Rotten, OSError."""
    head, base = found.head, BaseReader(disk, folder, found.generation)
    try:
        node.ask(f"standby {head.pages} {head.sectors} {found.generation}")
        feed_all(node, base.pieces(head.base))
        committed(node.ask("commit"), found.generation, 0)
    finally:
        base.close()
    feed_log(node, disk, folder, found)


def feed_log(node: Node, disk: Disk, folder: Path, found: Found) -> None:
    log = LogReader(disk, folder, found.generation)
    try:
        feed_many(node, log.texts(found), found.generation)
    finally:
        log.close()


def handed_over(node: Node, command: list[str], head: Head, generation: int, sink: Callable[[bytes], None] = lambda data: None) -> Node:
    """Another node, which is a standby in a later generation and stands where this one does; this one is closed. It goes live where nobody
    hears of it, and protects: its full checkpoint is that of its state, which `sink` gets too, piece by piece. Raises Refused, Rotten,
    NodeEnded."""
    other = None
    try:
        node.ask("golive")
        if (made := node.ask("protect").number(1)) != generation:
            raise Rotten(f"{generation}.log stands on a log after which generation {made} comes")
        other = Node(command)
        other.ask(f"standby {head.pages} {head.sectors} {generation}")
        feed_all(other, sunk(full_text(node, head.pages), sink))
        committed(other.ask("commit"), generation, 0)
        node.close()
        return other
    except BaseException:
        if other is not None:
            other.close()
        raise


def full_text(node: Node, pages: int) -> Iterator[bytes]:
    """The text of the full checkpoint that is pending, piece by piece. Raises Refused."""
    for _ in range(looks(pages)):
        node.ask(LOOK)
    begin, is_last = 0, False
    while not is_last:
        data, is_last = text_from(node, 0, begin)
        yield data
        begin += len(data)


def sunk(parts: Iterable[bytes], sink: Callable[[bytes], None]) -> Iterator[bytes]:
    """These, of which the sink gets each too."""
    for data in parts:
        yield data
        sink(data)


class Ahead:
    """Tells a node lines, of which some are on their way, so that it needn't wait for each, nor be waited for. Where this raises, answers
    may be on their way too: the node isn't told anything more then."""

    def __init__(self, node: Node) -> None:
        self.node, self.size = node, 0
        self.waiting: deque[tuple[int, int, Callable[[Answer], None] | None]] = deque()

    def put(self, *lines: bytes, check: Callable[[Answer], None] | None = None) -> None:
        """The last one's answer is given to `check`. Raises Refused."""
        self.node.put(*lines)
        size = sum(map(len, lines))
        self.waiting.append((size, len(lines), check))
        self.size += size
        while self.size > MOST_ON_ITS_WAY:
            self.hear()

    def hear(self) -> None:
        size, count, check = self.waiting.popleft()
        self.size -= size
        for _ in range(count):
            answer = self.node.answer().checked()
        if check is not None:
            check(answer)

    def finish(self) -> None:
        """All is answered. Raises Refused."""
        while self.waiting:
            self.hear()


def feed_all(node: Node, parts: Iterable[bytes]) -> None:
    """A text, a piece at a time. Raises Refused."""
    ahead = Ahead(node)
    for data in parts:
        for at in range(0, len(data), PIECE):
            ahead.put(piece(data[at:at + PIECE]))
    ahead.finish()


def feed_many(node: Node, texts: Iterable[bytes], generation: int) -> None:
    """Texts from number 1 on. Raises Refused, Rotten."""
    ahead = Ahead(node)
    for number, text in enumerate(texts, 1):
        last = (len(text) - 1) // PIECE * PIECE  # where its last piece begins
        for at in range(0, last, PIECE):
            ahead.put(piece(text[at:at + PIECE]))
        ahead.put(piece(text[last:]), b"commit", check=lambda answer, number=number: committed(answer, generation, number))
    ahead.finish()


def committed(answer: Answer, generation: int, number: int) -> None:
    """Raises Rotten where the node commits another checkpoint than the log has there."""
    if answer.words != [b"committed", str(generation).encode(), str(number).encode()]:
        raise Rotten(f"{generation}.log: the node answers checkpoint {number} by {b' '.join(answer.words).decode()}")
