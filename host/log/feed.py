"""What a standby lacks of its live host's log: the base and the texts behind it, read from the files by a thread of its own, so that no
disk's delay is the guest's. What isn't synced yet isn't read."""
import threading
from collections import deque
from typing import NamedTuple

from host.log.format import TEXT, LogBehind, Rotten
from host.log.logged import Part
from host.log.reading import BaseReader, LogReader
from host.node import PIECE

MOST = 1 << 20  # bytes that wait to be sent


class Given(NamedTuple):
    """Bytes of a text; or, where there are none, that a later generation stands on it."""
    generation: int
    number: int
    begin: int
    total: int
    data: bytes
    later: int = 0

    @property
    def is_last(self) -> bool:
        return self.begin + len(self.data) == self.total


class Ended(Exception):
    """Nothing more is wanted."""


class Feed(threading.Thread):
    """From one text on. `at` is the last generation and number of which all is taken; `failed` why there is no more, if so."""

    def __init__(self, own: "OwnLog", generation: int, number: int) -> None:
        super().__init__(name="feed", daemon=True)
        self.own, self.disk, self.folder = own, own.kept.disk, own.kept.folder
        self.first, self.at = (generation, number), (generation, number - 1)
        self.items: deque[Given] = deque()
        self.waiting, self.is_ended, self.failed = 0, False, None
        self.more = threading.Condition()
        self.start()

    # The loop's side.

    def has_more(self) -> bool:
        return bool(self.items)

    def take(self) -> Given:
        with self.more:
            one = self.items.popleft()
            self.waiting -= len(one.data)
            self.more.notify()
        if one.later:
            self.at = one.later, 0
        elif one.is_last:
            self.at = one.generation, one.number
        return one

    def look(self) -> None:
        """More is on the disk."""
        with self.more:
            self.more.notify()

    def end(self) -> None:
        with self.more:
            self.is_ended = True
            self.more.notify()

    # The thread's side.

    def run(self) -> None:
        try:
            self.read()
        except Ended:
            pass
        except (OSError, Rotten, LogBehind) as error:
            self.failed = getattr(error, "strerror", None) or str(error)
            self.own.keeper.wake()

    def read(self) -> None:
        generation, number = self.first
        if number == 0:
            self.base(generation)
            number = 1
        while True:
            part = self.part_of(generation)
            self.texts(part, number)
            self.put(Given(generation, part.upto, 0, 0, b"", part.later))
            generation, number = part.later, 1

    def part_of(self, generation: int) -> Part:
        """Raises Rotten where it isn't there any more."""
        for part in self.own.parts:
            if part.generation == generation:
                return part
        raise Rotten(f"{generation}.log isn't there any more")

    def base(self, generation: int) -> None:
        reader = BaseReader(self.disk, self.folder, generation)
        try:
            begin, total = 0, reader.length()
            for data in reader.pieces(None):
                for at in range(0, len(data), PIECE):
                    part = data[at:at + PIECE]
                    self.put(Given(generation, 0, begin, total, part))
                    begin += len(part)
        finally:
            reader.close()

    def texts(self, part: Part, number: int) -> None:
        """Those of one log from that number on, up to where another one stands on it."""
        reader, place = LogReader(self.disk, self.folder, part.generation), 0
        try:
            while part.upto is None or number <= part.upto:
                self.wait_for(part, number)
                if part.upto is not None and number > part.upto:
                    return
                place, data = self.text_at(reader, place, number)
                for begin in range(0, len(data), PIECE):
                    self.put(Given(part.generation, number, begin, len(data), data[begin:begin + PIECE]))
                number += 1
        finally:
            reader.close()

    def text_at(self, reader: LogReader, place: int, number: int) -> tuple[int, bytes]:
        """Where the record behind a text's begins, and the text, which is at that place or behind it."""
        reader.look()
        while True:
            found = reader.header_at(place)
            if found is None:
                raise Rotten(f"{reader.name}: the record at {place} can't be read any more")
            kind, of, behind = found
            if kind == TEXT and of == number:
                record = reader.record_at(place)
                if record is None:
                    raise Rotten(f"{reader.name}: the record at {place} can't be read any more")
                return behind, record.data
            place = behind

    def wait_for(self, part: Part, number: int) -> None:
        """Until that text is on the disk, or another log stands on what comes before it. Raises Ended."""
        with self.more:
            while part.upto is None and not self.is_there(part.generation, number) and not self.is_ended:
                self.more.wait(1.0)
            while not self.is_ended and part.upto is not None and number <= part.upto and not self.is_there(part.generation, number):
                self.more.wait(1.0)
            if self.is_ended:
                raise Ended

    def is_there(self, generation: int, number: int) -> bool:
        reached = self.own.reached
        return reached is not None and (generation, number) <= reached

    def put(self, one: Given) -> None:
        """Raises Ended."""
        with self.more:
            while self.waiting >= MOST and not self.is_ended:
                self.more.wait()
            if self.is_ended:
                raise Ended
            is_first = not self.items
            self.items.append(one)
            self.waiting += len(one.data)
        if is_first:
            self.own.keeper.wake()
