"""A snapshot of a guest that no log has is saved while that goes on: its text comes from the node piece by piece, and goes into the file by a
thread, so that no disk keeps the guest waiting."""
import signal
import threading
from queue import SimpleQueue
from typing import Any

from host.files import WholeFile
from host.node import Refused
from host.snapshot import Header, check_replaced
from host.tasks import LOOKS, Answer, Tell, refusal


class Writing:
    """A file that comes into its place, with its header, once all its pieces are given and `ends` was said. The methods of the loop answer at
    once: what isn't written yet waits in memory, which a guest's whole text is small for."""

    def __init__(self, path: str) -> None:
        """Raises OSError."""
        check_replaced(path)
        self.whole, self.header = WholeFile(path), Header()
        self.pieces: SimpleQueue[bytes | None] = SimpleQueue()
        self.error: OSError | None = None  # why the file can't be had
        self.bytes: int | None = None  # of the file, once it is in its place
        self.is_wanted = True
        threading.Thread(target=self.run, name="save", daemon=True).start()

    def put(self, data: bytes) -> None:
        self.pieces.put(data)

    def ends(self) -> None:
        """All was given."""
        self.pieces.put(None)

    def leave(self) -> None:
        """The file isn't wanted any more."""
        self.is_wanted = False
        self.ends()

    @property
    def is_over(self) -> bool:
        return self.error is not None or self.bytes is not None

    # The thread's side.

    def run(self) -> None:
        signal.pthread_sigmask(signal.SIG_BLOCK, signal.valid_signals())  # they are the daemon's
        try:
            self.write()
        except OSError as error:
            self.error = error
        finally:
            self.whole.discard()

    def write(self) -> None:
        file = self.whole.file
        file.write(self.header.room())
        for data in iter(self.pieces.get, None):
            self.header.take(data)
            file.write(data)
        if self.is_wanted:
            file.seek(0)
            file.write(self.header.spelled())
            self.whole.place()
            self.bytes = len(self.header.room()) + self.header.count


class Save:
    """`text` is the live host's pending checkpoint, whose length is known once all of it is fetched. Then the guest is alone again, and waits
    for the disk no more than before."""

    name = "a snapshot is being saved"

    def __init__(self, host: Any, path: str, answer: Tell, now: float) -> None:
        """Raises OSError, and Refused."""
        self.host, self.live, self.answer, self.path = host, host.live, answer, path
        self.writing, self.done = Writing(path), 0
        try:
            self.live.protect(now, is_spent=True)
        except Exception:
            self.writing.leave()
            raise
        self.text = self.live.pending[0]
        self.is_fetched = False

    def due(self, now: float) -> float:
        return now + LOOKS if self.is_fetched else now

    def turn(self, now: float) -> None:
        try:
            if not self.is_fetched:
                self.fetch(now)
        except Refused as refused:
            return self.give_up(refusal("Node", f"the node refused: {refused}"))
        if self.writing.error is not None:
            self.give_up(refusal("File", f"{self.path} can't be written: {self.writing.error.strerror}"))
        elif self.writing.bytes is not None:
            self.finish(self.writing.bytes)

    def fetch(self, now: float) -> None:
        """The next pieces of the text, for a quarter of an epoch. Raises Refused."""
        end = now + self.live.epoch / 4
        while self.done < self.text.total and now < end:
            data = self.live.fetched(0, self.done, now)
            self.writing.put(data)
            self.done, now = self.done + len(data), self.host.link.now()
        if self.done >= self.text.total:
            self.writing.ends()
            self.end_checkpoint()

    def end_checkpoint(self) -> None:
        """The guest is alone again."""
        if not self.is_fetched:
            self.is_fetched = True
            self.live.alone(self.host.link.now())

    def finish(self, count: int) -> None:
        self.host.task = None
        self.host.log.info(f"saved {self.path}: {count} bytes")
        self.answer(self.host.control.did(f"saved {count} bytes as {self.path}", bytes=count))

    def give_up(self, answer: Answer) -> None:
        self.writing.leave()
        self.host.task = None
        self.end_checkpoint()
        self.answer(answer)

    def fail(self, why: str) -> None:
        """Something went wrong that nobody expected."""
        self.give_up(refusal("Internal", why))
