"""A log as its daemon has it: what it is to have is given to a thread of its own, which writes it, syncs it, and tells what
is on the disk. Syncs go together: all that was given while one was under way is written before the next."""
import signal
import socket
import threading
import time
from collections import deque
from collections.abc import Callable
from pathlib import Path

from host.log.disk import Disk
from host.log.format import Head, LogBehind, Rotten
from host.log.past import Past
from host.log.reading import Found, links, newest
from host.log.witness import Witness
from host.log.writer import BaseFile, LogFile, Mark, begun, continued, tidy

MARK_EVERY = 1.0  # seconds
LAZY = 2  # texts that nobody waits for, which go with the next that is waited for, or once there are so many
Job = tuple[Callable[..., None], ...]


class Keeper:
    """`reached` is (session, generation, number): of that attachment all up to there is on the disk, and `is_joined` whether that is all
    that was let out. `failed` is why nothing more is written, if so. The methods of the loop give what is to be done, and answer at once.
    What isn't needed any more is kept for so many seconds."""

    def __init__(self, disk: Disk, folder: Path, keep: float = 0) -> None:
        self.disk, self.folder, self.witness = disk, Path(folder), Witness(disk, folder)
        self.past = Past(disk, self.folder, keep) if keep else None
        self.log: LogFile | None = None
        self.base: BaseFile | None = None
        self.mark: Mark | None = None
        self.marked_at, self.synced_at = 0.0, None
        self.syncs, self.sync_seconds = 0, 0.0
        self.reached: tuple[str, int, int] | None = None
        self.is_joined = False
        self.failed: str | None = None
        self.jobs: deque[Job] = deque()
        self.more, self.is_ending, self.is_urgent = threading.Condition(), False, False
        self.woken, self.wakes = socket.socketpair()
        for end in (self.woken, self.wakes):
            end.setblocking(False)
        self.thread: threading.Thread | None = None

    # The loop's side.

    def fileno(self) -> int:
        """Readable where there is something new to be known."""
        return self.woken.fileno()

    def heard(self) -> None:
        """What was new is known."""
        try:
            self.woken.recv(4096)
        except BlockingIOError:
            pass

    def resume(self, found: Found) -> None:
        """Goes on with a log that was judged, behind its end."""
        self.give(self.resume_log, found)

    def prepare(self, generation: int, most: int) -> None:
        """A generation's full checkpoint is to come, which has so many bytes at most. What is here is over."""
        self.give(self.begin_base, generation, most)

    def piece(self, data: bytes, is_first: bool) -> None:
        """The next bytes of the full checkpoint."""
        self.give(self.write_base, data, is_first)

    def begin(self, generation: int, head: Head) -> None:
        """The full checkpoint is whole: its log begins, and what was here before goes. The head's sum is filled in."""
        self.give(self.begin_log, generation, head)

    def turn(self, generation: int, head: Head) -> None:
        """The log goes on with a later generation, whose head says on what it stands."""
        self.give(self.turn_log, generation, head)

    def based(self, generation: int, kept: set[int]) -> None:
        """The base of a generation is on the disk: what is of earlier ones than these goes."""
        self.give(self.tidy_behind_base, generation, kept)

    def join(self) -> None:
        """What was given so far is all that was let out."""
        self.give(self.write_joined)

    def wake(self) -> None:
        """The loop is told that there is something new, by whatever thread."""
        try:
            self.wakes.send(b"x")
        except BlockingIOError:
            pass  # it is going to wake all the same

    def text(self, number: int, data: bytes, is_urgent: bool = True) -> None:
        """`is_urgent`: somebody waits for it."""
        self.give(self.append, number, data, is_urgent=is_urgent)

    def over(self) -> None:
        """The log that is written is never loaded again."""
        if self.thread is not None:
            self.give(self.end_log)

    def end_all(self) -> None:
        """No log that is in the folder is ever loaded again."""
        self.give(self.end_what_is_here)

    def hear(self, life: str, generation: int, number: int) -> None:
        """What is on the peer's disk."""
        self.give(self.write_heard, life, generation, number, is_urgent=False)

    def give(self, *job, is_urgent: bool = True) -> None:
        if self.thread is None:
            self.thread = threading.Thread(target=self.run, name="sync", daemon=True)
            self.thread.start()
        with self.more:
            self.jobs.append(job)
            self.is_urgent |= is_urgent or len(self.jobs) >= LAZY
            if self.is_urgent:
                self.more.notify()

    def finish(self, seconds: float) -> bool:
        """Waits, so long at most, until all that was given is on the disk. Whether it is."""
        done = threading.Event()
        self.give(self.settle, done)
        return done.wait(seconds) and self.failed is None

    def leave(self) -> None:
        """The thread ends once what was given is done, and nobody waits for it."""
        with self.more:
            self.is_ending = True
            self.more.notify()

    def close(self, seconds: float = 5.0) -> None:
        """The same, but it is waited for, so long at most."""
        self.leave()
        if self.thread is not None:
            self.thread.join(seconds)

    # The thread's side.

    def run(self) -> None:
        signal.pthread_sigmask(signal.SIG_BLOCK, signal.valid_signals())  # they are the daemon's
        while True:
            with self.more:
                while not self.is_urgent and not self.is_ending:
                    self.more.wait()
                jobs, self.jobs, self.is_urgent = self.jobs, deque(), False
            if not jobs:
                return
            self.work(jobs)
            self.wake()
            if time.monotonic() - self.marked_at >= MARK_EVERY:
                self.tried(self.put_mark)

    def work(self, jobs: deque[Job]) -> None:
        """Does all of these, and then syncs once."""
        for method, *words in jobs:
            if method == self.settle:
                method(*words)
            else:
                self.tried(method, *words)
        self.tried(self.sync)

    def tried(self, method: Callable[..., None], *words) -> None:
        """Does it, unless something failed before: that is final, since nobody knows what of it is on the disk."""
        if self.failed is not None:
            return
        try:
            method(*words)
        except (OSError, Rotten, LogBehind) as error:
            self.failed = getattr(error, "strerror", None) or str(error)

    def resume_log(self, found: Found) -> None:
        """What is left of other logs, since the power failed while it was removed, goes."""
        self.continue_log(found)
        self.tidy({one.generation for one in links(self.disk, self.folder, found)})

    def continue_log(self, found: Found) -> None:
        self.log = continued(self.disk, self.folder, found)
        self.mark = Mark(self.disk, self.folder, found.generation)
        self.reached, self.is_joined = (found.head.session, found.generation, found.number), found.is_joined

    def begin_base(self, generation: int, most: int) -> None:
        self.disk.make_folder(self.folder)
        if self.base is not None:
            self.base.discard()
            self.base = None
        self.end_what_is_here()
        self.tidy(self.that_end())
        self.base = BaseFile(self.disk, self.folder, generation, most)
        self.disk.sync(self.base.file)  # so that a disk that fails is found before anybody waits for it

    def that_end(self) -> set[int]:
        """The generations that stay until another one's head is on the disk."""
        if self.log is None:
            return set()
        return {self.log.generation} if self.past is None else self.past.chain(self.log.generation)

    def write_base(self, data: bytes, is_first: bool) -> None:
        if is_first:
            self.base.begin()
        self.base.write(data)

    def end_what_is_here(self) -> None:
        """No log that is here is ever loaded again, since what comes now is later."""
        if self.log is None:
            try:
                found = newest(self.disk, self.folder)
            except (Rotten, LogBehind):
                return  # it is refused whenever it is read
            if found is not None:
                self.continue_log(found)
        self.end_log()
        self.sync()

    def begin_log(self, generation: int, head: Head) -> None:
        base, self.base = self.base, None
        if self.past is not None and f"{generation}.log" in self.disk.names(self.folder):  # of another life, whose files have these names
            self.close_log()
            self.tidy(set(), f"{generation}.base.new")
        self.next_log(generation, head._replace(base=base.finish()))
        self.tidy({generation})
        self.reached, self.is_joined = (head.session, generation, 0), head.joined

    def turn_log(self, generation: int, head: Head) -> None:
        self.sync()  # what it stands on
        self.forget(f"{generation}.base")
        self.next_log(generation, head)
        self.reached, self.is_joined = (head.session, generation, 0), head.joined

    def next_log(self, generation: int, head: Head) -> None:
        self.close_log()
        self.forget(f"{generation}.mark")
        self.log, self.synced_at = begun(self.disk, self.folder, generation, head), time.time()
        self.mark, self.marked_at = Mark(self.disk, self.folder, generation), 0.0

    def tidy_behind_base(self, generation: int, kept: set[int]) -> None:
        if f"{generation}.base" in self.disk.names(self.folder):
            self.tidy(kept)

    def write_heard(self, *heard) -> None:
        try:
            self.witness.put(*heard)
        except OSError:
            pass  # it is a witness and no more: what the log needs of the disk tells whether that fails

    def write_joined(self) -> None:
        self.log.join()

    def tidy(self, kept: set[int], but: str = "") -> None:
        """What is of other generations than these goes; the file of the last name stays."""
        tidy(self.disk, self.folder, kept, self.past, but)

    def forget(self, *names: str) -> None:
        """What is left under these names is of another life, of a generation with the same number."""
        if left := set(names) & set(self.disk.names(self.folder)):
            for name in left:
                self.disk.remove(self.folder / name)
            self.disk.sync_folder(self.folder)

    def append(self, number: int, data: bytes) -> None:
        self.log.append(number, data)

    def end_log(self) -> None:
        if self.log is not None:
            self.log.over()

    def close_log(self) -> None:
        for one in (self.log, self.mark):
            if one is not None:
                one.close()
        self.log = self.mark = None

    def sync(self) -> None:
        log = self.log
        if log is not None and log.synced < log.end:
            begun_at = time.monotonic()
            log.sync()
            self.syncs, self.sync_seconds = self.syncs + 1, self.sync_seconds + time.monotonic() - begun_at
            self.reached, self.is_joined, self.synced_at = (log.session, log.generation, log.number), log.is_joined, time.time()

    def settle(self, done: threading.Event) -> None:
        """Somebody waits for what was given before, whether it failed or not."""
        self.tried(self.sync)
        done.set()

    def put_mark(self) -> None:
        if self.mark is not None and self.reached is not None:
            self.mark.put(self.reached[2], self.log.synced)
            self.marked_at = time.monotonic()
