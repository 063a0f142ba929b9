"""A live host's own log: what it lets out is on its own disk before, beside its standby's or without one."""
from host.log.based import Basing
from host.log.feed import Feed
from host.log.format import Head
from host.log.logged import Logged, Part

MOST_PARTS = 4  # logs that stand on one another, above which a base is written
BASE_AGAIN = 60.0  # seconds, after which a base that couldn't be written is tried again
WAIT = 5.0  # seconds
MOST_JOBS = 64  # pieces of a base that wait for the disk


class OwnLog(Logged):
    """`went_from` is the session of the log behind which this host went live. `readers` is how many read the files: nothing is removed
    meanwhile."""

    def __init__(self, kept: "Kept", head: Head, generation: int, number: int | None = None, parts: list[Part] | None = None,
                 went_from: str | None = None) -> None:
        super().__init__(kept.keeper, head, generation, number, parts)
        self.kept, self.limit, self.went_from = kept, kept.limit, went_from
        self.before = 0  # bytes of the logs on which this one stands
        self.basing: Basing | None = None
        self.base_at, self.readers = 0.0, 0

    @property
    def failed(self) -> str | None:
        return self.keeper.failed

    @property
    def has_room(self) -> bool:
        """Whether more of the base may be given."""
        return len(self.keeper.jobs) < MOST_JOBS

    def number_in(self, generation: int) -> int | None:
        """Up to where a generation is on the disk."""
        reached = self.reached
        return reached[1] if reached is not None and reached[0] == generation else None

    def has(self, session: str, generation: int, number: int | None) -> bool:
        """Whether what a standby has, which was attached in that session, is a beginning of this."""
        if number is None:
            return generation == self.parts[0].generation and session == self.parts[0].session
        return any((part.generation, part.session) == (generation, session) and number <= (self.given if part.upto is None else part.upto)
                   for part in self.parts if self.given is not None)

    def common(self, session: str, generation: int) -> int | None:
        """Up to which number of its generation a log is a beginning of this, which was written in that session and goes on beyond."""
        return next((part.upto for part in self.parts if (part.generation, part.session) == (generation, session)), None)

    # What is written.

    def piece(self, data: bytes, is_first: bool) -> None:
        self.keeper.piece(data, is_first)

    def begin(self) -> None:
        self.given = 0
        self.keeper.begin(self.generation, self.head)

    def text(self, number: int, data: bytes, is_urgent: bool) -> None:
        self.given = number
        self.keeper.text(number, data, is_urgent)

    def belongs_in(self, generation: int) -> None:
        """It is that of this generation, whose base is to come."""
        self.generation = self.parts[0].generation = generation

    def turn(self, generation: int, is_joined: bool = True) -> None:
        log = self.keeper.log
        self.before += log.end if log is not None else 0
        super().turn(generation, is_joined)

    def over(self) -> None:
        """It is never loaded again."""
        self.keeper.over()

    def wait(self) -> None:
        """Until what is given is on the disk, so long at most."""
        self.keeper.finish(WAIT)

    # Bases, and what comes before them.

    def look(self, now: float) -> None:
        """Begins a base where what it would replace is long, and ends it; and whether the disk is nearly full, now and then."""
        self.kept.look(now)
        if self.basing is not None:
            if self.basing.is_done:
                self.has_base(now)
            return
        log = self.keeper.log
        is_due = log is not None and (self.before + log.end > self.limit or len(self.parts) > MOST_PARTS)
        if is_due and len(self.parts) > 1 and now >= self.base_at and self.number_in(self.generation) is not None:
            kept = self.kept
            self.basing = Basing(kept.folder, self.generation, kept.most, kept.host.settings.node, self.keeper.wake)
            self.basing.start()

    def has_base(self, now: float) -> None:
        made = self.basing
        if made.wrong is not None:
            self.kept.host.log.warning(f"the base of generation {made.generation} can't be written into {self.kept.folder}, {made.wrong}: "
                                       "what came before it stays")
            self.base_at, self.basing = now + BASE_AGAIN, None
        elif not self.readers:
            self.basing, self.before = None, 0
            self.is_based(made.generation)

    def feed(self, generation: int, number: int) -> Feed:
        """What gives a standby what it lacks, from a text on."""
        self.readers += 1
        return Feed(self, generation, number)

    def end_feed(self, feed: Feed) -> None:
        feed.end()
        self.readers -= 1

    def leave(self) -> None:
        if self.basing is not None:
            self.basing.end()
