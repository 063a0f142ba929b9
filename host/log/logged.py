"""What is written to the log of one attachment, or of a live host itself: how far it is on the disk, and on which logs it stands."""
from host.log.format import Head
from host.log.keeper import Keeper
from host.log.reading import Found


class Part:
    """What counts of one generation's log: up to number `upto`, where `later` stands on it; None where it is the one that is written."""
    __slots__ = ("generation", "session", "upto", "later")

    def __init__(self, generation: int, session: str, upto: int | None = None, later: int | None = None) -> None:
        self.generation, self.session, self.upto, self.later = generation, session, upto, later


def parts_of(made: list[Found]) -> list[Part]:
    """Those of logs that stand on one another, the earliest first."""
    found = [Part(one.generation, one.head.session, one.number, later.generation) for one, later in zip(made, made[1:])]
    return [*found, Part(made[-1].generation, made[-1].head.session)]


class Logged:
    """`given` is the last number that the keeper has, of `generation`; None until that generation's base is whole. `parts` has the logs on
    which this stands, it last, from that on which has its base."""

    def __init__(self, keeper: Keeper, head: Head, generation: int, number: int | None = None, parts: list[Part] | None = None) -> None:
        self.keeper, self.head, self.generation, self.given = keeper, head, generation, number
        self.parts = parts or [Part(generation, head.session)]
        self.begun_at = None if number is None else (generation, number)
        self.limit = 0  # bytes, above which it is long

    def session_of(self, generation: int) -> str:
        """That in which a generation's log was written, or will be."""
        return next((part.session for part in self.parts if part.generation == generation), self.head.session)

    @property
    def reached(self) -> tuple[int, int] | None:
        """The last generation and number that are on the disk."""
        reached = self.keeper.reached
        if reached is not None and any(part.session == reached[0] and part.generation == reached[1] for part in self.parts):
            return reached[1:]
        return self.begun_at

    @property
    def is_long(self) -> bool:
        log = self.keeper.log
        return log is not None and log.end > self.limit

    def turn(self, generation: int, is_joined: bool) -> None:
        """It goes on with a later generation, from where it stands."""
        head = self.head._replace(base=None, stands_on=[self.generation, self.given], joined=is_joined)
        self.parts[-1].upto, self.parts[-1].later = self.given, generation
        self.parts.append(Part(generation, head.session))
        self.generation, self.given = generation, 0
        self.keeper.turn(generation, head)

    def is_based(self, generation: int) -> None:
        """The base of that generation is on the disk: what came before it goes."""
        while self.parts[0].generation < generation:
            self.parts.pop(0)
        self.keeper.based(generation, {part.generation for part in self.parts})
