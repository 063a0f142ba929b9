"""A standby: it takes the checkpoints that come over the link, and acknowledges what is committed."""
from collections import deque

from host import messages
from host.log.catch_up import CatchUp
from host.log.format import Head
from host.log.kept import StandbyLog
from host.node import STEPS, Node, Refused, piece
from host.turned_snapshot import Turned


class Broken(Exception):
    """What came can't be taken: the link is closed, and the live host sends it again on the next one."""


class Standby:
    """`generation` is the one whose checkpoints it takes. Where it has a log, generation and `committed` are what of it is on the disk: the
    node may be ahead of that, or, while the log goes on with a later generation, or this host has just handed its guest on (`catching`),
    another one is made, and what comes waits. It may go live once it `is_joined`: nothing is let out from then on that it hasn't
    acknowledged."""

    def __init__(self, host: "Daemon", session: bytes, life: str, generation: int, shape: tuple[int, int], logged: StandbyLog | None = None,
                 is_joined: bool = True) -> None:
        self.host, self.node, self.link, self.counts, self.log = host, host.node, host.link, host.counts, host.log
        self.session, self.life, self.generation, self.shape = session, life, generation, shape
        self.logged, self.is_joined = logged, is_joined
        self.committed = None if logged is None or logged.reached is None else logged.reached[1]
        self.takes = generation  # the generation of the texts that come
        self.number, self.taken = None, 0  # the text that is coming, and how many of its bytes are taken
        self.catching: deque[CatchUp] = deque()  # one for each later generation, of which the first is made
        self.waiting: list[bytes] = []  # of a text that comes while there is no log and no node to take it
        self.has_asked, self.steps_seen, self.joins = False, 0, False
        self.stands_at: tuple[int, int] | None = None  # where the live host's guest stands, and is kept, as long as this link says so

    @property
    def is_full(self) -> bool:
        return self.committed is not None and self.is_joined

    @property
    def branch(self) -> str:
        """By which its live host knows what it holds: the session in which its generation was written."""
        return self.session.hex() if self.logged is None else self.logged.session_of(self.generation)

    @property
    def is_kept(self) -> bool:
        """Whether the live host has stopped, and keeps its guest just as it is here."""
        return self.stands_at is not None and self.stands_at == (self.generation, self.committed)

    def restart(self) -> None:
        """The link broke off, or a text did: what came of it is given up."""
        self.number, self.taken, self.has_asked, self.stands_at = None, 0, False, None
        if not self.catching:
            self.node.ask("restart")

    def resume(self, session: bytes, is_behind: bool) -> None:
        """Its live host, or one that went live since with what it has, goes on with it. `is_behind`: that has let out more than it has, and
        until it has caught up it can't go live."""
        self.restart()
        self.session = session
        if self.logged is not None:
            self.logged.belongs_to(session.hex(), self.host.instance)
        if is_behind:
            self.is_joined = self.joins = False

    def text(self, body: bytes, now: float) -> None:
        """The next bytes of a text."""
        generation, number, begin, total, data = messages.place(body)
        if generation != self.takes:
            return  # of another time
        self.stands_at = None
        if begin == 0 and self.number is not None:
            self.restart()
        if (begin, number) != (self.taken, number if begin == 0 else self.number):
            raise Broken(f"checkpoint {number} goes on at {begin}, and {self.taken} bytes of {self.number} are here")
        self.number, self.taken = number, begin + len(data)
        is_whole = self.taken == total
        if self.logged is not None:
            self.logged.came(number, begin, data)
        elif self.catching:
            self.waiting = [data] if begin == 0 else [*self.waiting, data]
        answers = self.told(data, is_whole)
        if is_whole:
            self.number, self.taken = None, 0
        for answer in answers:
            try:
                answer.checked()
            except Refused as refused:
                raise Broken(f"the node refuses checkpoint {number}: {refused}") from None
        if is_whole:
            self.counts.commits += 1
            self.counts.checkpoint_bytes += total
            self.has_committed(answers[1].number(2) if answers else number, now)

    def told(self, data, is_whole):
        """The node's answers to these bytes of a text, if there is a node that takes it."""
        if self.catching:
            return ()
        return self.node.tell(piece(data), b"commit") if is_whole else self.node.tell(piece(data))

    def has_committed(self, number: int, now: float) -> None:
        if self.logged is None:
            if self.catching:
                return self.has_kept(number, now)
            self.acknowledge(number, now)
            return
        text = self.logged.committed(number)
        if text is not None and self.catching:
            self.catching[-1].backlog.append(text)
        if text is None and number == self.committed:
            self.acknowledge(number, now)  # its acknowledgement was lost

    def has_kept(self, number: int, now: float) -> None:
        """A text waits for the node that is made, unless it is one that is here, whose acknowledgement was lost."""
        if number > self.committed + 1:
            raise Broken(f"checkpoint {number} comes behind {self.committed}")
        if number == self.committed + 1:
            self.catching[-1].backlog.append(b"".join(self.waiting))
        self.acknowledge(max(number, self.committed), now)

    def acknowledge(self, number: int, now: float) -> None:
        is_first = self.committed is None
        self.committed = number
        self.link.send(messages.acknowledgement(self.session, self.generation, self.committed), now)
        if is_first:
            self.log.info(f"the full checkpoint of generation {self.generation} is committed: this host " +
                          ("can be promoted" if self.is_joined else "takes what came after it"))

    def told_joined(self, generation: int, number: int, now: float) -> None:
        """From this checkpoint on nothing is let out that isn't acknowledged here."""
        if (generation, number) != (self.takes, self.committed if self.logged is None else self.logged.given):
            raise Broken(f"it would have joined at checkpoint {number} of generation {generation}, which isn't the last one here")
        if self.logged is not None:
            self.logged.keeper.join()
            self.joins = True
        else:
            self.has_joined()

    def has_joined(self) -> None:
        if not self.is_joined:
            self.is_joined, self.joins = True, False
            self.log.info(f"this host has all that the guest has let out, in generation {self.generation}: this host can be promoted")

    # What its log tells.

    def synced(self, now: float) -> None:
        """More of the log is on the disk, or another node is made."""
        if self.logged is None:
            if self.catching and self.catching[0].is_done:
                self.catch_up()
            return
        reached = self.logged.reached
        if reached is not None and reached != (self.generation, self.committed):
            self.generation = reached[0]
            self.acknowledge(reached[1], now)
        if self.joins and self.logged.keeper.is_joined:
            self.has_joined()
        if self.catching and self.generation >= self.catching[0].generation and self.catching[0].node is not None:
            self.catching[0].begin_once()  # its log stands on what is on the disk
        if self.catching and self.catching[0].is_done:
            self.catch_up()
        elif self.logged.is_long and not self.has_asked and not self.catching and self.link.is_up:
            self.has_asked = True
            self.link.send(messages.message(messages.LONG, self.session), now)

    def turned(self, generation: int, number: int, later: int, now: float) -> None:
        """The live host's guest, as it is at a checkpoint, is checkpoint 0 of a later generation."""
        if later == self.takes:  # it was told before
            if later == self.generation:
                self.acknowledge(self.committed, now)
            return
        last = self.committed if self.logged is None else self.logged.given
        if (generation, number) != (self.takes, last):
            raise Broken(f"generation {later} stands on checkpoint {number} of generation {generation}, which isn't here")
        node = None if self.catching else self.node
        if node is not None:
            self.steps_seen = self.steps()
        self.takes, self.has_asked = later, False
        if self.logged is None:
            self.catching.append(self.in_memory(node, later, generation, number))
            self.generation = later
            self.acknowledge(0, now)
            if node is not None:
                self.catching[0].begin_once()
        else:
            self.logged.turn(later, self.is_joined or self.joins)
            self.catching.append(self.logged.catch_up(node))

    def in_memory(self, node: Node | None, later: int, generation: int, number: int) -> CatchUp:
        """What makes the node of a later generation where no log is kept; a snapshot that is asked for is made by it."""
        saving = self.host.saving
        also = saving.begins(generation, number) if isinstance(saving, Turned) and saving.at is None else None
        kept, head = self.host.kept, Head(self.life, *self.shape, self.session.hex(), self.host.instance, "")
        return CatchUp(node, self.host.settings.node, kept.disk, None, head, later, 0, kept.keeper.wake, also)

    def catch_up(self) -> None:
        """The node of the next later generation takes this one's place, once it is made. Raises NodeEnded."""
        if self.catching:
            made = self.catching[0]
            self.node = self.host.node = made.finished()
            self.catching.popleft()
            if self.catching:
                self.catching[0].node = self.node
            if self.logged is not None:
                self.logged.caught_up(made)
            elif self.catching:
                self.catching[0].begin_once()

    def catch_up_all(self) -> None:
        """Its node is that of the last generation. Raises NodeEnded."""
        while self.catching:
            self.catch_up()

    def follow(self, following: "Following", steps: int, now: float) -> None:
        """It is the standby of a later generation, from where its own guest stands, which that makes its node of."""
        self.catching.append(following)
        self.takes, self.steps_seen = following.generation, steps
        if self.logged is not None:
            self.logged.belongs_to(self.session.hex(), self.host.instance)
            self.logged.turn(self.takes, True)  # it is acknowledged once that is on the disk
        else:
            self.generation = self.takes
            self.acknowledge(0, now)
            following.begin_once()

    def leave(self) -> None:
        """It is none any more, and its node is killed."""
        for one in self.catching:
            one.leave()

    def steps(self) -> int:
        return self.steps_seen if self.catching else self.node.ask("show").number(STEPS)
