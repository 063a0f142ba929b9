"""What a daemon has of its log: the standby that it is from its start on; what its standby has committed, and what of that is on the disk;
and whether what a log holds may be promoted."""
import datetime
import secrets

from host.backoff import Backoff
from host.log.catch_up import CatchUp
from host.log.disk import Disk
from host.log.format import Head, LogBehind, Rotten
from host.log.keeper import Keeper
from host.log.logged import Logged, Part, parts_of
from host.log.own import OwnLog
from host.log.reading import Found, judged_log, links, newest
from host.log.recovery import node_of
from host.log.writer import cut_back
from host.node import Node, NodeEnded
from host.text import COUNT, MOST_PAGE, RECORDS_AT, SECTOR

WAIT = 5.0  # seconds, for what must be on the disk before anything else is done
WORKED = 600.0  # seconds, after which a log that fails isn't taken for one that fails again
MEBIBYTE = 1 << 20
LOW = 64 * MEBIBYTE  # bytes of room on the disk, below which that is told
LOOK_EVERY = 10.0  # seconds
HEARD_EVERY = 1.0  # seconds, from one time that is written down what is on the peer's disk to the next
GO_ON = "go-on"  # of log_on_failure
MORE = 1 << 62  # than any number of a checkpoint: what a frozen host holds is of its guest as it stopped


class StandbyLog(Logged):
    """That of a standby, which its live host's messages fill."""

    def __init__(self, kept: "Kept", head: Head, generation: int, number: int | None = None, parts: list[Part] | None = None) -> None:
        super().__init__(kept.keeper, head, generation, number, parts)
        self.kept, self.limit = kept, kept.limit
        self.pieces = []  # of the text that is coming

    def came(self, number: int, begin: int, data: bytes) -> None:
        """The next bytes of a text."""
        if number == 0 and self.given is None:
            self.keeper.piece(data, begin == 0)
        elif begin == 0:
            self.pieces = [data]
        else:
            self.pieces.append(data)

    def committed(self, number: int) -> bytes | None:
        """The text that came is committed. It, if it is one that the log lacked."""
        text, self.pieces = b"".join(self.pieces), []
        if number == 0 and self.given is None:
            self.keeper.begin(self.generation, self.head)
        elif self.given is not None and number == self.given + 1:
            self.keeper.text(number, text)
        else:
            return None
        self.given = number
        return text

    def belongs_to(self, session: str, instance: str) -> None:
        """What is written into a later generation's head."""
        self.head = self.head._replace(session=session, instance=instance)

    def turn(self, generation: int, is_joined: bool) -> None:
        self.pieces = []
        super().turn(generation, is_joined)

    def catch_up(self, node: Node | None) -> CatchUp:
        """What makes the node of that generation, and its base, once it is begun."""
        kept, head = self.kept, self.head
        return CatchUp(node, kept.host.settings.node, kept.disk, kept.folder, head, self.generation, most_of(head.pages, head.sectors),
                       self.keeper.wake)

    def caught_up(self, made: CatchUp) -> None:
        """The base is on the disk, unless that failed: then the earlier generation stays, and the log is long as before."""
        if made.wrong is None:
            self.is_based(made.generation)
        elif not made.is_hurried:
            self.kept.host.log.warning(f"the base of generation {made.generation} can't be written into {self.kept.folder}, {made.wrong}: "
                                       "what came before it stays")


def most_of(pages: int, sectors: int) -> int:
    """The most bytes that the text of a full checkpoint has."""
    return RECORDS_AT + pages * MOST_PAGE + sectors * (COUNT.size + SECTOR) + 2 * COUNT.size


class Unprepared(Exception):
    """The log of a new attachment can't be begun."""


class Kept:
    """`host` is the daemon. Where `log` is none nothing is written, but that a log which was here is over."""

    def __init__(self, host: "Daemon", disk: Disk) -> None:
        self.host, self.disk, self.folder = host, disk, host.state.folder / "log"
        self.keeps, self.is_both = host.settings.log != "none", host.settings.log == "both"
        self.keeper, self.has_said_failed = self.new_keeper(), False
        self.limit = host.settings.log_limit_mb * MEBIBYTE
        self.found: Found | None = None  # the log that this host is a standby from, until its live host has it again
        self.parts: list[Part] = []  # on which that stands
        self.refused: str | None = None  # why the log that was here at the start isn't loaded
        self.backoff, self.prepared_at = Backoff(), 0.0
        self.is_low, self.looked_at, self.failures = False, 0.0, 0
        self.peer: dict | None = None  # what the peer said last of what it holds
        self.peer_log: tuple[str, int, int] | None = None  # the life, generation and number up to which it has it on its disk
        self.wrote_heard_at = -HEARD_EVERY
        self.witness = self.keeper.witness.read() if self.keeps else None  # what this host had heard of that before its start

    def new_keeper(self) -> Keeper:
        return Keeper(self.disk, self.folder, self.host.settings.log_keep)

    # At the start.

    def recover(self) -> tuple[Node, Found] | None:
        """The log that counts, and a node that is a standby from it; None where there is none, or it is refused."""
        log = self.host.log
        try:
            found = newest(self.disk, self.folder)
            if found is None:
                return None
            if not self.keeps:
                log.warning(f"log is none: the log in {self.folder}, of generation {found.generation} up to checkpoint {found.number}, "
                            "isn't loaded")
                return None
            made = links(self.disk, self.folder, found)
            node, self.parts = node_of(self.host.settings.node, self.disk, self.folder, made), parts_of(made)
        except (Rotten, LogBehind, NodeEnded, OSError) as error:
            self.refused = f"{type(error).__name__}: {error}"
            log.error(f"the log in {self.folder} is refused, and this host is empty: {self.refused}")
            return None
        self.found = found
        self.keeper.resume(found)
        log.info(f"this host is a standby from its log: generation {found.generation}, checkpoint {found.number}, written "
                 f"{at(found.ended)}")
        return node, found

    # The standby's log.

    def prepared(self, session: bytes, generation: int, life: str, shape: tuple[int, int], is_joined: bool) -> StandbyLog | None:
        """The log of a new attachment, for which there is room on the disk; None where none is kept. What was here is over then, and on the
        disk. Raises Unprepared."""
        self.found = self.peer = None
        self.prepared_at = self.host.link.now()
        pages, sectors = shape
        if self.keeps:
            self.keeper.prepare(generation, most_of(pages, sectors))
        elif self.disk.names(self.folder):
            self.keeper.end_all()
        else:
            return None
        if not self.keeper.finish(WAIT):
            raise Unprepared(self.left())
        head = Head(life, pages, sectors, session.hex(), self.host.instance, "", None, is_joined)
        return StandbyLog(self, head, generation) if self.keeps else None

    def resumed(self, found: Found) -> StandbyLog:
        """The log from which this host is a standby."""
        return StandbyLog(self, found.head, found.generation, found.number, self.parts)

    def left(self) -> str:
        """Leaves a log that failed, and says why it did. It is never touched again by this keeper."""
        why = self.keeper.failed or f"the disk took longer than {WAIT:.0f} s"
        self.failures += 1
        self.keeper.leave()
        self.keeper = self.new_keeper()
        return f"the log in {self.folder} failed, {why}"

    def has_failed(self, now: float) -> None:
        """The log of this host's standby failed, which then is none any more. The peer isn't dialled for a while, so that a live host isn't
        stopped by the same thing over and over."""
        host, why = self.host, self.left()
        if now - self.prepared_at > WORKED:
            self.backoff.worked()
        seconds = self.backoff.failed(now)
        host.log.error(f"{why}: this host is no standby any more, and asks to be one again in {seconds:.0f} s")
        if host.standby is not None:
            host.become_empty()
        host.link.dial_at = now + seconds

    def cut_back(self, generation: int, number: int) -> None:
        """The log that is written ends at an earlier number. Raises OSError, Rotten, LogBehind."""
        self.keeper.close()
        self.keeper.close_log()
        self.keeper = self.new_keeper()
        found = judged_log(self.disk, self.folder, generation)
        if found is not None and number < found.number:
            cut_back(self.disk, self.folder, found, number)

    def over(self) -> None:
        """The standby's log is stale, and is never loaded again."""
        self.keeper.over()
        self.found = None

    def outlives(self, generation: int) -> None:
        """This host is about to let out what no log has: the peer is told so when they meet, whatever becomes of this daemon. It may be the
        peer alone that keeps logs."""
        if self.keeps or self.host.meeting.drift.peer.get("log", "none") != "none":
            try:
                self.host.state.outlive(self.host.life, generation)
            except OSError as error:
                self.host.log.error(f"it can't be written into {self.host.state.folder} that logs up to generation {generation} are stale, "
                                    f"{error.strerror}: promote no log of that guest")

    def goes_live(self, live: "Live", logged: StandbyLog | None) -> None:
        """The guest runs here from now on, and this host's own log goes on with it, that of the standby which it was, or another one. Where
        none is kept what is here is over before anything of it is let out. Raises Refused."""
        self.found, now = None, self.host.link.now()
        if self.keeper.failed is not None:
            self.host.log.warning(f"{self.left()}: another one is begun")
            self.has_said_failed, logged = False, None
        self.outlives(live.generation)
        if self.is_both and logged is not None:
            live.go_on_with_log(self.going_on(logged), now)
        elif self.is_both:
            self.keeper.prepare(live.generation + 1, self.most)
            live.keep_log(OwnLog(self, self.own_head(""), live.generation + 1), now)
        else:
            self.end_what_is_here()

    @property
    def most(self) -> int:
        return most_of(*self.host.shape)

    def own_head(self, base: str | None) -> Head:
        return Head(self.host.life, *self.host.shape, secrets.token_hex(16), self.host.instance, base)

    def going_on(self, logged: StandbyLog) -> OwnLog:
        own = OwnLog(self, self.own_head(None), logged.generation, logged.given, logged.parts,
                     logged.session_of(logged.generation))
        own.begun_at = None
        return own

    def following(self, own: OwnLog) -> StandbyLog:
        """The log of a live host that is the standby of another one from now on."""
        own.leave()
        return StandbyLog(self, own.head, own.generation, own.given, own.parts)

    def end_what_is_here(self) -> None:
        if not self.disk.names(self.folder):
            return
        self.keeper.end_all()
        if not self.keeper.finish(WAIT):
            self.host.log.error(f"it can't be written into the log in {self.folder} that it is over: remove that folder before this daemon "
                                "is started again, since what it holds is stale")

    def look_at_own(self, live: "Live", now: float) -> None:
        """A live host's own log: whether it failed, which is said once, and whether its disk is nearly full."""
        own = live.own
        if own is None:
            return
        if own.failed is None:
            return self.look(now)
        if self.has_said_failed:
            return
        self.has_said_failed = True
        self.failures += 1
        self.host.log.error(self.told_failed(own.failed))
        if self.host.settings.log_on_failure == GO_ON:
            self.outlives(live.generation)
            live.give_up_log(now)

    def told_failed(self, why: str) -> str:
        """What a live host says whose own log failed."""
        told = f"the log of this host in {self.folder} failed, {why}"
        if self.host.settings.log_on_failure == GO_ON:
            return f"{told}: the guest goes on without it, as log_on_failure says, and what it lets out without a standby is on no disk"
        return (f"{told}: the guest lets out nothing more, as log_on_failure says. Hand it to the standby (drain --promote); without one mend "
                "the disk, and restart this daemon: the guest goes on from its log")

    def told_to_peer(self) -> dict:
        """What a greeting says besides: up to which generation logs of a life are stale, and what was heard of the other host's log."""
        life, generation = self.host.state.outlives()
        outlived = {} if life is None else {"outlived_life": life, "outlived_generation": generation}
        heard = self.witness
        return outlived | ({} if heard is None else dict(zip(("heard_life", "heard_generation", "heard_number"), heard)))

    def heard_of_log(self, generation: int, number: int, now: float) -> None:
        """So much is on the peer's disk."""
        self.peer_log = self.host.life, generation, number
        if self.witness is None or self.witness[0] != self.host.life or self.witness < self.peer_log:
            self.witness = self.peer_log
        if self.keeps and now - self.wrote_heard_at >= HEARD_EVERY:
            self.wrote_heard_at = now
            self.keeper.hear(*self.peer_log)

    # Before a promotion.

    def heard(self, hello: dict) -> None:
        """What the peer says of what it holds."""
        self.peer = hello
        if hello["role"] == "standby" and hello["life"] == self.host.life and hello["committed"] is not None:
            self.peer_log = hello["life"], hello["generation"], hello["committed"]

    def attached(self) -> None:
        """The live host has its standby again."""
        self.found = None

    def refuses(self, without_peer: bool) -> tuple[str, str] | None:
        """Why a standby from a log may not go live, as a refusal's name and a sentence."""
        if self.found is None:
            return None
        peer, mine = self.peer, (self.found.generation, self.host.standby.committed)
        if peer is None:
            return None if without_peer else ("PeerUnknown", "this host is a standby from its log, and the peer, which may have gone on, "
                                              "wasn't heard since the daemon's start; where it is lost for good: --without-peer")
        if peer["life"] == self.found.head.life and peer["full"]:
            theirs = peer["generation"], MORE if peer["committed"] is None else peer["committed"]
            if theirs > mine:
                upto = "" if theirs[1] == MORE else f" up to checkpoint {theirs[1]}"
                return "Stale", f"{peer['name']} holds generation {theirs[0]} of this guest{upto}, and this host {mine[0]} up to {mine[1]}"
        return None if without_peer else self.behind(mine) or self.outlived()

    def behind(self, mine: tuple[int, int]) -> tuple[str, str] | None:
        """Where the peer had heard of more of this log than there is."""
        peer = self.peer
        heard = peer.get("heard_generation", 0), peer.get("heard_number", 0)
        if peer.get("heard_life") != self.found.head.life or heard <= mine:
            return None
        return "LogBehind", (f"{peer['name']} had heard that this log was synced up to checkpoint {heard[1]} of generation {heard[0]}, and it "
                             f"ends at {mine[1]} of {mine[0]}: its disk doesn't keep what it says is synced. Promote {peer['name']}, if it can "
                             "be; else --without-peer goes on from here, and takes back what clients were given since")

    def outlived(self) -> tuple[str, str] | None:
        """Where the peer has let out more than the log has, and lost it."""
        peer, found = self.peer, self.found
        if peer.get("outlived_life") != found.head.life or peer.get("outlived_generation", 0) < found.generation:
            return None
        return "Stale", (f"{peer['name']} went on alone behind this log, in generation {peer['outlived_generation']}, and holds nothing of "
                         "that any more; what clients were given since then is taken back by --without-peer")

    # What is told.

    def on_disk(self) -> tuple[int, int] | None:
        """The generation and the number up to which this host has its guest in a log; None where it has none."""
        host = self.host
        log = host.live.own if host.live is not None else host.standby.logged if host.standby is not None else None
        return None if log is None or log.keeper.failed is not None else log.reached

    def status(self) -> dict | None:
        """None where no log is kept and none is refused."""
        if not self.keeps and self.refused is None:
            return None
        log, live, peer = self.keeper.log, self.host.live, self.peer_log
        mine, theirs = (log.generation, log.number) if log else None, peer[1:] if peer and peer[0] == self.host.life else None
        return {"generation": log.generation if log else None, "number": log.number if log else None,
                "synced": None if self.keeper.synced_at is None else at(round(self.keeper.synced_at * 1000)),
                "over": log.is_over if log else None, "bytes": log.end if log else None, "joined": log.is_joined if log else None,
                "protects": live is not None and live.own is not None, "recovered": self.found is not None,
                "peer_generation": theirs and theirs[0], "peer_number": theirs and theirs[1], "newer": newer(mine, theirs),
                "failed": self.keeper.failed, "refused": self.refused}

    def look(self, now: float) -> None:
        """Whether the disk is nearly full, now and then."""
        if now - self.looked_at < LOOK_EVERY:
            return
        self.looked_at = now
        try:
            room = self.disk.room(self.folder)
        except OSError:
            return
        if (is_low := room < LOW) and not self.is_low:
            then = "this host is no standby any more" if self.host.live is None else "its guest " + (
                "goes on without a log" if self.host.settings.log_on_failure == GO_ON else "lets out nothing more")
            self.host.log.warning(f"the disk of {self.folder} has {room // MEBIBYTE} MiB left: once it is full, {then}")
        self.is_low = is_low

    def close(self) -> None:
        self.keeper.close()


def newer(mine: tuple[int, int] | None, theirs: tuple[int, int] | None) -> str | None:
    """Whose log has more, as far as this host knows."""
    if mine is None or theirs is None:
        return None
    return "same" if mine == theirs else "this" if mine > theirs else "peer"


def at(when: int) -> str:
    """Milliseconds of the wall clock, as UTC."""
    return datetime.datetime.fromtimestamp(when / 1000, datetime.timezone.utc).isoformat(timespec="milliseconds").replace("+00:00", "Z")
