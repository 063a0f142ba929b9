"""The daemon: the host's role, and the loop by the clock that joins node, link, network and control socket."""
import secrets
import select
import time
from collections.abc import Callable

from host import messages, network, saving
from host.boot import boot_of
from host.control import Control, Scrapes
from host.guarded import guarded
from host.heir import Heir
from host.link import Link
from host.live import Live
from host.log.disk import Disk
from host.log.format import LogBehind, Rotten
from host.log.kept import Kept, StandbyLog
from host.meeting import Meeting
from host.metrics import Counts
from host.node import Node, Refused
from host.settings import version
from host.signals import AtOnce, Signals
from host.standby import Broken, Standby
from host.state import State
from host.tasks import Drain
from host.turning import turn_to

MOST_FRAMES = 32  # from the network, before the guest runs again
VERSION = version()
LONGEST_WAIT = 10.0  # seconds
MOST_WHY = 200  # characters, of a reason that goes over the link
HEARD_AT_ONCE = 3  # acknowledgements that let nothing out
LOOK_AGAIN = 0.5  # seconds, at a network with which something is wrong
QUIET_AFTER = 0.05  # seconds
MEND_AGAIN = 1.0  # seconds: somebody else may undo it


class Daemon:
    """Raises OSError, NodeEnded or Unusable where something it needs can't be had."""

    version = VERSION

    def __init__(self, settings, log):
        self.settings, self.log = settings, log
        self.begun, self.is_over, self.task = time.monotonic(), False, None
        self.counts = Counts()
        self.state = State(settings.state)
        self.link = Link(settings, log, self.counts)
        self.meeting = Meeting(self)
        self.link.meeting, self.link.attached, self.link.lost = self.meeting, self.attached, self.lost
        self.control = Control(self, settings.control)
        self.scrapes = Scrapes(self, settings.metrics)
        self.served = [one for one in (self.control, self.scrapes) if one.listener]
        self.network, self.looked_at, self.mended_at = network.network(settings), 0.0, 0.0
        self.node = Node(settings.node)
        self.live = self.standby = self.peer = self.life = self.shape = None
        self.heir: Heir | None = None  # is there while this host hands its guest on, or keeps it then
        self.quiet_at: float | None = None  # when its network is to go down, if that is still to come
        self.instance = secrets.token_hex(8)
        self.kept, self.saving = Kept(self, Disk()), None
        saving.forget(self.kept.folder)
        self.recover()
        self.signals = Signals(self)

    def recover(self) -> None:
        """A host whose folder has a log is its standby, and stands where that ends: for its live host one that was slow."""
        if (recovered := self.kept.recover()) is None:
            return
        self.node.close()
        self.node, found = recovered
        head = found.head
        self.life, self.shape, self.instance = head.life, (head.pages, head.sectors), head.instance
        self.standby = Standby(self, bytes.fromhex(head.session), self.life, found.generation, self.shape, self.kept.resumed(found),
                               found.is_joined)

    def cut_back(self, number: int) -> None:
        """A standby from its log has more than the one that went live behind an earlier number, of which nothing was let out: it stands there
        again, and where it can't, this host is empty."""
        standby, generation = self.standby, self.standby.generation
        self.link.close()
        self.node.kill()
        standby.leave()
        self.standby = None
        try:
            self.kept.cut_back(generation, number)
            self.recover()
        except (OSError, Rotten, LogBehind) as error:
            self.log.error(f"the log in {self.kept.folder} can't be cut back: {error}")
        if self.standby is None:
            self.become_empty()

    # What the host is.

    @property
    def role(self):
        if self.live:
            return "frozen" if self.is_frozen else "live"
        return "standby" if self.standby else "empty"

    @property
    def is_frozen(self):
        return self.live is not None and self.live.is_frozen

    @property
    def keeps(self) -> bool:
        """Whether the guest stands here just as its standby has it, and this host follows that one once it is live."""
        return self.is_frozen and self.heir is not None

    @property
    def committed(self) -> int | None:
        """The checkpoint at which what is here stands, if it isn't live."""
        if self.keeps:
            return self.live.acked
        return self.standby.committed if self.standby else None

    @property
    def full(self):
        return self.live is not None or self.standby is not None and self.standby.is_full

    @property
    def generation(self):
        if self.live:
            return self.live.generation - self.live.looks.spent
        return self.standby.generation if self.standby else 0

    @property
    def session(self):
        holder = self.live or self.standby
        return holder.session if holder else None

    @property
    def branch(self) -> str | None:
        """By which a live host knows what is held here, in hexadecimal."""
        if self.standby is not None:
            return self.standby.branch
        return self.session.hex() if self.session else None

    # Changes of role.

    def give_up(self):
        """What is here is given up. The guest, where it was here, makes no step any more: its node is told nothing, and killed."""
        self.link.close()
        self.node.kill()
        self.leave_heir()
        if self.standby is not None:
            self.standby.leave()
            self.kept.over()
        self.live = self.standby = self.life = self.shape = None
        self.instance = secrets.token_hex(8)

    def become_empty(self):
        """Gives up what is here, and starts a node that has nothing."""
        self.give_up()
        self.quiet_network()
        self.node.close()
        self.node = Node(self.settings.node)

    def stand_by(self, session, offer):
        """An empty host becomes the standby of a live one. That is on the disk before the live host hears of it. Raises Refused, and
        OSError or Unprepared where it, or the log, can't be written."""
        self.state.keep(offer["life"], offer["generation"], "held")
        self.node.ask(f"standby {offer['pages']} {offer['sectors']} {offer['generation']}")
        shape, life, generation = (offer["pages"], offer["sectors"]), offer["life"], offer["generation"]
        is_joined = not offer.get("joins", False)
        logged = self.kept.prepared(session, generation, life, shape, is_joined)
        self.shape, self.life = shape, life
        self.standby = Standby(self, session, self.life, generation, self.shape, logged, is_joined)
        self.counts.attachments += 1
        self.log.info(f"this host is ready as a standby of {offer['name']}, for generation {offer['generation']}")

    def boot(self) -> None:
        """Raises BadGuest, Refused, OSError; the host is empty then."""
        boot, life = boot_of(self.settings.guest), secrets.token_hex(8)
        self.node.ask(boot.line)
        try:
            self.state.keep(life, 1, "booted")
        except OSError:
            self.become_empty()
            raise
        self.life, self.shape = life, (boot.pages, boot.sectors)
        self.start(Live(self, 1, 0, self.link.now()))  # the guest isn't late by the time in which it was booted
        self.log.info(f"booted {self.settings.guest}: life {self.life}")

    def go_live(self, now: float, word: bytes | None = None) -> None:
        """A standby with a full checkpoint goes on as the guest. The host that keeps it as it is here is its standby; else this host is
        alone, and who told it to go live gets this word. Raises Refused."""
        self.standby.catch_up_all()
        answer = self.node.ask("golive")
        standby, self.standby = self.standby, None
        live = Live(self, answer.number(1), answer.number(3), now)
        if not standby.is_kept or not self.is_followed(live, standby, now):
            if word is not None:
                self.link.send(word, now)
            self.link.close()
        self.start(live, standby.logged)
        self.counts.failovers += 1
        self.log.info(f"live in generation {self.generation}, from step {self.live.steps}")

    def is_followed(self, live: Live, standby: Standby, now: float) -> bool:
        """Has the host that keeps the guest be the standby, once this host's own log goes on, where it has one."""
        if self.kept.is_both and standby.logged is not None:
            live.kept_in, live.standby, self.meeting.attached_at = standby.session, self.peer, now
            return True
        try:
            turn_to(live, standby.session, self.peer, standby.generation, standby.committed, now)
        except Refused as refused:
            self.log.error(f"the node refuses to protect the guest: {refused}; {self.peer[0]}, which keeps it, begins anew")
            return False
        self.meeting.attached_at = now
        return True

    def start(self, live: Live, logged: StandbyLog | None = None) -> None:
        """The guest runs from now on, and bridges learn where it is. `logged` is the log of the standby that this host was."""
        try:
            self.kept.goes_live(live, logged)
        except Refused:
            self.become_empty()
            raise
        self.meeting.goes_live()
        self.live, self.quiet_at = live, None
        self.network.up()
        self.network.put(network.announcement(self.settings.guest_address))

    def freeze(self, is_cut: bool = False) -> None:
        """The guest stops, and is kept, but for no other host. `is_cut`: it has stopped, and its last checkpoint is cut."""
        self.leave_heir()
        self.link.close()
        self.keep(self.link.now(), is_cut)
        self.quiet_network()

    def keep(self, now: float, is_cut: bool) -> None:
        """The guest stops, and is kept. Its network goes down once what follows is said: the kernel may take some ten milliseconds for it."""
        self.live.stop(now)
        if self.live.own is not None and not is_cut:
            self.live.end_epoch(now)
        self.live.is_frozen, self.quiet_at = True, now + QUIET_AFTER
        self.log.info("frozen: the guest is kept, and doesn't run")

    def quiet_network(self) -> None:
        self.network.down()
        self.quiet_at = None

    def thaw(self, now):
        self.leave_heir()
        self.quiet_at = None
        self.meeting.goes_live()
        self.live.go_on(now)
        self.network.up()
        self.network.put(network.announcement(self.settings.guest_address))
        self.log.info("live again")

    # A hand-over to a host that this one follows.

    def have_heir(self) -> None:
        """Begins to make one. Where logs are kept, but a live host has none, there is none: what it takes is to be on its disk, from the full
        checkpoint on."""
        if not self.kept.keeps or self.live.own is not None and self.live.own.failed is None:
            heir = Heir(self)
            heir.start()
            self.heir = heir

    def leave_heir(self) -> None:
        if self.heir is not None:
            self.heir.close()
            self.heir = None

    def leave_useless_heir(self) -> None:
        """Leaves one that can't be had."""
        if self.heir is not None and not self.heir.is_ready:
            self.log.warning(f"this host can't follow the one that it hands its guest to: {self.heir.wrong or 'it takes too long'}")
            self.leave_heir()

    def tell_kept(self, now: float) -> None:
        """Tells the standby that this host keeps the guest as it stands, and follows it."""
        if self.heir is not None:
            self.link.send(messages.message(messages.KEEPS, self.session, messages.NUMBER.pack(self.generation, self.live.acked)), now)

    def follow(self, generation: int, number: int, later: int, session: bytes, now: float) -> None:
        """The standby went live from where the guest stands here. This host is its standby, as long as its node doesn't refuse."""
        live, heir = self.live, self.heir
        if (generation, number, later) != (live.generation, live.acked, heir.generation):
            raise messages.Malformed(f"generation {later} stands on checkpoint {number} of generation {generation}, which isn't here")
        try:
            following = heir.follow(self.node, self.kept.keeper.wake)
        except Refused as refused:
            self.log.error(f"this host can't follow {live.standby[0]}, which is live, and begins anew: its node refused: {refused}")
            self.link.send(self.meeting.declining(str(refused), live.session), now)
            return self.task.is_live() if self.is_draining else self.become_empty()
        self.live = self.heir = None
        self.link.rename(session)
        logged = self.kept.following(live.own) if live.own is not None else None
        self.standby, self.peer = Standby(self, session, self.life, generation, self.shape, logged), live.standby
        self.counts.attachments += 1
        self.meeting.is_told("live", now)
        self.log.info(f"{self.peer[0]} is live from where the guest stood here, and this host is its standby, for generation {later}")
        self.standby.follow(following, live.steps, now)
        if self.is_draining:
            self.task.is_followed()

    def unfollowed(self, told: dict, now: float) -> None:
        """The host that kept the guest can't be the standby, and keeps it no more."""
        self.log.warning(f"{told['name']} can't be a standby: {told['why']}. This host goes on alone")
        self.link.close()
        self.live.alone(now)

    # What the log tells.

    def log_told(self, now: float) -> None:
        """Something more of the log is on the disk; or it failed: a standby is none any more then, and acknowledges nothing."""
        self.kept.keeper.heard()
        if self.live is not None:
            self.kept.look_at_own(self.live, now)
        elif self.kept.keeper.failed is not None:
            self.kept.has_failed(now)
        elif self.standby is not None:
            self.standby.synced(now)
            self.kept.look(now)

    # What the link tells.

    def attached(self, kind: int, body: bytes, now: float) -> None:
        """A message of this attachment."""
        if not (self.heard_by_live(kind, body, now) if self.live else self.standby and self.heard_by_standby(kind, body, now)):
            raise messages.Malformed(f"a message of kind {kind} to a host that is {self.role}")

    def heard_by_live(self, kind: int, body: bytes, now: float) -> bool:
        """Whether it is one that a host with a guest takes."""
        if kind == messages.ACK:
            generation, number = messages.numbers(body)
            self.kept.heard_of_log(generation, number, now)
            self.live.acknowledge(generation, number, now)
        elif kind == messages.LONG:
            self.live.turn_wanted = True
        elif self.keeps and kind == messages.FOLLOW:
            self.follow(*messages.followed(body), now)
        elif self.is_handing_over and kind in (messages.LIVE, messages.STAYS):
            self.heard_of_hand_over(kind, body, now)
        elif self.live.is_unfollowed and kind == messages.NO:
            self.unfollowed(messages.fields(kind, body), now)
        else:
            return self.live.is_unfollowed and kind in (messages.KEEPS, messages.GO_LIVE)  # said before it heard
        return True

    def heard_by_standby(self, kind: int, body: bytes, now: float) -> bool:
        """Whether it is one that a standby takes."""
        if kind == messages.TEXT:
            self.taken(lambda: self.standby.text(body, now))
        elif kind == messages.TURN:
            self.taken(lambda: self.standby.turned(*messages.turned(body), now))
        elif kind == messages.JOIN:
            self.taken(lambda: self.standby.told_joined(*messages.numbers(body), now))
        elif kind == messages.KEEPS:
            self.standby.stands_at = messages.numbers(body)
            self.meeting.is_told("frozen", now)
        elif kind == messages.GO_LIVE:
            self.told_to_go_live(*messages.numbers(body), now)
        elif not self.standby.is_full and kind == messages.NO:
            self.meeting.turned_away(messages.fields(kind, body))
        else:
            return False
        return True

    def taken(self, part: Callable[[], None]) -> None:
        """What the standby is sent. Raises Malformed."""
        try:
            part()
        except Broken as broken:
            self.log.seldom("broken", "error", str(broken))
            raise messages.Malformed("what came can't be taken") from None

    def told_to_go_live(self, generation: int, number: int, now: float) -> None:
        """The live host has drained and stopped, and says so; it gives the guest up once it hears that this one is live."""
        standby = self.standby
        if (generation, number) != (standby.generation, standby.committed):
            self.stay(f"it has checkpoint {standby.committed} of generation {standby.generation}", now)
            return
        self.log.info("the live host has drained, and tells this one to go live")
        try:
            self.go_live(now, messages.message(messages.LIVE, standby.session, messages.NUMBER.pack(generation, number)))
        except Refused as refused:
            self.stay(f"its node refused: {refused}", now)

    def stay(self, why: str, now: float) -> None:
        """The live host has drained, and this one doesn't go live: so the guest goes on there."""
        self.log.error(f"the live host has drained, and this one can't go live: {why}")
        self.link.send(messages.told(messages.STAYS, self.standby.session, why=why[:MOST_WHY]), now)

    @property
    def is_draining(self) -> bool:
        return isinstance(self.task, Drain)

    @property
    def is_handing_over(self) -> bool:
        """Whether the standby was told to go live, and its answer is awaited."""
        return self.is_draining and self.task.is_told

    def heard_of_hand_over(self, kind: int, body: bytes, now: float) -> None:
        if kind == messages.STAYS:
            self.task.stays(messages.fields(kind, body)["why"], now)
        elif messages.numbers(body) == (self.live.generation, self.task.last):
            self.task.is_live()

    def lost(self):
        """The attached link is gone."""
        if self.standby:
            self.standby.restart()

    # The loop.

    def run(self) -> None:
        try:
            self.signals.listen()
            self.look_at_network(time.monotonic())
            while not self.is_over:
                self.turn()
        except AtOnce:
            self.log.warning("a second signal came: this host ends at once, and what it held is gone")
        finally:
            self.signals.ignore()
            self.close()

    def end(self) -> None:
        self.is_over = True

    @property
    def dials(self) -> bool:
        """A live host looks for another one, but while it hands its guest on."""
        return self.live is None or self.is_frozen or not self.live.is_stopped

    def turn(self):
        is_patient = self.live is not None and self.live.is_patient
        frames = self.network.watched()
        reading, writing = [self.signals.came, *frames], []
        self.link.watched(reading, writing, is_patient)
        hears_log = self.live is None or self.live.own is not None and not is_patient
        if hears_log:
            reading.append(self.kept.keeper)
        if self.saving is not None:
            reading.append(self.saving)
        for one in self.served:
            one.watched(reading, writing)
        readable, writable, _ = select.select(reading, writing, [], self.wait(time.monotonic()))
        if is_patient and not readable and self.is_quiet():
            return self.quiet_epochs(reading)
        now = time.monotonic()
        if self.signals.came in readable:
            self.signals.hear(now)
            if self.is_over:
                return  # it does nothing more that somebody may have asked for
        if hears_log and self.kept.keeper in readable:
            self.log_told(now)
        if is_patient and self.link.is_up:
            readable.append(self.link.connection)
        self.link.turn(readable, writable, now, self.dials)
        if any(one in readable for one in frames):
            self.take_frames()
        if self.network.changes in readable or self.network.wrong is not None and now >= self.looked_at + LOOK_AGAIN:
            self.look_at_network(now)
        if self.live is not None:
            self.live.turn(now)
        if self.quiet_at is not None and now >= self.quiet_at:
            self.quiet_network()
        if self.task is not None:
            self.turn_task(now)
        if self.saving is not None and self.saving in readable:
            self.saving.turn()
        for one in self.served:
            if one.clients or one.late or one.listener in readable:
                one.turn(readable, writable, now)

    def turn_task(self, now: float) -> None:
        guarded(self.log, self.task.name, lambda: self.task.turn(now), self.task.fail)

    def is_quiet(self):
        """Whether nothing is under way but epochs, which go over the link, and more often than pings would."""
        link = self.link
        return (link.is_up and self.live.span <= link.ping_every and not link.connection.waits_to_write and not link.is_meeting and self.task is None and
                self.network.wrong is None and not any(one.clients or one.late for one in self.served))

    def quiet_epochs(self, reading):
        """Epoch after epoch of a patient live host, until something comes or is to go out: so long what is looked at stays the same.
        Acknowledgements, which let nothing out, are heard three at a time."""
        live, link, connection = self.live, self.link, self.link.connection
        descriptors, came = [one if isinstance(one, int) else one.fileno() for one in reading], False
        while not came:
            now = time.monotonic()
            if len(live.pending) >= HEARD_AT_ONCE:
                link.hear(connection, (connection,), (), now, HEARD_AT_ONCE)
            live.quiet_epoch(now)
            if not live.is_patient or connection is not link.connection or connection.waits_to_write:
                break
            now = time.monotonic()
            until = live.epoch_begun + live.span if live.makes_all_at_end(now) else live.due(now)
            came = select.select(descriptors, (), (), max(0, until - now))[0]

    def wait(self, now):
        """For how many seconds there is nothing to do."""
        until = now + LONGEST_WAIT
        for one in (self.live, self.task, *self.served):
            if one is not None and (due := one.due(now)) is not None and due < until:
                until = due
        if (due := self.link.due(now, self.dials)) is not None and due < until:
            until = due
        if self.network.wrong is not None:
            until = min(until, self.looked_at + LOOK_AGAIN)
        if self.quiet_at is not None:
            until = min(until, self.quiet_at)
        return until - now if until > now else 0

    def take_frames(self):
        came = self.network.frames(MOST_FRAMES)
        if not came:
            return
        if self.live and not self.live.is_stopped:
            self.live.arrive(came)
        else:
            self.counts.frames_dropped += len(came)

    def look_at_network(self, now: float) -> None:
        """Something of it has changed, or was wrong."""
        before, self.looked_at = self.network.wrong, now
        mended, wrong = self.network.look(now >= self.mended_at + MEND_AGAIN), self.network.wrong
        if mended is not None:
            self.mended_at = now
            self.counts.networks_mended += 1
            self.log.warning(f"{mended}: this host puts it right")
        if wrong is not None and wrong != before:
            self.log.error(f"the guest's network doesn't carry: {wrong}")
        elif wrong is None and before is not None and mended is None:
            self.log.info("the guest's network is as it should be again")
        if wrong is None and (mended or before) and self.live is not None and not self.is_frozen:
            self.network.put(network.announcement(self.settings.guest_address))

    def close(self):
        self.kept.close()
        if self.saving is not None:
            self.saving.close()
        self.leave_heir()
        for one in (self.control, self.scrapes, self.network, self.node):
            one.close()
        self.link.end()
