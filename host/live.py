"""A live host: it runs the guest by the clock, ends epochs, sends checkpoints, and lets frames out. Times are monotonic, in seconds."""
from collections import OrderedDict

from host import messages, turning
from host.dead import Watch, told
from host.filling import Filling
from host.log.kept import HEARD_EVERY
from host.log.own import OwnLog
from host.looks import Looks
from host.modes import ALONE, FILLING, MOST_PENDING, PAIRED
from host.node import LOOK, MADE, OUTBOX, PIECE, STEPS, arrive, looks, part, text_from
from host.pacing import TRY_EVERY, Pacer
from host.text import MOST_PAGE, pages_and_frames
from host.troubles import Trouble

QUICK = 100_000  # steps that take the node a fraction of a millisecond
LATE = 0.1  # a guest that is so many seconds late isn't hurried any more
QUIET = 0.1  # after so many seconds without a frame a guest that is alone runs in slices of SLOW, and one that is paired in epochs
SLOW = 0.005
LONG = 2  # times as long as others, for whose end nothing waits
ASKED = 0.02  # for so many seconds after a frame came or went the network asks the guest, and a reply may be near
SOON = 0.0002  # seconds, in slices of which a protected guest runs while it is asked
EARLY = 0.0005  # seconds: an epoch whose guest has something to say ends no earlier, and no later than so long after that was seen
CUT_NEEDED = b"13"  # the refusal of a step where the outbox is full
STANDS = 3.0  # seconds without an acknowledgement, after which it is said that the guest stands: a cluster manager needs fewer


class Pending:
    """A checkpoint that isn't acknowledged: the bytes of its text, or, unless `is_exact`, so many at the most; when it was cut; whether it is
    known to hold no frames; and, where its text goes into this host's own log, what is fetched of that, piece by piece."""
    __slots__ = ("total", "is_exact", "cut_at", "is_silent", "parts", "fetched")

    def __init__(self, total: int, is_exact: bool, cut_at: float) -> None:
        self.total, self.is_exact, self.cut_at, self.is_silent = total, is_exact, cut_at, False
        self.parts, self.fetched = [], 0


class Live:
    """`host` is the daemon. Its `link` has a connection where the standby is attached."""

    def __init__(self, host, generation, steps, now):
        self.node, self.network, self.link, self.counts, self.log = host.node, host.network, host.link, host.counts, host.log
        self.epoch, self.rate = host.settings.epoch_ms, host.settings.steps_per_ms * 1000
        self.slice, self.epoch_steps = host.settings.steps_per_ms, self.epoch * self.rate
        self.most_at_once, self.soon = max(self.slice, QUICK), max(1, int(SOON * self.rate))
        self.is_slow = self.most_at_once >= LONG * self.epoch_steps  # whether the guest makes all its steps of an epoch at its end
        self.generation, self.steps, self.mode = generation, steps, ALONE
        self.pages = host.shape[0]  # of the guest's memory
        self.to_look = 0  # by so many `text` lines the node has looked at all of them
        self.most = 0  # bytes that the full checkpoint's text has at most, by what is known of its pages
        self.session, self.standby = None, None  # the attachment's name, and who is attached: its name and instance
        self.successor = None  # another instance that has come from the standby's host since
        self.pending, self.cut, self.acked = OrderedDict(), None, None
        self.sending, self.sent = 0, 0  # the checkpoint that is being sent, and how many of its bytes are
        self.is_fetched = False  # whether the node was asked for all of the full checkpoint's text
        self.late_ack = None  # the number of an acknowledgement that the node is told with its next lines
        self.has_arrived = False  # whether frames came since the guest's last steps
        self.outbox = 0  # frames that wait there since the last cut
        self.said_at, self.is_saying = 0.0, False  # when the first of them was seen, and whether the last steps sent more
        self.is_full = False  # the outbox: the guest goes on after the next cut
        self.is_stopped = self.is_frozen = False  # for a drain, or since the host is frozen
        self.held = 0
        self.turning, self.turn_wanted = None, False  # into a later generation, for a log
        self.kept_in: bytes | None = None  # the attachment's name under which `standby` keeps the guest as it is where this host goes live
        self.own: OwnLog | None = None  # by which frames are let out, beside the standby's acknowledgements
        self.fetching = 0  # the checkpoint whose text is being fetched for it
        self.cut_at = -1  # the guest's steps at the last cut
        self.filling: Filling | None = None  # of the standby, from it
        self.heard: tuple[int, int] | None = None  # the last generation and number that the standby has acknowledged
        self.told_log_at = 0.0  # when the standby was told what is in this host's own log
        self.late, self.acked_at, self.waited_since = 0.0, now, None
        self.longest = 0.0  # seconds from steps of the guest to the next, though it didn't wait
        self.watch, self.pacer, self.looks, self.stand = Watch(), Pacer(self), Looks(host, self, now), Trouble(self.log)
        self.start_clock(now)

    def start_clock(self, now: float) -> None:
        self.guest_begun, self.made = now, 0  # since when the guest runs, and the steps that it made since then
        self.epoch_begun = self.moved_at = self.ran_at = now

    def stop(self, now: float) -> None:
        """The guest makes no step until it goes on."""
        self.end_wait(now)
        self.is_stopped = True

    def go_on(self, now: float) -> None:
        self.is_stopped = self.is_frozen = False
        self.start_clock(now)

    def end_wait(self, now: float) -> None:
        """The guest doesn't wait any more, and the time for which it did is left out."""
        if self.waited_since is not None:
            self.skip(now - self.waited_since)
            self.waited_since, self.ran_at = None, now

    # What there is to do, and when.

    @property
    def is_linked(self):
        return self.session is not None and self.link.has(self.session)

    @property
    def stands_on(self) -> int | None:
        """The earlier generation in which the standby still stands, whose last checkpoint is this one's full one."""
        return self.turning.before if self.turning is not None else None

    @property
    def is_unfollowed(self) -> bool:
        """Whether the host that was live before keeps its guest, and doesn't follow this one yet: nothing was let out here."""
        return self.turning is not None and self.turning.kept_in is not None

    @property
    def waits(self):
        """Whether the guest waits, since no more checkpoints may be pending, and the link is gone, or this host's own log failed."""
        if len(self.pending) < MOST_PENDING:
            return False
        return self.needs_standby and not self.is_linked or self.own is not None and self.own.failed is not None

    @property
    def needs_standby(self) -> bool:
        """Whether nothing is let out that the standby hasn't acknowledged."""
        if self.own is None:
            return self.mode != ALONE
        return self.filling.is_joined if self.filling is not None else self.mode == PAIRED

    @property
    def is_steady(self) -> bool:
        """Whether the guest is protected, so that epochs end, by its standby or by this host's own log."""
        return self.mode == PAIRED or self.own is not None and self.is_fetched

    def why_stands(self, now: float) -> str | None:
        """For whom the guest, or all that it sends, waits since a while, and what lets it go on; None where it doesn't."""
        if self.own is not None and self.own.failed is not None:
            return self.own.kept.told_failed(self.own.failed)
        if not self.pending or now - self.acked_at < STANDS or self.standby is None or not self.needs_standby or self.is_stopped:
            return None
        if self.is_linked and len(self.pending) < MOST_PENDING:
            return None
        name, instance = self.standby
        once = (f"another instance, {self.successor}, has come from there since, so it has ended" if self.successor else
                "once its host is surely off, or its daemon has ended")
        return (f"the guest stands, since {name} acknowledges nothing; {once}: 'remus-host ctl alone --standby {instance}' lets it go on, "
                "unless a cluster manager does")

    def say_whether_stands(self, now: float) -> None:
        if (why := self.why_stands(now)) is not None:
            self.stand.is_so(why, "error")
        elif self.stand.why is not None:
            self.stand.is_over("the guest doesn't stand any more")

    @property
    def is_patient(self):
        """Whether an acknowledgement can wait for the epoch's end, since it would let nothing out."""
        if not self.is_steady or self.is_stopped or self.filling is not None or len(self.pending) >= MOST_PENDING:
            return False
        for one in self.pending.values():
            if not one.is_silent:
                return False
        return True

    @property
    def span(self):
        """How long the running epoch is to be."""
        return LONG * self.epoch if self.is_steady and self.epoch_begun - self.moved_at >= QUIET else self.epoch

    def may_cut(self):
        """While the full checkpoint's text is fetched, the running epoch goes on as long as the outbox has room."""
        if self.mode == ALONE and self.own is None or len(self.pending) >= MOST_PENDING:
            return False
        if self.turning is not None:
            return self.is_full
        return self.is_steady or self.is_fetched or self.is_full

    def due(self, now):
        """When there is something to do, if nothing comes before; None where there is nothing."""
        if self.has_to_send() or self.has_to_fetch():
            return now
        if self.is_stopped or self.waits:
            return None
        ends = self.epoch_begun + self.span if self.may_cut() else None
        if self.is_full or ends is not None and self.makes_all_at_end(now):
            return ends
        return self.runs_at(now) if ends is None else min(self.runs_at(now), ends)

    def runs_at(self, now):
        """When the guest is to make its next steps, if no frame comes before."""
        if self.pacer.is_on(now):
            return self.pacer.tried_at + TRY_EVERY if self.pacer.is_held else self.guest_begun + (self.made + self.slice) / self.rate
        together = self.soon if self.is_asked(now) else min(self.batch(now), max(self.slice, self.epoch_steps))
        return self.guest_begun + (self.made + together) / self.rate

    def is_asked(self, now: float) -> bool:
        """Whether a reply may be near, which ends the epoch."""
        return self.is_steady and now - self.moved_at < ASKED

    def makes_all_at_end(self, now: float) -> bool:
        """Whether the guest makes all its steps of the running epoch at its end."""
        return self.is_slow and not self.is_asked(now)

    def batch(self, now):
        """How many steps are made at a time: few where they may let frames out."""
        if self.mode != ALONE or self.own is not None:
            return self.most_at_once
        return self.slice if now - self.moved_at < QUIET else min(max(self.slice, int(SLOW * self.rate)), self.most_at_once)

    def turn(self, now):
        if self.own is not None:
            self.own_told(now)
        if not self.is_stopped:
            self.run(now)
            if self.mode == ALONE and self.own is None and now >= self.looks.at:
                self.looks.turn(now)
        if self.pending and now - self.acked_at >= STANDS or self.stand.why is not None:
            self.say_whether_stands(now)
        self.send(now)

    # The guest.

    def arrive(self, frames):
        """Frames came for the guest."""
        self.has_arrived = True
        for frame, answer in zip(frames, self.tell(*map(arrive, frames))):
            self.counts.frames_dropped += answer.is_refused
            self.counts.frames_in += not answer.is_refused

    def run(self, now):
        """The steps that are due by now, and the epoch's end where that is due."""
        if self.turning is not None and self.turning.left and not turning.go_on(self, now):
            return
        if self.has_arrived:
            self.moved_at = now
        if self.waits:
            self.waited_since = now if self.waited_since is None else self.waited_since
            return
        self.end_wait(now)
        ends = self.epoch_ends(now)
        if not ends and not self.has_arrived and now < self.runs_at(now):
            return
        self.has_arrived, steps = False, self.steps_due(now)
        if self.pacer.is_on(now):
            if not ends:
                self.pacer.run(steps, now)
                return
            self.was_cut(now, *self.tell(*self.cut_lines()))  # before steps whose pages aren't counted
            ends, now = False, self.link.now()
        if steps > 0:
            self.longest = max(self.longest, now - self.ran_at)
        lines = [b"step %d" % steps] if steps > 0 and not self.is_full else []
        lines += self.cut_lines() if ends else []
        if not lines:
            return
        answers = self.tell(*lines)
        if lines[0].startswith(b"step"):
            self.ran_at = now if ends else self.link.now()  # a cut behind the steps counts, and these with it
            self.stepped(answers.pop(0), now)
        if ends:
            self.was_cut(now, *answers)
        elif self.outbox and self.is_said(self.ran_at):
            self.counts.epochs_said += 1
            self.was_cut(self.ran_at, *self.tell(*self.cut_lines()))

    def quiet_epoch(self, now):
        """What `turn` does of a patient host, with less ado where an epoch ends and its checkpoint is the next that is sent."""
        number, steps = self.cut + 1, self.steps_due(now)
        is_other = now - self.epoch_begun < self.span or steps <= 0 or self.is_full or self.waited_since is not None
        if is_other or self.sending != number or not self.link.has_room() or self.own is not None and self.fetching != number:
            self.turn(now)
            return
        if self.own is not None:
            self.own_told(now)
        self.longest, self.ran_at, self.has_arrived = max(self.longest, now - self.ran_at), now, False
        step, cut, text = self.tell(b"step %d" % steps, b"cut", part(number, 0, PIECE))
        self.stepped(step, now)
        self.was_cut(now, cut, text)
        if self.sending <= self.cut:
            self.send(now)

    def tell(self, *lines):
        """The node's answers to these lines. It is told before what was acknowledged meanwhile."""
        if self.late_ack is None:
            return self.node.tell(*lines)
        told, self.late_ack = b"ack %d %d" % (self.generation, self.late_ack), None
        return self.node.tell(told, *lines)[1:]

    def skip(self, seconds):
        self.late, self.guest_begun = self.late + seconds, self.guest_begun + seconds

    def steps_due(self, now):
        behind = (now - self.guest_begun) - self.made / self.rate
        if behind > LATE:
            self.skip(behind - LATE)
        return min(int((now - self.guest_begun) * self.rate) - self.made, self.batch(now))

    def stepped(self, answer, now):
        if answer.is_refused:
            self.is_full = True
            if answer.words[1:2] != [CUT_NEEDED]:
                self.log.seldom("step", "error", f"the guest can't go on: {b' '.join(answer.words).decode()}")
            steps = self.node.ask("show").number(STEPS)
        else:
            steps, outbox = answer.number(MADE), answer.number(OUTBOX)
            if outbox:
                self.sent_more(outbox > self.outbox, now)
            self.outbox = outbox
            if answer.frames:
                self.put(answer.frames, now)
        self.counts.steps += steps - self.steps
        self.made, self.steps = self.made + steps - self.steps, steps

    def sent_more(self, is_more: bool, now: float) -> None:
        """Frames wait in the outbox, and whether the last steps sent some of them."""
        if not self.outbox:
            self.said_at = now
        if is_more:
            self.moved_at = now
        self.is_saying = is_more

    def put(self, frames, now):
        for frame in frames:
            self.network.put(frame)
        self.counts.frames_out, self.moved_at = self.counts.frames_out + len(frames), now

    # Epochs.

    def epoch_ends(self, now):
        return (now - self.epoch_begun >= self.span or self.is_full) and self.may_cut()

    def is_said(self, now: float) -> bool:
        """Whether the running epoch ends early, since the guest has sent something, and no more by its last steps, or it goes on sending. One
        checkpoint more may be pending then, so that the guest goes on if none is acknowledged."""
        return (self.is_steady and len(self.pending) < MOST_PENDING - 1 and now - self.epoch_begun >= EARLY and
                (not self.is_saying or now - self.said_at >= EARLY))

    def end_epoch(self, now: float) -> None:
        """Of a guest that stands, where a cut is possible: what it did since the last one is in a checkpoint too."""
        if self.cut is None or self.steps == self.cut_at or len(self.pending) >= MOST_PENDING:
            return
        if self.turning is None or not self.turning.left:
            self.was_cut(now, *self.tell(*self.cut_lines()))

    def cut_lines(self):
        """A cut, and the first bytes of its text where they are the next that are sent, or written."""
        number = self.cut + 1
        if self.own is not None:
            is_next = self.fetching == number
        else:
            is_next = self.is_linked and self.sending == number and self.link.has_room()
        return [b"cut"] + [part(number, 0, PIECE)] * is_next

    def was_cut(self, now, cut, text=None):
        if cut.is_refused:
            self.log.seldom("cut", "warning", f"the node can't cut: {b' '.join(cut.words).decode()}")
            self.pacer.end()  # the guest goes on without it
            return
        self.counts.epochs_full += self.is_full
        self.outbox, self.is_full = 0, False
        if not self.pending:
            self.acked_at = now
        self.cut, self.cut_at = cut.number(2), self.steps
        self.pending[self.cut] = Pending(cut.number(3), True, now)
        self.pacer.was_cut()
        self.counts.epochs += 1
        self.counts.checkpoint_bytes += cut.number(3)
        length = now - self.epoch_begun
        # The next one ends in its turn, unless this machine is much too late.
        self.epoch_begun = max(self.epoch_begun + min(length, self.span), now - self.epoch)
        if text is not None and not text.is_refused:
            self.came(text.data, now)
        if self.turn_wanted and turning.begin(self, now):
            self.turn_wanted = False

    # What goes to the standby.

    @property
    def part_fetched(self):
        """Of the full checkpoint's text, at least: of as many bytes as its pages may have. None while the node looks for these, which takes
        no longer than some mebibytes of a text."""
        return self.sent / self.most if self.sending == 0 else 1.0

    def has_to_send(self) -> bool:
        if not self.is_linked or not self.link.has_room():
            return False
        if self.filling is not None and self.filling.feed is not None:
            return self.filling.feed.has_more()
        if self.own is None:
            return self.cut is not None and self.sending <= self.cut
        one = self.in_memory(self.sending)
        return one is not None and self.sent < one.fetched

    def has_to_fetch(self) -> bool:
        """For this host's own log."""
        own = self.own
        return own is not None and self.cut is not None and self.fetching <= self.cut and (self.fetching > 0 or own.has_room)

    def send(self, now: float) -> None:
        """Fetches and sends what there is to, for a quarter of an epoch at the most."""
        end = now + self.epoch / 4
        while True:
            if self.has_to_send():
                self.send_more(now)
            elif self.has_to_fetch():
                if data := self.fetched(self.fetching, self.pending[self.fetching].fetched, now):
                    self.keep(data, now)
            else:
                break
            now = self.link.now()
            if now >= end:
                break

    def send_more(self, now: float) -> None:
        if self.filling is not None and self.filling.feed is not None:
            self.filling.send(now)
        elif self.own is not None:
            self.send_text(self.in_memory(self.sending).parts[self.sent // PIECE], now)
        elif data := self.fetched(self.sending, self.sent, now):
            self.saw(self.sending, self.sent, data, now)
            self.send_text(data, now)

    def send_all(self, now: float) -> None:
        """All that is cut goes to the standby, whether the link has room or not."""
        while self.is_linked and (one := self.in_memory(self.sending)) is not None:
            self.send_text(one.parts[self.sent // PIECE], now)

    def fetch_all(self, now: float) -> None:
        while self.fetching <= self.cut:
            if data := self.fetched(self.fetching, self.pending[self.fetching].fetched, now):
                self.keep(data, now)

    def begin_log(self) -> None:
        """All of this host's own log's base is fetched, and on the disk, unless that takes too long or fails."""
        self.fetch_all(self.link.now())
        self.own.wait()

    def in_memory(self, number: int) -> Pending | None:
        """A checkpoint whose text is kept."""
        one = self.pending.get(number)
        return one if one is not None or self.filling is None else self.filling.tail.get(number)

    def fetched(self, number: int, begin: int, now: float) -> bytes:
        """The next bytes of a pending checkpoint's text. Of the full one there are none yet until the node has looked at all the guest's
        memory, some of it each time; and with its last ones it is known how long it is."""
        if number == 0 and self.to_look:
            self.node.ask(LOOK)
            self.to_look, self.pacer.sent_at = self.to_look - 1, now
            return b""
        one, (data, is_last) = self.pending[number], text_from(self.node, number, begin)
        if is_last and not one.is_exact:
            one.total, one.is_exact = begin + len(data), True
            self.counts.checkpoint_bytes += one.total
        return data

    def came(self, data: bytes, now: float) -> None:
        """The first bytes of the text of a checkpoint that was just cut."""
        if self.own is not None:
            self.keep(data, now)
        else:
            self.saw(self.sending, self.sent, data, now)
            self.send_text(data, now)

    def saw(self, number: int, begin: int, data: bytes, now: float) -> None:
        """What a text's first bytes tell."""
        if begin > 0:
            return
        one = self.pending[number]
        if self.watch.see(data, number):
            self.log.error(told(self.watch.found))
        pages, frames = pages_and_frames(data, one.total)
        self.counts.checkpoint_pages += pages
        one.is_silent = frames == 0
        if not one.is_exact:
            self.most = one.total - MOST_PAGE * (self.pages - pages)
        if not one.is_silent:
            self.moved_at = now

    def keep(self, data: bytes, now: float) -> None:
        """The next bytes of the text that goes into this host's own log."""
        number, one = self.fetching, self.pending[self.fetching]
        self.saw(number, one.fetched, data, now)
        if number == 0:
            self.own.piece(data, one.fetched == 0)
        else:
            one.parts.append(data)
        one.fetched += len(data)
        if one.is_exact and one.fetched >= one.total:
            self.fetching, self.is_fetched = number + 1, True
            if number == 0:
                self.own.begin()
            else:
                is_urgent = not one.is_silent or self.is_stopped
                self.own.text(number, one.parts[0] if len(one.parts) == 1 else b"".join(one.parts), is_urgent)

    def send_text(self, data: bytes, now: float) -> None:
        number, begin = self.sending, self.sent
        one = self.in_memory(number)
        self.sent, self.pacer.sent_at = self.sent + len(data), now
        if self.sent >= one.total:
            self.sending, self.sent, self.is_fetched = number + 1, 0, True
        self.link.send(messages.text(self.session, self.generation, number, begin, one.total, data), now)

    # What is acknowledged.

    def acknowledge(self, generation: int, number: int, now: float) -> None:
        """The standby has committed all up to this number."""
        if self.turning is not None and generation == self.turning.before:
            self.turning.heard(number)
        self.heard = generation, number
        self.release(now)
        if self.filling is not None:
            self.filling.go_on(now)

    def own_told(self, now: float) -> None:
        """More may be in this host's own log."""
        own = self.own
        self.release(now)
        if self.filling is not None:
            self.filling.go_on(now)
        own.look(now)
        if now - self.told_log_at >= HEARD_EVERY and self.is_linked and own.reached is not None:
            self.told_log_at = now
            self.link.send(messages.told(messages.PING, self.session, log=own.reached), now)
        if own.is_long and own.basing is None and self.turning is None and self.filling is None:
            self.turn_wanted = True

    def reached(self) -> int | None:
        """Up to where this generation is in each log, or image, that may go on."""
        heard = self.heard[1] if self.heard is not None and self.heard[0] == self.generation else None
        if self.own is None or self.is_stopped and self.own.failed is not None and self.needs_standby:
            return heard
        own = self.own.number_in(self.generation)
        if not self.needs_standby or own is None:
            return own
        return None if heard is None else min(own, heard)

    def release(self, now: float) -> None:
        """Lets out what may be."""
        number = self.reached()
        if number is None or number not in self.pending:
            return  # it was heard before, or is of another time
        is_silent = True
        while number in self.pending:
            which, one = self.pending.popitem(last=False)
            is_silent &= one.is_silent
            if self.filling is not None:
                self.filling.left(which, one)
        if not one.is_silent:
            self.counts.acknowledged(now - one.cut_at)
        frames = self.told(number, is_silent)
        if self.turning is not None:
            frames, self.turning = [*self.turning.frames, *frames], None
        self.acked, self.acked_at, self.held = number, now, len(frames)
        if self.own is None and self.sending <= number:
            self.sending, self.sent = number + 1, 0
        if self.mode == FILLING and self.own is None:
            self.mode = PAIRED
            self.pacer.end()
            self.log.info(f"protected: {self.standby[0]} has the full checkpoint of generation {self.generation}")
        if frames:
            self.put(frames, now)

    def told(self, number, is_silent):
        """The frames that an acknowledgement lets out. Where there are none, the node is told later, with the next lines that it gets."""
        if is_silent:
            self.late_ack = number
            return ()
        self.late_ack = None
        answer = self.node.tell(b"ack %d %d" % (self.generation, number))[0]
        if answer.is_refused:
            self.log.seldom("ack", "warning", f"the node refuses an acknowledgement: {b' '.join(answer.words).decode()}")
        return answer.frames

    # Attachments.

    def protect(self, now: float, is_spent: bool = False) -> None:
        """A full checkpoint is cut, for a standby, a log or a file: the next generation begins. It is a spent one where no other host has
        anything of it, as of a file."""
        answer = self.node.ask("protect")
        self.generation, self.mode, self.looks.spent = answer.number(1), FILLING, self.looks.spent + 1 if is_spent else 0
        self.pending = OrderedDict({0: Pending(answer.number(2), False, now)})
        self.to_look, self.most = looks(self.pages), answer.number(2)
        self.cut, self.acked, self.sending, self.sent, self.is_fetched, self.fetching = 0, None, 0, 0, False, 0
        self.acked_at = self.epoch_begun = now
        self.watch.begin_generation()

    def keep_log(self, own: OwnLog, now: float) -> None:
        """From its full checkpoint on the guest is in this host's own log."""
        self.protect(now)
        self.own, self.mode, self.sending = own, ALONE, 1
        own.belongs_in(self.generation)

    def go_on_with_log(self, own: OwnLog, now: float) -> None:
        """The log of the standby that this host was goes on as its own."""
        self.own = own
        self.turning = turning.after_going_live(own, self.kept_in)
        if self.kept_in is not None:  # who keeps the guest is the standby, without whom nothing is let out
            self.session, self.mode = bytes.fromhex(own.head.session), PAIRED
        turning.go_on(self, now)

    def attach(self, session, standby, now):
        if not self.is_stopped and (steps := self.steps_due(now)) > 0:  # since it stands while its disk is copied
            self.stepped(*self.tell(b"step %d" % steps), now)
        self.ran_at = now
        self.protect(now)
        self.session, self.standby = session, standby
        self.pacer.begin(self.link.now())

    def attach_from_log(self, standby: tuple[str, str], generation: int, number: int) -> None:
        """A standby is filled from this host's own log, from a text on, while the guest goes on by that log."""
        self.session, self.standby, self.mode, self.heard, self.successor = bytes.fromhex(self.own.head.session), standby, FILLING, None, None
        self.filling = Filling(self, generation, number)

    def begin_generation(self, now):
        """The full checkpoint of this generation is pending, and isn't sent."""
        self.pending = OrderedDict({0: Pending(0, True, now)})
        self.to_look, self.cut, self.acked, self.sending, self.sent, self.is_fetched = 0, 0, None, 1, 0, True
        self.acked_at, self.fetching = now, 1

    def resume(self, generation, committed, now):
        """The standby's connection is a new one, and it has committed so much."""
        self.successor = None
        if self.own is not None:
            return self.resume_from_log(generation, committed, now)
        if self.turning is not None and generation == self.turning.before:
            turning.resend(self, committed, now)
            self.sending, self.sent = 1, 0
            return
        if committed is not None:
            self.acknowledge(self.generation, committed, now)
        self.sending, self.sent = next(iter(self.pending), self.cut + 1), 0

    def resume_from_log(self, generation: int, committed: int | None, now: float) -> None:
        """It gets what it lacks from memory, or from this host's own log."""
        if committed is not None:
            self.acknowledge(generation, committed, now)
        number = 0 if committed is None else committed + 1
        if generation == self.generation and (number > self.cut or number in self.pending) and self.filling is None:
            self.sending, self.sent = number, 0
        elif self.filling is None:
            self.filling = Filling(self, generation, number, True)
        else:
            self.filling.resume(generation, number)

    def stands_in(self, generation):
        """Whether a standby of this attachment may be in that generation."""
        return generation == self.generation or self.turning is not None and generation == self.turning.before

    def last_acked(self, generation):
        """What the standby has acknowledged of a generation."""
        if self.own is not None:
            return self.heard[1] if self.heard is not None and self.heard[0] == generation else None
        return self.acked if generation == self.generation else self.turning.acked

    def heard_of(self, name, instance):
        """A host of that name came with that instance. Where it is the standby's host and another instance, the standby has ended."""
        if self.standby and name == self.standby[0] and instance != self.standby[1]:
            self.successor = instance

    def begin_again(self, now):
        """The filling is given up, before all of the text is sent, so that nobody can ever go live with it. The standby finds its link gone
        and its attachment over, and comes for another one."""
        self.counts.begun_again += 1
        self.link.close()
        self.alone(now)

    def alone(self, now):
        """The standby has stopped for good: what is held for it is let out."""
        if self.own is not None:
            return self.alone_with_log(now)
        held = self.turning.frames if self.turning is not None else []
        is_alone = self.turning is not None and self.turning.left[:1] == [b"protect"]  # the node is, and has let out what it had
        frames = [*held, *(() if is_alone else self.node.ask("alone").frames)]
        self.turning, self.turn_wanted = None, False
        self.mode, self.session, self.standby, self.successor, self.late_ack, self.heard = ALONE, None, None, None, None, None
        self.pacer.end()
        self.pending, self.cut, self.acked, self.outbox, self.is_full = OrderedDict(), None, None, 0, False
        self.moved_at = now
        self.put(frames, now)
        self.looks.begin(now)
        self.end_wait(now)

    def alone_with_log(self, now: float) -> None:
        """It goes on by its own log, and turns at the next cut, so that the standby's log is one of an earlier generation: unless the standby
        hadn't caught up, and couldn't go live by what it has."""
        needs_turn = self.needs_standby
        if self.turning is not None:
            self.turning.kept_in = None
        self.leave_filling()
        self.mode, self.session, self.standby, self.successor, self.heard = ALONE, None, None, None, None
        self.release(now)
        self.end_wait(now)
        if needs_turn:
            self.turn_wanted = True
            if self.cut is not None and len(self.pending) < MOST_PENDING and self.turning is None and not self.is_stopped:
                self.was_cut(now, *self.tell(*self.cut_lines()))

    def leave_filling(self) -> None:
        if self.filling is not None:
            self.filling.forget()
            self.filling = None

    def give_up_log(self, now: float) -> None:
        """Its own log failed, and the guest goes on without: by its standby, or alone."""
        had_standby = self.needs_standby
        if self.filling is not None and self.filling.feed is not None:
            self.sending, self.sent = next(iter(self.pending), 1 if self.cut is None else self.cut + 1), 0
        self.leave_filling()
        self.own = None
        if not had_standby:
            self.link.close()
            self.alone(now)
        else:
            self.mode = PAIRED
            self.release(now)
