"""A live host turns its guest over into a later generation without a full text, so that logs can begin anew: where it was cut it goes alone
and protects, twice. A standby that goes live and protects where the same cut was committed is the same primary, so that checkpoint 0 of the
later generation is told by where the earlier one stands. What `alone` lets out is held until that is acknowledged, and in this host's own
log, if it has one.

A standby that goes live where its live host has stopped, and keeps its guest, is turned over just so, the other way around: that host is
its standby at once (heir.py)."""
from collections import OrderedDict

from host import messages
from host.node import PIECE, text_from

MOST = 4 << 20  # bytes of pending texts, which are kept until they are acknowledged
LINES = b"protect", b"alone", b"protect"


class Turn:
    """`before` is the generation that ends at checkpoint `number`, `texts` its texts that aren't acknowledged; `left` the node's lines that
    are to come, since it refused one for want of memory; `frames` are held. `kept_in` is the attachment's name under which another host
    keeps the guest as it stood there, and is to follow this one."""

    def __init__(self, before: int, number: int, texts: OrderedDict[int, bytes], acked: int | None,
                 left: tuple[bytes, ...] = LINES, kept_in: bytes | None = None) -> None:
        self.before, self.number, self.texts, self.acked = before, number, texts, acked
        self.left, self.frames, self.kept_in = list(left), [], kept_in

    def heard(self, number: int | None) -> None:
        """The standby has committed all of the earlier generation up to this number."""
        if number is not None and number in self.texts:
            while number in self.texts:
                self.texts.popitem(last=False)
            self.acked = number

    def send(self, live: "Live", first: int, begin: int, now: float) -> None:
        """Sends the texts from one of them on, and of that from one of its bytes on."""
        for number, text in self.texts.items():
            if number >= first:
                for at in range(begin if number == first else 0, len(text), PIECE):
                    live.link.send(messages.text(live.session, self.before, number, at, len(text), text[at:at + PIECE]), now)

    def is_kept(self, session: str | None, generation: int, committed: int | None) -> bool:
        """Whether a host that comes keeps the guest so."""
        return self.kept_in is not None and (session, generation, committed) == (self.kept_in.hex(), self.before, self.number)

    def tell(self, live: "Live", now: float) -> None:
        if self.kept_in is not None and live.link.has(self.kept_in):
            live.link.send(messages.follow(self.kept_in, self.before, self.number, live.generation, live.session), now)
            live.link.rename(live.session)
        elif live.is_linked:
            live.link.send(messages.turn(live.session, self.before, self.number, live.generation), now)


def begin(live: "Live", now: float) -> bool:
    """Begins it, where the guest was just cut. Whether it has: not where much is pending."""
    own = live.own
    if live.is_stopped or live.turning is not None or live.pacer.is_on(now) or sum(one.total for one in live.pending.values()) > MOST:
        return False
    if own is not None and (own.failed is not None or own.number_in(live.generation) is None) or own is None and not live.is_linked:
        return False
    if own is None:
        texts = OrderedDict((number, whole(live, number)) for number in live.pending)
        live.turning = turn = Turn(live.generation, live.cut, texts, live.acked)
        turn.send(live, live.sending, live.sent, now)
    else:
        live.turning = turn = Turn(live.generation, live.cut, OrderedDict(), live.acked)
        hand_all(live, now)
    turn.frames = list(live.tell(b"alone")[0].checked().frames)
    go_on(live, now)
    return True


def hand_all(live: "Live", now: float) -> None:
    """All of the earlier generation is given to this host's own log, and sent, unless it is read from there."""
    live.fetch_all(now)
    if live.filling is None or live.filling.feed is None:
        live.send_all(now)
    if live.filling is not None:
        live.filling.turns()


def after_going_live(own: "OwnLog", kept_in: bytes | None) -> Turn:
    """Of a standby that has just gone live, whose log goes on."""
    return Turn(own.generation, own.given, OrderedDict(), None, (b"protect",), kept_in)


def turn_to(live: "Live", session: bytes, standby: tuple[str, str], before: int, number: int, now: float) -> None:
    """The host that was live keeps its guest as it stood at that checkpoint, from which this one went on, without a log of its own: it is the
    standby. Raises Refused."""
    live.protect(now)
    live.begin_generation(now)
    live.session, live.standby = session, standby
    live.turning = Turn(before, number, OrderedDict(), number, (), session)
    live.turning.tell(live, now)


def go_on(live: "Live", now: float) -> bool:
    """Tells the node what is left of it, and then the standby. Whether nothing is left: else it is tried again, and the guest stands."""
    turn = live.turning
    while turn.left:
        answer = live.node.tell(turn.left[0])[0]
        if answer.is_refused:
            live.log.seldom("turn", "error", f"the node can't go on with its log's next generation: {b' '.join(answer.words).decode()}")
            return False
        turn.left.pop(0)
        live.generation = answer.number(1)
    live.begin_generation(now)
    live.watch.begin_generation()
    if live.own is not None:
        live.own.turn(live.generation)
    if live.filling is None or live.filling.feed is None:
        turn.tell(live, now)
    return True


def whole(live: "Live", number: int) -> bytes:
    """A pending checkpoint's text."""
    parts, is_last, begin = [], False, 0
    while not is_last:
        data, is_last = text_from(live.node, number, begin)
        parts.append(data)
        begin += len(data)
    return b"".join(parts)


def resend(live: "Live", committed: int | None, now: float) -> None:
    """The standby's connection is a new one, and it stands in the earlier generation."""
    turn = live.turning
    turn.heard(committed)
    turn.send(live, 0, 0, now)
    if not turn.left:
        turn.tell(live, now)
