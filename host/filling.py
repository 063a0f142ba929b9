"""The filling of a standby from its live host's own log, which holds nothing back: the guest goes on by that log meanwhile. Once the standby
has caught up it is told that it has joined, and from then on nothing is let out that it hasn't acknowledged."""
from collections import OrderedDict

from host import messages
from host.modes import MOST_PENDING, PAIRED

MOST_TAIL = 4 << 20  # bytes of texts that are in the log and not sent, above which they are read from there


class Filling:
    """`feed` reads the files; where it is None what is sent comes from memory: what is pending, and, in `tail`, what isn't any more.
    `is_joined` from the moment on in which the standby is told so, and `joined_at` is the checkpoint at which."""

    def __init__(self, live: "Live", generation: int, number: int, is_joined: bool = False) -> None:
        self.live, self.own = live, live.own
        self.tail: OrderedDict[int, "Pending"] = OrderedDict()
        self.tail_bytes, self.is_joined, self.joined_at = 0, is_joined, None
        self.is_known = is_joined  # whether the standby knows that it has joined
        self.feed = self.own.feed(generation, number)

    def resume(self, generation: int, number: int) -> None:
        """The standby's connection is a new one."""
        self.forget()
        self.joined_at = None
        self.feed = self.own.feed(generation, number)

    def forget(self) -> None:
        self.tail, self.tail_bytes = OrderedDict(), 0
        if self.feed is not None:
            self.own.end_feed(self.feed)
            self.feed = None

    def turns(self) -> None:
        """What comes next is of a later generation."""
        self.tail, self.tail_bytes = OrderedDict(), 0

    def left(self, number: int, one: "Pending") -> None:
        """A checkpoint isn't pending any more."""
        live = self.live
        if number == 0 or self.feed is None and number < live.sending:
            return
        self.tail[number] = one
        self.tail_bytes += one.total
        while self.tail_bytes > MOST_TAIL and self.tail:
            which, gone = self.tail.popitem(last=False)
            self.tail_bytes -= gone.total
            if self.feed is None and which >= live.sending:
                self.feed = self.own.feed(live.generation, live.sending)

    def send(self, now: float) -> None:
        """What the feed has next."""
        live, one = self.live, self.feed.take()
        if one.later:
            live.link.send(messages.turn(live.session, one.generation, one.number, one.later), now)
        else:
            live.link.send(messages.text(live.session, one.generation, one.number, one.begin, one.total, one.data), now)
        self.go_on(now)

    def go_on(self, now: float) -> None:
        """Something more was sent, acknowledged, or is in the log."""
        live = self.live
        if self.feed is not None:
            if self.feed.failed is not None:
                self.fail(now)
            else:
                self.feed.look()
                self.go_to_memory()
        if self.feed is None:
            self.drop_sent()
            self.join(now)

    def go_to_memory(self) -> None:
        """Once the feed has given all up to what is in memory, that is sent from there."""
        live = self.live
        generation, number = self.feed.at
        if generation != live.generation or self.feed.has_more():
            return
        if number == live.cut or live.in_memory(number + 1) is not None:
            self.own.end_feed(self.feed)
            self.feed, live.sending, live.sent = None, number + 1, 0

    def drop_sent(self) -> None:
        while self.tail and next(iter(self.tail)) < self.live.sending:
            self.tail_bytes -= self.tail.popitem(last=False)[1].total

    def join(self, now: float) -> None:
        live, heard = self.live, self.live.heard
        if self.is_known and self.joined_at is None:
            self.is_over()
        elif self.joined_at is not None and heard is not None and heard > self.joined_at:
            self.is_over()
        elif self.joined_at is None and live.sent == 0 and live.turning is None and live.is_linked and self.is_near(heard):
            self.is_joined, self.joined_at = True, (live.generation, live.sending - 1)
            live.link.send(messages.joined(live.session, *self.joined_at), now)

    def is_near(self, heard: tuple[int, int] | None) -> bool:
        """Whether the standby has nearly all that was let out."""
        live = self.live
        return heard is not None and heard[0] == live.generation and live.acked is not None and heard[1] + MOST_PENDING >= live.acked

    def is_over(self) -> None:
        live = self.live
        live.filling, live.mode = None, PAIRED
        if not self.is_known:
            live.log.info(f"protected: {live.standby[0]} has all that the guest has let out, in generation {live.generation}")

    def fail(self, now: float) -> None:
        live, why = self.live, self.feed.failed
        live.log.error(f"{live.standby[0]} can't be filled from the log of this host: {why}")
        live.link.close()
        if self.is_joined:
            self.forget()
        else:
            live.alone(now)
