"""Looks at a guest that is alone, of which no checkpoint is cut: whether it can do nothing more (dead.py)."""

from host.dead import HEAD, LEAST, has_trapped, told
from host.node import Refused, part

FIRST, EVERY = 1.0, 5.0  # seconds, until the first look and from one to the next, of a guest that sends nothing meanwhile
AGAIN = 0.1  # seconds, where one look isn't enough to tell
MOST = 50  # looks, one after the other
CUTS = 3  # checkpoints: one more is pending, and no fifth may be


class Looks:
    """Each begins a full checkpoint, which nobody gets, cuts a few behind it, a step apart, reads the guest's registers there, and gives
    all of it up. That takes the node a generation, as a snapshot does. `spent` counts those, since no attachment had them: nobody is told of
    them."""

    def __init__(self, host: "Daemon", live: "Live", now: float) -> None:
        self.host, self.live, self.spent = host, live, 0
        self.begin(now)

    def begin(self, now: float) -> None:
        """The guest is alone from now on."""
        self.at, self.left, self.frames_out = now + FIRST, MOST, self.live.counts.frames_out

    def turn(self, now: float) -> None:
        """The guest is alone, and a look is due."""
        live = self.live
        has_sent, self.frames_out = live.counts.frames_out != self.frames_out, live.counts.frames_out
        if has_sent or self.is_met(now):
            self.at, self.left = now + EVERY, MOST
            return
        is_told = self.look(now)
        self.left = self.left - 1 if not is_told and self.left else MOST
        self.at = self.host.link.now() + (EVERY if is_told or not self.left else AGAIN)

    def is_met(self, now: float) -> bool:
        """Whether a standby is about to come, or was refused, since the node has no memory for it."""
        meeting = self.host.meeting
        return bool(meeting.offered) or meeting.protecting.left(now) > 0

    def look(self, now: float) -> bool:
        """Whether this one told all that there is to see."""
        live, is_told = self.live, True
        try:
            live.node.ask("protect")
        except Refused:
            return True  # it is tried again later
        for number in range(1, CUTS + 1):
            step, cut, text = live.tell(b"step 1", b"cut", part(number, 0, HEAD))
            live.stepped(step, now)
            if cut.is_refused or text.is_refused:
                break
            # More bytes than the head's would have it look at all of the guest's memory. But how long a text without records is is known.
            has_records = cut.number(3) > LEAST
            head = text.data + bytes([has_records]) * (LEAST - HEAD)
            if live.watch.see(head, number):
                live.log.error(told(live.watch.found))
            is_told = live.watch.found is not None or not has_trapped(head)
        answer = live.node.ask("alone")
        live.generation, live.outbox, live.is_full, self.spent = answer.number(1), 0, False, self.spent + 1
        if answer.frames:
            live.put(answer.frames, now)
        return is_told
