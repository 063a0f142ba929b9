"""What takes more than a turn of the loop: a drain, and a promotion where the peer seems to be live; and live_snapshot.py. One may be under way at
a time."""
from collections.abc import Callable
from typing import Any, Protocol

from host.modes import MOST_PENDING
from host.meeting import go_live
from host.node import Refused

Answer = dict[str, Any]
Tell = Callable[[Answer], None]


class Asker(Protocol):
    """Who asked, to whom the answer goes."""

    def __call__(self, answer: Answer) -> None: ...

    def is_gone(self) -> bool:
        """Whether he reads no answer any more."""


ON_ITS_WAY = 0.05  # seconds, within which what comes from the peer may have been said before
LOOKS = 0.01  # seconds, from one look at what the peer says to the next
SOON = 0.001  # seconds, from one look at whether an heir is there to the next


class Drain:
    """The guest stops, and its last checkpoint is cut and acknowledged. Then it is kept here, frozen, until the standby has gone live and
    this host follows it, for which an heir (heir.py) is made before. Without one, since this host ends or none can be had, the guest is given
    up once the standby was told to go live, and says that it is. Where the checkpoint isn't acknowledged in time, or the standby refuses, the
    guest goes on, or is frozen if the host was to be demoted. A standby that was told and hasn't answered may be live: then the guest stays
    frozen, since nobody here knows. `answer` gets what is to be answered."""

    def __init__(self, host: Any, within: float, promotes: bool, is_demotion: bool, answer: Tell, now: float, ends: bool = False) -> None:
        self.host, self.live, self.answer = host, host.live, answer
        self.end, self.promotes, self.is_demotion = now + within, promotes, is_demotion
        self.name = "a demotion is under way" if is_demotion else "a drain is under way"
        self.has_begun, self.last = False, None  # whether the guest stands; the last checkpoint's number
        self.is_told, self.told_over = False, None  # whether the standby was told what there is, and over which connection
        if not ends:
            host.have_heir()
        if host.heir is None:
            self.begin(now)

    def begin(self, now: float) -> None:
        self.has_begun = True
        self.live.run(now)
        self.live.stop(now)

    def due(self, now: float) -> float:
        return self.end if self.has_begun else min(self.end, now + SOON)

    def turn(self, now: float) -> None:
        if not self.has_begun:
            if self.host.heir is not None and not self.host.heir.is_done and now < self.end:
                return  # the guest runs meanwhile
            self.host.leave_useless_heir()
            self.begin(now)
        self.cut(now)
        if self.host.task is self and self.last is not None and self.live.acked == self.last:
            self.has_drained(now)
        if self.host.task is self and now >= self.end:
            self.run_out(now)

    def cut(self, now: float) -> None:
        live = self.live
        if self.last is None and len(live.pending) < MOST_PENDING:
            before = live.cut
            live.was_cut(now, *live.tell(*live.cut_lines()))
            live.send(now)
            if live.cut == before:
                return self.go_on("Node", "the node couldn't cut its last checkpoint", now)
            self.last = live.cut

    def has_drained(self, now: float) -> None:
        """The standby has all. It is told over each connection that it comes with: who dialled again has closed the one before."""
        host, live, link = self.host, self.live, self.host.link
        if live.is_linked and self.told_over is not link.connection:
            if self.promotes and not self.is_told:
                self.end = max(self.end, now + host.settings.link_ms)  # an answer takes no longer, where there is a link
            host.tell_kept(now)
            if self.promotes:
                self.is_told = True
                link.send(go_live(live.session, live.generation, self.last), now)
            self.told_over = link.connection
        if host.heir is not None and not host.is_frozen:
            host.keep(now, is_cut=True)
        if not self.promotes:
            self.finish("the standby has all, and can be promoted", "this host keeps the guest, and doesn't run it")

    # What the standby answers, or says where it comes or is called over another link: that it lives in a later generation of this guest.

    def is_live(self) -> None:
        """Alone: nobody follows it."""
        self.host.leave_heir()
        self.finish("the standby has all, and is live")

    def is_followed(self) -> None:
        self.finish("the standby has all, and is live", "this host is its standby")

    def has_to_end(self) -> None:
        """This host ends once this is over: it follows nobody, unless the standby knows that it does."""
        if not self.host.is_frozen:
            self.host.leave_heir()

    def stays(self, why: str, now: float) -> None:
        self.go_on("Declined", f"the standby refused to go live: {why}", now)

    # How it ends.

    def finish(self, said: str, and_here: str = "the guest doesn't run here") -> None:
        """This host keeps the guest, or follows the other one; else the guest is gone before anybody is told."""
        host, live = self.host, self.live
        host.task, leaves = None, host.live is live and not host.keeps
        if leaves and not self.promotes:
            host.freeze(is_cut=True)
            leaves = False
        if leaves:
            host.give_up()
        self.answer(host.control.did(f"drained: {said}", handed_on=True))
        host.log.info(f"drained: checkpoint {self.last} of generation {live.generation} is acknowledged, and {and_here}")
        if leaves:
            host.become_empty()

    def run_out(self, now: float) -> None:
        if self.is_told:
            self.keep_frozen("Unanswered", "the standby was told to go live, and didn't answer whether it is")
        else:
            self.go_on("TimedOut", "the standby didn't acknowledge in time", now)

    def go_on(self, name: str, why: str, now: float) -> None:
        host = self.host
        host.task = None
        if self.is_demotion:
            host.freeze()
            self.answer(host.control.did(f"the guest is frozen: {why}", handed_on=False))
            return
        if host.is_frozen:
            host.thaw(now)
        else:
            host.leave_heir()
            self.live.go_on(now)
        host.log.warning(f"the drain was given up: {why}")
        self.answer(refusal(name, f"{why}: the guest goes on here"))

    def keep_frozen(self, name: str, why: str) -> None:
        host, other = self.host, self.live.standby[0] if self.live.standby else "the other host"
        host.task = None
        if not host.is_frozen:
            host.freeze()
        told = (f"{why}: the guest is kept here and doesn't run. If {other} is live, this host becomes its standby by itself once the link "
                "is back; if its status says standby, promote it or this host")
        host.log.error(told)
        self.answer(refusal(name, told))

    def fail(self, why: str) -> None:
        """Something went wrong that nobody expected."""
        if self.is_told:
            self.keep_frozen("Internal", why)
        else:
            self.go_on("Internal", why, self.host.link.now())


class Promotion:
    """It is done once the peer, which was live when it was heard last, says that it isn't, or has ended, or has said nothing for longer than
    a live host that is reached does; and refused where it says again that it is. What was on its way as it was asked for, and is heard by the
    next turn, says nothing: who asks may have ended the peer just before. Who asks and leaves meanwhile doesn't want it any more. `does` does it, and answers what is to
    be answered."""

    name = "a promotion is under way"

    def __init__(self, host: Any, does: Callable[[], Answer], is_fenced: bool, answer: Asker) -> None:
        self.host, self.does, self.is_fenced, self.answer = host, does, is_fenced, answer
        self.begun: float | None = None  # when what comes counts
        self.has_dialled = False

    def due(self, now: float) -> float:
        return now + LOOKS

    def turn(self, now: float) -> None:
        host, meeting = self.host, self.host.meeting
        self.begun = now + ON_ITS_WAY if self.begun is None else self.begun
        if self.answer.is_gone():
            host.task = None
            self.answer(refusal("Unwanted", "who asked for this promotion reads no answer any more"))
        elif not meeting.may_live(now, self.is_fenced):
            host.task = None
            self.answer(self.does())
        elif meeting.has_said_live(self.begun):
            host.task = None
            self.answer(refusal("PeerIsLive", "the peer says over the link that it is live: drain it or stop it first; 'force' promotes "
                                              "this host all the same, and then two hosts are live"))
        elif not host.link.is_up and not self.has_dialled:
            self.has_dialled = True
            host.link.dial_soon(now)

    def fail(self, why: str) -> None:
        """Something went wrong that nobody expected."""
        self.host.task = None
        self.answer(refusal("Internal", why))


def refusal(name: str, why: str) -> Answer:
    return {"ok": False, "refused": name, "why": why}
