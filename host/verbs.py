"""What the control socket is asked to do: docs/OPERATE.md has the table of verbs, remus-host(8) the fields of a status."""
import time
from collections.abc import Callable
from typing import Any

from host import metrics, requests
from host.boot import BadGuest
from host.guarded import guarded
from host.live_snapshot import Save
from host.modes import ALONE, PAIRED
from host.node import Refused
from host.saving import Saving
from host.snapshot import NoBoot, NotASnapshot, boot_over, load
from host.tasks import Answer, Asker, Drain, Promotion, Tell, refusal
from host.turned_snapshot import Turned


class Once:
    """An asker who is told the first answer, and no other one."""

    def __init__(self, tell: Tell, is_gone: Callable[[], bool]) -> None:
        self.tell: Tell | None = tell
        self.is_gone = is_gone

    def __call__(self, answer: Answer) -> None:
        tell, self.tell = self.tell, None
        if tell is not None:
            tell(answer)


class Verbs:
    """`host` is the daemon. A verb answers what it did, or None where its task answers later."""

    def __init__(self, host: Any) -> None:
        self.host = host

    def do(self, line: bytes, answer: Tell, is_gone: Callable[[], bool] = lambda: False) -> None:
        """Does what a line asks for. `answer` is called with the answer, now or later, and once, unless who asked is gone."""
        tell = Once(answer, is_gone)
        try:
            verb, given = requests.read(line)
        except requests.Wrong as wrong:
            return tell(refusal(wrong.name, str(wrong)))
        if self.host.task is not None and verb not in ("status", "metrics"):
            return tell(refusal("Busy", self.host.task.name))
        done = guarded(self.host.log, f"the request to {verb}", lambda: self.done(verb, tell, given), lambda why: refusal("Internal", why))
        if done is not None:
            tell(done)

    def done(self, verb: str, tell: Asker, given: dict[str, Any]) -> Answer | None:
        try:
            return getattr(self, verb)(tell, **given)
        except Refused as refused:
            return refusal("Node", f"the node refused: {refused}")

    def did(self, sentence: str, **more: object) -> Answer:
        host = self.host
        return {"ok": True, "did": sentence, "role": host.role, "mode": self.mode(), "life": host.life,
                "generation": host.generation} | more

    def lives(self, sentence: str) -> Answer:
        """What was done, and what is wrong with the network of a host that is live by it."""
        wrong = self.host.network.wrong
        return self.did(sentence if wrong is None else f"{sentence}, but the guest's network doesn't carry: {wrong}")

    def mode(self):
        return self.host.live.mode if self.host.live else None

    # Verbs.

    def status(self, answer: Tell) -> Answer:
        return self.did("told") | status(self.host)

    def metrics(self, answer: Tell) -> Answer:
        return {"ok": True, "text": metrics.text(self.host)}

    def promote(self, answer: Asker, boot: bool = False, new: bool = False, source: str | None = None, disk: str | None = None,
                bare: bool = False, without_peer: bool = False, fenced: bool = False, force: bool = False) -> Answer | None:
        host, now = self.host, time.monotonic()
        if host.role == "live" and not (source or disk or new):
            return self.lives("this host is live already")
        begins = boot or source is not None

        def why_not() -> Answer | None:
            return self.why_not_begun(new, source) if begins else self.why_no_checkpoint(without_peer)

        def does() -> Answer:
            return why_not() or (self.begin(source, disk, bare) if begins else self.go_on(fenced))

        why = why_not()
        if force or not host.meeting.may_live(now, fenced) or why is not None and why["refused"] != "PeerUnknown":  # who lives is heard
            return does()
        host.task = Promotion(host, lambda: self.promoted(does), fenced, answer)
        return None

    def promoted(self, does: Callable[[], Answer]) -> Answer:
        """The answer of a promotion that had to wait."""
        try:
            return does()
        except Refused as refused:
            return refusal("Node", f"the node refused: {refused}")

    def why_no_checkpoint(self, without_peer: bool) -> Answer | None:
        """The refusal of a host that isn't frozen where it has no full checkpoint with which it may go on."""
        host = self.host
        if host.live is not None:
            return None
        if not host.full:
            if host.standby is not None and host.standby.committed is not None:
                return refusal("NoCheckpoint", "this host lacks some of what the guest has let out: its live host fills it, or another log has it")
            refused = f": the log is refused, {host.kept.refused}" if host.kept.refused else ""
            return refusal("NoCheckpoint", f"no full checkpoint of the guest is here{refused}")
        why = host.kept.refuses(without_peer)
        return refusal(*why) if why else None

    def why_not_begun(self, new: bool, source: str | None) -> Answer | None:
        """The refusal of a new life."""
        host = self.host
        if host.role != "empty":
            return refusal("NotEmpty", f"this host is {host.role}: it would lose what it holds")
        if source is None and host.settings.guest is None:
            return refusal("File", "no guest is configured: give the key 'guest'")
        if source is None and host.state.booted_before and not new:
            return refusal("BootedBefore", "a guest was booted or held here before; 'new' boots another one all the same")
        return None

    def go_on(self, is_fenced: bool) -> Answer:
        """A frozen host goes on, or a standby goes live; it may have been told so meanwhile. A host that is off keeps no guest for this one,
        whatever it said."""
        host, now = self.host, time.monotonic()
        if host.role == "live":
            return self.lives("this host is live already")
        if host.role == "frozen":
            host.thaw(now)
        else:
            if is_fenced:
                host.standby.stands_at = None
            host.go_live(now)
        return self.lives("this host is live")

    def begin(self, source: str | None, disk: str | None, bare: bool) -> Answer:
        """A new life, booted, over a snapshot's disk where one is given, or from a snapshot."""
        try:
            return self.lives(self.begun(source, disk, bare))
        except BadGuest as bad:
            return refusal("File", str(bad))
        except NoBoot as ended:
            return refusal("Node", str(ended))
        except NotASnapshot as error:
            return refusal("File", f"{source or disk}: {error}")
        except OSError as error:
            return refusal("File", f"{error.filename or source or disk or self.host.settings.state}: {error.strerror or error}")

    def begun(self, source: str | None, disk: str | None, bare: bool) -> str:
        """What was done, as a sentence. Raises OSError, Refused, NotASnapshot, BadGuest, NoBoot."""
        if source is not None:
            load(self.host, source, bare)
            return f"this host is live with the guest of {source}"
        if disk is not None:
            boot_over(self.host, disk, bare)
            return f"the guest is booted over the disk of {disk}, and this host is live"
        self.host.boot()
        return "the guest is booted, and this host is live"

    def alone(self, answer: Tell, standby: str | None = None) -> Answer:
        host = self.host
        if host.live is None:
            return refusal("NotLive", f"this host is {host.role}")
        if host.live.mode == ALONE:
            return self.did("this host is alone already")
        has = host.live.standby
        if standby is not None and has is not None and has[1] != standby:
            return refusal("OtherStandby", f"the standby here is {has[1]}")
        now = time.monotonic()
        host.meeting.goes_alone(now)
        host.link.close()
        host.leave_heir()
        host.kept.outlives(host.live.generation)
        host.live.alone(now)
        host.log.info(f"alone in generation {host.generation}, as it was told")
        return self.did("this host goes on alone")

    def drain(self, answer: Tell, promote: bool = False, within: float | None = None) -> Answer | None:
        host = self.host
        if host.role != "live":
            return refusal("NotLive", f"this host is {host.role}")
        if host.live.mode != PAIRED:
            return refusal("NotPaired", "no standby has a full checkpoint of the guest")
        return self.begin_drain(host.settings.drain_ms if within is None else within, promote, False, answer)

    def demote(self, answer: Tell) -> Answer | None:
        host = self.host
        if host.role != "live":
            return self.did(f"this host is {host.role}, and stays it", handed_on=False)
        if host.live.mode != PAIRED or not host.live.is_linked:
            host.freeze()
            return self.did("the guest is frozen, since nobody is there to hand it to", handed_on=False)
        return self.begin_drain(host.settings.drain_ms, False, True, answer)

    def begin_drain(self, within: float, promotes: bool, is_demotion: bool, answer: Tell) -> None:
        now = time.monotonic()
        self.host.task = Drain(self.host, within, promotes, is_demotion, answer, now)
        self.host.turn_task(now)

    def save(self, answer: Tell, file: str) -> Answer | None:
        host = self.host
        if host.live is not None and host.live.own is not None and host.kept.on_disk() is None:
            host.live.begin_log()
        at = host.kept.on_disk()
        if host.saving is not None:
            return refusal("Busy", "a snapshot is being saved")
        if at is None and (why := self.why_not_saved()):
            return why
        try:
            if at is not None:
                host.saving = Saving(host, at, file, answer)
            elif host.standby is not None:
                host.saving = Turned(host, file, answer, time.monotonic())
            else:
                host.task = Save(host, file, answer, time.monotonic())
        except OSError as error:
            return refusal("File", f"{file} can't be written: {error.strerror}")
        return None

    def why_not_saved(self) -> Answer | None:
        """The refusal of a host without a log."""
        host = self.host
        if host.standby is not None and (host.standby.logged is not None or not host.standby.is_full):
            return refusal("NoCheckpoint", "no full checkpoint of the guest is here")
        if host.standby is not None:
            return None if host.link.is_up else refusal("NotLinked", "this host keeps no log, and has no link to its live host, which "
                                                                     "has to turn its guest over for a snapshot")
        if host.live is None:
            return refusal("NotLive", f"this host is {host.role}")
        if host.live.mode != ALONE:
            return refusal("NotAlone", "this host has a standby, and keeps no log of its own, as with log = both: save at the standby")
        return None


def status(host):
    """The fields of a status."""
    live, standby, link, now = host.live, host.standby, host.link, time.monotonic()
    since = lambda then: None if then is None else round((now - then) * 1000)
    peer_name, peer_instance = (live.standby or (None, None)) if live else (host.peer or (None, None))
    holder = live or standby
    return {
        "full": host.full, "instance": host.instance, "booted_before": host.state.booted_before,
        "cut": live.cut if live else None, "acknowledged": live.acked if live else None,
        "committed": standby.committed if standby else None, "pending": len(live.pending) if live else 0,
        "unacknowledged_ms": since(live.acked_at) if live and live.pending else 0, "silent_ms": since(link.heard_at),
        "waits": live is not None and live.waits, "stands": live.why_stands(now) if live else None,
        "link": "up" if link.is_up else "down", "link_error": link.error,
        "two_live": host.meeting.are_two_live(now),
        "session": holder.session.hex() if holder and holder.session else None,
        "peer": {"address": "{}:{}".format(*host.settings.peer) if host.settings.peer else None, "name": peer_name,
                 "instance": peer_instance, "role": host.meeting.role_of_peer(now),
                 "successor": live.successor if live else None},
        "stands_on": live.stands_on if live else None,
        "steps": live.steps if live else standby.steps() if standby else 0,
        "late_ms": round(live.late * 1000) if live else 0, "held": live.held if live else 0,
        "log": host.kept.status(), "dead": live.watch.found if live else None, "network_error": host.network.wrong,
        "drift": host.meeting.drift.found or None, "name": host.settings.name, "uptime_ms": since(host.begun), "version": host.version,
    }
