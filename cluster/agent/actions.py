"""The actions of ocf:remus:pair."""
import os
import sys
import syslog
import time

from agent import parameters
from agent.cluster import Cluster
from agent.daemon import AGAIN_SECONDS, ANSWER_SECONDS, END_SECONDS, PATIENCE_SECONDS, Daemon, Declined, Silent
from agent.life import SCORE_FIRST, SCORE_FULL, SCORE_KEPT, SCORE_LIVE, SCORE_WAITS, Life, alone_in, holds_up_frozen
from agent.life import is_left_half_filled, keeps, may_boot, stale, stalls, why_not, wrong_at
from agent.ocf import DEGRADED, GENERIC, INSTALLED, NOT_RUNNING, PROMOTED, SUCCESS, UNIMPLEMENTED, Failure, meta, run, told, warn

TAKE_SECONDS = 5  # for a demotion before a stop
ANNOUNCED_SECONDS = 0.5  # for a status, once a demote is announced
AS_STANDBY = ("Unpromoted", "Slave")  # what Pacemaker calls an instance, to whose monitor it says so
TWO_LIVE_SECONDS = 5  # longer than from one monitor to the next
HUNG_SECONDS = 30  # from a failed action to the last of those that follow from it
LOST_SECONDS = 10  # nobody has the guest for so long: it isn't just on its way from one host to the other

START_IT = "start Pacemaker there; or, once that host is surely off, 'remus-host ctl promote' here"

# What can't be safe otherwise, as Pacemaker's environment says it of the clone.
CLONE = {"clone_max": "2", "notify": "true", "promoted_max": "1", "clone_node_max": "1"}


class Pair:
    def __init__(self) -> None:
        self.resource = os.environ.get("OCF_RESOURCE_INSTANCE", "pair").partition(":")[0]
        self.daemon, self.cluster = Daemon(self.resource), Cluster(self.resource)
        self.asked = self.daemon.started + ".given-up"  # is there while this host has given its standby up
        self.gone = self.daemon.started + ".gone"  # the standby that the last monitor saw gone
        self.hung = self.daemon.started + ".hung"  # which process said nothing to an action that failed for it
        self.lost = self.daemon.started + ".lost"  # is there, and as old, while nobody has the guest
        self.two_live = self.daemon.started + ".two-live"  # is there, and as old, while this host is live by hand, and another one too
        self.other_lives = self.daemon.started + ".other-lives"  # is there since a promote was refused for that
        self.wrong = self.daemon.started + ".wrong"  # is there while this node's attribute says that something is wrong

    # What the daemon says.

    def status(self, seconds: float = ANSWER_SECONDS) -> dict | None:
        """The daemon's status; None where there is no daemon. One that is slow isn't dead: unless another host has the guest too, it is
        waited for longer."""
        try:
            return self.daemon.status(seconds)
        except Silent as silent:
            if self.cluster.best_score_elsewhere() >= SCORE_FULL:
                self.note(self.hung, self.daemon.identity())
                raise
            warn(f"{silent.reason}. No other host has the guest, so it is waited for")
            return self.daemon.status(PATIENCE_SECONDS)

    def has_hung(self) -> bool:
        """Whether an action failed just before since this daemon said nothing. Another host has the guest, so this one will be ended."""
        try:
            with open(self.hung, encoding="utf-8") as file:
                is_recent = 0 <= time.time() - os.fstat(file.fileno()).st_mtime < HUNG_SECONDS
                return is_recent and file.read() == self.daemon.identity() != "" and self.cluster.best_score_elsewhere() >= SCORE_FULL
        except (OSError, ValueError):
            return False

    def running(self, seconds: float = ANSWER_SECONDS) -> dict:
        """The status of a daemon that has to be there."""
        status = self.status(seconds)
        if status is None:
            self.daemon.refuse_deaf()
            raise Failure(NOT_RUNNING, "remus-host doesn't run")
        return status

    # Scores.

    def score(self, status: dict) -> int | None:
        if status["role"] == "live":
            return SCORE_LIVE
        life = self.cluster.life()
        if status["role"] == "empty":
            return SCORE_FIRST if may_boot(status, life, self.booting(status)) and not self.is_beside_live(status) else None
        if why_not(status, life) is not None or self.is_beside_live(status):
            return None
        return SCORE_KEPT if keeps(status) else SCORE_FULL

    def is_beside_live(self, status: dict) -> bool:
        """Whether a promote was refused here, since the other host is live, and Pacemaker still doesn't know of that: it was stopped there
        while the pair wasn't managed. It wouldn't fence that host, so silence doesn't show that it is off."""
        if not os.path.exists(self.other_lives):
            return False
        if status["peer"].get("role") == "live" and self.cluster.best_score_elsewhere() < SCORE_WAITS:
            return True
        forget(self.other_lives)
        return False

    def booting(self, status: dict) -> str:
        """How the property names this host while it boots the guest: by its instance too, since another one can't know whether it did."""
        return f"{self.cluster.node}:{status['instance']}"

    def publish(self, status: dict) -> None:
        """A life that can't be read is no reason to be promoted, and none to fail."""
        try:
            score = self.score(status)
        except Failure as failure:
            warn(failure.reason)
            score = None
        self.cluster.publish(score)

    # Start and stop.

    def start(self) -> int:
        self.validate(as_clone=True)
        parameters.keep(self.daemon.started)
        status = self.status()
        if status is None:
            self.cluster.publish(None)
            self.daemon.start()
            status = self.running()
        self.publish(status)
        return SUCCESS

    def stop(self) -> int:
        """A move waits for it, so the score is taken back while the daemon ends."""
        import threading
        publishing = threading.Thread(target=self.cluster.publish, args=(None,))
        publishing.start()
        try:
            self.daemon.stop(0 if self.take_guest() else END_SECONDS)
        finally:
            publishing.join()
        self.say_wrong([])
        for note in (self.hung, self.lost, self.two_live, self.other_lives):
            forget(note)
        return SUCCESS

    def reload(self) -> int:
        """A parameter was changed. This never fails: Pacemaker would restart the instance, and what the host holds would be gone. A value
        that can't be taken is warned of, here and by each monitor, and the one before goes on."""
        try:
            self.validate()
            parameters.keep(self.daemon.started)
        except Failure as failure:
            warn(f"a changed parameter isn't taken: {failure.reason}")
        return SUCCESS

    def take_guest(self) -> bool:
        """A live daemon that is told to end would have its standby go live by itself; but who is promoted Pacemaker decides. Answers
        whether the daemon hangs still, so that it needn't be waited for."""
        has_hung = self.has_hung()
        try:
            status = self.daemon.status(AGAIN_SECONDS if has_hung else ANSWER_SECONDS)
            if status is not None and status["role"] == "live":
                self.daemon.ask("demote", TAKE_SECONDS)
        except Failure as failure:
            warn(failure.reason)
            return has_hung and isinstance(failure, Silent)
        return False

    # Monitor.

    def monitor(self) -> int:
        if not self.daemon.note() and not os.path.exists(self.daemon.config):
            return NOT_RUNNING
        try:
            status = self.status()
            if status is None:
                return self.absent()
            self.daemon.adopt()
            if status["role"] == "live":
                return self.monitor_live(status)
            if status["role"] == "frozen" and self.goes_alone(status):
                status = self.running()
            self.refuse_useless(status)
        except Failure as failure:
            if isinstance(failure, Silent) and self.cluster.best_score_elsewhere() < SCORE_FULL:
                return self.leave_alone(failure.reason)
            self.cluster.publish(None)
            raise
        self.publish(status)
        return self.monitor_unpromoted(status)

    def leave_alone(self, why: str) -> int:
        """The daemon runs and can't be asked, and no other host has the guest: to end it would surely end that. A live host keeps its
        score; what else is here mustn't be promoted meanwhile. A probe isn't told which it is, and this host's score tells it."""
        is_promoted = meta("role") not in AS_STANDBY if meta("role") else self.cluster.says_live()
        if not is_promoted:
            self.cluster.publish(None)
        self.say_wrong([f"{why}. No other host has the guest, so the daemon is left as it is"])
        return PROMOTED if is_promoted else SUCCESS

    def monitor_unpromoted(self, status: dict) -> int:
        """What is wrong is said, and Pacemaker leaves the instance as it is."""
        try:
            lost = self.why_lost(status)
        except Failure as failure:
            self.say_wrong([failure.reason, *wrong_at(status)])
            return SUCCESS
        beside = [f"the other host is live, and Pacemaker doesn't know of it: {START_IT}"] if self.is_beside_live(status) else []
        self.say_wrong([*([lost] if lost else []), *beside, *wrong_at(status)])
        if lost:
            raise Failure(DEGRADED, lost)
        return SUCCESS

    def refuse_useless(self, status: dict) -> None:
        """Nothing can become of what stands here, and Pacemaker is to start the instance anew."""
        if status["instance"] in self.cluster.given_up():
            raise Failure(GENERIC, "this standby was given up: it has to begin anew")
        if is_left_half_filled(status) and self.cluster.life() is None:
            raise Failure(GENERIC, "this standby was left half filled, and a new guest may be booted: it has to begin anew")
        if holds_up_frozen(status):
            raise Failure(GENERIC, "this standby was left half filled, and its live host stands with the guest: it has to begin anew")

    def why_lost(self, status: dict) -> str | None:
        """Why nobody goes on with the guest that the property names, if that is so for a while."""
        life = self.cluster.life()
        here = None if life is None or not life.name else why_not(status, life)
        if life is None or here is None or self.cluster.best_score_elsewhere() >= SCORE_FULL:
            forget(self.lost)
            return None
        if self.lasts(self.lost) < LOST_SECONDS:
            return None
        which = f"here: {here}; it is of life {life.name}"
        if status["role"] == "frozen" and status["life"] == life.name:
            return ("the guest is live nowhere, and stands here: have its standby stopped for good, and it goes on. Keep the property "
                    f"({which})")
        return (f"the guest is live nowhere, and no host can go on with it; a new one is booted once {self.cluster.life_name} is deleted "
                f"({which})")

    def say_wrong(self, sentences: list[str]) -> None:
        """Has the node's attribute say what is wrong here, the parameters too; or takes it back."""
        sentences = [*sentences, *parameters.wrong(self.daemon)]
        if sentences:
            self.cluster.say_wrong("; ".join(sentences).replace('"', "'"))
            self.note(self.wrong)
        elif os.path.exists(self.wrong):
            self.cluster.say_nothing()
            forget(self.wrong)

    def goes_alone(self, status: dict) -> bool:
        """Has the guest go on alone where its standby has surely stopped and no notification said so: Pacemaker forgets one where it gives
        up what it was about, since its members change meanwhile. Where anything fails it is tried again by the next monitor."""
        last, standby = self.take_gone(), status["peer"].get("instance")
        if status["mode"] == "alone" or not standby:
            return False
        why = self.why_stopped(status, last == standby)
        if why is None:
            return False
        try:
            self.refuse_unsafe()
            self.cluster.write_life(Life(status["life"], status["generation"]))
            self.daemon.command("alone", standby=standby)
        except Failure as failure:
            warn(f"the guest doesn't go on alone yet. {failure.reason}")
            return False
        warn(f"the standby {standby} has stopped: {why}. The guest goes on alone")
        return True

    def why_stopped(self, status: dict, was_gone: bool) -> str | None:
        """Why its standby has surely stopped, if so. Another instance has come from its host since. Or nothing comes from it any more, or
        the guest stands, and for two monitors in a row the cluster's state has none that runs elsewhere: while a node comes back, what runs
        there isn't shown for a moment."""
        peer = status["peer"]
        if peer.get("successor"):
            return f"another instance, {peer['successor']}, has come from its host"
        if (status["role"] == "frozen" or self.has_stalled(status)) and self.cluster.has_stopped_elsewhere():
            self.note(self.gone, peer["instance"])
            return "Pacemaker says so, and no notification did" if was_gone else None
        return None

    def take_gone(self) -> str:
        try:
            with open(self.gone, encoding="utf-8") as file:
                standby = file.read()
            os.unlink(self.gone)
        except (OSError, ValueError):
            return ""
        return standby

    def note(self, path: str, text: str = "") -> None:
        """That no note can be kept is no failure of the guest's."""
        try:
            os.makedirs(self.daemon.folder, mode=0o755, exist_ok=True)
            with open(path, "w", encoding="utf-8") as file:
                file.write(text)
        except OSError as error:
            warn(f"{path} can't be written: {error}")

    def lasts(self, path: str) -> float:
        """For how many seconds a note is there; where it isn't yet, or the clock went back, it is from now on."""
        try:
            seconds = time.time() - os.stat(path).st_mtime
        except OSError:
            seconds = -1
        if seconds < 0:
            self.note(path)
        return max(seconds, 0)

    def absent(self) -> int:
        """Nobody listens: no daemon was started, or it has ended, or its socket is gone."""
        self.daemon.refuse_deaf()
        if self.daemon.note():
            raise Failure(NOT_RUNNING, "remus-host has ended")
        return NOT_RUNNING

    def monitor_live(self, status: dict) -> int:
        self.refuse_stale(status)
        forget(self.other_lives)
        if self.goes_alone(status):
            status = self.running()
        self.cluster.publish(SCORE_WAITS if self.has_stalled(status) else SCORE_LIVE)
        self.say_wrong([*self.name_life(status), *wrong_at(status)])
        self.watch_standby(status)
        self.watch_network(status)
        return SUCCESS if self.was_promoted_by_hand() else PROMOTED

    def was_promoted_by_hand(self) -> bool:
        """Whether Pacemaker takes this live host for a standby, and nobody else is live. Pacemaker would stop it if it were told so; by its
        score it promotes it. Another host's score says for a while that it is live, after it has handed the guest on: until its monitor."""
        if meta("role") not in AS_STANDBY or self.cluster.best_score_elsewhere() <= SCORE_FULL:
            forget(self.two_live)
            return meta("role") in AS_STANDBY
        return self.lasts(self.two_live) < TWO_LIVE_SECONDS

    def refuse_stale(self, status: dict) -> None:
        try:
            why = stale(status, self.cluster.life())
        except Failure:
            return  # what can't be read is no reason to stop a live host
        if why:
            raise Failure(GENERIC, why)

    def name_life(self, status: dict) -> list[str]:
        """Writes the property of a live guest where it isn't there, or the guest has gone on alone since. Where that can't be done it is
        done by a later monitor. Answers what is wrong, if something is."""
        try:
            now, true = self.cluster.life(), alone_in(status)
            if now is not None and now.name not in ("", true.name):
                why = f"the life of the guest here is {true.name}, and {self.cluster.life_name} says {now}: no standby of it goes live"
                syslog.syslog(syslog.LOG_ERR, why)
                return [why]
            if now is None or not now.name or now.generation < true.generation:
                self.cluster.write_life(true)
        except Failure as failure:
            warn(failure.reason)
            return [failure.reason]
        return []

    def has_stalled(self, status: dict) -> bool:
        return stalls(status, parameters.stall(self.daemon.started))

    def watch_standby(self, status: dict) -> None:
        """Asks for a standby that acknowledges nothing to be stopped, and takes that back where it acknowledges again."""
        standby = status["peer"].get("instance")
        if standby and self.has_stalled(status):
            warn(f"nothing was acknowledged for {status['unacknowledged_ms']} ms: the standby {standby} is given up")
            self.cluster.give_up(standby)
            self.note(self.asked)
        elif os.path.exists(self.asked):
            self.cluster.keep()
            forget(self.asked)

    @staticmethod
    def watch_network(status: dict) -> None:
        """A live host whose tap or bridge is gone fails where its standby can go on. One that is alone has the only guest: that isn't
        stopped for a network that may come back."""
        error = status.get("network_error")
        if error and status["mode"] == "paired":
            raise Failure(GENERIC, f"the guest's network doesn't carry: {error}")
        if error:
            warn(f"the guest's network doesn't carry: {error}. Nobody else has the guest")

    # Promote and demote.

    def promote(self) -> int:
        try:
            self.go_live()
        except Failure as failure:
            if isinstance(failure, Declined) and failure.name == "PeerIsLive" and not self.follows("demote", "stop"):
                self.note(self.other_lives)
            self.cluster.publish(None)
            raise
        self.cluster.publish(SCORE_LIVE)
        return SUCCESS

    def go_live(self) -> None:
        status = self.running()
        if status["role"] != "live":
            unsafe = self.cluster.unsafe()
            if unsafe:
                raise Failure(GENERIC, unsafe)
            life = self.cluster.life()
            if may_boot(status, life, self.booting(status)):
                self.boot(self.booting(status))
            else:
                reason = why_not(status, life)
                if reason:
                    raise Failure(GENERIC, reason)
                self.daemon.command("promote", **({"fenced": True} if self.follows("stop") else {}))
        status = self.running()
        self.refuse_stale(status)
        self.name_life(status)

    def follows(self, *operations: str) -> bool:
        """Whether Pacemaker had one of these done with the other instance just before this promote, which it orders so. After a stop, by its
        agent or by fencing, what the daemon heard of its peer before says nothing; else the daemon looks whether that is live."""
        nodes = [node for operation in operations for node in meta(f"notify_{operation}_uname").split()]
        return any(node != self.cluster.node for node in nodes)

    def boot(self, booting: str) -> None:
        """Boots the guest. The property is written before, so that it is there whatever becomes of this host meanwhile."""
        self.cluster.write_life(Life("", 0, booting))
        answer = self.daemon.ask("promote", boot=True, new=True)
        if answer is None:
            raise Failure(NOT_RUNNING, "remus-host ended while it booted the guest")
        if not answer.get("ok"):
            self.cluster.delete_life()  # nothing was booted
            code = GENERIC if answer.get("refused") in ("NotEmpty", "Busy", "PeerIsLive") else INSTALLED
            raise Declined("boot the guest", answer, code)

    def demote(self) -> int:
        try:
            self.stop_guest()
        except Failure:
            self.cluster.publish(None)
            raise
        return SUCCESS

    def stop_guest(self) -> None:
        """It is kept here until it is live elsewhere, so that this host is promoted again where its standby is stopped before."""
        status = self.running(AGAIN_SECONDS if self.has_hung() else ANSWER_SECONDS)
        if status["role"] != "live":
            return self.publish(status)
        self.publish_to_be_demoted(status)
        answer = self.daemon.command("demote")
        syslog.syslog(syslog.LOG_INFO, "demoted: the standby has all" if answer.get("handed_on") else "demoted: the guest is kept here")
        if not answer.get("handed_on"):
            self.publish(self.running())

    def demote_is_announced(self) -> None:
        """Nothing waits for long for a daemon that hangs."""
        try:
            status = self.daemon.status(ANNOUNCED_SECONDS)
        except Failure:
            status = None
        self.publish_to_be_demoted(status)

    def publish_to_be_demoted(self, status: dict | None) -> None:
        """What a live host's score is once it is demoted, as far as that is known: Pacemaker plans anew while the guest still runs."""
        is_handed_on = status is not None and (status["role"], status["mode"], status["link"]) == ("live", "paired", "up")
        self.cluster.publish(SCORE_KEPT if is_handed_on else None)

    # Notify.

    def notify(self) -> int:
        what = meta("notify_type"), meta("notify_operation")
        others = [node for node in meta(f"notify_{what[1]}_uname").split() if node != self.cluster.node]
        if what == ("pre", "demote") and self.cluster.node in meta("notify_demote_uname").split():
            self.demote_is_announced()
        elif what == ("post", "stop") and others:
            self.standby_has_stopped()
        elif what == ("post", "promote") and others:
            self.other_is_live()
        return SUCCESS

    def standby_has_stopped(self) -> None:
        """Pacemaker says that the other instance has stopped: by its agent, or since its host is fenced."""
        forget(self.other_lives)
        status = self.status()
        if status is None or status["role"] not in ("live", "frozen") or status["mode"] == "alone":
            return
        self.refuse_unsafe()
        self.refuse_stale(status)
        try:
            self.cluster.write_life(Life(status["life"], status["generation"]))  # no checkpoint of this generation goes live any more
        except Failure as failure:
            warn(failure.reason)
        standby = status["peer"].get("instance")
        self.daemon.command("alone", **({"standby": standby} if standby else {}))
        if status["role"] == "frozen":
            self.publish(self.running())

    def refuse_unsafe(self) -> None:
        unsafe = self.cluster.unsafe()
        if unsafe:
            raise Failure(GENERIC, f"the guest doesn't go on alone. {unsafe}")

    def other_is_live(self) -> None:
        """A guest that was stopped here and has gone on there, or a checkpoint of another guest, is of no use any more: this host has to
        begin anew. One that is alone with its guest, and by the property in the last generation, keeps it: the other one is stale."""
        status = self.status()
        if status is None or status["role"] not in ("frozen", "standby"):
            return
        life = self.cluster.life()
        is_another = life is not None and life.name not in ("", status["life"])
        if self.has_gone_on(status, life) or status["full"] and is_another:
            self.cluster.give_up(status["instance"])

    def has_gone_on(self, status: dict, life: Life | None) -> bool:
        """Whether a guest that was stopped here is live at the other host. Pacemaker tells of a promote that failed as of one that didn't:
        by the property the guest was alone there since, or the other host's score is a live one's."""
        if status["role"] != "frozen" or why_not(status, life) is None:
            return False
        return stale(status, life) is not None or self.cluster.best_score_elsewhere() >= SCORE_WAITS

    # Validate.

    def validate(self, as_clone: bool = False) -> int:
        self.validate_clone(as_clone)
        unsafe = self.cluster.unsafe()
        if unsafe:
            raise Failure(INSTALLED, unsafe)
        if wrong := parameters.wrong_stall():
            raise Failure(INSTALLED, wrong)
        if not os.access(self.daemon.program, os.X_OK) or os.path.isdir(self.daemon.program):
            raise Failure(INSTALLED, f"{self.daemon.program} isn't there, or can't be run")
        self.daemon.configured_control()
        checked = run(self.daemon.program, "check", "--config", self.daemon.config)
        if checked.returncode != 0:
            raise Failure(INSTALLED, checked.stderr or checked.stdout or f"{self.daemon.config} was refused")
        return SUCCESS

    @staticmethod
    def validate_clone(as_clone: bool) -> None:
        """By hand nothing is said of the clone, and then there is nothing to refuse."""
        for name, value in CLONE.items():
            said = meta(name) or (meta("master_max") if name == "promoted_max" else "")
            must = as_clone and name in ("clone_max", "notify")
            if said.lower() != value and (said or must):
                raise Failure(INSTALLED, f"the clone must have {name.replace('_', '-')}={value}, and has {said or 'none'}")


ACTIONS = {"start": Pair.start, "stop": Pair.stop, "monitor": Pair.monitor, "promote": Pair.promote, "demote": Pair.demote,
           "notify": Pair.notify, "reload-agent": Pair.reload, "validate-all": Pair.validate}


def forget(path: str) -> None:
    try:
        os.unlink(path)
    except OSError:
        pass


def meta_data() -> str:
    """What Pacemaker and its shells show of the agent. The version is that of the whole, in a file above the agent's folder."""
    here = os.path.dirname(os.path.realpath(__file__))
    with open(os.path.join(here, "metadata.xml"), encoding="utf-8") as file:
        text = file.read()
    with open(os.path.join(here, "..", "..", "VERSION"), encoding="utf-8") as file:
        return text.replace("@VERSION@", file.read().strip())


def main(words: list[str]) -> int:
    action = words[0] if len(words) == 1 else ""
    if action in ("meta-data", "metadata"):
        sys.stdout.write(meta_data())
        return SUCCESS
    if action not in ACTIONS:
        print(f"usage: pair {'|'.join([*ACTIONS, 'meta-data'])}", file=sys.stderr)
        return SUCCESS if action in ("usage", "help") else UNIMPLEMENTED
    syslog.openlog("pair", syslog.LOG_PID, syslog.LOG_DAEMON)
    try:
        return ACTIONS[action](Pair())
    except Failure as failure:
        print(f"ocf-exit-reason:{told(failure.reason)}", file=sys.stderr)
        return failure.code
    except OSError as error:
        print(f"ocf-exit-reason:{told(str(error))}", file=sys.stderr)
        return GENERIC
