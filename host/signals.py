"""Signals. SIGTERM, Ctrl-C and Ctrl-\\ end the daemon; one whose host is live and paired hands its guest to the standby first, and one that
is alone and keeps logs writes it there. Each other one that can be caught ends and stops nothing."""
import signal
import socket
import time
from types import FrameType

from host.log import last
from host.modes import PAIRED
from host.node import FAULTS, SHIELDED
from host.stopping import Stop
from host.tasks import Drain

ONE = 0.3  # seconds: what comes within them is one signal, which timeout(1) and others send to a process and to its group
ENDS = {signal.SIGINT, signal.SIGTERM, signal.SIGQUIT}
RELOADS = {signal.SIGHUP, signal.SIGUSR1, signal.SIGUSR2}
HARMLESS = {signal.SIGURG, signal.SIGWINCH, signal.SIGXFSZ}  # of which nobody is told
TERMINAL = {signal.SIGTTIN, signal.SIGTTOU}  # as what is in the background gets them: a log goes to the terminal all the same
IDLE = SHIELDED - ENDS - HARMLESS - TERMINAL


class AtOnce(BaseException):
    """A second signal to end came, and what is under way is left: nobody takes this for something that went wrong there."""


class Signals:
    """`host` is the daemon. A signal ends its wait, and is heard by its next turn; `came` is what the wait looks at."""

    def __init__(self, host: "Daemon") -> None:
        self.host, self.told_at, self.is_left = host, None, False  # when it was told to end; whether a second signal came
        self.came, self.wakes = socket.socketpair()
        for end in (self.came, self.wakes):
            end.setblocking(False)

    def listen(self) -> None:
        signal.set_wakeup_fd(self.wakes.fileno(), warn_on_full_buffer=False)
        for number in ENDS:
            signal.signal(number, self.end)
        for number in IDLE:
            signal.signal(number, lambda *_: None)
        for number in TERMINAL:
            signal.signal(number, signal.SIG_IGN)
        signal.pthread_sigmask(signal.SIG_BLOCK, FAULTS)  # those that somebody else sends: for a fault the kernel ends a process all the same

    def end(self, number: int, frame: FrameType | None) -> None:
        now = time.monotonic()
        if self.told_at is None:
            self.told_at = now
        elif now - self.told_at > ONE and not self.is_left:
            self.is_left = True
            raise AtOnce

    def hear(self, now: float) -> None:
        """What came since the last wait."""
        for number in dict.fromkeys(self.came.recv(4096)):
            name = name_of(number)
            if number in ENDS:
                self.hand_on(name, now)
            elif number in RELOADS:
                self.host.log.warning(f"{name}: there is nothing to reload, and this host goes on as it was: key and certificates are read "
                                      "for each new link, and another configuration takes a new start of the daemon")
            else:
                self.host.log.warning(f"{name}: nothing is asked by that here, and this host goes on as it was")

    def hand_on(self, name: str, now: float) -> None:
        host = self.host
        if isinstance(host.task, Drain):
            host.log.info(f"{name}: {host.task.name}, and this host ends once that is over; it ends at once by a second signal")
            host.task.has_to_end()
            asked = host.task.answer
            host.task.answer = lambda answer: (asked(answer), self.is_over(answer))
        elif host.role == "live" and host.live.mode == PAIRED and host.task is None and (host.live.own is None or host.live.is_linked):
            host.log.info(f"{name}: {host.live.standby[0]} gets the guest first, within {host.settings.drain_ms * 1000:.0f} ms; this host "
                          "ends at once by a second signal")
            host.task = Drain(host, host.settings.drain_ms, True, False, self.is_over, now, ends=True)
            host.turn_task(now)
        else:
            self.keep_guest(name, now)

    def is_over(self, answer: dict) -> None:
        """A drain is over."""
        host = self.host
        if host.live is not None and host.live.own is not None:
            host.log.warning("the guest wasn't handed on")
            return self.keep_guest("told to end", host.link.now())
        if not answer["ok"]:
            host.log.warning("the guest wasn't handed on: what this host held is gone, and its standby can be promoted")
        host.end()

    def keep_guest(self, name: str, now: float) -> None:
        """This host ends, once what it has of the guest is in a log, if it keeps one."""
        host = self.host
        if host.task is not None:
            host.task.fail("this host is told to end")
        if last.is_due(host):
            host.log.info(f"{name}: nobody is there to hand the guest to; it stops, and is written into a log of its own")
            last.keep(host)
        if host.live is None or host.live.own is None:
            return host.end()
        host.log.info(f"{name}: nobody is there to hand the guest to; it stops, and is kept in this host's log")
        host.task = Stop(host, host.settings.drain_ms, self.is_kept, now)
        host.turn_task(now)

    def is_kept(self, wrong: str | None) -> None:
        """The guest is in the log, or isn't."""
        live, log = self.host.live, self.host.log
        if wrong is None:
            log.info(f"the guest is kept in this host's log, up to checkpoint {live.cut} of generation {live.generation}: started again, this "
                     "host can go on from it")
        else:
            log.error(wrong)
        self.host.end()

    @staticmethod
    def ignore() -> None:
        """From now on: the daemon ends."""
        signal.set_wakeup_fd(-1)
        for number in (*ENDS, *IDLE):
            signal.signal(number, signal.SIG_IGN)


def name_of(number: int) -> str:
    try:
        return signal.Signals(number).name
    except ValueError:
        return f"signal {number}"  # most of those without a meaning
