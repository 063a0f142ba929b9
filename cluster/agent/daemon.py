"""The daemon of this host, by its control socket and its process."""
import json
import os
import signal
import socket
import sys
import time
from collections.abc import Callable
from io import BufferedIOBase

from agent.ocf import GENERIC, INSTALLED, NOT_RUNNING, Failure, parameter, warn

ANSWER_SECONDS = 3  # a daemon that says nothing for so long hangs, where another host has the guest too
PATIENCE_SECONDS = 9  # and where none has, after so many more
AGAIN_SECONDS = 0.3  # for one that has hung just now, and may have woken since
CHANGE_SECONDS = 15  # promote, demote, alone: the daemon's own limits are shorter
END_SECONDS = 2  # from SIGTERM to SIGKILL
KILL_SECONDS = 15
ACTION_SECONDS = 18  # of the 20 that the configuration gives an action
ROLES = ("empty", "standby", "live", "frozen")


def runs_since(pid: int) -> str | None:
    """The start time of a process that runs; None of one that has ended."""
    try:
        with open(f"/proc/{pid}/stat", encoding="utf-8", errors="replace") as file:
            words = file.read().rpartition(")")[2].split()
    except (FileNotFoundError, ProcessLookupError):
        return None
    return None if words[0] in "ZX" else words[19]


def session_of(pid: int) -> int | None:
    try:
        return os.getsid(pid)
    except ProcessLookupError:
        return None


def tell(pid: int, number: int) -> None:
    try:
        os.kill(pid, number)
    except ProcessLookupError:
        pass


def wait(remaining: Callable[[], list[int]], seconds: float) -> list[int]:
    """Waits until nothing remains, for so long at most; answers what does."""
    end = time.monotonic() + seconds
    while (left := remaining()) and time.monotonic() < end:
        time.sleep(0.01)
    return left


class Silent(Failure):
    """The daemon is there, and says nothing."""


class Declined(Failure):
    """The daemon refused what it was told, and `name` is how it calls that."""

    def __init__(self, verb: str, answer: dict, code: int = GENERIC) -> None:
        self.name = answer.get("refused")
        super().__init__(code, f"remus-host refused to {verb}: {answer.get('why', answer)}")


class Daemon:
    def __init__(self, resource: str) -> None:
        self.config = parameter("config", "/etc/remus/host.toml")
        self.program = parameter("program", "/usr/bin/remus-host")
        self.log = parameter("log", "/var/log/remus-host.log")
        self.folder = os.environ.get("REMUS_RUN", "/run/remus")
        self.started = os.path.join(self.folder, resource + ".started")
        self.begun = time.monotonic()

    def note(self) -> dict:
        """What start left: the process, its start time, its control socket. Empty where nothing was started."""
        try:
            with open(self.started, encoding="utf-8") as file:
                return json.load(file)
        except (OSError, ValueError):
            return {}

    def keep(self, note: dict) -> None:
        os.makedirs(self.folder, mode=0o755, exist_ok=True)
        with open(self.started + ".new", "w", encoding="utf-8") as file:
            json.dump(note, file)
        os.rename(self.started + ".new", self.started)

    def adopt(self) -> None:
        """Notes a daemon that somebody else started as one's own, so that a configuration which is changed meanwhile doesn't hide it."""
        try:
            if not self.note() and (pid := self.process()) is not None:
                self.keep({"pid": pid, "since": runs_since(pid), "control": self.configured_control(), "config": self.config})
        except (OSError, Failure) as failure:
            warn(f"the daemon that runs can't be noted: {failure}")

    def identity(self) -> str:
        """Of the process that was started; empty where none was."""
        note = self.note()
        return f"{note['pid']} {note['since']}" if note.get("since") else ""

    def forget(self) -> None:
        try:
            os.unlink(self.started)
        except FileNotFoundError:
            pass

    def configured_control(self) -> str:
        import tomllib  # only where it is wanted: it takes longer than all else here
        try:
            with open(self.config, "rb") as file:
                return str(tomllib.load(file).get("control", "/run/remus/control.sock"))
        except OSError as error:
            raise Failure(INSTALLED, f"{self.config} can't be read: {error.strerror}") from None
        except (tomllib.TOMLDecodeError, UnicodeDecodeError) as error:
            raise Failure(INSTALLED, f"{self.config} isn't TOML: {error}") from None

    # The control socket.

    def connect(self) -> socket.socket | None:
        """None where nobody listens. The socket is that of what was started, so that a file which is edited meanwhile hides nothing."""
        path = self.note().get("control") or self.configured_control()
        link = socket.socket(socket.AF_UNIX)
        link.settimeout(ANSWER_SECONDS)
        try:
            link.connect(path)
            return link
        except (FileNotFoundError, ConnectionRefusedError, NotADirectoryError):
            link.close()
            return None
        except (TimeoutError, BlockingIOError):  # so many wait for it that there is no room for one more
            link.close()
            raise Silent(GENERIC, "remus-host doesn't answer: it takes no connection") from None
        except OSError as error:
            link.close()
            raise Failure(GENERIC, f"remus-host can't be asked: {error}") from None

    def ask(self, verb: str, seconds: float = CHANGE_SECONDS, **fields: object) -> dict | None:
        """The daemon's answer; None where there is no daemon."""
        link = self.connect()
        if link is None:
            return None
        with link:
            text = self.exchange(link, json.dumps({"do": verb, **fields}).encode() + b"\n", verb, seconds)
        if not text:
            return None
        try:
            answer = json.loads(text)
        except ValueError:
            answer = None
        if not isinstance(answer, dict):
            raise Failure(GENERIC, "remus-host's answer can't be understood")
        return answer

    def left(self, seconds: float) -> float:
        """So many seconds, or as many as this action may still take before Pacemaker breaks it off."""
        return max(0.1, min(seconds, self.begun + ACTION_SECONDS - time.monotonic()))

    def exchange(self, link: socket.socket, line: bytes, verb: str, seconds: float) -> bytes:
        """The line that answers this one; nothing where the daemon ended meanwhile."""
        end, text = time.monotonic() + self.left(seconds), b""
        try:
            link.sendall(line)
            while not text.endswith(b"\n"):
                link.settimeout(max(0.001, end - time.monotonic()))
                more = link.recv(65536)
                if not more:
                    return b""
                text += more
        except TimeoutError:
            raise Silent(GENERIC, f"remus-host doesn't answer: '{verb}' took more than {seconds:g} s") from None
        except OSError:
            return b""
        return text

    def status(self, seconds: float = ANSWER_SECONDS) -> dict | None:
        answer = self.ask("status", seconds)
        if answer is not None and (not answer.get("ok") or answer.get("role") not in ROLES):
            raise Failure(GENERIC, f"remus-host didn't say its status: {answer.get('why', answer)}")
        return answer

    def command(self, verb: str, **fields: object) -> dict:
        """Has the daemon do it, once what it is busy with is done."""
        end = time.monotonic() + self.left(CHANGE_SECONDS)
        while True:
            answer = self.ask(verb, **fields)
            if answer is None:
                raise Failure(NOT_RUNNING, f"remus-host ended while it was told to {verb}")
            if answer.get("ok"):
                return answer
            if answer.get("refused") != "Busy" or time.monotonic() > end:
                raise Declined(verb, answer)
            time.sleep(0.05)

    # The process.

    def start(self) -> None:
        """Starts the daemon, in a session of its own, and waits until it answers; Pacemaker ends a start that takes too long."""
        control = self.configured_control()
        words = [self.program, "run", "--config", self.config]
        if os.path.exists("/run/systemd/journal/stdout"):
            daemon = self.spawn(["systemd-cat", "--identifier=remus-host", *words])
        else:
            with open(self.log, "ab") as log:
                daemon = self.spawn(words, log)
        self.keep({"pid": daemon.pid, "since": runs_since(daemon.pid), "control": control, "config": self.config})
        while self.status() is None:
            if daemon.poll() is not None:
                self.forget()
                raise Failure(GENERIC, f"remus-host ended at once, with status {daemon.returncode}: its log says why")
            time.sleep(0.02)

    @staticmethod
    def spawn(words: list[str], log: BufferedIOBase | None = None) -> "subprocess.Popen":
        import subprocess  # only where it is wanted, as tomllib
        out = log or subprocess.DEVNULL
        return subprocess.Popen(words, stdin=subprocess.DEVNULL, stdout=out, stderr=out, start_new_session=True, cwd="/")

    def process(self) -> int | None:
        """The daemon's process: the one that was started, if it is still that one, or else whoever listens at the socket."""
        note = self.note()
        if note.get("since") and runs_since(note["pid"]) == note["since"]:
            return int(note["pid"])
        try:
            link = self.connect()
        except Failure:
            return None
        if link is None:
            return None
        with link:
            told = link.getsockopt(socket.SOL_SOCKET, socket.SO_PEERCRED, 12)
        return int.from_bytes(told[:4], sys.byteorder) or None

    def refuse_deaf(self) -> None:
        if self.process() is not None:
            raise Silent(GENERIC, "remus-host runs, but doesn't listen")

    def stop(self, seconds: float = END_SECONDS) -> None:
        """Ends the daemon, by itself within so many seconds, its node, and whatever else is of its session; fails where one doesn't end."""
        pid = self.process()
        if pid is not None:
            session = pid if session_of(pid) == pid else None  # in another one there may be others
            tell(pid, signal.SIGTERM)
            wait(lambda: [pid] if runs_since(pid) else [], seconds)
            left = wait(lambda: self.kill(pid, session), KILL_SECONDS)
            if left:
                raise Failure(GENERIC, f"the processes {left} of remus-host don't end")
        self.forget()

    @staticmethod
    def kill(pid: int, session: int | None) -> list[int]:
        """Kills what is left, and answers that."""
        left = [pid] if runs_since(pid) else []
        if session is not None:
            left = [one for one in map(int, filter(str.isdigit, os.listdir("/proc"))) if session_of(one) == session and runs_since(one)]
        for one in left:
            tell(one, signal.SIGKILL)
        return left
