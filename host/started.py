"""Hosts as processes, for tools/serve, host/demo, tests and measurements: each is `remus-host` in a process group of its own, with its
node; and a hub for hosts whose networks are sockets."""
import os
import select
import signal
import socket
import subprocess
import time
from pathlib import Path

from host import ctl

ROOT = Path(__file__).resolve().parents[1]
EXITING = 0x4  # of a task's flags (proc(5)): it ends, in the kernel, and runs no code of its own any more


def fields_of(stat):
    """The fields of a process's or a task's `stat` behind its name: its state is the first, its group the third, its flags the seventh."""
    text = Path(stat).read_text()
    return text[text.rindex(")") + 2 :].split()


def group_of(leader):
    """The processes of a group."""
    found = []
    for entry in Path("/proc").iterdir():
        try:
            if entry.name.isdigit() and fields_of(entry / "stat")[2] == str(leader):
                found.append(int(entry.name))
        except (OSError, ValueError):
            continue
    return found


def runs(process):
    """Whether a process may still run code of its own: it isn't gone, and one of its tasks doesn't end."""
    try:
        tasks = [fields_of(task / "stat") for task in Path(f"/proc/{process}/task").iterdir()]
    except (OSError, ValueError):  # one of them has just gone, or all
        return Path(f"/proc/{process}").exists()
    return any(fields[0] not in "ZX" and not int(fields[6]) & EXITING for fields in tasks)


def free_ports(count):
    """Ports of the loopback that nobody has."""
    held = [socket.socket() for _ in range(count)]
    for one in held:
        one.bind(("127.0.0.1", 0))
    ports = [one.getsockname()[1] for one in held]
    for one in held:
        one.close()
    return ports


class Host:
    """One host. Its folder has all that it needs; `namespace` is that of the network in which it runs."""

    def __init__(self, folder, name, namespace=None, **settings):
        self.folder, self.name, self.namespace = Path(folder), name, namespace
        self.program, self.environment = ROOT / "remus-host", None  # None: this process's
        self.control, self.process = str(self.folder / f"{name}.control"), None
        self.errors = None  # a descriptor that its log is written to, in place of a file
        self.settings = {"name": name, "state": str(self.folder / f"state_{name}"), "control": self.control} | settings

    def start(self, **more):
        """Starts it, empty, and waits until it answers."""
        for name, value in more.items():
            self.settings[name] = value
        config = self.folder / f"{self.name}.toml"
        config.write_text("".join(f"{name} = {spelled(value)}\n" for name, value in self.settings.items()))
        command = [self.program, "run", "--config", config]
        if self.namespace:
            command = ["ip", "netns", "exec", self.namespace, *command]
        with open(self.folder / f"{self.name}.log", "ab") as log:
            self.process = subprocess.Popen([str(word) for word in command], stdin=subprocess.DEVNULL, stdout=log,
                                            stderr=log if self.errors is None else self.errors, start_new_session=True, env=self.environment)
        self.wait(lambda status: True)
        return self

    def signal(self, number):
        os.killpg(self.process.pid, number)

    def halt(self):
        """Kills the whole group, waits until nothing of it runs, and answers when it was killed. What the kernel takes down of it, its tap
        above all, may take longer: for that `kill` waits."""
        killed = time.monotonic()
        self.signal(signal.SIGKILL)
        while any(runs(process) for process in group_of(self.process.pid)):
            time.sleep(0.0005)
        return killed

    def kill(self):
        """Kills the whole group, and waits until it is gone."""
        if self.process is not None and self.process.poll() is None:
            self.signal(signal.SIGKILL)
            self.process.wait()

    def end(self):
        if self.process is not None and self.process.poll() is None:
            self.process.terminate()
            self.process.wait(timeout=20)

    def ask(self, do, patience=30.0, **fields):
        return ctl.ask(self.control, {"do": do} | fields, patience)

    def status(self):
        return self.ask("status")

    def wait(self, is_so, patience=30.0):
        """The first status for which that is so. Raises TimeoutError."""
        end, status = time.monotonic() + patience, None
        while time.monotonic() < end:
            try:
                status = self.status()
                if is_so(status):
                    return status
            except ctl.NoAnswer:
                if self.process.poll() is not None:
                    raise TimeoutError(f"{self.name} ended: {self.said()[-2000:]}") from None
            time.sleep(0.01)
        raise TimeoutError(f"{self.name} isn't as it should be: {status}\n{self.said()[-2000:]}")

    def said(self):
        return (self.folder / f"{self.name}.log").read_text(errors="replace")

    def processor(self):
        """Seconds of processor that the daemon and its node have taken so far."""
        return [int(Path(f"/proc/{pid}/schedstat").read_text().split()[0]) / 1e9 for pid in self.pids()]

    def memory(self):
        """Bytes that the daemon and its node have now."""
        return [int(stat_of(pid)[21]) * os.sysconf("SC_PAGE_SIZE") for pid in self.pids()]

    def pids(self):
        pid = self.process.pid
        return [pid, *map(int, Path(f"/proc/{pid}/task/{pid}/children").read_text().split())]


def stat_of(pid):
    return Path(f"/proc/{pid}/stat").read_text().rpartition(")")[2].split()


def spelled(value):
    """A value as TOML has it."""
    if isinstance(value, bool):
        return str(value).lower()
    if isinstance(value, list):
        return "[" + ", ".join(map(spelled, value)) + "]"
    return str(value) if isinstance(value, (int, float)) else '"' + str(value).replace("\\", "\\\\").replace('"', '\\"') + '"'


def protected(live, standby, patience=30.0):
    """Waits until the live host has a standby with a full checkpoint."""
    standby.wait(lambda status: status["role"] == "standby" and status["full"], patience)
    return live.wait(lambda status: status["mode"] == "paired", patience)


class Hub:
    """The network of hosts whose networks are sockets: what is sent goes to each, as on a hub."""

    def __init__(self, *hosts):
        self.paths = [host.settings["frames"] for host in hosts]
        self.lines = [None for _ in hosts]
        self.fenced = set()  # the places of hosts that are cut off; another thread may add to them

    def line(self, place):
        if place in self.fenced:
            self.cut(place)
            return None
        if self.lines[place] is None:
            line = socket.socket(socket.AF_UNIX, socket.SOCK_SEQPACKET)
            line.setblocking(False)
            try:
                line.connect(self.paths[place])
            except OSError:
                line.close()
                return None
            self.lines[place] = line
        return self.lines[place]

    def send(self, frame):
        for place in range(len(self.paths)):
            if line := self.line(place):
                try:
                    line.send(frame)
                except BlockingIOError:
                    pass
                except OSError:
                    self.cut(place)

    def cut(self, place):
        line, self.lines[place] = self.lines[place], None
        if line:
            line.close()

    def open_lines(self):
        return [line for place in range(len(self.paths)) if (line := self.line(place))]

    def came(self, patience):
        """The frames that came within so many seconds."""
        lines = self.open_lines()
        found = []
        for line in select.select(lines, [], [], patience)[0] if lines else [time.sleep(patience)][:0]:
            try:
                while True:
                    frame = line.recv(2048)
                    if not frame:
                        raise ConnectionError
                    found.append(frame)
            except BlockingIOError:
                pass
            except OSError:
                if line in self.lines:
                    self.cut(self.lines.index(line))
        return found
