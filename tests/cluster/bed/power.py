"""The power switch of the test's hosts, and its socket, at which the test's fence agent asks for a host to be off.

It is the parent of each host's process namespace, so it ends a host by the process that it started. Nothing but the test's own hosts can be
reached by it."""
import os
import signal
import socket
import subprocess
import sys
import threading
import time
from pathlib import Path

from bed import network, priority

HERE = Path(__file__).resolve().parent
OFF_SECONDS = 0.5  # how long a host is off in a reboot


class Power:
    def __init__(self, folder):
        self.folder, self.hosts, self.lock = folder, {}, threading.Lock()
        self.log, self.answers, self.kills, self.boots = [], True, True, True
        self.cut_off = set()  # hosts whose plugs are pulled, and that may run: they don't reach the switch either
        self.socket = socket.socket(socket.AF_UNIX)
        path = folder / "power"
        path.unlink(missing_ok=True)
        self.socket.bind(str(path))
        self.socket.listen(16)
        threading.Thread(target=self.serve, daemon=True).start()

    def note(self, what, host):
        self.log.append((time.time(), what, host))

    def since(self, begin, what, host=None):
        """When that happened first after a time; None if it didn't."""
        return next((at for at, did, whose in list(self.log) if at > begin and did == what and host in (None, whose)), None)

    def is_on(self, host):
        return host in self.hosts and self.hosts[host].poll() is None

    def on(self, host):
        with self.lock:
            if self.is_on(host):
                return
            network.plug_in(host)
            self.cut_off.discard(host)
            with open(self.folder / host / "console", "ab") as console:
                self.hosts[host] = subprocess.Popen(
                    [*priority.before(), "nsenter", "--net=/run/netns/" + network.namespace(host), "unshare", "--mount", "--uts", "--ipc",
                     "--pid", "--fork", "--kill-child", HERE / "boot", host, self.folder],
                    stdin=subprocess.DEVNULL, stdout=console, stderr=console, start_new_session=True)
            self.note("on", host)

    def init(self, host):
        """The host's first process, as this machine numbers it; None of a host that is off."""
        if not self.is_on(host):
            return None
        pid = self.hosts[host].pid
        children = Path(f"/proc/{pid}/task/{pid}/children").read_text().split()
        return int(children[0]) if children else None

    def processes(self, host):
        init = self.init(host)
        if init is None:
            return []
        found, own = [], os.stat(f"/proc/{init}/ns/pid").st_ino
        for name in filter(str.isdigit, os.listdir("/proc")):
            try:
                if os.stat(f"/proc/{name}/ns/pid").st_ino == own:
                    found.append(int(name))
            except OSError:
                pass
        return found

    def signal_all(self, host, number):
        """Each process of a host, as of one that hangs."""
        for pid in self.processes(host):
            try:
                os.kill(pid, number)
            except ProcessLookupError:
                pass

    def cut(self, host):
        """The plugs are pulled first; then the first process is killed, and the kernel kills all others before it is gone."""
        with self.lock:
            network.pull(host)
            init = self.init(host)
            if init is not None:
                os.kill(init, signal.SIGKILL)
                self.hosts[host].wait()
            self.note("dead", host)

    def off(self, host):
        if self.kills:
            self.cut(host)  # the next `on` makes its network anew
        else:
            self.cut_off.add(host)
            network.pull(host)  # only its plugs: it may go on, and reaches nobody
        self.note("off", host)

    def reboot(self, host):
        self.off(host)
        if self.kills and self.boots:
            threading.Timer(OFF_SECONDS, self.on, [host]).start()

    def end(self):
        for host in network.NUMBERS:
            self.cut(host)
        self.socket.close()

    # The socket of the fence agent.

    def serve(self):
        while True:
            try:
                link, _ = self.socket.accept()
            except OSError:
                return
            threading.Thread(target=self.answer, args=(link,), daemon=True).start()

    def answer(self, link):
        asker = int.from_bytes(link.getsockopt(socket.SOL_SOCKET, socket.SO_PEERCRED, 12)[:4], sys.byteorder)
        if any(asker in self.processes(host) for host in self.cut_off):
            link.close()
            return
        with link:
            verb, _, host = link.makefile().readline().strip().partition(" ")
            told = self.do(verb, host)
            try:
                link.sendall(told.encode() + b"\n")
            except OSError:
                pass

    def do(self, verb, host):
        if verb == "status":
            return "on" if self.is_on(host) else "off"
        if host not in network.NUMBERS or verb not in ("on", "off", "reboot"):
            return "bad"
        self.note("asked", host)
        if not self.answers:
            return "the switch doesn't answer"
        {"on": self.on, "off": self.off, "reboot": self.reboot}[verb](host)
        return "ok"
