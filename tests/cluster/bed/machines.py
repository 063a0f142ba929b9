"""Two hosts with the package, Corosync and Pacemaker, and what a test asks of them."""
import datetime
import json
import re
import shutil
import signal
import socket
import subprocess
import sys
import time
import xml.etree.ElementTree as xml
from pathlib import Path

from bed import disks, network, priority
from bed.power import Power

HERE = Path(__file__).resolve().parent
BOOT_SECONDS = 60
CLIENT_SECONDS = 30  # from SIGTERM to what a client was told
LIVE = re.compile(r"booted .*: life|live in generation|live again|live with the guest")
QUIET = re.compile(r"frozen: the guest is kept|drained: checkpoint")
LINE = re.compile(r"(?m)^(\S+)Z (\w+) (\w+): (.*)$")
# What Corosync and Pacemaker say of a failure: the log, and a pattern of its line.
EVENTS = {"token lost": ("corosync.log", "A processor failed, forming new configuration"),
          "members agreed": ("corosync.log", "A new membership"),
          "fencing wanted": ("pacemaker/pacemaker.log", r"Requesting fencing \(\w+\) of node")}


class TooLate(Exception):
    pass


def command_line(pid: int) -> bytes:
    """Of a process; empty where it has just gone."""
    try:
        return Path(f"/proc/{pid}/cmdline").read_bytes()
    except OSError:
        return b""


class Bed:
    def __init__(self, folder, program, node, database, token, delay, logs=None):
        self.folder, self.program, self.node, self.database = folder, program, node, database
        self.token, self.delay, self.logs = token, delay, logs
        self.guest, self.guests_before = None, 0
        self.record = folder / "record"
        self.past = []  # the times that a host went live, on disks that are no more
        self.others = dict(zip(network.NUMBERS, reversed(network.NUMBERS)))
        for host in network.NUMBERS:
            (folder / host).mkdir(parents=True, exist_ok=True)

    def __enter__(self):
        network.up()
        self.power = Power(self.folder)
        self.made = disks.package(self.folder, self.program)
        disks.install(self.folder, self.made)
        command = [*priority.before(), "ip", "netns", "exec", network.SWITCH, sys.executable, HERE / "record.py", self.record]
        self.recorder = subprocess.Popen(command, stdout=subprocess.PIPE, text=True)
        self.recorder.stdout.readline()
        return self

    def __exit__(self, *_):
        self.power.end()
        self.keep_logs()
        self.recorder.terminate()
        self.lost_of_record = int(self.recorder.communicate(timeout=20)[0] or -1)
        network.down()

    def new(self, guest):
        """Both hosts off, new disks, on: a new guest."""
        self.guest = guest
        for host in network.NUMBERS:
            self.power.off(host)
        self.past = self.terms()
        self.keep_logs()
        disks.copy_installed(self.folder)
        disks.configure(self.folder, guest, self.node, self.token, self.delay)
        for host in network.NUMBERS:
            self.power.on(host)
        self.pair()
        self.until(self.guest_answers, 20, "an answer of the guest's")

    def keep_logs(self):
        """What both hosts logged of the guest that ends, where it is asked for."""
        if self.logs and self.guests_before:
            for host in network.NUMBERS:
                shutil.copytree(self.folder / host / "var/log", self.logs / f"{self.guests_before}-{host}", dirs_exist_ok=True)
        self.guests_before += 1

    def guest_answers(self):
        """Whether the guest has begun: it answers an echo, or its counter does."""
        words = ["ip", "netns", "exec", network.CLIENT, sys.executable, HERE / "client.py", "ready"]
        return subprocess.run(words).returncode == 0

    # Hosts.

    def on(self, host, *words, seconds=60):
        """Runs a command in a host."""
        init = self.power.init(host)
        if init is None:
            return subprocess.CompletedProcess(words, 255, "", f"{host} is off")
        enter = ["nsenter", "-t", str(init), "--mount", "--uts", "--ipc", "--pid", "--net"]
        clean = ["env", "-i", "PATH=/usr/sbin:/usr/bin:/sbin:/bin", "LC_ALL=C"]
        return subprocess.run([*enter, *clean, *map(str, words)], capture_output=True, text=True, timeout=seconds, stdin=subprocess.DEVNULL)

    def ask(self, host, **fields):
        """What the host's daemon answers; None where there is none, or it says nothing."""
        init = self.power.init(host)
        if init is None:
            return None
        with socket.socket(socket.AF_UNIX) as link:
            link.settimeout(2)
            try:
                link.connect(f"/proc/{init}/root/run/remus/control.sock")
                link.sendall(json.dumps(fields).encode() + b"\n")
                return json.loads(link.makefile().readline() or "null")
            except OSError:
                return None

    def status(self, host):
        return self.ask(host, do="status") or {"role": None, "full": False, "mode": None}

    def pid_of_daemon(self, host):
        """As this machine numbers it."""
        return next(pid for pid in self.power.processes(host) if b"remus-host\0run" in command_line(pid))

    def pid_of_node(self, host):
        daemon = self.pid_of_daemon(host)
        return int(Path(f"/proc/{daemon}/task/{daemon}/children").read_text().split()[0])

    # The cluster.

    def cluster(self, host):
        """The cluster as that host sees it: by node whether it is there and not stopping, what it runs of the pair, and its score."""
        shown = self.on(host, "crm_mon", "--one-shot", "--output-as=xml")
        if shown.returncode != 0:
            return {}
        root, nodes = xml.fromstring(shown.stdout), {}
        for node in root.findall("./nodes/node"):
            nodes[node.get("name")] = {"online": node.get("online") == "true" and node.get("pending") == "false",
                                       "clean": node.get("unclean") == "false", "role": None, "score": None}
        for resource in root.findall(".//clone/resource"):
            for node in resource.findall("node"):
                nodes[node.get("name")]["role"] = resource.get("role")
        for attributes in root.findall("./node_attributes/node"):
            for attribute in attributes.findall("attribute[@name='master-pair']"):
                nodes[attributes.get("name")]["score"] = attribute.get("value")
        return nodes

    def failure(self, host: str, node: str) -> str:
        """The reason of an action of the pair that failed at a node, as that host's Pacemaker shows it; empty where none did."""
        shown = self.on(host, "crm_mon", "--one-shot", "--output-as=xml")
        found = xml.fromstring(shown.stdout).iterfind("./failures/failure") if shown.returncode == 0 else ()
        return "; ".join(one.get("exitreason") or "no reason" for one in found
                         if one.get("node") == node and one.get("op_key", "").startswith("pair_"))

    def attribute(self, host: str, node: str, name: str) -> str | None:
        """An attribute of a node, as that host's Pacemaker shows it."""
        shown = self.on(host, "crm_mon", "--one-shot", "--output-as=xml")
        if shown.returncode != 0:
            return None
        found = xml.fromstring(shown.stdout).find(f"./node_attributes/node[@name='{node}']/attribute[@name='{name}']")
        return None if found is None else found.get("value")

    def alarms(self, host: str) -> list[str]:
        """What the alert's recipient was told there."""
        try:
            return (self.folder / host / "var/log/alarms").read_text().splitlines()
        except FileNotFoundError:
            return []

    def agent(self, host: str, action: str) -> int | None:
        """The agent's process that does this at a host, as this machine numbers it."""
        wanted = b"__main__.py\0" + action.encode() + b"\0"
        for pid in self.power.processes(host):
            try:
                if wanted in Path(f"/proc/{pid}/cmdline").read_bytes():
                    return pid
            except OSError:
                pass
        return None

    def live_is(self, host: str) -> bool:
        """Whether that host is live, whatever the other one is."""
        return self.status(host)["role"] == "live"

    def coordinator(self, host):
        """The host whose Pacemaker decides for both, as that host sees it."""
        return xml.fromstring(self.on(host, "crm_mon", "--one-shot", "--output-as=xml").stdout).find("./summary/current_dc").get("name")

    def move(self, live, standby):
        """The operator has the other host live."""
        self.on(live, "crm_resource", "--move", "--resource", "pair-clone", "--promoted", "--node", standby)
        self.until(lambda: self.live() == standby, 30, "the move")

    def clear_move(self, live):
        """Takes out of the configuration what a move left there."""
        self.on(live, "crm_resource", "--clear", "--resource", "pair-clone")

    def live(self):
        """The live host; None where there isn't one."""
        return next((host for host in network.NUMBERS if self.status(host)["role"] == "live"), None)

    def is_pair(self):
        live = self.live()
        standby = self.others.get(live)
        if live is None or self.status(live)["mode"] != "paired" or not self.status(standby)["full"]:
            return None
        nodes = self.cluster(live)
        ready = nodes and all(node["online"] and node["clean"] for node in nodes.values())
        return live if ready and (nodes[live]["role"], nodes[standby]["score"]) == ("Promoted", "100") else None

    def pair(self, seconds=BOOT_SECONDS):
        """Waits until both hosts are a pair, and Pacemaker knows it. Answers the live host and its standby."""
        live = self.until(self.is_pair, seconds, "a pair")
        return live, self.others[live]

    def until(self, question, seconds, what):
        """What is answered first that isn't nothing."""
        end = time.time() + seconds
        while time.time() < end:
            answer = question()
            if answer:
                return answer
            time.sleep(0.1)
        raise TooLate(f"{what} wasn't there within {seconds} s: {[self.status(host) for host in network.NUMBERS]} {self.cluster('one')}")

    # What happened.

    def said(self, host):
        """What the host's daemons said: a time, a level and a sentence each."""
        try:
            text = (self.folder / host / "var/log/remus-host.log").read_text(errors="replace")
        except FileNotFoundError:
            return []
        return [(datetime.datetime.fromisoformat(at + "+00:00").timestamp(), level, said) for at, level, _, said in LINE.findall(text)]

    def when(self, host, pattern, begin):
        """When the host's daemon first said that after a time; None if it didn't."""
        return next((at for at, _, sentence in self.said(host) if at > begin and re.search(pattern, sentence)), None)

    def logged(self, host, event, begin):
        """When Corosync or Pacemaker there first said that after a time; None if they didn't."""
        name, pattern = EVENTS[event]
        year = datetime.datetime.now().year
        for line in (self.folder / host / "var/log" / name).read_text(errors="replace").splitlines():
            if re.search(pattern, line):
                at = datetime.datetime.strptime(f"{year} {line[:19]}", "%Y %b %d %H:%M:%S.%f").timestamp()
                if at > begin:
                    return at
        return None

    def terms(self):
        """Each time that a host went live, in order."""
        return self.past + sorted((at, host) for host in network.NUMBERS for at, _, sentence in self.said(host) if LIVE.search(sentence))

    def clients(self, *kinds):
        return Clients(kinds)


class Clients:
    """Clients in the guest's network, from the beginning of a with block to its end."""

    def __init__(self, kinds):
        self.kinds, self.told = kinds, {}

    def __enter__(self):
        self.began = time.time()
        command = [*priority.before(), "ip", "netns", "exec", network.CLIENT, sys.executable, HERE / "client.py"]
        self.running = {kind: subprocess.Popen([*command, kind], stdout=subprocess.PIPE, text=True) for kind in self.kinds}
        try:
            for process in self.running.values():
                process.stdout.readline()  # its first answer has come
            time.sleep(0.5)
        except BaseException:
            for process in self.running.values():
                process.kill()
            raise
        return self

    def __exit__(self, kind, *_):
        for process in self.running.values():
            process.send_signal(signal.SIGTERM)
        for name, process in self.running.items():
            try:
                self.told[name] = json.loads(process.communicate(timeout=CLIENT_SECONDS)[0] or "null")
            except subprocess.TimeoutExpired:
                process.kill()
                self.told[name] = None

    def pause(self, kind, begin):
        """The longest time without an answer that touches what came after a time, the last one too; 0 where none was of a quarter of a
        second."""
        told = self.told[kind] or {"silent": time.time() - begin, "pauses": []}
        last = told["silent"] if told["silent"] and told["silent"] > 0.25 else 0
        return max([last, *(long for at, long in told["pauses"] if at + long > begin)])

    def paused(self, begin):
        """The longest pause of those that ask all the time."""
        return max(self.pause(kind, begin) for kind in ("ping", "udp") if kind in self.kinds)

    def mistakes(self):
        """What no client may see."""
        found = [f"the client {kind} has no result" for kind, told in self.told.items() if told is None]
        for kind, told in self.told.items():
            if told is not None:
                found += [f"{kind}: {wrong}" for wrong in told["wrong"]]
                if told["answers"] < 2:
                    found.append(f"{kind}: {told['answers']} answers")
        return found


def sent(record):
    """The network's record: the times at which each host sent frames of the guest, as runs (first, last, host, frames)."""
    runs = []
    for line in Path(record).read_text().splitlines():
        words = line.split()
        if len(words) != 4:
            continue
        at, host = float(words[0]), words[1]
        if runs and runs[-1][2] == host:
            runs[-1][1], runs[-1][3] = at, runs[-1][3] + 1
        else:
            runs.append([at, at, host, 1])
    return runs


def two_at_once(runs, terms, slack=0.1):
    """Each run of frames must lie in one term of its host: it went live before the run's first frame (its log may say so a little later),
    and nobody else did before the run's last one. Answers what is wrong."""
    found = []
    for first, last, host, frames in runs:
        own = [at for at, whose in terms if whose == host and at <= first + slack]
        if not own:
            found.append(f"{host} sent {frames} frames from {first:.3f} on, and never went live")
            continue
        others = [at for at, whose in terms if whose != host and own[-1] < at < last]
        if others:
            found.append(f"{host} sent frames until {last:.3f}, and the other host went live at {others[0]:.3f}")
    return found
