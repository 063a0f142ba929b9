"""Plays two hosts, each a `remus-host` with its node in a process group of its own, and the network between them and the clients. A key
kills a whole group; the other host is told what has stopped once it is gone."""
import subprocess
import sys
import time

from guests.lib.frames import EVERYONE
from host import ctl, dead, keys
from host.started import Host, Hub, free_ports
from tools.live.network import client_mac
from tools.live.screen import several, short

STANDBY = "standby"
LOOK_EVERY = 0.2  # seconds, from one look at the hosts' status to the next
PATIENCE = 20.0  # seconds, for an answer of a host
SHORTEST = 0.02  # seconds, from one look at whether a standby is full to the next


class TwoHosts:
    """The hosts by their numbers, 1 and 2. Raises SystemExit where they can't be started."""

    def __init__(self, plan, room):
        ports, self.plan = free_ports(2), plan
        for name in ("1", "2"):
            keys.make(room, name)
        self.hosts = {}
        for number, other in ((1, 2), (2, 1)):
            self.hosts[number] = Host(room, str(number), guest=str(plan.script.resolve()), node=[plan.program, "node"],
                                      listen=f"127.0.0.1:{ports[number - 1]}", peer=f"127.0.0.1:{ports[other - 1]}",
                                      key=f"{room}/{number}.key", certificate=f"{room}/{number}.crt",
                                      peer_certificate=f"{room}/{other}.crt",
                                      network="socket", frames=f"{room}/{number}.frames", guest_address=plan.guest,
                                      epoch_ms=plan.epoch * 1000, steps_per_ms=plan.steps_per_ms)
        self.hub = Hub(*self.hosts.values())
        self.live, self.statuses = 1, {1: None, 2: None}
        for number in self.hosts:
            self.start(number)
        self.booted(self.ask(1, "promote", boot=True))
        end = time.monotonic() + PATIENCE
        while not self.is_protected() and time.monotonic() < end:
            time.sleep(SHORTEST)
            self.look()

    def start(self, number):
        try:
            self.hosts[number].start()
        except (TimeoutError, OSError) as error:
            sys.exit(f"host {number} can't be started: {error}")

    @staticmethod
    def booted(answer):
        if not answer["ok"]:
            sys.exit(f"the guest can't be booted: {answer['why']}")

    def ask(self, number, do, **fields):
        """A host's answer. One that is gone, or doesn't answer, has none: that isn't ok."""
        try:
            return self.hosts[number].ask(do, PATIENCE, **fields)
        except (ctl.NoAnswer, OSError) as error:
            return {"ok": False, "refused": "NoAnswer", "why": str(error)}

    @property
    def other(self):
        return 3 - self.live

    def is_there(self, number):
        process = self.hosts[number].process
        return process is not None and process.poll() is None

    def look(self):
        """Looks at the status of each host that is there."""
        for number in self.hosts:
            answer = self.ask(number, "status") if self.is_there(number) else {"ok": False}
            self.statuses[number] = answer if answer["ok"] else None

    def is_protected(self):
        """Whether there is a standby that could go on."""
        standby = self.statuses[self.other]
        return standby is not None and standby["role"] == STANDBY and standby["full"]

    def end(self):
        for number, host in self.hosts.items():
            try:
                host.end()
            except subprocess.TimeoutExpired:
                host.kill()


class TwoLoop:
    """`plan` has the options of `tools/serve` in seconds, `networks` those of the clients, and `screen` shows what happens."""

    def __init__(self, plan, two, networks, screen, rng, clock):
        self.plan, self.two, self.screen, self.rng, self.clock = plan, two, screen, rng, clock
        self.networks = {client_mac(network.client): network for network in networks}
        now = clock.now()
        self.begun, self.looked_at = now, 0.0
        self.stopped = self.place = None  # since when no host is live; whether the standby is to be told as soon as that is so
        self.silent = self.pause = self.dead = None
        self.came = self.went = self.dropped = self.epochs = self.failures = 0
        self.period, self.next_failure = now, None
        self.is_over = False
        if plan.fail_every:
            self.plan_failure()

    def run(self):
        while not self.is_over:
            self.turn()

    def end(self):
        self.is_over = True

    def turn(self):
        ready = self.wait()
        for network in self.networks.values():
            for _, frame in network.frames(ready):
                self.from_client(frame)
        for frame in self.two.hub.came(0):
            self.from_guest(frame)
        now = self.clock.now()
        for key in self.screen.keys(ready):
            self.press(key, now)
        self.fail(now)
        if now - self.looked_at >= LOOK_EVERY:
            self.look(now)
        self.screen.show(self, now)
        if self.plan.seconds and now - self.begun >= self.plan.seconds:
            self.end()

    def wait(self):
        watched, now = self.screen.watch(), self.clock.now()
        until = self.looked_at + LOOK_EVERY
        if self.stopped is not None:
            until = min(until, self.stopped + self.plan.detect)
        for network in self.networks.values():
            descriptors, most = network.watch()
            watched += descriptors
            until = min(until, now + most)
        watched += [(line.fileno(), 1) for line in self.two.hub.open_lines()]
        return self.clock.wait(watched, until)

    # The network.

    def from_client(self, frame):
        self.screen.count(frame)
        if self.stopped is not None and self.silent is None:
            self.silent = self.clock.now()
        self.came += 1
        if self.plan.lose_in and self.came % self.plan.lose_in == 0:
            self.dropped += 1
        else:
            self.two.hub.send(frame)

    def from_guest(self, frame):
        self.went += 1
        if self.plan.lose_out and self.went % self.plan.lose_out == 0:
            self.dropped += 1
            return
        if self.silent is not None and frame[:6] != EVERYONE:
            self.pause, self.silent = self.clock.now() - self.silent, None
        self.screen.count(frame)
        for mac, network in self.networks.items():
            if frame[0] & 1 or frame[:6] == mac:
                network.put(frame)

    # What happens to hosts.

    def look(self, now):
        two, self.looked_at = self.two, now
        two.look()
        for number, host in two.hosts.items():
            if host.process is not None and host.process.poll() is not None and number == two.live and self.stopped is None:
                self.has_stopped(now, "ended by itself")
        live = two.statuses[two.live]
        found = live["dead"] if live else None
        if found is not None and found != self.dead:
            self.screen.tell(f"{dead.told(found)}; its standby has the same guest; 'tools/why {self.plan.script}' may say more")
        self.dead = found
        self.epochs = live["cut"] or self.epochs if live else self.epochs

    def press(self, key, now):
        two = self.two
        if key == "q":
            self.end()
        elif key == "p" and self.stopped is None and (two.look() or two.is_protected()):
            self.stop_live(now)
        elif key == "b" and self.stopped is None and two.is_there(two.other):
            self.stop_standby()
        elif key == "r" and self.stopped is None and not two.is_there(two.other):
            self.start_standby()
        elif key in "pbr":
            why = {"p": "no standby could go on", "b": "there is no standby", "r": "there is a standby"}[key]
            self.screen.tell(f"{why}: nothing happens")

    def stop_live(self, now):
        self.two.hosts[self.two.live].kill()
        self.has_stopped(now, "is killed with its node")

    def has_stopped(self, now, how):
        self.stopped, self.failures = now, self.failures + 1
        self.silent = now if self.screen.connections else None
        self.screen.tell(f"host {self.two.live}, the live one, {how}")

    def stop_standby(self):
        two = self.two
        two.hosts[two.other].kill()
        told = two.ask(two.live, "alone")
        self.screen.tell(f"host {two.other}, the standby, is killed with its node: " +
                         (f"host {two.live} is told, and goes on alone" if told["ok"] else told["why"]))

    def start_standby(self):
        self.two.start(self.two.other)
        self.screen.tell(f"host {self.two.other} is started, and becomes the new standby")

    def go_on(self, now):
        """The live host is gone: its standby is told to go live."""
        two = self.two
        told = two.ask(two.other, "promote")
        if not told["ok"]:
            sys.exit(f"host {two.other} can't go live: {told['why']}")
        self.stopped, two.live = None, two.other
        status = two.ask(two.live, "status")
        self.screen.tell(f"host {two.live} is told to go live, and goes on from step {status['steps'] if status['ok'] else 0:,}")
        if not self.plan.alone:
            self.start_standby()

    def plan_failure(self):
        """The next failure comes at a random moment of the second half of its period."""
        self.next_failure = self.period + self.plan.fail_every * (1 + self.rng.random()) / 2
        self.period += self.plan.fail_every

    def fail(self, now):
        if self.stopped is not None and now >= self.stopped + self.plan.detect:
            self.go_on(now)
        if self.next_failure is not None and now >= self.next_failure and self.stopped is None:
            self.two.look()
            if self.two.is_protected():
                self.plan_failure()
                self.stop_live(now)

    # What is shown.

    def status(self, connections, rate):
        """Who is live, what clients see, and frames: the parts of a line, the first ones first where not all fit."""
        two = self.two
        live = two.statuses[two.live]
        if self.stopped is not None or live is None:
            return [f"host {two.live} is gone", f"{short(connections)} conn", f"out {short(self.went)}"]
        mode = {"paired": f"live, {two.other} standby", "filling": f"live, {two.other} fills"}.get(live["mode"], "alone")
        parts = [f"host {two.live} {mode}", *["guest dead"] * (live["dead"] is not None), f"gen {live['generation']}", f"epoch {short(self.epochs)}",
                 f"{short(connections)} conn {short(rate)}/s"]
        parts += [f"pause {self.pause * 1000:.0f} ms"] if self.pause is not None else []
        parts += [f"late {live['late_ms'] / 1000:.1f} s"] if live["late_ms"] >= 100 else []
        return parts + [f"out {short(self.went)}", f"held {live['held']}"]

    def report(self):
        return (f"{several(self.failures, 'failure')} of a live host; {several(self.came, 'frame')} in, {self.went} out, {self.dropped} "
                f"dropped; {several(self.screen.requests, 'request')}")
