"""The database guest at two hosts, each a daemon with its node in processes of its own, of which one is killed again and again. This
machine is client 1, by libslirp."""
from __future__ import annotations

import random
import select
import threading
from pathlib import Path

from guests.lib.frames import EVERYONE, client_mac
from host.started import Hub, protected
from tests.hosts import loopback_pair
from tools.live.network import Slirp


class Line(threading.Thread):
    """Takes frames from libslirp to the hosts' network, and back. `forwards` are libslirp's."""

    def __init__(self, forwards: list[tuple[int, int, bool]], *hosts: object) -> None:
        super().__init__(daemon=True)
        self.hub, self.slirp, self.is_over = Hub(*hosts), Slirp(forwards, "10.0.0.1"), False

    def run(self) -> None:
        while not self.is_over:
            descriptors, most = self.slirp.watch()
            poll = select.poll()
            for descriptor, events in descriptors:
                poll.register(descriptor, events)
            for line in self.hub.open_lines():
                poll.register(line.fileno(), select.POLLIN)
            ready = dict(poll.poll(min(most, 0.05) * 1000))
            for _, frame in self.slirp.frames(ready):
                self.hub.send(frame)
            for frame in self.hub.came(0):
                if frame[:6] in (client_mac(1), EVERYONE):
                    self.slirp.put(frame)

    def end(self) -> None:
        self.is_over = True
        self.join(5)


class Hosts:
    """Two hosts, the live one first, and a thread that kills one every so many seconds with SIGKILL, and starts it again; with `hands_on`
    one time in three it has the live one hand its guest on and end instead. `kills` counts them: of the live one, of the standby, handed
    on."""

    def __init__(self, folder: str, guest: Path, port: int, every: float, epoch: float, steps_per_ms: int = 50_000,
                 hands_on: bool = False) -> None:
        self.hosts = loopback_pair(folder, guest, steps_per_ms=steps_per_ms, epoch_ms=epoch)
        self.line, self.every, self.is_over = Line([(port, 5432, False)], *self.hosts), every, threading.Event()
        self.killer, self.kills, self.wrong = threading.Thread(target=self.kill, daemon=True), [0, 0, 0], []
        self.hands_on = hands_on

    def __enter__(self) -> Hosts:
        self.hosts[0].start().ask("promote", boot=True)
        self.hosts[1].start()
        protected(*self.hosts)
        self.line.start()
        self.killer.start()
        return self

    def kill(self) -> None:
        rng = random.Random(1)
        try:
            while not self.is_over.wait(self.every * (1 + rng.random()) / 2):
                if self.hands_on and rng.random() < 1 / 3:
                    self.hand_on()
                else:
                    self.kill_one(is_live=rng.random() < 0.75)
                self.hosts[1].start()
                protected(*self.hosts)
        except Exception as error:
            self.wrong.append(f"after {self.kills} kills: {error!r}")

    def kill_one(self, is_live: bool) -> None:
        live, standby = self.hosts
        (live if is_live else standby).kill()
        if is_live:
            standby.ask("promote")
            self.hosts.reverse()
        else:
            live.ask("alone")
        self.kills[not is_live] += 1

    def hand_on(self) -> None:
        """By SIGTERM."""
        self.hosts[0].end()
        self.hosts.reverse()
        self.hosts[0].wait(lambda status: status["role"] == "live")
        self.kills[2] += 1

    def __exit__(self, *_: object) -> None:
        self.is_over.set()
        self.killer.join(60)
        self.line.end()
        for host in self.hosts:
            host.kill()
