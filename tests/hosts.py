"""Hosts of a pair as tests and measurements start them, and a client who asks the guest all the time."""
import os
import shlex
import sys
import threading
import time
from pathlib import Path

ROOT = Path(__file__).resolve().parents[1]
sys.path.insert(0, str(ROOT))
from guests.lib.frames import UDP, client_mac, datagram, payload
from host import keys
from host.settings import INSECURE
from host.started import Host, Hub, free_ports, protected

PROGRAM = os.environ.get("REMUS") or str(ROOT / "remus")
NODE = shlex.split(os.environ.get("REMUS_NODE") or "") or [PROGRAM, "node"]
ASK_EVERY = 0.004  # seconds, from one question to the next
COUNTED_PORT = 7
__all__ = ["Asker", "Host", "free_ports", "loopback_pair", "protected"]


def loopback_pair(folder, guest, plain=False, through=None, **settings):
    """Two hosts over the loopback, their networks sockets. `through` is the port that each dials in place of the other's."""
    folder, ports = Path(folder), free_ports(2)
    if not plain:
        for name in "ab":
            keys.make(folder, name)
    made = []
    for place, (name, other) in enumerate(("ab", "ba")):
        with_keys = {"plain": INSECURE} if plain else {"key": str(folder / f"{name}.key"), "certificate": str(folder / f"{name}.crt"),
                                                   "peer_certificate": str(folder / f"{other}.crt")}
        dialled = through[place] if through else ports[1 - place]
        made.append(Host(folder, name, node=NODE, guest=str(guest), listen=f"127.0.0.1:{ports[place]}", peer=f"127.0.0.1:{dialled}",
                         network="socket", frames=str(folder / f"{name}.frames"), **with_keys, **settings))
    return made


class Asker(threading.Thread):
    """Client 1, who asks guests/counter.c over UDP all the time, and keeps what comes: the numbers, and when each came."""

    def __init__(self, *hosts):
        super().__init__(daemon=True)
        self.hub, self.is_over = Hub(*hosts), False
        self.frames, self.numbers, self.at = [], [], []

    def run(self):
        next_at = time.monotonic()
        while not self.is_over:
            now = time.monotonic()
            if now >= next_at:
                self.hub.send(datagram(1, COUNTED_PORT, b"x"))
                next_at = max(next_at + ASK_EVERY, now)
            for frame in self.hub.came(max(0, next_at - time.monotonic())):
                self.take(frame, time.monotonic())

    def take(self, frame, now):
        if frame[:6] == client_mac(1):
            self.frames.append(frame)
            if found := payload(frame, UDP):
                self.numbers.append(int(found[8:].split()[0]))
                self.at.append(now)

    def wait(self, more, patience=20.0):
        """Waits for so many more answers. Raises TimeoutError."""
        wanted, end = len(self.numbers) + more, time.monotonic() + patience
        while len(self.numbers) < wanted:
            if time.monotonic() > end:
                raise TimeoutError(f"{len(self.numbers)} answers came, and no more")
            time.sleep(0.002)

    def end(self):
        self.is_over = True
        self.join(5)

    def wrong(self):
        """What is wrong with what came: None where each number is above the one before, and no frame came twice."""
        falls = [(a, b) for a, b in zip(self.numbers, self.numbers[1:]) if a >= b]
        twice = len(self.frames) - len(set(self.frames))
        return f"numbers that don't rise: {falls[:3]}, {twice} frames twice" if falls or twice else None

    def pauses(self, times):
        """For each moment, how long after it the first answer came that was sent after it."""
        found = []
        for moment in times:
            later = [at for at in self.at if at > moment]
            found.append(later[0] - moment if later else None)
        return found
