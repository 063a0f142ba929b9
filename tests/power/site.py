"""A pair that keeps logs, whose power is cut at random moments: everything of one host or of both is killed, and of its log what wasn't
synced is lost at random, names too (tests/disks.py). Then one host comes back, or both, in any order, and the guest goes on before a client
who asks all the time."""
from __future__ import annotations

import os
import random
import threading
import time
from collections import Counter
from collections.abc import Callable
from functools import partial
from pathlib import Path

from host import ctl
from host.log.disk import Disk
from host.log.format import LogBehind, Rotten
from host.log.history import course_of, generations
from host.log.past import rooms
from host.log.reading import check_all, newest
from host.snapshot import find_text
from tests.disks import lose
from tests.hosts import Asker, Host, loopback_pair, protected
from tests.power.bank import Teller
from tests.power.web import Visitor

ROOT = Path(__file__).resolve().parents[2]
GUESTS = {"counter": (ROOT / "examples/counter.sim", Asker, {}), "web": (ROOT / "examples/server.sim", Visitor, {}),
          "bank": (None, Teller, {"steps_per_ms": 50_000})}
PATIENCE = 90.0  # seconds, since a busy machine takes long to read a log
TURN_AFTER = 2.0  # seconds, after which a log is taken to turn no more by itself


def log_of(host: Host) -> Path:
    return Path(host.settings["state"]) / "log"


def promoted(host: Host, **how: object) -> dict:
    """The answer of a host that is asked to be promoted once it has heard its peer. Raises TimeoutError."""
    end, answer = time.monotonic() + PATIENCE, {}
    while time.monotonic() < end:
        if (answer := host.ask("promote", **how)).get("refused") != "PeerUnknown":
            return answer
        time.sleep(0.02)
    raise TimeoutError(f"{answer}")


def patiently(host: Host, is_so: Callable[[dict], bool], patience: float = 0.0) -> dict:
    return Host.wait(host, is_so, max(patience, PATIENCE))


def meanwhile(host: Host, verb: str, **fields: object) -> None:
    """Asks for it, and doesn't wait."""
    def ask() -> None:
        try:
            host.ask(verb, **fields)
        except (ctl.NoAnswer, OSError, ValueError):
            pass  # it was killed
    threading.Thread(target=ask, daemon=True).start()


class Site:
    """`live` has the guest and `other` is its standby, or is to be. `mistake` is one of tests/power/mistakes.py; `script` the bank's
    image."""

    LOG = "standby"

    def __init__(self, room: Path, seed: int, guest: str = "counter", script: Path | None = None, slow_ms: float = 12,
                 mistake: str = "") -> None:
        self.rng, self.counts, self.saved = random.Random(seed), Counter(), room / "saved"
        image, client, settings = GUESTS[guest]
        is_quick = image is not None  # its base is short
        self.hosts = loopback_pair(room, image or script, plain=True, log=self.LOG, log_limit_mb=2 if is_quick else 8,
                                   log_keep="1h" if seed % 2 else "0s", **settings)
        for one in self.hosts:
            one.program, one.wait = ROOT / "tests" / "host_on_disk", partial(patiently, one)
            one.environment = os.environ | {"REMUS_DISK": "Losing", "REMUS_QUICK": "1" if is_quick else "", "REMUS_SLOW_MS": str(slow_ms),
                                            "REMUS_MISTAKE": mistake}
        self.live, self.other = self.hosts
        self.client = client(*self.hosts)
        self.moments: list[Callable[[], None]] = []
        self.list_moments()

    def list_moments(self) -> None:
        self.moments = [self.at_any_time, self.at_any_time, self.in_a_turn, self.in_a_turn, self.in_a_rejoin, self.in_a_drain,
                        self.in_a_save, self.of_the_standby, self.of_the_live_host, self.going_alone]

    def __enter__(self) -> Site:
        for one in self.hosts:
            one.start()
        self.live.ask("promote", boot=True)
        protected(self.live, self.other)
        self.client.start()
        self.client.wait(5)
        return self

    def __exit__(self, *_: object) -> None:
        self.client.end()
        for one in self.hosts:
            one.kill()

    # Its power.

    def cut(self, *hosts: Host) -> None:
        """The power of these fails, of one after the other."""
        for one in self.rng.sample(hosts, len(hosts)):
            one.halt()
            if self.rng.random() < 0.3:
                self.pause(0.02)
        for one in hosts:
            one.kill()
            lose(log_of(one), self.rng)

    def cut_both(self, when: str) -> None:
        self.cut(self.live, self.other)
        self.counts["power cuts"] += 1
        self.counts[when] += 1

    def pause(self, most: float) -> None:
        time.sleep(self.rng.random() * most)

    def recover(self) -> None:
        """Power comes back, at the host with the log alone, or at both."""
        self.live, self.other = self.other, self.live
        found = newest(Disk(), log_of(self.live))
        if found is None:
            raise AssertionError("no log is left")
        if self.rng.random() < 0.3:
            self.counts["one host alone came back"] += 1
            self.live.start()
            answer = self.live.ask("promote", without_peer=True)
            if answer["ok"] and self.rng.random() < 0.7:
                self.client.wait(1)
            self.other.start()
        else:
            for one in self.rng.sample([self.live, self.other], 2):
                one.start()
            answer = promoted(self.live)
        if not answer["ok"]:
            raise AssertionError(f"{self.live.name} isn't promoted: {answer}")

    # Moments.

    def round(self) -> str | None:
        """Something befalls the site. What is wrong then."""
        moment = self.rng.choice(self.moments)
        try:
            protected(self.live, self.other, PATIENCE)
            self.client.wait(self.rng.randrange(1, 20))
            moment()
            self.client.wait(1)
        except AssertionError as wrong:
            return f"{moment.__name__}: {wrong}"
        except TimeoutError as late:
            return self.client.wrong() or f"{moment.__name__}: {late}"
        return self.client.wrong()

    def at_any_time(self) -> None:
        self.pause(0.2)
        self.cut_both("at any time")
        self.recover()

    def in_a_turn(self) -> None:
        """While the standby's log goes on with a later generation."""
        end = time.monotonic() + TURN_AFTER
        while time.monotonic() < end and sum(one.suffix == ".log" for one in log_of(self.other).iterdir()) < 2:
            time.sleep(0.0005)
        self.pause(0.03)
        self.cut_both("in a compaction")
        self.recover()

    def in_a_rejoin(self) -> None:
        self.cut(self.other)
        self.pause(0.1)
        self.other.start()
        self.pause(0.2)
        self.cut_both("in a rejoin")
        self.recover()

    def in_a_drain(self) -> None:
        meanwhile(self.live, "drain")
        self.pause(0.03)
        self.cut_both("in a drain")
        self.recover()

    def in_a_save(self) -> None:
        """What is saved is whole, or isn't there."""
        saver = self.rng.choice([self.live, self.other]) if self.LOG == "both" else self.other
        meanwhile(saver, "save", file=str(self.saved))
        self.pause(0.5)
        self.cut_both("in a save")
        if self.saved.exists():
            with open(self.saved, "rb") as file:
                find_text(file, False)
            self.saved.unlink()
        self.recover()

    def of_the_standby(self) -> None:
        self.counts["of the standby alone"] += 1
        self.cut(self.other)
        self.other.start()

    def of_the_live_host(self) -> None:
        self.counts["of the live host alone"] += 1
        self.cut(self.live)
        self.live, self.other = self.other, self.live
        self.live.ask("promote")
        if self.rng.random() < 0.7:
            self.client.wait(1)
        self.other.start()

    def going_alone(self) -> None:
        """The standby comes back with a log that is over."""
        self.counts["of a standby that was gone on without"] += 1
        self.cut(self.other)
        self.live.ask("alone")
        self.client.wait(1)
        self.other.start()


    def past(self) -> str | None:
        """What is wrong with what is kept of the past."""
        disk = Disk()
        for room in (room for one in self.hosts for room in rooms(disk, log_of(one))[1:]):
            for generation in generations(disk, room):
                try:
                    if (course := course_of(disk, room, generation, False)) is not None:
                        check_all(disk, room, course.logs)
                        self.counts["logs of the past"] += 1
                except (Rotten, LogBehind) as error:
                    return f"{room}: {error!r}"
        return None


def played(room: Path, cuts: int, seed: int, kind: type[Site] = Site, **how: object) -> tuple[str | None, dict]:
    """A site whose power is cut so often: what is wrong, and what was counted."""
    begun, wrong = time.monotonic(), None
    with kind(room, seed, **how) as site:
        while site.counts["power cuts"] < cuts and wrong is None:
            wrong = site.round()
        client = site.client
        if isinstance(client, Teller) and (lost := client.judged()):
            wrong = f"{lost}; {wrong}"
    wrong = wrong or site.past()
    seen = {"answers": len(client.numbers)}
    if isinstance(client, Visitor):
        seen |= {"downloads": client.loaded, "came": client.progress}
    return wrong, dict(site.counts) | seen | {"seed": seed, "seconds": round(time.monotonic() - begun)}
