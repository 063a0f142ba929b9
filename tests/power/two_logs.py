"""The same where both hosts keep a log, the live one too: either disk has all that was let out while the pair was paired, and the live
host's at any time, also while a standby is filled, in a turn, and right after it was told that it is alone."""
from __future__ import annotations

import time

from host.log.disk import Disk
from host.log.reading import newest
from tests.hosts import Host
from tests.power.site import TURN_AFTER, Site, log_of, meanwhile, promoted


class TwoLogs(Site):
    LOG = "both"

    def list_moments(self) -> None:
        self.moments = [self.at_any_time, self.at_any_time, self.in_a_turn, self.in_a_rejoin, self.in_a_filling, self.in_a_drain, self.in_a_save,
                        self.of_the_standby, self.of_the_live_host, self.going_alone, self.alone_without_power, self.alone_without_power,
                        self.while_going_alone, self.while_going_live, self.in_a_hand_over]

    def cut_both(self, when: str) -> None:
        self.was_paired = self.live.status()["mode"] == "paired"
        super().cut_both(when)

    def recover(self) -> None:
        """Power comes back at one host, which is the live one unless the pair was paired, or at both, of which one may go on."""
        hosts = self.rng.sample([self.live, self.other], 2) if self.was_paired else [self.live, self.other]
        if self.rng.random() < 0.4:
            self.counts["one host alone came back"] += 1
            self.live, self.other = hosts
            self.go_on_alone()
            if self.rng.random() < 0.5:
                self.client.wait(1)
            self.other.start()
            return
        self.recover_both(*hosts)

    def recover_both(self, *hosts: Host) -> None:
        """Either is asked to be promoted, and is not where the other one has more."""
        for one in self.rng.sample(hosts, 2):
            one.start()
        answers, asked = [], self.rng.sample(hosts, 2)
        for one, another in (asked, reversed(asked)):
            answers.append(promoted(one))
            if answers[-1]["ok"]:
                self.live, self.other = one, another
                return
        raise AssertionError(f"nobody is promoted: {answers}")

    def go_on_alone(self) -> None:
        self.live.start()
        if not (answer := self.live.ask("promote", without_peer=True))["ok"]:
            raise AssertionError(f"{self.live.name} isn't promoted: {answer}")

    # Moments.

    def in_a_turn(self) -> None:
        """Just as the live host has turned its guest over, whose log turns behind it."""
        before, end = self.live.status()["generation"], time.monotonic() + TURN_AFTER
        while time.monotonic() < end and self.live.status()["generation"] == before:
            pass
        self.pause(0.02)
        self.cut_both("in a compaction")
        self.recover()

    def in_a_filling(self) -> None:
        """A standby that has nothing is filled, while the guest goes on."""
        self.cut(self.other)
        for file in log_of(self.other).iterdir():
            if file.is_file():
                file.unlink()
        self.live.ask("alone")
        self.other.start()
        self.pause(0.5)
        self.cut_both("in a filling")
        self.recover()

    def of_the_standby(self) -> None:
        super().of_the_standby()
        if self.rng.random() < 0.5:
            self.live.ask("alone")

    def of_the_live_host(self) -> None:
        """Its standby goes on with its log; or its power fails in its turn, and the other disk is enough."""
        super().of_the_live_host()
        if self.rng.random() < 0.5:
            self.pause(0.3)
            self.cut_both("of a host that has just gone live")
            self.recover()

    def alone_without_power(self) -> None:
        """The standby is gone, the live host goes on by its own log, and its power fails too."""
        self.cut(self.other)
        self.live.ask("alone")
        if self.rng.random() < 0.5:
            self.client.wait(self.rng.randrange(1, 4))
        self.pause(0.02)
        self.cut(self.live)
        self.counts["power cuts"] += 1
        self.counts["of a host that was alone"] += 1
        self.recover_by_live()

    def recover_by_live(self) -> None:
        """Power comes back at the live host alone, or at both."""
        if self.rng.random() < 0.5:
            self.go_on_alone()
            self.other.start()
        else:
            self.recover_both(self.live, self.other)

    def while_going_alone(self) -> None:
        """The live host's power fails just as it is told that it is alone."""
        self.cut(self.other)
        meanwhile(self.live, "alone")
        self.pause(0.06)
        self.cut(self.live)
        self.counts["power cuts"] += 1
        self.counts["while going alone"] += 1
        self.recover_by_live()

    def while_going_live(self) -> None:
        """The standby's power fails just as it is promoted, since the live host's has failed."""
        self.cut(self.live)
        self.live, self.other = self.other, self.live
        meanwhile(self.live, "promote")
        self.pause(0.1)
        self.cut(self.live)
        self.counts["power cuts"] += 1
        self.counts["while going live"] += 1
        self.recover_by_live()

    def in_a_hand_over(self) -> None:
        """A drain that has the standby go live."""
        meanwhile(self.live, "drain", promote=True)
        self.pause(0.1)
        self.cut_both("in a hand-over")
        logs = [newest(Disk(), log_of(one)) for one in (self.live, self.other)]
        found = [(log.generation, log.number) if log else (0, 0) for log in logs]
        if found[1] > found[0]:
            self.live, self.other = self.other, self.live
        self.recover_by_live()
