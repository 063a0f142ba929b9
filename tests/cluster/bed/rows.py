"""The rows of the table in docs/CLUSTER.md: each makes one thing happen, and says what was seen and what shouldn't have been."""
import os
import signal
import statistics
import subprocess
import threading
import time

from bed import disks, handing, network, ordinary
from bed.guests import COUNTER, WEB
from bed.machines import EVENTS, TooLate, sent, two_at_once

GOES_ON = "live in generation|^alone in generation"


class Row:
    """One row as it is tried: what was measured, by name, and what was wrong."""

    def __init__(self, bed, name):
        self.bed, self.name, self.measured, self.wrong = bed, name, {}, []
        self.tries, self.past = 0, 0  # tries with this guest, and with those before it
        self.skipped: str | None = None  # how it was tried, where that isn't as it should be
        self.transfers = 0  # that were acknowledged to the bank's clients

    def note(self, name, value):
        self.measured.setdefault(name, []).append(round(value, 3))

    def expect(self, is_so, sentence):
        if not is_so:
            self.wrong.append(f"try {self.tries}: {sentence}")
        return is_so

    def check(self, clients):
        """What holds in each try: no client was told what mustn't be, and never two hosts sent the guest's frames."""
        self.transfers += (clients.told.get("bank") or {}).get("acknowledged", 0)
        for mistake in clients.mistakes():
            self.expect(False, mistake)
        for mistake in two_at_once(sent(self.bed.record), self.bed.terms()):
            self.expect(False, mistake)

    def text(self):
        told = []
        for name, values in self.measured.items():
            middle = statistics.median(values)
            told.append(f"{name} {middle:.2f}" + (f" ({min(values):.2f} to {max(values):.2f})" if len(values) > 1 else ""))
        if self.transfers:
            told.append(f"{self.transfers} transfers acknowledged")
        return "; ".join(told)

    def clients(self):
        return self.bed.clients(*self.bed.guest.clients)

    def pauses(self, clients, begin):
        for kind in clients.kinds:
            self.note(f"{kind} paused", clients.pause(kind, begin))


def fenced_and_live(row, victim, survivor, begin):
    """The victim was fenced, and only then the survivor went live."""
    bed = row.bed
    bed.until(lambda: bed.live() == survivor, 30, f"{survivor} live")
    asked, off = bed.power.since(begin, "asked", victim), bed.power.since(begin, "off", victim)
    live = bed.until(lambda: bed.when(survivor, "live in generation", begin), 10, f"{survivor}'s line in its log")
    if row.expect(asked and off, f"it wasn't fenced: asked {asked}, off {off}"):
        row.expect(off < live, "the other host went live before the first one was fenced")
        for event in EVENTS:
            if at := bed.logged(survivor, event, begin):
                row.note(f"{event} after", at - begin)
        row.note("asked after", asked - begin)
        row.note("done after", off - begin)
        row.note("live after", live - begin)


def power(row, times):
    """The live host's power is cut."""
    for row.tries in range(1, times + 1):
        live, standby = row.bed.pair()
        with row.clients() as clients:
            begin = time.time()
            row.bed.power.cut(live)
            fenced_and_live(row, live, standby, begin)
            time.sleep(0.5)
        row.pauses(clients, begin)
        row.check(clients)
        back = row.bed.until(lambda: row.bed.power.since(begin, "on", live), 20, "the host's power")
        row.bed.pair()
        row.note("full standby again after its power", time.time() - back)


def standby_power(row, times):
    """The standby's power is cut: the live host waits until that is fenced, and goes on alone."""
    for row.tries in range(1, times + 1):
        live, standby = row.bed.pair()
        with row.clients() as clients:
            begin = time.time()
            row.bed.power.cut(standby)
            alone = row.bed.until(lambda: row.bed.when(live, "^alone in generation", begin), 30, "alone")
            time.sleep(0.5)
        off = row.bed.power.since(begin, "off", standby)
        if row.expect(off is not None, "the standby wasn't fenced"):
            row.expect(off < alone, "it went alone before the standby was fenced")
        row.note("alone after", alone - begin)
        row.pauses(clients, begin)
        row.check(clients)
        row.bed.pair()


def hang(row, times):
    """The live host hangs, each of its processes stopped, and is woken later. In every second try the fence device only pulls its plugs, so
    that it is still there to be woken."""
    bed = row.bed
    for row.tries in range(1, times + 1):
        live, standby = bed.pair()
        bed.power.kills = row.tries % 2 == 1
        with row.clients() as clients:
            begin = time.time()
            bed.power.signal_all(live, signal.SIGSTOP)
            fenced_and_live(row, live, standby, begin)
            bed.power.signal_all(live, signal.SIGCONT)
            woken = time.time()
            time.sleep(2)
        row.expect(bed.power.kills or bed.status(live)["role"] == "live", "the woken host doesn't run the guest: it shows nothing")
        row.pauses(clients, begin)
        row.check(clients)
        late = [run for run in sent(bed.record) if run[2] == live and run[1] > woken]
        row.expect(not late, f"the woken host sent frames: {late}")
        if not bed.power.kills:
            bed.power.kills = True
            bed.power.reboot(live)
        bed.pair()


def wakes(row, times):
    """The standby hangs, and is woken while it is being fenced. The cluster's members change meanwhile, so Pacemaker doesn't say that the
    standby has stopped, and the agent has to see it: where its host boots then, and where that stays off."""
    bed = row.bed
    for row.tries in range(1, times + 1):
        for boots in (True, False):
            live, standby = bed.pair()
            with row.clients() as clients:
                begin = time.time()
                bed.power.answers, bed.power.boots = False, boots
                bed.power.signal_all(standby, signal.SIGSTOP)
                bed.until(lambda: bed.power.since(begin, "asked", standby), 20, "a host that is to be fenced")
                bed.power.signal_all(standby, signal.SIGCONT)
                bed.power.answers = True
                off = bed.until(lambda: bed.power.since(begin, "off", standby), 20, "a host that is fenced")
                alone = bed.until(lambda: bed.when(live, "^alone in generation", begin), 30, "alone")
                time.sleep(0.5)
            row.expect(off < alone, "it went alone before the standby was fenced")
            row.expect(bed.live() == live, "the live host isn't live any more")
            row.note("alone after" if boots else "it stays off: alone after", alone - begin)
            row.pauses(clients, begin)
            row.check(clients)
            bed.power.boots = True
            bed.power.on(standby)
            bed.pair()


def killed(row, times):
    """The daemon's process or its node's is killed, at the live host or at the standby."""
    bed = row.bed
    for row.tries in range(1, times + 1):
        for whose in ("live", "standby"):
            for what in ("node", "daemon"):
                live, standby = bed.pair()
                host = live if whose == "live" else standby
                with row.clients() as clients:
                    pid = bed.pid_of_node(host) if what == "node" else bed.pid_of_daemon(host)
                    begin = time.time()
                    os.kill(pid, signal.SIGKILL)
                    time.sleep(1)
                    bed.pair()
                    row.note(f"{whose} host's {what}: a pair again after", time.time() - begin)
                    time.sleep(0.5)
                row.note(f"{whose} host's {what}: paused", clients.paused(begin))
                row.expect(bed.power.since(begin, "asked") is None, f"{host} was fenced")
                row.expect((bed.live() == standby) == (whose == "live"), "the wrong host is live")
                row.check(clients)


def link_rules(bed, host, verb):
    """The link's packets from a host go nowhere (add), or their way again (del)."""
    for port in ("dport", "sport"):
        bed.on(host, "ip", "rule", verb, "ipproto", "tcp", port, "7000", "blackhole")


def link(row, times):
    """The link between the daemons breaks, and nothing else does: for a second, and for longer than the agent's limit."""
    bed = row.bed
    for row.tries in range(1, times + 1):
        for what, seconds in (("short", 1.0), ("long", 9.0)):
            live, standby = bed.pair()
            with row.clients() as clients:
                begin = time.time()
                link_rules(bed, live, "add")
                time.sleep(seconds)
                link_rules(bed, live, "del")
                time.sleep(1)
            row.note(f"{what} break: paused", clients.paused(begin))
            row.expect(bed.live() == live, "the live host isn't live any more")
            row.expect(bed.power.since(begin, "asked") is None, "a host was fenced")
            given_up = bed.when(live, "^alone in generation", begin)
            row.expect((given_up is not None) == (what == "long"), f"a {what} break: the standby was {'' if given_up else 'not '}given up")
            row.check(clients)
            bed.pair()


def split(row, times):
    """The cluster's network splits, the link with it. The guest's network doesn't. The Pacemaker that decided for both is the live host's,
    and in every second try the standby's."""
    bed = row.bed
    for row.tries in range(1, times + 1):
        live, standby = bed.pair()
        if (bed.coordinator(live) == live) != (row.tries % 2 == 1):
            bed.move(live, standby)
            bed.clear_move(live)
            live, standby = bed.pair()
        with row.clients() as clients:
            begin = time.time()
            network.split()
            off = bed.until(lambda: bed.power.since(begin, "off"), 30, "a host that is fenced")
            bed.until(lambda: bed.when(live, "^alone in generation", begin), 15, "alone")
            time.sleep(0.5)
        row.expect(bed.power.since(begin, "off", live) is None, "the live host was fenced")
        row.expect(bed.when(standby, "live in generation", begin) is None, "the standby went live")
        row.expect(bed.live() == live, "nobody is live")
        for host, name in ((live, "the live host"), (standby, "its standby")):
            if wanted := bed.logged(host, "fencing wanted", begin):
                row.note(f"{name} wants the other fenced after", wanted - begin)
        row.note("the standby is off after", off - begin)
        row.pauses(clients, begin)
        row.check(clients)
        bed.until(lambda: bed.power.since(off, "on"), 20, "the host's power")
        network.heal()
        bed.pair()


def no_fencing(row, times):
    """The fence device doesn't answer: nobody is promoted, nobody goes alone, until it does, or the operator says that the host is off."""
    bed = row.bed
    for row.tries in range(1, times + 1):
        for whose, way in (("live", "device"), ("live", "operator"), ("standby", "device")):
            live, standby = bed.pair()
            victim, survivor = (live, standby) if whose == "live" else (standby, live)
            bed.power.answers = False
            with row.clients() as clients:
                begin = time.time()
                bed.power.cut(victim)
                time.sleep(6)
                row.expect(bed.power.since(begin, "asked") is not None, "the device wasn't asked")
                row.expect(bed.when(survivor, GOES_ON, begin) is None, f"{survivor} went on without fencing")
                if way == "operator":
                    bed.on(survivor, "stonith_admin", "--confirm", victim)
                else:
                    bed.power.answers = True
                told = time.time()
                went = bed.until(lambda: bed.when(survivor, GOES_ON, told - 1), 60, "going on")
                row.note(f"{whose} host off: goes on after the {way}'s word", went - told)
                time.sleep(0.5)
            bed.power.answers = True
            row.check(clients)
            if not bed.power.is_on(victim):
                bed.power.off(victim)
                bed.power.on(victim)
            bed.pair()


def both(row, times):
    """Both hosts lose power, and come back: nobody boots an empty guest, until the operator deletes the property."""
    bed = row.bed
    for row.tries in range(1, times + 1):
        live, standby = bed.pair()
        life = bed.status(live)["life"]
        for host in (standby, live):
            bed.power.cut(host)
        begin = time.time()
        for host in (standby, live):
            bed.power.off(host)
            bed.power.on(host)
        bed.until(lambda: all(bed.status(host)["role"] == "empty" for host in network.NUMBERS), 40, "two empty hosts")
        ordinary.lost(row, "one")
        row.expect([bed.status(host)["role"] for host in network.NUMBERS] == ["empty", "empty"], "a host isn't empty")
        row.expect(not any(at > begin for at, _ in bed.terms()), "a host went live")
        bed.on("one", "crm_attribute", "--type", "crm_config", "--name", "pair-life", "--delete")
        told = time.time()
        now, _ = bed.pair()
        row.note("a new guest and its standby after the operator's word", time.time() - told)
        row.expect(bed.status(now)["life"] not in (None, life), "the guest isn't a new one")
        bed.until(lambda: not any(bed.attribute(now, host, "pair-wrong") for host in network.NUMBERS), 20, "no word of a loss")
        ordinary.cleaned_up(bed, now)
        bed.until(lambda: not any(bed.failure(now, host) for host in network.NUMBERS), 20, "a cluster that shows no failure")


def unanswered(clients):
    """The counter's answers that never came, of those that the guest gave: it counts one for each."""
    told = clients.told["udp"]
    return told["highest"] - told["first"] + 1 - told["answers"]


def moved(row, clients, begin, name):
    row.note(f"{name}: paused", clients.paused(begin))
    row.expect(row.bed.power.since(begin, "asked") is None, "a host was fenced")
    row.check(clients)
    if "udp" in clients.kinds and clients.told["udp"]:
        row.note(f"{name}: frames of the guest lost", unanswered(clients))
        row.expect(unanswered(clients) == 0, f"{name}: a frame of the guest was lost")


def move(row, times):
    """The operator has the guest live at the other host (crm_resource --move), and takes the live host out for a while (crm_standby)."""
    bed = row.bed
    for row.tries in range(1, times + 1):
        live, standby = bed.pair()
        with row.clients() as clients:
            begin = time.time()
            bed.move(live, standby)
            time.sleep(1)
        bed.clear_move(live)
        moved(row, clients, begin, "move")
        live, standby = bed.pair()
        with row.clients() as clients:
            begin = time.time()
            bed.on(live, "crm_standby", "--node", live, "--update", "on")
            bed.until(lambda: bed.live() == standby, 30, "the other host live")
            time.sleep(1)
        moved(row, clients, begin, "standby")
        bed.on(live, "crm_standby", "--node", live, "--delete")
        bed.pair()


def upgrade(row, times):
    """A rolling upgrade of the package: each host is taken out, upgraded by dpkg, and taken in again."""
    bed = row.bed
    for row.tries in range(1, times + 1):
        version = f"99.{row.tries}"
        made = disks.renamed(bed.made, version)
        live, standby = bed.pair()
        for host in (standby, live):
            with row.clients() as clients:
                begin = time.time()
                bed.on(host, "crm_standby", "--node", host, "--update", "on")
                bed.until(lambda: bed.status(host)["role"] is None, 30, "the daemon's end")
                upgraded = bed.on(host, "dpkg", "-i", made, seconds=300)
                row.expect(upgraded.returncode == 0, upgraded.stderr)
                bed.on(host, "crm_standby", "--node", host, "--delete")
                bed.pair()
            moved(row, clients, begin, "live host" if host == live else "standby's host")
        for host in network.NUMBERS:
            shown = bed.on(host, "dpkg-query", "--show", "--showformat=${Version}", "remus").stdout
            row.expect(shown == version, f"{host} has the version {shown}")


def trace(bed):
    """One power cut of the live host, for a picture: what each host was all the time, its counts of checkpoints, the client's bytes, and
    the times of the fence device."""
    bed.new(WEB)
    live, standby = bed.pair()
    samples, going = [], [True]

    def sample():
        while going:
            for host in network.NUMBERS:
                status = bed.status(host)
                told = {name: status.get(name) for name in ("role", "mode", "full", "generation", "cut", "acknowledged", "committed")}
                samples.append({"at": round(time.time(), 3), "host": host, "on": bed.power.is_on(host), **told})
            time.sleep(0.02)

    sampler = threading.Thread(target=sample)
    sampler.start()
    with bed.clients("big") as clients:
        time.sleep(2)
        begin = time.time()
        bed.power.cut(live)
        bed.until(lambda: bed.live() == standby, 30, "the standby live")
        bed.pair()
        time.sleep(1.5)
    going.clear()
    sampler.join()
    return {"victim": live, "survivor": standby, "cut": begin,
            "asked": bed.power.since(begin, "asked"), "done": bed.power.since(begin, "off"),
            "live": bed.when(standby, "live in generation", begin), "power back": bed.power.since(begin, "on"),
            "protected": bed.when(standby, "^protected", begin), "wrong": clients.mistakes(), "samples": samples,
            "curve": clients.told["big"]["curve"]}


# By name: the row, and how often it is tried on which guests.
ROWS = {
    "power": (power, {"web": 4, "bank": 20}), "split": (split, {"bank": 10}), "standby-power": (standby_power, {"bank": 2}),
    "hang": (hang, {"bank": 2}), "wakes": (wakes, {"bank": 3}), "killed": (killed, {"bank": 1}), "both": (both, {"bank": 1}),
    "link": (link, {"bank": 1}), "no-fencing": (no_fencing, {"bank": 1}), "move": (move, {"bank": 2}), "upgrade": (upgrade, {"bank": 1}),
    "refused": (ordinary.refused, {"web": 1}), "parameter": (ordinary.parameter, {"web": 1}), "slow": (ordinary.slow, {"web": 1}),
    "promote": (ordinary.promote, {"web": 1}), "by-hand": (ordinary.by_hand, {"web": 1}), "snapshot": (ordinary.snapshot, {"web": 1}),
    "stale": (ordinary.stale, {"web": 1}), "returns": (ordinary.returns, {"web": 1}), "hung": (ordinary.hung, {"web": 1}),
    "certificates": (ordinary.certificates, {"web": 1}), "handing": (handing.handing, {"web": 1}),
}


def tried(bed, name, times=None, only=None):
    """A row, tried on its guests one after the other, so many times on each; or on one guest alone."""
    what, usual = ROWS[name]
    row = Row(bed, name)
    for kind, count in ({only: max(usual.values())} if only else usual).items():
        guest = {"web": WEB, "counter": COUNTER}.get(kind) or bed.database.guest()
        if kind == "bank":
            row.skipped = row.skipped or bed.database.missing
        row.past, row.tries = row.past + row.tries, 0
        try:
            if bed.guest != guest or bed.live() is None:
                bed.new(guest)
            what(row, times or count)
        except (TooLate, subprocess.TimeoutExpired) as late:
            row.expect(False, str(late))
            bed.power.answers = bed.power.kills = bed.power.boots = True
            network.heal()
            bed.new(guest)
    return row
