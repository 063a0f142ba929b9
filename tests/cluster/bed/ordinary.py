"""Rows of what operators do and what fails every day, none of which may end the guest."""
import os
import signal
import time
from pathlib import Path

from bed import network

SLOW = 5  # seconds for which a daemon that isn't dead says nothing


def goes_on(row, life: str | None, host: str, begin: float) -> None:
    """The guest is the one that it was, live at that host, and nobody was fenced."""
    status = row.bed.status(host)
    row.expect((status["role"], status.get("life")) == ("live", life), f"{host} is {status['role']}, and the guest of another life")
    row.expect(row.bed.power.since(begin, "asked") is None, "a host was fenced")


def standby_out(bed, live: str, standby: str) -> None:
    bed.on(live, "crm_standby", "--node", standby, "--update", "on")
    bed.until(lambda: bed.status(standby)["role"] is None and bed.status(live)["mode"] == "alone", 30, "a live host that is alone")


def standby_in(bed, live: str, standby: str) -> None:
    bed.on(live, "crm_standby", "--node", standby, "--delete")


def cleaned_up(bed, host: str) -> None:
    bed.on(host, "crm_resource", "--cleanup", "--resource", "pair")


def refused(row, times: int) -> None:
    """Fencing is off, and the standby is taken out and in: it doesn't start. The live host stays, and waits, since without fencing it
    doesn't go alone."""
    bed = row.bed
    for row.tries in range(1, times + 1):
        live, standby = bed.pair()
        life, begin = bed.status(live)["life"], time.time()
        with row.clients() as clients:
            bed.on(live, "crm_attribute", "--type", "crm_config", "--name", "stonith-enabled", "--update", "false")
            bed.on(live, "crm_standby", "--node", standby, "--update", "on")
            bed.until(lambda: bed.status(standby)["role"] is None, 30, "the daemon's end")
            standby_in(bed, live, standby)
            bed.until(lambda: "stonith-enabled=false" in bed.failure(live, standby), 30, "a start that is refused")
            time.sleep(3)
            goes_on(row, life, live, begin)
            bed.on(live, "crm_attribute", "--type", "crm_config", "--name", "stonith-enabled", "--update", "true")
            cleaned_up(bed, live)
            bed.pair()
        goes_on(row, life, live, begin)
        row.note("paused", clients.paused(begin))
        row.check(clients)


def parameter(row, times: int) -> None:
    """A parameter is changed to a good value, to a bad one, and the configuration's path: nothing is restarted."""
    bed = row.bed
    for row.tries in range(1, times + 1):
        live, standby = bed.pair()
        before, begin = {host: bed.status(host)["instance"] for host in (live, standby)}, time.time()
        with row.clients() as clients:
            for name, value, wrong in (("stall", "3", None), ("stall", "soon", "stall=soon"), ("config", "/etc/other.toml", "other.toml"),
                                       ("stall", "2", "other.toml"), ("config", "/etc/remus/host.toml", None)):
                bed.on(live, "crm_resource", "--resource", "pair", "--set-parameter", name, "--parameter-value", value)
                said = lambda: bed.attribute(live, live, "pair-wrong") or ""
                bed.until(lambda: wrong in said() if wrong else not said(), 20, f"word of {name}={value}")
                time.sleep(1)
                now = {host: bed.status(host).get("instance") for host in (live, standby)}
                row.expect(now == before, f"{name}={value}: a daemon was restarted")
        row.expect(bed.live() == live, "another host is live")
        row.note("paused", clients.paused(begin))
        row.check(clients)
        bed.pair()


def slow(row, times: int) -> None:
    """The daemon of a live host without a standby says nothing for five seconds; and for fifteen; and for twenty, while the operator has
    Pacemaker look anew; and its socket is gone for five."""
    bed = row.bed
    for row.tries in range(1, times + 1):
        live, standby = bed.pair()
        standby_out(bed, live, standby)
        life, begin = bed.status(live)["life"], time.time()
        control = Path(f"/proc/{bed.power.init(live)}/root/run/remus/control.sock")
        with row.clients() as clients:
            for seconds, is_refreshed in ((SLOW, False), (3 * SLOW, False), (4 * SLOW, True)):
                pid, stopped = bed.pid_of_daemon(live), time.time()
                os.kill(pid, signal.SIGSTOP)
                if is_refreshed:
                    bed.on(standby, "crm_resource", "--refresh", "--resource", "pair")
                time.sleep(max(0, stopped + seconds - time.time()))
                os.kill(pid, signal.SIGCONT)
                time.sleep(2)
                goes_on(row, life, live, begin)
            control.rename(control.with_name("hidden"))
            time.sleep(SLOW)
            control.with_name("hidden").rename(control)
            time.sleep(2)
            goes_on(row, life, live, begin)
        row.note("paused", clients.paused(begin))
        row.check(clients)
        standby_in(bed, live, standby)
        bed.pair()
        goes_on(row, life, live, begin)


def hung(row, times: int) -> None:
    """The daemon's process hangs (SIGSTOP) for good, at the live host, which its standby takes over from, and at the standby."""
    bed = row.bed
    for row.tries in range(1, times + 1):
        for whose in ("live", "standby"):
            live, standby = bed.pair()
            with row.clients() as clients:
                pid, begin = bed.pid_of_daemon(live if whose == "live" else standby), time.time()
                os.kill(pid, signal.SIGSTOP)
                bed.until(lambda: not Path(f"/proc/{pid}").exists(), 40, "the end of a daemon that hangs")
                row.note(f"{whose} host's daemon: ended after", time.time() - begin)
                bed.pair()
            row.note(f"{whose} host's daemon: paused", clients.paused(begin))
            row.expect(bed.power.since(begin, "asked") is None, "a host was fenced")
            row.expect((bed.live() == standby) == (whose == "live"), "the wrong host is live")
            row.check(clients)


def promote(row, times: int) -> None:
    """The live host's power is cut, and the promote of the only checkpoint fails, since the daemon there hangs, or the agent is killed."""
    bed = row.bed
    for row.tries in range(1, times + 1):
        for what in ("hangs", "is killed"):
            live, standby = bed.pair()
            life = bed.status(live)["life"]
            with row.clients() as clients:
                begin = time.time()
                pid = bed.pid_of_daemon(standby)
                os.kill(pid, signal.SIGSTOP)
                bed.power.cut(live)
                agent = bed.until(lambda: bed.agent(standby, "promote"), 30, "a promote")
                if what == "is killed":
                    os.kill(agent, signal.SIGKILL)
                else:
                    bed.until(lambda: not Path(f"/proc/{agent}").exists(), 30, "a promote that failed")
                os.kill(pid, signal.SIGCONT)
                bed.until(lambda: bed.live() == standby, 40, "the other host live")
                row.note(f"{what}: live after", time.time() - begin)
                time.sleep(0.5)
            row.expect(bed.status(standby)["life"] == life, "the guest is another one")
            row.check(clients)
            bed.pair()


def by_hand(row, times: int) -> None:
    """While Pacemaker doesn't manage the pair an operator moves the guest by hand; it is managed again, without a word to Pacemaker."""
    bed = row.bed
    managed = "crm_resource", "--resource", "pair-clone", "--meta"
    for row.tries in range(1, times + 1):
        live, standby = bed.pair()
        life, begin = bed.status(live)["life"], time.time()
        with row.clients() as clients:
            bed.on(live, *managed, "--set-parameter", "is-managed", "--parameter-value", "false")
            told = bed.on(live, "remus-host", "ctl", "drain", "--promote")
            row.expect("crm_resource --refresh" in told.stderr, f"ctl says nothing of Pacemaker: {told}")
            bed.until(lambda: bed.live() == standby, 20, "the other host live")
            time.sleep(3)
            bed.on(live, *managed, "--delete-parameter", "is-managed")
            time.sleep(5)
            goes_on(row, life, standby, begin)
        row.note("paused", clients.paused(begin))
        row.check(clients)
        row.expect(bed.pair()[0] == standby, "another host is live")
        goes_on(row, life, standby, begin)
        before = {host: bed.status(host)["instance"] for host in network.NUMBERS}
        bed.on(live, "crm_resource", "--refresh", "--resource", "pair")
        time.sleep(5)
        row.expect(before == {host: bed.status(host).get("instance") for host in network.NUMBERS}, "a refresh restarted a daemon")
        row.expect(bed.pair()[0] == standby, "after a refresh another host is live")


def snapshot(row, times: int) -> None:
    """Both hosts were off, and a snapshot comes back as docs/CLUSTER.md has it."""
    bed = row.bed
    managed = "crm_resource", "--resource", "pair-clone", "--meta"
    for row.tries in range(1, times + 1):
        live, standby = bed.pair()
        standby_out(bed, live, standby)
        bed.on(live, "remus-host", "ctl", "save", "/var/tmp/guest.snapshot")
        standby_in(bed, live, standby)
        bed.pair()
        for host in (standby, live):
            bed.power.cut(host)
        for host in (standby, live):
            bed.power.off(host)
            bed.power.on(host)
        bed.until(lambda: all(bed.status(host)["role"] == "empty" for host in network.NUMBERS), 40, "two empty hosts")
        begin = time.time()
        bed.on(live, *managed, "--set-parameter", "is-managed", "--parameter-value", "false")
        bed.on(live, "remus-host", "ctl", "promote", "--from", "/var/tmp/guest.snapshot")
        bed.on(live, "crm_attribute", "--type", "crm_config", "--name", "pair-life", "--delete")
        bed.on(live, "crm_resource", "--refresh", "--resource", "pair")
        life = bed.status(live)["life"]
        bed.until(lambda: bed.cluster(live)[live]["role"] == "Promoted", 30, "Pacemaker's word that it is live")
        bed.on(live, *managed, "--delete-parameter", "is-managed")
        row.expect(bed.pair()[0] == live, "another host is live")
        row.note("a pair again after", time.time() - begin)
        goes_on(row, life, live, begin)


def stale(row, times: int) -> None:
    """The fence device is a switch port: it cuts off the live host, which hangs, and the other one goes on. The first one wakes, and is
    plugged in again, with all that runs there; it can't have the good one fenced, since the device doesn't answer just then."""
    bed = row.bed
    for row.tries in range(1, times + 1):
        live, standby = bed.pair()
        life = bed.status(live)["life"]
        bed.power.kills = False
        with row.clients() as clients:
            begin = time.time()
            bed.power.signal_all(live, signal.SIGSTOP)
            bed.until(lambda: bed.live_is(standby), 30, "the other host live")
            bed.power.signal_all(live, signal.SIGCONT)
            bed.until(lambda: bed.live_is(live), 30, "a host that woke")
            time.sleep(2)
            generation = bed.status(standby)["generation"]
            bed.power.answers = False
            bed.power.cut_off.discard(live)
            network.heal()
            bed.until(lambda: bed.status(live)["role"] != "live", 60, "a stale host that isn't live any more")
            row.note("it isn't live any more after", time.time() - begin)
            time.sleep(3)
            now = bed.status(standby)
            row.expect((now["role"], now.get("life"), now.get("generation", 0) >= generation) == ("live", life, True),
                       f"the good host is {now['role']}")
            said = bed.on(standby, "crm_attribute", "--type", "crm_config", "--name", "pair-life", "--query", "--quiet").stdout.strip()
            row.expect(said and int(said.rpartition(":")[2]) >= generation - 1, f"pair-life went back to {said}, from {generation}")
        row.check(clients)
        bed.power.kills = bed.power.answers = True
        if not bed.is_pair():
            bed.power.reboot(live)
        bed.pair()


def returns(row, times: int) -> None:
    """A move is never cleared, and the host that it names fails and comes back: the guest stays until that has a full checkpoint, and moves
    there then."""
    bed = row.bed
    for row.tries in range(1, times + 1):
        live, standby = bed.pair()
        bed.move(live, standby)
        bed.pair()
        life = bed.status(standby)["life"]
        bed.power.boots = False
        bed.power.cut(standby)
        bed.until(lambda: bed.live_is(live), 30, "the other host live")
        begin = time.time()
        with row.clients() as clients:
            time.sleep(1)
            bed.power.boots = True
            bed.power.on(standby)
            bed.until(lambda: bed.live_is(standby), 60, "the guest's move back")
            time.sleep(1)
        row.note("paused", clients.paused(begin))
        row.expect(clients.paused(begin) < 1, f"the guest stood for {clients.paused(begin):.2f} s")
        row.expect(not bed.failure(live, standby), f"an action failed: {bed.failure(live, standby)}")
        row.check(clients)
        bed.clear_move(live)
        goes_on(row, life, bed.pair()[0], begin)


def certificates(row, times: int) -> None:
    """The standby's host is installed anew, with new keys, and comes back without a stop of the guest."""
    bed = row.bed
    for row.tries in range(1, times + 1):
        live, standby = bed.pair()
        life, begin = bed.status(live)["life"], time.time()
        with row.clients() as clients:
            standby_out(bed, live, standby)
            bed.on(standby, "rm", f"/etc/remus/{standby}.key", f"/etc/remus/{standby}.crt")
            bed.on(standby, "remus-host", "keys", "/etc/remus", standby)
            name = f"etc/remus/{standby}.crt"
            (bed.folder / live / "etc/remus").mkdir(parents=True, exist_ok=True)
            new = Path(f"/proc/{bed.power.init(standby)}/root/{name}").read_bytes()
            Path(f"/proc/{bed.power.init(live)}/root/{name}").write_bytes(new)
            standby_in(bed, live, standby)
            bed.pair()
        row.note("paused", clients.paused(begin))
        goes_on(row, life, live, begin)
        row.check(clients)


def lost(row, host: str) -> None:
    """Both hosts are empty: it is seen in each place where somebody may look."""
    bed = row.bed
    for one in network.NUMBERS:
        bed.until(lambda: "live nowhere" in bed.failure(host, one), 40, f"a failure of {one} that Pacemaker shows")
        row.expect("live nowhere" in (bed.attribute(host, one, "pair-wrong") or ""), f"no attribute of {one} says so")
    begin = time.time()
    bed.until(lambda: any("no host is promoted" in line for one in network.NUMBERS for line in bed.alarms(one)), 40, "an alert")
    row.note("the alert after the failure", time.time() - begin)
    looked = bed.on(host, "/usr/lib/remus/cluster/alert")
    row.expect(looked.returncode == 1 and "no host is promoted" in looked.stdout, f"the alert by hand: {looked}")
    instances = {one: bed.status(one).get("instance") for one in network.NUMBERS}
    time.sleep(5)
    row.expect(instances == {one: bed.status(one).get("instance") for one in network.NUMBERS}, "a daemon was restarted meanwhile")
