"""Rows of a hand-over that something else crosses, at the host that the guest is handed to: the guest goes on at the other one, and no
client was told what isn't so."""
import os
import signal
import time

from bed import network

DELAYS = 0.1, 0.2, 0.3, 0.4  # seconds, from the beginning of a hand-over
SECONDS = 30  # until the guest is live again


# How it begins.


def moves(bed, live: str, standby: str) -> None:
    bed.on(live, "crm_resource", "--move", "--resource", "pair-clone", "--promoted", "--node", standby)


def loses_bridge(bed, live: str, standby: str) -> None:
    """The live host's monitor fails."""
    bed.on(live, "ip", "link", "set", "br0", "down")


# What crosses it.


def is_taken_out(bed, live: str, standby: str) -> None:
    bed.on(live, "crm_standby", "--node", standby, "--update", "on")


def ends(bed, live: str, standby: str) -> None:
    """The daemon, and its node with it."""
    os.killpg(bed.pid_of_daemon(standby), signal.SIGKILL)


def loses_power(bed, live: str, standby: str) -> None:
    bed.power.cut(standby)


CROSSED = {"move, and its standby out of service": (moves, is_taken_out, 4), "move, and the other daemon killed": (moves, ends, 1),
           "move, and the other host's power cut": (moves, loses_power, 1),
           "failed monitor, and its standby out of service": (loses_bridge, is_taken_out, 1)}


def handing(row, times: int) -> None:
    """The guest is handed on, and the host that it is handed to is taken out of service, or fails, within half a second."""
    bed = row.bed
    for row.tries in range(1, times + 1):
        for what, (begins, crosses, count) in CROSSED.items():
            for place in range(row.tries - 1, row.tries - 1 + count):
                crossed(row, what, begins, crosses, DELAYS[place % len(DELAYS)])


def crossed(row, what: str, begins, crosses, delay: float) -> None:
    bed, told = row.bed, f"{what} after {delay} s"
    live, standby = bed.pair()
    life = bed.status(live)["life"]
    with row.clients() as clients:
        begins(bed, live, standby)
        begin = time.time()
        time.sleep(delay)
        crosses(bed, live, standby)
        time.sleep(1)
        bed.on(live, "ip", "link", "set", "br0", "up")
        bed.until(lambda: any(bed.live_is(host) for host in network.NUMBERS), SECONDS, f"{told}: a live host")
        time.sleep(1)
    row.expect(bed.status(bed.live()).get("life") == life, f"{told}: the guest is another one")
    row.note(f"{what}: paused", clients.paused(begin))
    row.check(clients)
    bed.clear_move(live)
    bed.on(live, "crm_standby", "--node", standby, "--delete")
    bed.pair()
