#!/usr/bin/env python3
"""Many clients at once of the database guest, over a tap interface, in a network namespace of its own:

    unshare -n tests/sql/crowd.py IMAGE

IMAGE is one of guests/sql/build.sh 50000, without a password. For root. The last line is 'N passed, N failed'."""
from __future__ import annotations

import contextlib
import random
import select
import socket
import struct
import subprocess
import sys
import time
from collections.abc import Callable, Iterator
from concurrent.futures import ThreadPoolExecutor
from pathlib import Path

ROOT = Path(__file__).resolve().parents[2]
sys.path.insert(0, str(ROOT))
from tests.postgres import Error, Gone, Postgres, bind, message, parse, string
from tests.served import PROGRAM

GUEST, HERE, PORT, FAST = "10.0.0.1", "10.0.0.2/24", 5432, 50_000
PLACES, AT_ONCE, PATIENCE = 64, 200, 300
START = struct.pack(">II", 17, 196608) + b"user\0me\0\0"
ASKED = START + message(b"Q", string("SELECT 42")) + message(b"X")
TABLES, ROWS, ROW = 30, 2000, 400


@contextlib.contextmanager
def served(image: str) -> Iterator[None]:
    command = [ROOT / "tools/serve", image, "--tap", "1=crowd", "--steps-per-ms", FAST, "--one-process", "--program", PROGRAM]
    process = subprocess.Popen([str(word) for word in command], stdin=subprocess.PIPE, stdout=subprocess.PIPE, text=True)
    try:
        process.stdout.readline()
        for words in (["addr", "add", HERE, "dev", "crowd"], ["link", "set", "crowd", "up"]):
            subprocess.run(["ip", *words], check=True)
        time.sleep(3)
        yield
    finally:
        process.communicate("q", timeout=60)


def client() -> Postgres:
    return Postgres(PORT, timeout=PATIENCE, address=GUEST)


def beginning() -> socket.socket:
    """A connection that is being opened."""
    one = socket.socket()
    one.setblocking(False)
    one.connect_ex((GUEST, PORT))
    return one


def at_once() -> str | None:
    """So many connections in a moment: each gets its answer, and none is reset."""
    watch, said, outcomes = select.poll(), {}, {}
    sockets = {one.fileno(): one for one in (beginning() for _ in range(AT_ONCE))}
    for number in sockets:
        watch.register(number, select.POLLOUT)
    end = time.monotonic() + PATIENCE
    while len(outcomes) < AT_ONCE and time.monotonic() < end:
        for number, _ in watch.poll(1000):
            try:
                if number not in said:
                    sockets[number].sendall(ASKED)
                    said[number] = b""
                    watch.modify(number, select.POLLIN)
                    continue
                data = sockets[number].recv(65536)
                said[number] += data
                if data:
                    continue
                outcomes[number] = "answered" if b"42" in said[number] else "ended without an answer"
            except OSError as error:
                outcomes[number] = str(error)
            watch.unregister(number)
    for one in sockets.values():
        one.close()
    counted = {outcome: list(outcomes.values()).count(outcome) for outcome in set(outcomes.values())}
    print(f"{AT_ONCE} at once: {counted} in {time.monotonic() - end + PATIENCE:.1f} s", flush=True)
    return None if counted == {"answered": AT_ONCE} else f"{counted}, {AT_ONCE - len(outcomes)} still wait"


def tables() -> None:
    one = client()
    for number in range(TABLES):
        one.ask(f"CREATE TABLE t{number}(id INTEGER PRIMARY KEY, name TEXT NOT NULL, amount REAL, made TEXT DEFAULT CURRENT_TIMESTAMP); "
                f"CREATE INDEX i{number} ON t{number}(name)")
    one.ask(f"CREATE TABLE big(id INTEGER PRIMARY KEY, text TEXT); WITH RECURSIVE c(x) AS (VALUES(1) UNION ALL SELECT x + 1 FROM c "
            f"WHERE x < {ROWS}) INSERT INTO big SELECT x, printf('%0{ROW}d', x) FROM c")
    one.close()


def load(one: Postgres) -> None:
    """A transaction that stays open, over more pages than a connection keeps, with statements that are prepared and a long question."""
    one.ask("SET statement_timeout = 0")
    one.ask("BEGIN")
    one.ask("SELECT count(*), sum(length(text)) FROM big")
    for number in range(5):
        one.send(parse(f"s{number}", f"SELECT b.id, b.text FROM big AS b JOIN t{number} AS t ON t.id = b.id WHERE b.id > $1 ORDER BY 2")
                 + bind("", f"s{number}", (b"10",)) + message(b"E", string(""), bytes(4)) + message(b"S"))
        one.results()
    for _ in range(5):
        first = random.randrange(ROWS - 200)
        rows = one.ask(f"SELECT * FROM big WHERE id BETWEEN {first} AND {first + 199} AND text <> '{'x' * 20_000}'")[0].rows
        if len(rows) != 200 - (first == 0):
            raise RuntimeError(f"{len(rows)} rows")


def outcome(act: Callable[[], object]) -> str:
    try:
        act()
        return "right"
    except (Error, Gone, OSError, RuntimeError) as error:
        return str(error)


def under_load() -> str | None:
    """As many clients as there are places, all of them at work."""
    clients = [client() for _ in range(PLACES)]
    with ThreadPoolExecutor(PLACES) as pool:
        outcomes = list(pool.map(lambda one: outcome(lambda: load(one)), clients))
    for one in clients:
        one.vanish()
    counted = {one: outcomes.count(one) for one in set(outcomes)}
    print(f"{PLACES} under load: {counted}", flush=True)
    return None if counted == {"right": PLACES} else str(counted)


def strangers() -> str | None:
    """Connections that only say a byte now and then have all places; who comes gets one before their minute is over."""
    held = [socket.create_connection((GUEST, PORT), PATIENCE) for _ in range(PLACES)]
    begun = time.monotonic()
    came = outcome(lambda: client().close())
    took = time.monotonic() - begun
    for one in held:
        one.close()
    print(f"behind {PLACES} strangers: {came} after {took:.1f} s", flush=True)
    return None if came == "right" and took < 40 else f"{came} after {took:.1f} s"


def main() -> int:
    passed = failed = 0
    with served(sys.argv[1]):
        tables()
        for part in (at_once, under_load, strangers):
            wrong = part()
            passed, failed = passed + (wrong is None), failed + (wrong is not None)
            print(f"{part.__name__}: {wrong or 'right'}", flush=True)
    print(f"{passed} passed, {failed} failed")
    return failed > 0


if __name__ == "__main__":
    sys.exit(main())
