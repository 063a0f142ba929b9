"""The database guest at two hosts (host/), beside SQLite alone on this machine and PostgreSQL 15 with a standby that has applied each
commit before it is told: for `bench/sql beside`. All are asked by the same client in one run, one after another in each measurement, so
that what else this machine does is the same for them."""
from __future__ import annotations

import contextlib
import os
import shutil
import sqlite3
import subprocess
import threading
import time
from collections.abc import Callable, Iterator
from pathlib import Path
from typing import Any, Protocol

from host.started import protected
from tests.postgres import Error, Gone, Postgres
from tests.served import free_port
from tests.sql.two_hosts import Hosts

ACCOUNTS = 1000
SETUP = ["CREATE TABLE account(id INTEGER PRIMARY KEY, balance INTEGER NOT NULL)",
         "CREATE TABLE transfer(id TEXT PRIMARY KEY, source INTEGER, target INTEGER, amount INTEGER)",
         f"INSERT INTO account SELECT x, 1000 FROM generate_series(1, {ACCOUNTS}) AS x",
         "CREATE TABLE imported(id INTEGER PRIMARY KEY, number INTEGER, word TEXT)"]
NEVER = 1e9  # seconds
BINARIES = Path("/usr/lib/postgresql/15/bin")
ROWS = 100_000
DATA = b"".join(b"%d\t%d\tword %d\n" % (number, number * 7 % 1000, number) for number in range(1, ROWS + 1))
PIECES = [DATA[at:at + 8192] for at in range(0, len(DATA), 8192)]


class Client(Protocol):
    def ask(self, sql: str) -> Any: ...
    def close(self) -> None: ...


class Alone:
    """SQLite in one file with a write-ahead log that is synced at each commit, in the process of its client."""

    name = "SQLite alone"

    class Connection:
        def __init__(self, path: Path) -> None:
            self.database = sqlite3.connect(path, timeout=60, isolation_level=None, check_same_thread=False)
            self.database.execute("PRAGMA journal_mode = WAL")
            self.database.execute("PRAGMA synchronous = FULL")

        def ask(self, sql: str) -> list[tuple[Any, ...]]:
            rows: list[tuple[Any, ...]] = []
            for statement in sql.split("; "):
                rows = self.database.execute(statement.replace("BEGIN", "BEGIN IMMEDIATE")).fetchall()
            return rows

        def close(self) -> None:
            self.database.close()

    def __init__(self, folder: Path) -> None:
        self.path = folder / "alone.db"

    def __enter__(self) -> Alone:
        client = self.connect()
        for sql in SETUP:
            client.ask(sql.replace(f"SELECT x, 1000 FROM generate_series(1, {ACCOUNTS}) AS x",
                                   f"WITH c(x) AS (VALUES(1) UNION ALL SELECT x + 1 FROM c WHERE x < {ACCOUNTS}) SELECT x, 1000 FROM c"))
        client.close()
        return self

    def __exit__(self, *_: object) -> None:
        pass

    def connect(self) -> Connection:
        return Alone.Connection(self.path)

    def load(self) -> None:
        client = self.connect()
        rows = (line.split("\t") for line in DATA.decode().splitlines())
        client.ask("BEGIN")
        client.database.executemany("INSERT INTO imported VALUES(?, ?, ?)", rows)
        client.ask("COMMIT")
        client.close()


class OverNetwork:
    """What is asked by PostgreSQL's protocol, wherever it is live."""

    port: int
    user = "me"

    def connect(self) -> Postgres:
        end = time.monotonic() + 120
        while True:
            try:
                return Postgres(self.port, timeout=300, user=self.user)
            except (OSError, Gone, Error):
                if time.monotonic() > end:
                    raise
                time.sleep(0.02)

    def set_up(self) -> None:
        client = self.connect()
        for sql in SETUP:
            client.ask(sql)
        client.close()

    def load(self) -> None:
        client = self.connect()
        client.copy_in("COPY imported FROM STDIN", *PIECES)
        client.close()


class Guest(OverNetwork):
    """The guest at two hosts: what a client is told the standby has."""

    name = "the guest at two hosts"

    def __init__(self, folder: Path, script: Path, epoch: float) -> None:
        (folder / "hosts").mkdir()
        self.port = free_port()
        self.pair = Hosts(str(folder / "hosts"), script, self.port, NEVER, epoch)

    def __enter__(self) -> Guest:
        self.pair.__enter__()
        self.set_up()
        return self

    def __exit__(self, *words: object) -> None:
        self.pair.__exit__(*words)

    def fail(self) -> None:
        """The live host is killed, and the standby is promoted at once."""
        self.pair.hosts[0].kill()
        self.pair.hosts[1].ask("promote")
        self.pair.hosts.reverse()

    def mend(self) -> None:
        self.pair.hosts[1].start()
        protected(*self.pair.hosts)


class Replicated(OverNetwork):
    """Two servers of PostgreSQL 15 over this machine's loopback."""

    name = "PostgreSQL 15, remote_apply"

    def __init__(self, folder: Path) -> None:
        self.folder, self.ports = folder / "postgresql", [free_port(), free_port()]
        self.folder.mkdir()
        shutil.chown(self.folder, "postgres")
        folder.chmod(0o755)
        self.port, self.live = self.ports[0], 0

    def as_postgres(self, *words: object) -> None:
        subprocess.run(["runuser", "-u", "postgres", "--", *map(str, words)], check=True, cwd="/", stdout=subprocess.DEVNULL,
                       stderr=subprocess.DEVNULL)

    def control(self, place: int, *words: object) -> None:
        self.as_postgres(BINARIES / "pg_ctl", "-D", self.folder / str(place), "-l", self.folder / f"{place}.log", "-w", *words)

    def start(self, place: int) -> None:
        options = f"-p {self.ports[place]} -k {self.folder} -c listen_addresses=127.0.0.1 -c max_connections=50"
        self.control(place, "-o", options, "start")

    def follow(self, place: int) -> None:
        """A copy of the live server as its standby, without which no commit is told."""
        source = f"host=127.0.0.1 port={self.port} user=me application_name=standby"
        self.as_postgres(BINARIES / "pg_basebackup", "-D", self.folder / str(place), "-d", source, "-R", "-X", "stream", "-c", "fast")
        self.start(place)

    def __enter__(self) -> Replicated:
        self.as_postgres(BINARIES / "initdb", "-D", self.folder / "0", "-A", "trust", "-U", "me")
        self.start(0)
        client = Postgres(self.port, user="me", timeout=60, database="postgres")
        client.ask("CREATE DATABASE db")
        client.close()
        self.set_up()
        self.follow(1)
        client = self.connect()
        client.ask("ALTER SYSTEM SET synchronous_standby_names = '*'")
        client.ask("ALTER SYSTEM SET synchronous_commit = remote_apply")
        client.ask("SELECT pg_reload_conf()")
        client.close()
        return self

    def __exit__(self, *_: object) -> None:
        for place in (0, 1):
            with contextlib.suppress(subprocess.CalledProcessError):
                self.control(place, "-m", "immediate", "stop")

    def fail(self) -> None:
        """The live server ends without a word, and the standby is promoted at once; alone, it waits for no standby."""
        self.control(self.live, "-m", "immediate", "stop")
        self.live = 1 - self.live
        self.control(self.live, "promote")
        self.port = self.ports[self.live]
        client = self.connect()
        client.ask("ALTER SYSTEM RESET synchronous_standby_names")
        client.ask("SELECT pg_reload_conf()")
        client.close()


Place = Alone | Guest | Replicated


def transfer(name: str, source: int, target: int) -> str:
    return (f"BEGIN; UPDATE account SET balance = balance - 1 WHERE id = {source}; "
            f"UPDATE account SET balance = balance + 1 WHERE id = {target}; "
            f"INSERT INTO transfer VALUES('{name}', {source}, {target}, 1); COMMIT")


def reading(name: str, source: int, target: int) -> str:
    return f"SELECT balance FROM account WHERE id = {source}"


def rate(place: Place, act: Callable[[str, int, int], str], clients: int, seconds: float, run: str) -> tuple[float, float]:
    """So many of an act are made a second, and the median of how long one takes, in milliseconds."""
    waits: list[float] = []
    connections = [place.connect() for _ in range(clients)]
    begun = time.monotonic()

    def work(number: int) -> None:
        count = 0
        while (now := time.monotonic()) < begun + seconds:
            count += 1
            connections[number].ask(act(f"{run}-{number}-{count}", (number + clients * count) % ACCOUNTS + 1, (7 * count) % ACCOUNTS + 1))
            waits.append(time.monotonic() - now)

    threads = [threading.Thread(target=work, args=(number,)) for number in range(clients)]
    for thread in threads:
        thread.start()
    for thread in threads:
        thread.join()
    took = time.monotonic() - begun
    for connection in connections:
        connection.close()
    return len(waits) / took, sorted(waits)[len(waits) // 2] * 1000


def failover(place: Guest | Replicated, run: str) -> tuple[float, int, int, int]:
    """The longest that a client waited over a failure, who makes transfers without end and connects again where he must; how often he had
    to; and how many were acknowledged, and aren't there."""
    acknowledged: list[str] = []
    is_over, longest, again = threading.Event(), 0.0, 0

    def work() -> None:
        nonlocal longest, again
        client, count, last = place.connect(), 0, time.monotonic()
        while not is_over.is_set():
            count += 1
            name = f"{run}-{count}"
            try:
                client.ask(transfer(name, count % ACCOUNTS + 1, count * 3 % ACCOUNTS + 1))
                acknowledged.append(name)
                longest, last = max(longest, time.monotonic() - last), time.monotonic()
            except (Gone, Error):
                again += 1
                client = place.connect()
        client.close()

    thread = threading.Thread(target=work)
    thread.start()
    time.sleep(2)
    place.fail()
    time.sleep(4)
    is_over.set()
    thread.join()
    client = place.connect()
    there = {row[0] for row in client.rows(f"SELECT id FROM transfer WHERE id LIKE '{run}-%'")}
    client.close()
    return longest, again, len(acknowledged), len(set(acknowledged) - there)


def lines(folder: Path, script: Path, epoch: float, seconds: float) -> Iterator[str]:
    with Alone(folder) as alone, Guest(folder, script, epoch) as guest, Replicated(folder) as replicated:
        places: list[Place] = [alone, guest, replicated]
        yield f"| load of this machine {os.getloadavg()[0]:.0f} | " + " | ".join(place.name for place in places) + " |"
        yield "|---" * (1 + len(places)) + "|"
        for what, act in (("transfers", transfer), ("reads by key", reading)):
            for clients in (1, 8):
                found = [rate(place, act, clients, seconds, f"{what[0]}{clients}") for place in places]
                yield f"| {what} a second, {clients} client{'s' if clients > 1 else ''} (median) | " + " | ".join(
                    f"{number:,.0f} ({median:.1f} ms)" for number, median in found) + " |"
        took = []
        for place in places:
            begun = time.monotonic()
            place.load()
            took.append(time.monotonic() - begun)
        yield f"| import of {ROWS:,} rows | " + " | ".join(f"{one:.1f} s" for one in took) + " |"
        found_over = [failover(place, f"f{number}") for number, place in enumerate((guest, replicated))]
        yield "| pause of a failover; connections that broke | the program is gone | " + " | ".join(
            f"{longest:.1f} s; {again}" for longest, again, _, _ in found_over) + " |"
        yield "| acknowledged meanwhile, and lost by one host's end | what its disk keeps | " + " | ".join(
            f"{count}, {lost} lost" for _, _, count, lost in found_over) + " |"
