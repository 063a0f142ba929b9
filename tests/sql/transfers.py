"""Transfers between accounts by several clients at once over PostgreSQL's protocol. Each that is acknowledged is kept here, and at the end
the database must have them all, none twice, and none that was refused or that nobody made."""
from __future__ import annotations

import dataclasses
import random
import threading
import time
from collections.abc import Callable

from tests.postgres import Error, Gone, Postgres

ACCOUNTS, EACH, TOTAL = 10, 1000, 10_000
MOST = 400  # of one transfer
SETUP = (f"DROP TABLE IF EXISTS transfer; DROP TABLE IF EXISTS account;"
         f"CREATE TABLE account(id INTEGER PRIMARY KEY, balance INTEGER NOT NULL CHECK(balance >= 0));"
         f"CREATE TABLE transfer(id TEXT PRIMARY KEY, source INTEGER, target INTEGER, amount INTEGER) WITHOUT ROWID;"
         f"WITH RECURSIVE c(x) AS (VALUES(1) UNION ALL SELECT x + 1 FROM c WHERE x < {ACCOUNTS}) "
         f"INSERT INTO account SELECT x, {EACH} FROM c")
Transfer = tuple[int, int, int]  # from an account to another, so much


@dataclasses.dataclass
class Bank:
    """What clients were told."""

    port: int
    password: str | None = None
    address: str = "127.0.0.1"
    patience: float = 120  # seconds, for one answer
    between: float = 0.1  # seconds from one client's opening to the next: libslirp takes few at once
    pause: float = 0  # at most so many seconds lie between a client's transfers, each on a connection of its own; 0: none, on one
    acknowledged: dict[str, Transfer] = dataclasses.field(default_factory=dict)
    unknown: dict[str, Transfer] = dataclasses.field(default_factory=dict)
    refused: set[str] = dataclasses.field(default_factory=set)
    again: int = 0  # so many weren't serializable
    waits: list[float] = dataclasses.field(default_factory=list)
    reads: int = 0
    wrong: list[str] = dataclasses.field(default_factory=list)
    faults: list[str] = dataclasses.field(default_factory=list)
    until: float = 0  # when the last transfers begin, by the monotonic clock
    lock: threading.Lock = dataclasses.field(default_factory=threading.Lock)

    def connect(self) -> Postgres:
        """A connection; one that isn't to be had at once is tried again."""
        end = time.monotonic() + max(self.patience, 60)
        while True:
            try:
                return Postgres(self.port, self.password, self.patience, address=self.address)
            except (OSError, Gone) as error:
                with self.lock:
                    self.faults.append(f"connecting: {error}")
                if time.monotonic() > end:
                    raise
                time.sleep(0.2)

    def surely(self, sql: str) -> list[tuple]:
        """The rows of a query that may be asked twice."""
        end = time.monotonic() + max(self.patience, 60)
        while True:
            try:
                client = self.connect()
                rows = client.rows(sql)
                client.close()
                return rows
            except Gone as error:
                with self.lock:
                    self.faults.append(f"{sql[:30]}: {error}")
                if time.monotonic() > end:
                    raise

    def run(self, client: Postgres, name: str, transfer: Transfer, act: Callable[[Postgres, str, Transfer], bool]) -> Postgres:
        """One transfer, and what is known of it then. Answers the connection, or another one where it is gone."""
        begun = time.monotonic()
        try:
            is_made = act(client, name, transfer)
            with self.lock:
                self.waits.append(time.monotonic() - begun)
                if is_made:
                    self.acknowledged[name] = transfer
                else:
                    self.refused.add(name)
        except Error as error:
            with self.lock:
                self.refused.add(name)
                self.again += error.code == "40001"
                if error.code not in ("40001", "23514"):
                    self.wrong.append(f"{name}: {error}")
            try:
                client.ask("ROLLBACK")
            except Gone as gone:
                self.faults.append(f"{name}, rolled back: {gone}")
                return self.connect()
        except Gone as error:
            with self.lock:
                self.unknown[name] = transfer
                self.faults.append(f"{name}: {error}")
            return self.connect()
        return client

    def whole(self, act: Callable[..., None], *words: object) -> None:
        """What breaks off is wrong too."""
        try:
            act(*words)
        except Exception as error:
            self.wrong.append(f"{act.__name__} {words[:1]} broke off: {error!r}")

    def client(self, number: int, act: Callable[[Postgres, str, Transfer], bool]) -> None:
        rng, count, client = random.Random(number), 0, self.connect()
        while time.monotonic() < self.until:
            count += 1
            source, target = rng.sample(range(1, ACCOUNTS + 1), 2)
            client = self.run(client, f"{number}-{count}", (source, target, rng.randint(1, MOST)), act)
            if self.pause:
                client.close()
                time.sleep(self.pause * rng.random())
                client = self.connect()
        client.close()

    def observer(self) -> None:
        """Reads the total again and again: it is right, and no fewer transfers are there than were acknowledged or seen before."""
        client, last = self.connect(), 0
        while time.monotonic() < self.until:
            with self.lock:
                least = max(last, len(self.acknowledged))
            try:
                [(total, count, smallest)] = client.rows(
                    "SELECT sum(balance), (SELECT count(*) FROM transfer), min(balance) FROM account")
            except Gone:
                client = self.connect()
                continue
            if total != TOTAL or smallest < 0 or count < least:
                self.wrong.append(f"read: total {total}, smallest {smallest}, {count} transfers where {least} were acknowledged or seen")
            last, self.reads = count, self.reads + 1
            time.sleep(0.02)
        client.close()

    def play(self, seconds: float, clients: int, act: Callable[[Postgres, str, Transfer], bool]) -> float:
        """Sets the accounts up and lets the clients run. Answers the seconds that it took."""
        self.surely(SETUP)
        begun = time.monotonic()
        self.until = begun + seconds
        threads = [threading.Thread(target=self.whole, args=(self.client, number, act)) for number in range(1, clients + 1)]
        threads.append(threading.Thread(target=self.whole, args=(self.observer,)))
        for thread in threads:
            thread.start()
            time.sleep(self.between)
        for thread in threads:
            thread.join()
        return time.monotonic() - begun

    def check(self, rows: Callable[[str], list[tuple]]) -> list[str]:
        """What is wrong in the database, given what it answers, and what was seen to be before."""
        stored: dict[str, Transfer] = {}
        last = ""
        while part := rows(f"SELECT id, source, target, amount FROM transfer WHERE id > '{last}' ORDER BY id LIMIT 5000"):
            stored.update((row[0], row[1:]) for row in part)
            last = part[-1][0]
        balances = dict(rows("SELECT id, balance FROM account"))
        expected = dict.fromkeys(range(1, ACCOUNTS + 1), EACH)
        for source, target, amount in stored.values():
            expected[source] -= amount
            expected[target] += amount
        self.lost = [name for name, transfer in self.acknowledged.items() if stored.get(name) != transfer]
        made_up = [name for name in stored if name not in self.acknowledged and name not in self.unknown]
        found = list(self.wrong)
        if self.lost:
            found.append(f"{len(self.lost)} acknowledged transfers are lost: {self.lost[:5]}")
        if made_up:
            found.append(f"{len(made_up)} transfers are there that nobody was told of, or that were refused: {made_up[:5]}")
        if balances != expected or sum(balances.values()) != TOTAL:
            found.append(f"the balances aren't those of the transfers: {balances}, not {expected}")
        if (whole := rows("PRAGMA integrity_check")) != [("ok",)]:
            found.append(f"integrity_check: {whole}")
        self.stored = len(stored)
        return found

    def report(self, took: float) -> str:
        waits = sorted(self.waits) or [0.0]
        def quantile(part: float) -> float:
            return waits[min(len(waits) - 1, int(part * len(waits)))]
        return (f"{len(self.acknowledged)} transfers acknowledged in {took:.0f} s ({len(self.acknowledged) / took:.0f} a second), "
                f"{self.stored} stored; {len(self.refused)} refused, {self.again} of them as not serializable; {len(self.unknown)} "
                f"without an answer; {self.reads} reads of the total; waits: median {quantile(0.5) * 1000:.0f} ms, "
                f"99 % {quantile(0.99) * 1000:.0f} ms, longest {waits[-1]:.2f} s; {len(self.faults)} faults {self.faults[:3]}")


def at_once(client: Postgres, name: str, transfer: Transfer) -> bool:
    """A transfer as one query."""
    source, target, amount = transfer
    client.ask(f"BEGIN IMMEDIATE; UPDATE account SET balance = balance - {amount} WHERE id = {source};"
               f"UPDATE account SET balance = balance + {amount} WHERE id = {target};"
               f"INSERT INTO transfer VALUES('{name}', {source}, {target}, {amount}); COMMIT")
    return True


def by_reading(client: Postgres, name: str, transfer: Transfer) -> bool:
    """A transfer as drivers make it: it reads both balances, decides, and writes them, each in a message of its own."""
    source, target, amount = transfer
    client.ask("BEGIN")
    [(has,)] = client.rows(f"SELECT balance FROM account WHERE id = {source}")
    [(gets,)] = client.rows(f"SELECT balance FROM account WHERE id = {target}")
    if has < amount:
        client.ask("ROLLBACK")
        return False
    client.ask(f"UPDATE account SET balance = {has - amount} WHERE id = {source}")
    client.ask(f"UPDATE account SET balance = {gets + amount} WHERE id = {target}")
    client.execute("INSERT INTO transfer VALUES($1, $2, $3, $4)", (name.encode(), *(str(number).encode() for number in transfer)))
    client.ask("COMMIT")
    return True
