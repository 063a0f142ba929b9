"""Lists to which clients append numbers that come once, and which they read, several in a transaction; and whether what they were told is
strictly serializable: that there is one order of the transactions, in which each reads what those before it appended, and one that ended
before another began stands before it (Adya's dependencies over lists, as Elle has them)."""
from __future__ import annotations

import dataclasses
import itertools
import math
import random
import tempfile
import threading
import time
from collections.abc import Iterator
from pathlib import Path
from typing import Literal

from tests.postgres import Error, Gone, Postgres
from tests.sql.host import Built, Served

KEYS = 12
SETUP = ("DROP TABLE IF EXISTS list; CREATE TABLE list(key INTEGER PRIMARY KEY, items TEXT NOT NULL);"
         f"WITH RECURSIVE c(x) AS (VALUES(0) UNION ALL SELECT x + 1 FROM c WHERE x < {KEYS - 1}) INSERT INTO list SELECT x, '' FROM c")
Items = tuple[int, ...]


@dataclasses.dataclass
class Done:
    """A step of a transaction: an item that was appended to a key's list, or what was read there."""

    key: int
    appended: int | None = None
    read: Items = ()


@dataclasses.dataclass
class Transaction:
    began: float
    steps: list[Done]
    outcome: Literal["done", "refused", "unknown"] = "unknown"
    ended: float = math.inf


def items_of(text: str) -> Items:
    return tuple(int(word) for word in text.split(",") if word)


class Appends:
    """Clients, and what they were told."""

    def __init__(self, port: int, patience: float = 120) -> None:
        self.port, self.patience, self.lock = port, patience, threading.Lock()
        self.history: list[Transaction] = []
        self.numbers, self.until, self.wrong = itertools.count(1), 0.0, list[str]()
        self.pauses = [0.0]

    def connect(self) -> Postgres:
        """A connection; one that isn't to be had at once is tried again."""
        end = time.monotonic() + self.patience
        while True:
            try:
                return Postgres(self.port, timeout=self.patience)
            except (OSError, Gone):
                if time.monotonic() > end:
                    raise
                time.sleep(0.2)

    def planned(self, rng: random.Random) -> list[Done]:
        keys = [rng.randrange(KEYS) for _ in range(rng.randint(1, 4))]
        return [Done(key, next(self.numbers) if rng.random() < 0.5 else None) for key in keys]

    def make(self, client: Postgres, rng: random.Random, transaction: Transaction) -> None:
        """Makes a transaction: its steps in a query each, or all in one."""
        told = [f"UPDATE list SET items = items || '{step.appended},' WHERE key = {step.key}" if step.appended is not None else
                f"SELECT items FROM list WHERE key = {step.key}" for step in transaction.steps]
        if rng.random() < 0.5:
            results = client.ask("; ".join(told))
        else:
            begin = rng.choice(["BEGIN", "BEGIN IMMEDIATE"])
            results = [client.ask(sql)[0] for sql in (begin, *told, "COMMIT")][1:]
        for step, result in zip(transaction.steps, results):
            if step.appended is None:
                step.read = items_of(result.rows[0][0])

    def run(self, client: Postgres, rng: random.Random) -> Postgres:
        """One transaction. Answers the connection, or another one where it is gone."""
        transaction = Transaction(time.monotonic(), self.planned(rng))
        with self.lock:
            self.history.append(transaction)
        try:
            self.make(client, rng, transaction)
            transaction.outcome, transaction.ended = "done", time.monotonic()
        except Error as error:
            transaction.outcome, transaction.ended = "refused", time.monotonic()
            if error.code != "40001":
                self.wrong.append(str(error))
            if client.status != "I":
                client.ask("ROLLBACK")
        except Gone:
            return self.connect()
        with self.lock:
            self.pauses.append(time.monotonic() - transaction.began)
        return client

    def client(self, number: int) -> None:
        rng = random.Random(number)
        try:
            client = self.connect()
            while time.monotonic() < self.until:
                client = self.run(client, rng)
            client.close()
        except Exception as error:
            self.wrong.append(f"client {number} broke off: {error!r}")

    def play(self, seconds: float, clients: int, between: float = 0.05) -> dict[int, Items]:
        """Has clients at work for so many seconds. Answers the lists at the end."""
        setting = self.connect()
        setting.ask(SETUP)
        self.until = time.monotonic() + seconds
        threads = [threading.Thread(target=self.client, args=(number,)) for number in range(clients)]
        for thread in threads:
            thread.start()
            time.sleep(between)
        for thread in threads:
            thread.join()
        rows = self.connect().rows("SELECT key, items FROM list")
        setting.close()
        return {key: items_of(items) for key, items in rows}

    def report(self) -> str:
        counts = {outcome: sum(one.outcome == outcome for one in self.history) for outcome in ("done", "refused", "unknown")}
        return f"{counts['done']} done, {counts['refused']} refused, {counts['unknown']} unknown; longest {max(self.pauses):.2f} s"


# The checker.


def external_reads(transaction: Transaction) -> Iterator[tuple[int, Items, str | None]]:
    """What a transaction read of others, without what it had appended itself, and what is wrong with that."""
    own: dict[int, list[int]] = {}
    for step in transaction.steps:
        mine = tuple(own.get(step.key, ()))
        if step.appended is not None:
            own.setdefault(step.key, []).append(step.appended)
        elif step.read[len(step.read) - len(mine):] != mine:
            yield step.key, step.read, f"a transaction that appended {mine} reads {step.read[-5:]}"
        else:
            yield step.key, step.read[:len(step.read) - len(mine)], None


def wrong_lists(history: list[Transaction], final: dict[int, Items]) -> list[str]:
    """Items that are lost, twice there, made up or refused, and reads that aren't the front of their list."""
    appended = {(step.key, step.appended): one for one in history for step in one.steps if step.appended is not None}
    found = [f"{item} is twice in list {key}" for key, items in final.items() for item in items if items.count(item) > 1]
    there = {(key, item) for key, items in final.items() for item in items}
    for key, item in there:
        if (key, item) not in appended:
            found.append(f"{item} in list {key} was appended by nobody")
        elif appended[key, item].outcome == "refused":
            found.append(f"{item} in list {key} was refused")
    found += [f"{item} was acknowledged, and isn't in list {key}" for (key, item), one in appended.items()
              if one.outcome == "done" and (key, item) not in there]
    for one in history:
        for key, read, wrong in external_reads(one) if one.outcome == "done" else ():
            if wrong or read != final.get(key, ())[:len(read)]:
                found.append(wrong or f"list {key} was read as {read[-5:]}, which isn't its front")
    return found


def edges(history: list[Transaction], final: dict[int, Items]) -> dict[int, set[int]]:
    """For each transaction, by its place, those that must come after it. Behind them stand marks, one for each end of a transaction: those
    that begin after it come after its mark, and so do later marks."""
    after: dict[int, set[int]] = {place: set() for place in range(len(history))}
    writers = {(step.key, step.appended): place for place, one in enumerate(history) for step in one.steps if step.appended is not None}
    for key, items in final.items():
        for first, second in zip(items, items[1:]):
            after[writers[key, first]].add(writers[key, second])
    for place, one in enumerate(history):
        for key, read, _ in external_reads(one) if one.outcome == "done" else ():
            items = final[key]
            if read:
                after[writers[key, read[-1]]].add(place)
            if len(read) < len(items):
                after[place].add(writers[key, items[len(read)]])
    ended = sorted((one.ended, place) for place, one in enumerate(history) if one.ended < math.inf)
    began = sorted((one.began, place) for place, one in enumerate(history))
    mark = at = len(history) - 1
    for number, (when, place) in enumerate(ended):
        mark = len(history) + number
        after[mark] = {mark + 1} if number + 1 < len(ended) else set()
        after[place].add(mark)
    at = 0
    for number, (when, _) in enumerate(ended):
        until = ended[number + 1][0] if number + 1 < len(ended) else math.inf
        while at < len(began) and began[at][0] <= when:
            at += 1
        for later in itertools.takewhile(lambda one: one[0] <= until, began[at:]):
            after[len(history) + number].add(later[1])
    return {place: {other for other in others if other != place} for place, others in after.items()}


def cycle(after: dict[int, set[int]]) -> list[int] | None:
    """A cycle, or None: by taking away what nothing comes before, as long as there is such a one."""
    before = dict.fromkeys(after, 0)
    for others in after.values():
        for other in others:
            before[other] += 1
    free = [place for place, count in before.items() if count == 0]
    left = set(after)
    while free:
        place = free.pop()
        left.discard(place)
        for other in after[place]:
            before[other] -= 1
            if before[other] == 0:
                free.append(other)
    if not left:
        return None
    path: list[int] = []
    inward: dict[int, int] = {other: place for place in left for other in after[place] if other in left}
    place = next(iter(left))
    while place not in path:
        path.append(place)
        place = inward[place]
    return path[path.index(place):][::-1]


def told(history: list[Transaction], place: int) -> str:
    if place >= len(history):
        return "what began after that"
    steps = [f"{step.key}+{step.appended}" if step.appended is not None else f"{step.key}={step.read[-3:]}"
             for step in history[place].steps]
    return f"{history[place].began:.3f}..{history[place].ended:.3f} {' '.join(steps)}"


def check(history: list[Transaction], final: dict[int, Items]) -> list[str]:
    """What isn't strictly serializable."""
    found = wrong_lists(history, final)
    if found:
        return found
    there = {(key, item) for key, items in final.items() for item in items}
    seen = [one for one in history if one.outcome == "done" or (one.outcome == "unknown" and any(
        (step.key, step.appended) in there for step in one.steps))]
    around = cycle(edges(seen, final))
    return [] if around is None else [f"a cycle: {' -> '.join(told(seen, place) for place in around)}"]


# The checker's own test.


def history_of(*lines: str) -> list[Transaction]:
    """Transactions, each as 'BEGAN ENDED STEP..': a step is KEY+ITEM or KEY=ITEM,ITEM; an end is a number, - (unknown) or x (refused)."""
    history = []
    for line in lines:
        began, ended, *steps = line.split()
        done = [Done(int(step[0]), int(step[2:])) if step[1] == "+" else Done(int(step[0]), read=items_of(step[2:])) for step in steps]
        outcome: Literal["done", "refused", "unknown"] = "refused" if ended == "x" else "unknown" if ended == "-" else "done"
        history.append(Transaction(float(began), done, outcome, float(ended) if outcome == "done" else math.inf))
    return history


RIGHT: list[tuple[list[str], dict[int, Items]]] = [
    (["0 1 1+1", "2 3 1=1 1+2", "4 5 1=1,2"], {1: (1, 2)}), (["0 9 1+1", "1 2 1=", "3 4 1=1"], {1: (1,)}),
    (["0 - 1+1", "1 2 1=1"], {1: (1,)}), (["0 - 1+1", "1 2 1="], {1: ()}), (["0 x 1+1", "1 2 1="], {1: ()}),
    (["0 5 1+1 1=1 2=", "1 6 2+2 1=1"], {1: (1,), 2: (2,)}),
]
WRONG: dict[str, tuple[list[str], dict[int, Items]]] = {
    "a lost append": (["0 1 1+1", "2 3 1+2"], {1: (2,)}), "one that is there twice": (["0 1 1+1"], {1: (1, 1)}),
    "one that was refused": (["0 x 1+1"], {1: (1,)}), "one of nobody": ([], {1: (7,)}),
    "a read of what isn't so": (["0 1 1+1", "0 1 1+2", "2 3 1=2"], {1: (1, 2)}),
    "an old read": (["0 1 1+1", "2 3 1="], {1: (1,)}), "an order against time": (["0 1 1+1", "2 3 1+2"], {1: (2, 1)}),
    "write skew": (["0 9 1= 2+1", "0 9 2= 1+2"], {1: (2,), 2: (1,)}),
    "a fractured read": (["0 9 1+1 2+2", "0 9 1=1 2="], {1: (1,), 2: (2,)}),
    "two old reads in two orders": (["0 9 1+1", "0 9 2+2", "0 9 1=1 2=", "0 9 2=2 1="], {1: (1,), 2: (2,)}),
    "its own append unseen": (["0 1 1+1 1="], {1: (1,)}), "a cycle of writes": (["0 9 1+1 2+2", "0 9 1+3 2+4"], {1: (1, 3), 2: (4, 2)}),
    "a late one through others": (["0 1 1+1", "2 3 2+2", "4 5 2=2 1=", "0 9 1="], {1: (1,), 2: (2,)}),
}


def of_checker() -> Iterator[tuple[str, str | None]]:
    yield "right histories", next((f"{lines}: {found}" for lines, final in RIGHT if (found := check(history_of(*lines), final))), None)
    for name, (lines, final) in WRONG.items():
        yield f"{name} is found", None if check(history_of(*lines), final) else "it isn't"


def of_parts(built: Built, room: Path) -> Iterator[tuple[str, str | None]]:
    """The guest's own parts, with a log and without one."""
    for mode in ("WAL", "DELETE"):
        with Served(built, room / mode) as served:
            client = Postgres(served.postgres)
            client.ask(f"PRAGMA journal_mode = {mode}")
            client.close()
            appends = Appends(served.postgres)
            final = appends.play(1.2, 6, 0)
            found = appends.wrong + check(appends.history, final)
            enough = sum(one.outcome == "done" for one in appends.history) > 30
            yield f"lists, journal mode {mode}", None if enough and not found else f"{appends.report()}: {found[:2]}"


def tests(built: Built) -> Iterator[tuple[str, str | None]]:
    yield from of_checker()
    with tempfile.TemporaryDirectory() as folder:
        yield from of_parts(built, Path(folder))
