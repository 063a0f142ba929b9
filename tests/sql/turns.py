"""Statements in turns: while one takes long the others are served, and it can be stopped; how long it, a wait for a lock, and a silence
within a transaction may take; and what is said of a query that waits, once."""
from __future__ import annotations

import random
import socket
import sqlite3
import struct
import tempfile
import threading
import time
from collections.abc import Callable, Iterator
from pathlib import Path

from tests.postgres import Gone, Postgres, message, string
from tests.sql.host import Built, Served
from tests.sql.simple import code_of, later
from tests.sql.units import differs
from tests.sql.web import Browser

LONG = "WITH RECURSIVE c(x) AS (VALUES(1) UNION ALL SELECT x + 1 FROM c) SELECT count(*) FROM c"
# A statement each whose one call of a function takes minutes: as long as its values' lengths multiplied.
A, ENDS_OTHERWISE = "hex(zeroblob(125000))", "hex(zeroblob(60000)) || '1'"
CALLS = {
    "instr": f"SELECT instr(a, b) FROM (SELECT {A} a, {ENDS_OTHERWISE} b)",
    "instr of bytes": f"SELECT instr(a, b) FROM (SELECT CAST({A} AS BLOB) a, CAST({ENDS_OTHERWISE} AS BLOB) b)",
    "replace": f"SELECT replace(a, b, 'x') FROM (SELECT {A} a, {ENDS_OTHERWISE} b)",
    "LIKE": f"SELECT a LIKE b FROM (SELECT {A} a, '%' || hex(zeroblob(20000)) || '1' b)",
    "GLOB": f"SELECT a GLOB b FROM (SELECT {A} a, '*' || hex(zeroblob(20000)) || '1' b)",
    "trim": f"SELECT trim(a, b) FROM (SELECT {A} a, replace({A}, '0', '1') || '0' b)",
}
SOON = 1.0  # seconds in which another client is served: 0.2 of the guest's, and what this machine's other work takes
ALONE = "SELECT 1"


def cancel(port: int, client: Postgres) -> None:
    with socket.create_connection(("127.0.0.1", port)) as canceller:
        canceller.sendall(struct.pack(">IIII", 16, 80877102, *client.key))
        canceller.recv(1)


def timed(act: Callable[[], object]) -> tuple[object, float]:
    begun = time.monotonic()
    return act(), time.monotonic() - begun


def served_meanwhile(served: Served, thread: threading.Thread) -> float:
    """The longest that others waited: one that is there, one that comes, and a browser. Endless where the long one has ended."""
    there, longest = Postgres(served.postgres), 0.0
    for _ in range(5):
        for act in (lambda: there.ask(ALONE), lambda: Postgres(served.postgres).close(), lambda: Browser(served.http).ask("GET", "/")):
            longest = max(longest, timed(act)[1])
    there.close()
    return longest if thread.is_alive() else float("inf")


def long_ones(served: Served) -> Iterator[tuple[str, str | None]]:
    for name, sql in {"many operations": LONG, **CALLS}.items():
        client = Postgres(served.postgres)
        client.ask("SET statement_timeout = 0")
        thread, came = later(lambda: timed(lambda: code_of(lambda: client.ask(sql))))
        waited = served_meanwhile(served, thread)
        yield f"others beside {name}", None if waited < SOON else f"{waited:.2f} s"
        _, took = timed(lambda: (cancel(served.postgres, client), thread.join(60)))
        code = came[0][0] if came else "none"
        yield f"cancelled: {name}", None if code == "57014" and took < SOON else f"{code} after {took:.2f} s"
        client.ask("SET statement_timeout = '300ms'")
        code, took = timed(lambda: code_of(lambda: client.ask(sql)))
        is_right = code == "57014" and 0.25 < took < SOON + 0.3 and client.status == "I" and client.rows(ALONE) == [(1,)]
        yield f"too long: {name}", None if is_right else f"{code} after {took:.2f} s"
        client.close()


def whole_query(served: Served) -> Iterator[tuple[str, str | None]]:
    """The time is the query's, not each of its statements'."""
    client = Postgres(served.postgres)
    client.ask("SET statement_timeout = '400ms'")
    short = LONG.replace("FROM c)", "FROM c WHERE x < 30000)")
    code, took = timed(lambda: code_of(lambda: client.ask(";".join([short] * 2000))))
    yield "a query of many statements", None if code == "57014" and took < SOON + 0.4 else f"{code} after {took:.2f} s"
    client.close()


def comes_meanwhile(served: Served) -> Iterator[tuple[str, str | None]]:
    """What is asked while another question is worked on is answered after it."""
    client = Postgres(served.postgres)
    client.ask("SET statement_timeout = '500ms'")
    client.send(message(b"Q", string(LONG)))
    time.sleep(0.2)
    asked = b"".join(message(b"Q", string(f"SELECT {number}, '{'x' * 1000}'")) for number in range(50))
    for at in range(0, len(asked), 999):
        client.send(asked[at:at + 999])
    codes = [code_of(client.results)]
    rows = [client.results()[0].rows[0][0] for _ in range(50)]
    yield "questions that come meanwhile", differs([codes, rows], [["57014"], list(range(50))])
    client.close()


def goes_away(served: Served) -> Iterator[tuple[str, str | None]]:
    """A client that goes away in mid-statement leaves nothing open."""
    other, client = Postgres(served.postgres), Postgres(served.postgres)
    other.ask("CREATE TABLE gone(a)")
    client.ask("SET statement_timeout = 0")
    client.ask("BEGIN; INSERT INTO gone VALUES(1)")
    client.send(message(b"Q", string(LONG)))
    time.sleep(0.2)
    client.vanish()
    _, took = timed(lambda: other.ask("INSERT INTO gone VALUES(2)"))
    rows = other.rows("SELECT a FROM gone")
    yield "one that goes away", None if rows == [(2,)] and took < SOON else f"{rows} after {took:.2f} s"
    with socket.create_connection(("127.0.0.1", served.postgres)) as one:
        one.sendall(struct.pack(">II", 17, 196608) + b"user\0me\0\0" + message(b"Q", string("INSERT INTO gone VALUES(3)")) + message(b"X"))
    for _ in range(100):
        rows = other.rows("SELECT a FROM gone")
        if len(rows) == 2:
            break
        time.sleep(0.05)
    yield "one that asks and goes away", differs(rows, [(2,), (3,)])
    other.close()


def timeouts(served: Served) -> Iterator[tuple[str, str | None]]:
    holder, waiter = Postgres(served.postgres), Postgres(served.postgres)
    holder.ask("CREATE TABLE held(a)")
    holder.ask("BEGIN IMMEDIATE")
    waiter.ask("SET lock_timeout = 300")
    code, took = timed(lambda: code_of(lambda: waiter.ask("INSERT INTO held VALUES(1)")))
    yield "a lock that doesn't come", None if code == "55P03" and 0.25 < took < SOON + 0.3 else f"{code} after {took:.2f} s"
    code = code_of(lambda: waiter.execute("INSERT INTO held VALUES(1)"))
    yield "nor to an extended query", differs([code, waiter.status, waiter.rows(ALONE)], ["55P03", "I", [(1,)]])
    waiter.ask("SET lock_timeout = 0; SET statement_timeout = '300ms'")
    code, took = timed(lambda: code_of(lambda: waiter.ask("INSERT INTO held VALUES(1)")))
    yield "a wait is the statement's", None if code == "57014" and 0.25 < took < SOON + 0.3 else f"{code} after {took:.2f} s"
    holder.ask("SET idle_in_transaction_session_timeout = '300ms'")
    waiter.ask("RESET ALL")
    _, took = timed(lambda: waiter.ask("INSERT INTO held VALUES(1)"))
    yield "one that is idle", None if took < SOON + 0.3 else f"{took:.2f} s"
    try:
        kind, body = holder.receive()
        said = (kind, body[:body.find(b"M")].replace(b"\0", b" "))
        holder.receive()
        ended = "goes on"
    except Gone:
        ended = "ends"
    yield "is told, and ended", differs([said, ended], [(b"E", b"SFATAL VFATAL C25P03 "), "ends"])
    resting = Postgres(served.postgres)
    resting.ask("SET idle_in_transaction_session_timeout = '100ms'")
    time.sleep(0.4)
    yield "one outside of a transaction may be", differs(resting.rows(ALONE), [(1,)])
    resting.close()
    waiter.close()


def settings(served: Served) -> Iterator[tuple[str, str | None]]:
    client = Postgres(served.postgres)

    def shown(name: str = "statement_timeout") -> str:
        return client.rows(f"SHOW {name}")[0][0]

    names = ("statement_timeout", "lock_timeout", "idle_in_transaction_session_timeout")
    yield "the image's timeouts", differs([shown(name) for name in names], ["20s", "10s", "1min"])
    seen = []
    for value in ("5000", "'1500'", "'1500ms'", "'2 min'", "'3h'", "0", "DEFAULT"):
        client.ask(f"SET statement_timeout TO {value}")
        seen.append(shown())
    yield "set", differs(seen, ["5s", "1500ms", "1500ms", "2min", "3h", "0", "20s"])
    unread = ("'x'", "-1", "'5 years'", "'99999999999'", "''")
    seen = [code_of(lambda value=value: client.ask(f"SET lock_timeout = {value}")) for value in unread]
    yield "not set", differs([seen, shown("lock_timeout")], [["22023"] * 5, "10s"])
    client.ask("SET SESSION statement_timeout = 7; BEGIN; SET LOCAL statement_timeout = 9000")
    seen = [shown()]
    client.ask("COMMIT")
    seen.append(shown())
    client.ask("BEGIN; SET statement_timeout = 8000; COMMIT")
    seen.append(shown())
    client.ask("BEGIN; SET statement_timeout = 9000")
    client.ask("ROLLBACK")
    seen.append(shown())
    client.ask("BEGIN; SET statement_timeout = 9000")
    code_of(lambda: client.ask("SELECT broken"))
    client.ask("COMMIT")
    seen.append(shown())
    client.ask("DISCARD ALL")
    yield "within transactions", differs([*seen, shown()], ["9s", "7ms", "8s", "8s", "8s", "20s"])
    client.execute("SET lock_timeout = '4s'")
    yield "by an extended query", differs([client.execute("SHOW lock_timeout").rows, client.rows("SELECT current_setting('lock_timeout')")],
                                          [[("4s",)], [("4s",)]])
    client.close()
    browser = Browser(served.http)
    said = [browser.ask("POST", "/sql", body=sql)[1] for sql in (b"SET statement_timeout = 5; SHOW statement_timeout",
                                                                 b"SHOW statement_timeout")]
    yield "of a question over HTTP", differs(said, ["5ms\n", "20s\n"])


def functions(served: Served) -> Iterator[tuple[str, str | None]]:
    """The guest's own functions answer as SQLite's."""
    rng, local, client, wrong = random.Random(5), sqlite3.connect(":memory:"), Postgres(served.postgres), None
    local.text_factory = bytes
    parts = ["a", "b", "ab", "A", "%", "_", "*", "?", "[", "]", "^", "-", "[a-b]", "\u00e4", "\u20ac", "\U0001f600", "\\", ""]

    def text(most: int, is_text: bool = False) -> str:
        made = "".join(rng.choice(parts) for _ in range(rng.randrange(most))).encode()
        if rng.random() < 0.2:
            made += rng.choice([b"\x80", b"\xc3", b"\xff", b"\xed\xa0\x80", b"\xf0\x9f"]) + b"b" * rng.randrange(2)
        return rng.choice([f"CAST(x'{made.hex()}' AS TEXT)"] * 6 + ["NULL", "12", "1.5"] + [f"x'{made.hex()}'"] * (not is_text))

    for _ in range(1500):
        one, other, third = text(8), text(4), text(4)
        like, pattern = text(8, is_text=True), text(4, is_text=True)  # Debian's LIKE is of no bytes
        call = rng.choice([f"{like} LIKE {pattern}", f"{like} GLOB {pattern}", f"like({pattern}, {like}, 'a')",
                           f"like({pattern}, {like}, '%')", f"like({pattern}, {like}, '_')", f"{like} LIKE {pattern} ESCAPE '\\'",
                           f"instr({one}, {other})", f"replace({one}, {other}, {third})", f"trim({one}, {other})",
                           f"ltrim({one}, {other})", f"rtrim({one}, {other})"])
        sql = f"SELECT quote(CAST({call} AS BLOB)), typeof({call})"
        wanted = tuple(value.decode() for value in local.execute(sql).fetchone())
        came = client.rows(sql)[0]
        wrong = wrong or (None if came == wanted else f"{sql}: {came}, not {wanted}")
    yield "1500 calls of the guest's own functions", wrong
    refused = [code_of(lambda sql=sql: client.ask(sql)) for sql in ("SELECT 'a' LIKE 'b' ESCAPE 'xy'", "SELECT 'a' LIKE 'b' ESCAPE ''",
                                                                    "SELECT 'a' LIKE hex(zeroblob(30000))")]
    yield "and refuse as they do", differs(refused, ["22019", "22019", "54001"])
    client.close()


def answers(client: Postgres) -> str:
    """The kinds of the messages that come, to the first Z."""
    came = ""
    while not came.endswith("Z"):
        came += client.receive()[0].decode()
    return came


def once(served: Served) -> Iterator[tuple[str, str | None]]:
    """A query whose first statements were answered when a later one has to wait, and then to begin anew, is answered once."""
    holder, reader = Postgres(served.postgres), Postgres(served.postgres)
    holder.ask("PRAGMA journal_mode = DELETE")
    holder.ask("CREATE TABLE anew(a); INSERT INTO anew VALUES(1)")
    for turn, first in enumerate((ALONE, f"SELECT '{'x' * 100_000}'")):
        holder.ask("BEGIN EXCLUSIVE")
        reader.send(message(b"Q", string(f"{first}; SELECT a FROM anew; UPDATE anew SET a = a + 1; SELECT 2")))
        time.sleep(0.3)
        reader.socket.setblocking(False)
        try:
            reader.came += reader.socket.recv(1 << 20)
        except BlockingIOError:
            pass
        reader.socket.settimeout(60)
        early = len(reader.came)
        # It reads, and finds another who means to write: it must begin anew.
        holder.send(message(b"Q", string("COMMIT; BEGIN IMMEDIATE")))
        holder.results()
        time.sleep(0.3)
        holder.ask("COMMIT")
        came = answers(reader)
        yield f"one that begins anew is answered once, {len(first)} bytes", differs([early, came], [0, "TDCTDCCTDCZ"])
        yield "and done once", differs(holder.rows("SELECT a FROM anew"), [(turn + 2,)])
    holder.close()
    reader.close()


def tests(built: Built) -> Iterator[tuple[str, str | None]]:
    with tempfile.TemporaryDirectory() as folder, Served(built, Path(folder) / "turns") as served:
        for part in (settings, functions, long_ones, whole_query, comes_meanwhile, goes_away, timeouts, once):
            yield from part(served)
