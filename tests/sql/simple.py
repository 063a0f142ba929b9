"""Simple queries of PostgreSQL's protocol, and clients beside each other."""
from __future__ import annotations

import random
import socket
import sqlite3
import struct
import tempfile
import threading
import time
from collections.abc import Callable, Iterator
from pathlib import Path

from tests.postgres import BYTEA, FLOAT8, INT8, TEXT, Error, Gone, Postgres, message, string
from tests.sql.host import Built, Served
from tests.sql.units import differs

# What is refused, and the SQLSTATE that PostgreSQL has for it.
REFUSED = [
    ("SELECT * FROM nowhere", "42P01"), ("SELECT nocolumn FROM t", "42703"), ("SELEC 1", "42601"), ("SELECT nofunction(1)", "42883"),
    ("CREATE TABLE t(a)", "42P07"), ("INSERT INTO t VALUES(1, 'x')", "23505"), ("INSERT INTO t VALUES(9, NULL)", "23502"),
    ("INSERT INTO t VALUES(9, 'checked')", "23514"), ("INSERT INTO u VALUES(77)", "23503"), ("SELECT abs(-9223372036854775808)", "22003"),
    ("SELECT json('{')", "22P02"), ("SELECT * FROM json_each('{')", "22P02"), ("SELECT json_extract('{}', 'x')", "42601"),
    ("INSERT INTO t VALUES(1, 2, 3)", "42601"), ("INSERT INTO t(a, b) VALUES(9)", "42601"), ("SELECT 1 UNION SELECT 1, 2", "42601"),
    ("VALUES(1), (1, 2)", "42601"), ("SELECT (SELECT 1, 2)", "42601"), ("UPDATE t SET (a, b) = (1)", "42601"),
    ("SELECT count(count(a)) FROM t", "42803"), ("SELECT a FROM t ORDER BY 5", "42P10"), ("CREATE TABLE w(a, a)", "42701"),
    ("DETACH nowhere", "3D000"), ("INSERT INTO t VALUES(9, 'x') ON CONFLICT(b) DO NOTHING", "42P10"),
    ("DROP TABLE sqlite_schema", "42501"), ("SELECT 'a' LIKE 'b' ESCAPE 'cc'", "22019"),
    ("ATTACH '/db' AS other", "42501"), ("ATTACH '/db-journal' AS other", "42501"), ("ATTACH '/db-wal' AS other", "42501"),
    ("ATTACH '/d' || 'b' AS other", "42501"), ("VACUUM INTO '/db-journal'", "42501"), ("ATTACH '/other' AS other", "42501"),
    ("SHOW nosetting", "42704"), ("INSERT INTO t VALUES('a', 'b')", "42804"), ("SELECT zeroblob(2000000)", "54000"),
    ("WITH RECURSIVE c(x) AS (VALUES(1) UNION ALL SELECT x+1 FROM c WHERE x<300000) SELECT x FROM c", "54000"),
]
START = ("CREATE TABLE t(a INTEGER PRIMARY KEY, b TEXT NOT NULL CHECK(b <> 'checked')); CREATE TABLE u(a INTEGER REFERENCES t); "
         "INSERT INTO t VALUES(1, 'one')")


def code_of(act: Callable[[], object]) -> str:
    try:
        act()
    except Error as error:
        return error.code
    except Gone:
        return "gone"
    return "none"


def errors(client: Postgres) -> Iterator[tuple[str, str | None]]:
    for sql, code in REFUSED:
        yield f"refused: {sql[:50]}", differs([code_of(lambda: client.ask(sql)), client.status], [code, "I"])


def values(client: Postgres) -> Iterator[tuple[str, str | None]]:
    """Random values, as Python's SQLite has them."""
    rng, local = random.Random(3), sqlite3.connect(":memory:")
    def expression(depth: int = 0) -> str:
        if depth > 2 or rng.random() < 0.3:
            return rng.choice(["1", "-7", "2.5", "NULL", "'a'", "'1e3'", "x'3031'", "9223372036854775807", "1e300", "''"])
        one, other = expression(depth + 1), expression(depth + 1)
        return rng.choice([f"({one} + {other})", f"({one} || {other})", f"coalesce({one}, {other})", f"max({one}, {other})",
                           f"typeof({one})",
                           f"CAST({one} AS {rng.choice(['INTEGER', 'REAL', 'TEXT'])})", f"quote({one})", f"({one} < {other})"])
    wrong = None
    for _ in range(300):
        sql = "SELECT " + ", ".join(expression() for _ in range(3))
        wanted = local.execute(sql).fetchone()
        [result] = client.ask(sql)
        types = [{int: INT8, float: FLOAT8, str: TEXT, bytes: BYTEA, type(None): TEXT}[type(value)] for value in wanted]
        # A floating point number comes with the fifteen digits that SQLite writes.
        near = all(came == value or isinstance(value, float) and abs(came - value) <= 1e-14 * abs(value)
                   for came, value in zip(result.rows[0], wanted))
        wrong = wrong or (None if near and result.types == types else f"{sql}: {result.rows} {result.types}, not {wanted}")
    yield "300 random values", wrong
    client.ask("CREATE TABLE mixed(a, b INTEGER, c REAL, d NUMERIC, e BLOB)")
    [empty] = client.ask("SELECT * FROM mixed")
    client.ask("INSERT INTO mixed VALUES(1, 1, 1, 1, x'aa'), (2.5, 2, 2.5, 2.5, x'bb'), (NULL, NULL, NULL, NULL, NULL)")
    [result] = client.ask("SELECT * FROM mixed")
    [attached] = client.ask("ATTACH ':memory:' AS other")
    client.ask("CREATE TABLE other.t(a)")
    client.ask("DETACH other")
    yield "what is attached in memory, and VACUUM", differs([attached.tag, client.ask("VACUUM")[0].tag], ["ATTACH", "VACUUM"])
    yield "types of columns", differs([empty.types, result.types], [[TEXT, INT8, FLOAT8, FLOAT8, BYTEA],
                                                                    [FLOAT8, INT8, FLOAT8, FLOAT8, BYTEA]])


def transactions(client: Postgres) -> Iterator[tuple[str, str | None]]:
    sql = "BEGIN; INSERT INTO t VALUES(2, 'x'); UPDATE t SET b = 'y' WHERE a = 2; COMMIT; VALUES(1), (2)"
    tags = [result.tag for result in client.ask(sql)]
    yield "tags", differs(tags, ["BEGIN", "INSERT 0 1", "UPDATE 1", "COMMIT", "SELECT 2"])
    client.ask("BEGIN")
    seen = [client.status, code_of(lambda: client.ask("SELECT * FROM nowhere")), client.status, code_of(lambda: client.ask("SELECT 1")),
            client.ask("COMMIT")[0].tag, client.status]
    yield "a failed transaction", differs(seen, ["T", "42P01", "E", "25P02", "ROLLBACK", "I"])
    client.ask("BEGIN; INSERT INTO t VALUES(3, 'x'); SAVEPOINT s")
    seen = [code_of(lambda: client.ask("INSERT INTO t VALUES(3, 'x')")), client.status, client.ask("ROLLBACK TO s")[0].tag, client.status]
    client.ask("COMMIT")
    yield "back to a savepoint", differs([*seen, client.rows("SELECT count(*) FROM t WHERE a = 3")],
                                         ["23505", "E", "ROLLBACK", "T", [(1,)]])
    seen = [code_of(lambda: client.ask("INSERT INTO t VALUES(4, 'x'); INSERT INTO t VALUES(4, 'y')")),
            client.rows("SELECT count(*) FROM t WHERE a = 4")]
    yield "several statements are one", differs(seen, ["23505", [(0,)]])
    code_of(lambda: client.ask("INSERT INTO t VALUES(5, 'x'); COMMIT; INSERT INTO t VALUES(6, 'x'); SELECT broken"))
    yield "until one commits", differs(client.rows("SELECT a FROM t WHERE a > 4"), [(5,)])
    client.ask("INSERT INTO t VALUES(7, 'x'); BEGIN; INSERT INTO t VALUES(8, 'x')")
    before = client.status
    client.ask("ROLLBACK")
    yield "or one begins", differs([before, client.rows("SELECT a FROM t WHERE a > 6")], ["T", []])
    client.warnings.clear()
    client.ask("BEGIN")
    client.ask("BEGIN; COMMIT; COMMIT; ROLLBACK")
    yield "warnings", differs(client.warnings, ["25001", "25P01", "25P01"])
    seen = [code_of(lambda: client.ask("BEGIN; PRAGMA defer_foreign_keys = 1; INSERT INTO u VALUES(99); COMMIT")), client.status]
    yield "a commit that fails", differs([*seen, client.rows("SELECT count(*) FROM u")], ["23503", "I", [(0,)]])
    yield "nothing", differs([result.tag for result in client.ask(" ; -- nothing\n")], ["I"])
    yield "foreign words", differs([client.ask(sql)[0].tag for sql in ("SET x = 1", "RESET x", "DISCARD ALL", "START TRANSACTION",
                                                                       "ABORT")],
                                   ["SET", "RESET", "DISCARD ALL", "BEGIN", "ROLLBACK"])
    yield "settings", differs(client.rows("SHOW transaction_isolation"), [("serializable",)])


def texts(served: Served) -> Iterator[tuple[str, str | None]]:
    """What is no text is refused, and none of it is run."""
    client = Postgres(served.postgres)
    client.ask("CREATE TABLE texts(a)")
    for name, data, code in [("bytes behind a zero", b"INSERT INTO texts VALUES(1)\0; DELETE FROM texts\0", "08P01"),
                             ("a query without its zero", b"INSERT INTO texts VALUES(1)", "08P01"),
                             ("bytes that are not UTF-8", b"INSERT INTO texts VALUES('\xff')\0", "22021"),
                             ("half of a character of UTF-16", b"INSERT INTO texts VALUES('\xed\xa0\x80')\0", "22021")]:
        client.send(message(b"Q", data))
        yield name, differs([code_of(client.results), client.rows("SELECT count(*) FROM texts")], [code, [(0,)]])
    client.ask("BEGIN")
    client.send(message(b"Q", b"SELECT '\xff'\0"))
    seen = [code_of(client.results), client.status]
    client.ask("ROLLBACK; INSERT INTO texts VALUES('\u00e9\u20ac\U0001f600')")
    yield "and end a transaction, as each error does", differs([*seen, client.rows("SELECT * FROM texts")],
                                                              ["22021", "E", [("\u00e9\u20ac\U0001f600",)]])
    client.ask("DROP TABLE texts")
    client.close()


def triggers(served: Served) -> Iterator[tuple[str, str | None]]:
    """psql sends a trigger in parts, each to its semicolon."""
    psql, other = Postgres(served.postgres, program="psql"), Postgres(served.postgres)
    psql.ask("CREATE TABLE counted(n); INSERT INTO counted VALUES(0); CREATE TABLE rows(a)")
    parts = ["CREATE TEMP TRIGGER one AFTER INSERT ON rows BEGIN UPDATE counted SET n = n + 1;",
             "/* ; */ INSERT INTO rows SELECT 7 WHERE new.a = ';';", "END;"]
    tags = [psql.ask(part)[0].tag for part in parts]
    psql.ask("INSERT INTO rows VALUES(1)")
    yield "a trigger in parts", differs([tags, psql.rows("SELECT n FROM counted")],
                                        [["CREATE TRIGGER, goes on until END"] * 2 + ["CREATE TRIGGER"], [(1,)]])
    whole = "CREATE TRIGGER two AFTER INSERT ON rows BEGIN UPDATE counted SET n = n + 10; END"
    tags = [one.ask(f"{whole}{end}")[-1].tag for one, end in ((psql, ";"), (other, ""))
            if not one.ask("DROP TRIGGER IF EXISTS two")[0].rows]
    psql.ask("INSERT INTO rows VALUES(1)")
    yield "a trigger as a whole", differs([tags, psql.rows("SELECT n FROM counted")], [["CREATE TRIGGER"] * 2, [(12,)]])
    psql.ask("CREATE TRIGGER three AFTER INSERT ON rows BEGIN DELETE FROM rows;")
    seen = [code_of(lambda: psql.ask("DROP TABLE rows")), psql.ask("SELECT 1")[0].rows, code_of(lambda: psql.ask("END;"))]
    yield "a trigger that is broken off", differs([*seen, psql.rows("SELECT count(*) FROM rows"), psql.warnings],
                                                  ["42601", [(1,)], "none", [(2,)], ["25P01"]])
    code = code_of(lambda: other.ask("CREATE TRIGGER three AFTER INSERT ON rows BEGIN DELETE FROM rows;"))
    yield "another program's trigger isn't whole", differs([code, other.rows("SELECT 1")], ["42601", [(1,)]])
    psql.ask("DROP TABLE rows; DROP TABLE counted")
    psql.close()
    other.close()


def later(act: Callable[[], object]) -> tuple[threading.Thread, list[object]]:
    """Does it in a thread; its answer comes into the list."""
    came: list[object] = []
    thread = threading.Thread(target=lambda: came.append(act()))
    thread.start()
    time.sleep(0.2)
    return thread, came


def waiting(served: Served, client: Postgres, is_logged: bool = True) -> Iterator[tuple[str, str | None]]:
    others = [Postgres(served.postgres) for _ in range(6)]
    client.ask("BEGIN; UPDATE t SET b = 'held' WHERE a = 1")
    sql = "UPDATE t SET b = b || '+' WHERE a = 1; SELECT b FROM t WHERE a = 1"
    threads = [later(lambda one=one: one.ask(sql)[-1].rows) for one in others]
    before = [came for _, came in threads]
    seen_before = [list(came) for came in before]
    client.ask("COMMIT")
    for thread, _ in threads:
        thread.join(30)
    yield "they wait in order", differs([seen_before, [came for _, came in threads]],
                                        [[[]] * 6, [[[("held" + "+" * i,)]] for i in range(1, 7)]])
    # One that reads and then writes is begun anew; in a transaction of its own it can't be.
    one, other = others[:2]
    client.ask("BEGIN IMMEDIATE")
    other.ask("BEGIN")
    other.rows("SELECT count(*) FROM t")
    thread, came = later(lambda: one.ask("SELECT b FROM t WHERE a = 1; UPDATE t SET b = 'anew' WHERE a = 1")[0].rows)
    code = code_of(lambda: other.ask("UPDATE t SET b = 'late' WHERE a = 1"))
    seen = list(came)
    other.ask("ROLLBACK")
    client.ask("UPDATE t SET b = 'first' WHERE a = 1; COMMIT")
    thread.join(30)
    yield "one is begun anew", differs([code, seen, came, client.rows("SELECT b FROM t WHERE a = 1")],
                                       ["40001", [], [[("first",)]], [("anew",)]])
    # A reader is in the way of a commit, unless there is a log.
    other.ask("BEGIN")
    other.rows("SELECT count(*) FROM t")
    thread, came = later(lambda: client.ask("UPDATE t SET b = 'waits' WHERE a = 1")[0].tag)
    if is_logged:
        thread.join(30)
    seen = [list(came), other.rows("SELECT b FROM t WHERE a = 1")]
    other.ask("COMMIT")
    thread.join(30)
    yield f"a commit beside readers, {is_logged}", differs([seen, came], [[["UPDATE 1"] * is_logged, [("anew",)]], ["UPDATE 1"]])
    # Cancelled while it waits.
    client.ask("BEGIN IMMEDIATE")
    thread, came = later(lambda: code_of(lambda: one.ask("DELETE FROM t")))
    with socket.create_connection(("127.0.0.1", served.postgres)) as canceller:
        canceller.sendall(struct.pack(">IIII", 16, 80877102, one.key[0], one.key[1] ^ 1))
        wrong_key = canceller.recv(10)
    time.sleep(0.1)
    seen = [wrong_key, list(came)]
    with socket.create_connection(("127.0.0.1", served.postgres)) as canceller:
        canceller.sendall(struct.pack(">IIII", 16, 80877102, *one.key))
        answered = canceller.recv(10)
    thread.join(30)
    yield "cancelled", differs([seen, answered, came, one.ask("SELECT 1")[0].rows], [[b"", []], b"", ["57014"], [(1,)]])
    # One that vanishes with the lock.
    client.ask("ROLLBACK")
    vanishing = Postgres(served.postgres)
    vanishing.ask("BEGIN; DELETE FROM t")
    thread, came = later(lambda: one.ask("UPDATE t SET b = 'there' WHERE a = 1")[0].tag)
    vanishing.vanish()
    thread.join(30)
    yield "one vanishes", differs(came, ["UPDATE 1"])
    for one in others:
        one.close()


def nonsense(served: Served) -> Iterator[tuple[str, str | None]]:
    """Bytes that are none of the protocol: the connection ends, or is told; the others go on."""
    rng, client = random.Random(4), Postgres(served.postgres)
    start = struct.pack(">II", 8 + 9, 196608) + b"user\0me\0\0"
    for turn in range(150):
        with socket.create_connection(("127.0.0.1", served.postgres), 10) as one:
            one.settimeout(0.02)
            kind = rng.choice([b"Q", b"P", b"B", b"D", b"E", b"C", b"S", b"p", b"x", b"d", b"F"])
            data = rng.randbytes(rng.randrange(40))
            whole = kind + struct.pack(">I", rng.choice([len(data) + 4, rng.randrange(100)])) + data
            one.sendall(rng.choice([data, start + whole, start + whole * 3, struct.pack(">I", 9) + data]))
            try:
                while one.recv(4096):
                    pass
            except OSError:
                pass
    yield "150 clients of nonsense", differs(client.rows("SELECT 1"), [(1,)])
    with socket.create_connection(("127.0.0.1", served.postgres), 10) as one:
        one.sendall(struct.pack(">II", 8, 80877103))
        refused = one.recv(1)
        one.sendall(start)
        yield "no TLS", differs([refused, one.recv(1)], [b"N", b"R"])
    client.send(message(b"Q", string("SELECT '" + "x" * 300_000 + "'")))
    yield "a message that is too long", differs(code_of(client.results), "gone")
    client = Postgres(served.postgres)
    long = "x" * 200_000
    yield "a long message", differs(client.rows(f"SELECT '{long}'"), [(long,)])
    clients = [Postgres(served.postgres) for _ in range(50)]
    yield "50 clients", differs([one.rows("SELECT 1") for one in clients], [[(1,)]] * 50)


def want_of_memory(built: Built, room: Path) -> Iterator[tuple[str, str | None]]:
    """Memory is refused now and then: each client is told, or its connection ends; what was acknowledged is there."""
    with Served(built, room / "memory", refused=600) as served:
        acknowledged, unknown, told, client = set(), set(), 0, None
        end = time.monotonic() + 20
        for number in range(3000):
            if time.monotonic() > end:
                break
            try:
                client = client or Postgres(served.postgres)
                client.ask("CREATE TABLE IF NOT EXISTS t(a INTEGER PRIMARY KEY, b TEXT);"
                           f"INSERT INTO t VALUES({number}, '{'x' * (number % 500)}')")
                acknowledged.add(number)
            except Error:
                told += 1
            except Gone:
                unknown.add(number)
                client = None
        rows = None
        while rows is None:
            try:
                client = client or Postgres(served.postgres)
                rows = {row[0] for row in client.rows("SELECT a FROM t")}
                whole = client.rows("PRAGMA integrity_check")
            except Error:
                pass
            except Gone:
                client = None
        is_right = acknowledged <= rows <= acknowledged | unknown and whole == [("ok",)] and told > 50
        yield "want of memory", None if is_right else (f"{len(acknowledged - rows)} lost, {len(rows - acknowledged - unknown)} too many, "
                                                       f"{told} were told, {whole}")


def places(built: Built, room: Path) -> Iterator[tuple[str, str | None]]:
    """All places are taken by clients that have asked much: what it took is there for the next."""
    with Served(built, room / "places", memory=32 << 20) as served:
        clients, outcomes = [], []
        for _ in range(60):
            clients.append(Postgres(served.postgres))
            outcomes.append(code_of(lambda: clients[-1].ask(f"SELECT '{'x' * 200_000}' AS a")))
        outcomes += [code_of(lambda: one.ask(f"SELECT '{'x' * 200_000}' AS a")) for one in clients]
        yield "60 clients that have asked much", differs(outcomes, ["none"] * 120)


def tests(built: Built) -> Iterator[tuple[str, str | None]]:
    with tempfile.TemporaryDirectory() as folder:
        room = Path(folder)
        with Served(built, room / "simple") as served:
            client = Postgres(served.postgres)
            client.ask("PRAGMA foreign_keys = 1")
            client.ask(START)
            yield from errors(client)
            yield from values(client)
            yield from transactions(client)
            yield from texts(served)
            yield from triggers(served)
            yield from waiting(served, client)
            yield from nonsense(served)
        with Served(built, room / "journal") as served:
            client = Postgres(served.postgres)
            client.ask("PRAGMA journal_mode = DELETE")
            client.ask(START)
            yield from waiting(served, client, is_logged=False)
        yield from want_of_memory(built, room)
        yield from places(built, room)
