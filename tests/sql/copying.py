"""COPY: its words, rows in text, CSV and binary as PostgreSQL 15 reads and writes them (copies.json has its answers), copies that fail or
are given up, clients that wait for each other, and rows of more than there is room for."""
from __future__ import annotations

import json
import struct
import tempfile
import threading
import time
from collections.abc import Iterator
from pathlib import Path

from tests.postgres import Error, Gone, Postgres, message, string
from tests.sql import copies
from tests.sql.host import HERE, Built, Fed, Served
from tests.sql.simple import code_of, later
from tests.sql.units import differs

# What can't be copied, and why.
REFUSED = [
    ("COPY nowhere FROM STDIN", "42P01"), ("COPY t(zz) FROM STDIN", "42703"), ("COPY t(a, a) FROM STDIN", "42701"),
    ("COPY t FROM '/etc/passwd'", "0A000"), ("COPY t TO PROGRAM 'rm'", "0A000"), ("COPY (SELECT 1) FROM STDIN", "42601"),
    ("COPY t FROM STDIN WITH (FORMAT xml)", "22023"), ("COPY t FROM STDIN WITH (FORMAT csv, FORMAT csv)", "42601"),
    ("COPY t FROM STDIN WITH (DELIMITER 'ab')", "0A000"), ("COPY t FROM STDIN WITH (ENCODING 'latin1')", "0A000"),
    ("COPY t FROM STDIN WITH (NOTHING)", "42601"), ("COPY t FROM STDIN WITH (FORMAT binary, NULL '')", "42601"),
    ("COPY (DELETE FROM t RETURNING a) TO STDOUT", "0A000"), ("COPY (SELECT 1; DELETE FROM t) TO STDOUT", "0A000"),
    ("COPY t FROM STDIN; SELECT 1", "0A000"), ("SELECT 1; COPY t TO STDOUT", "0A000"), ("COPY", "42601"), ("COPY t", "42601"),
    ("COPY t FROM STDIN WITH (FORMAT csv, FORCE_QUOTE *)", "0A000"), ("COPY t TO STDOUT WITH (HEADER match)", "0A000"),
]
# Words of every age, with what they copy.
WORDS = [
    ("COPY t TO STDOUT", b"1\tx\n"), ("copy main.t(b, a) to stdout", b"x\t1\n"), ('COPY "public"."t" ("a") TO STDOUT;', b"1\n"),
    ("COPY t TO STDOUT WITH DELIMITER AS '|' NULL AS ''", b"1|x\n"), ("COPY t TO STDOUT CSV HEADER", b"a,b\n1,x\n"),
    ("COPY t TO STDOUT CSV QUOTE AS '%' FORCE QUOTE b", b"1,%x%\n"), ("COPY t TO STDOUT WITH DELIMITER AS E'\\x7c'", None),
    ("COPY t TO STDOUT DELIMITER E'\\t' NULL E'\\\\N'", b"1\tx\n"), 
    ("/* ( */ COPY (SELECT ')' || b, (1) FROM t) TO STDOUT -- x", b")x\t1\n"),
    ("COPY t TO STDOUT (FORMAT 'csv', DELIMITER ';', HEADER 1, ENCODING 'utf-8', FORCE_QUOTE (a))", b'a;b\n"1";x\n'),
]
PGBENCH = [
    "drop table if exists pgbench_accounts, pgbench_branches",
    "create table pgbench_branches(bid int not null,bbalance int,filler char(88)) with (fillfactor=100)",
    "create unlogged table pgbench_accounts(aid    int not null,bid int,abalance int,filler char(84)) with (fillfactor=100)",
    "begin", "truncate table pgbench_accounts, pgbench_branches", "insert into pgbench_branches(bid,bbalance) values(1,0)",
    "insert into pgbench_accounts(aid,bid,abalance,filler) select aid, (aid - 1) / 100000 + 1, 0, '' from generate_series(1, 200) as aid",
    "commit", "vacuum analyze pgbench_branches", "alter table pgbench_branches add primary key (bid)",
    "alter table pgbench_accounts add primary key (aid)", "vacuum pgbench_branches",
]


def recorded(client: Postgres) -> Iterator[tuple[str, str | None]]:
    client.ask(copies.SETUP)
    wrong = []
    for told, what, came in json.loads((HERE / "copies.json").read_text()):
        if (seen := copies.listed(copies.came_of(client, told, what))) != came:
            wrong.append(f"{told} {what!r}: {seen!r}, not {came!r}")
    yield "copies as PostgreSQL makes them", "; ".join(wrong[:3]) or None


def words(client: Postgres) -> Iterator[tuple[str, str | None]]:
    client.ask("DROP TABLE IF EXISTS t; CREATE TABLE t(a INTEGER PRIMARY KEY, b TEXT); INSERT INTO t VALUES(1, 'x')")
    for sql, code in REFUSED:
        yield f"refused: {sql}", differs(code_of(lambda sql=sql: client.copy_in(sql)), code)
    for sql, wanted in WORDS:
        came = code_of(lambda sql=sql: client.copy_out(sql))
        yield sql, differs([came, client.copied], ["none", wanted] if wanted is not None else ["0A000", b""])
    code = code_of(lambda: client.execute("COPY t TO STDOUT"))
    yield "a prepared copy", differs([code, client.rows("SELECT count(*) FROM t")], ["0A000", [(1,)]])


def kinds(client: Postgres) -> Iterator[tuple[str, str | None]]:
    """Values by their columns, and back."""
    client.ask("CREATE TABLE k(i INTEGER, r REAL, t TEXT, b BLOB, n NUMERIC, g AS (i + 1), y BOOLEAN, v VARCHAR(3))")
    client.copy_in("COPY k FROM STDIN", b"007\t1\t007\t\\\\x00ff\t1.0\tt\t007\n-5\t1e300\t-5\t\\\\x\tabc\tfalse\t\n",
                   b"99999999999999999999\tx\t\tplain\t9\t1\t\xc3\xa9\n")
    rows = client.rows("SELECT typeof(i) || i, typeof(r), t, typeof(b) || hex(b), typeof(n), y, v, g FROM k ORDER BY rowid")
    yield "values by their columns", differs(rows, [("integer7", "real", "007", "blob00FF", "integer", 1, "007", 8.0),
                                                    ("integer-5", "real", "-5", "blob", "text", 0, "", -4.0),
                                                    ("real1.0e+20", "text", "", "text706C61696E", "integer", 1, "é", 1e20)])
    data = client.copy_out("COPY k TO STDOUT")
    client.ask("CREATE TABLE l AS SELECT i, r, t, b, n, y, v FROM k; DELETE FROM k")
    client.copy_in("COPY k FROM STDIN", *(data[i:i + 1] for i in range(len(data))))
    yield "and back", differs(client.rows("SELECT count(*) FROM (SELECT i, r, t, b, n, y, v FROM k INTERSECT SELECT * FROM l)"), [(3,)])
    client.ask("DROP TABLE k; DROP TABLE l")


def binary_rows(*rows: tuple[bytes | None, ...]) -> bytes:
    front = b"PGCOPY\n\xff\r\n\0" + struct.pack(">II", 0, 0)
    return front + b"".join(struct.pack(">H", len(row)) + b"".join(struct.pack(">i", -1) if value is None else
                                                                   struct.pack(">i", len(value)) + value for value in row)
                            for row in rows) + b"\xff\xff"


def in_binary(client: Postgres) -> Iterator[tuple[str, str | None]]:
    client.ask("CREATE TABLE k(i INTEGER, r REAL, t TEXT, b BLOB)")
    data = binary_rows((struct.pack(">q", -7), struct.pack(">d", 1.5), "ü".encode(), b"\0\xff"), (None, None, None, None))
    client.copy_in("COPY k FROM STDIN (FORMAT binary)", *(data[i:i + 5] for i in range(0, len(data), 5)))
    yield "rows in binary", differs(client.rows("SELECT * FROM k"), [(-7, 1.5, "ü", b"\0\xff"), (None, None, None, None)])
    yield "and out", differs(client.copy_out("COPY k TO STDOUT WITH BINARY"), data)
    wrong = [data[1:], data[:11] + b"\0\1\0\0" + data[15:], data.replace(b"\0\4\0\0\0\x08", b"\0\3\0\0\0\x08"), data[:-8],
             data.replace(struct.pack(">iq", 8, -7), struct.pack(">i", 7) + b"1234567"), b"PGCOPY"]
    codes = [code_of(lambda data=data: client.copy_in("COPY k FROM STDIN (FORMAT binary)", data)) for data in wrong]
    wanted = ["22P04", "22P04", "22P04", "22P04", "22P03", "22P04"]
    yield "what is no binary", differs([codes, client.rows("SELECT count(*) FROM k")], [wanted, [(2,)]])
    client.ask("DROP TABLE k")


def all_or_none(client: Postgres) -> Iterator[tuple[str, str | None]]:
    """A copy that fails leaves nothing, and the client goes on."""
    client.ask("CREATE TABLE n(a INTEGER PRIMARY KEY, b TEXT CHECK(b <> 'bad'))")
    pieces = [b"%d\tgood\n" % number for number in range(1000)]
    cases = {"23505": pieces + [b"5\tagain\n"] + pieces, "23514": [*pieces, b"7000\tbad\n"], "22P04": [*pieces, b"1\t2\t3\n"],
             "42804": [b"x\ty\n"], "22021": [b"1\t\xff\n", *pieces], "54000": [b"1\t" + b"x" * 200_000, b"x" * 200_000]}
    codes = [code_of(lambda data=data: client.copy_in("COPY n FROM STDIN", *data)) for data in cases.values()]
    yield "what is refused", differs([codes, client.status, client.rows("SELECT count(*) FROM n")], [list(cases), "I", [(0,)]])
    code = code_of(lambda: client.copy_in("COPY n FROM STDIN", *pieces, failing="no more"))
    yield "what is given up", differs([code, client.rows("SELECT count(*) FROM n")], ["57014", [(0,)]])
    client.ask("BEGIN; INSERT INTO n VALUES(1, 'own'); SAVEPOINT s")
    code = code_of(lambda: client.copy_in("COPY n FROM STDIN", b"2\tx\n1\ty\n"))
    again = code_of(lambda: client.copy_in("COPY n FROM STDIN", b"3\tx\n"))
    client.ask("ROLLBACK TO s")
    tag = client.copy_in("COPY n FROM STDIN", b"4\tx\n").tag
    client.ask("COMMIT")
    yield "in a transaction", differs([code, again, tag, client.rows("SELECT * FROM n")],
                                      ["23505", "25P02", "COPY 1", [(1, "own"), (4, "x")]])
    try:
        client.copy_in("COPY n FROM STDIN", b"50\tx\n60\ty\n60\tz\n")
        why = ""
    except Error as error:
        why = error.why
    yield "its line is named", differs(why, "line 3: UNIQUE constraint failed: n.a")
    client.send(message(b"Q", string("COPY n FROM STDIN")) + message(b"d", b"70\tx\n") + message(b"H") + message(b"S")
                + message(b"Q", string("x")))
    code = code_of(client.results)
    client.send(message(b"d", b"late\n") + message(b"c"))
    yield "another message ends it", differs([code, client.rows("SELECT count(*) FROM n")], ["08P01", [(2,)]])


def among_others(served: Served) -> Iterator[tuple[str, str | None]]:
    """Copies wait for those who write, and who vanishes or says nothing in the midst of his leaves nothing."""
    one, other = Postgres(served.postgres), Postgres(served.postgres)
    one.ask("CREATE TABLE w(a INTEGER PRIMARY KEY)")
    one.ask("BEGIN IMMEDIATE; INSERT INTO w VALUES(1)")
    thread, came = later(lambda: other.copy_in("COPY w FROM STDIN", b"2\n3\n").tag)
    time.sleep(0.2)
    before = list(came)
    one.ask("COMMIT")
    thread.join(30)
    yield "a copy waits", differs([before, came, one.rows("SELECT count(*) FROM w")], [[], ["COPY 2"], [(3,)]])
    other.ask("BEGIN; SET LOCAL lock_timeout = '300ms'")
    one.ask("BEGIN IMMEDIATE")
    code = code_of(lambda: other.copy_in("COPY w FROM STDIN", b"4\n"))
    other.ask("ROLLBACK")
    yield "and no longer than it may", differs([code, other.status], ["55P03", "I"])
    other.ask("SET lock_timeout = '300ms'")
    code = code_of(lambda: other.copy_in("COPY w FROM STDIN", b"4\n"))
    one.ask("COMMIT")
    yield "also outside of one", differs([code, other.copy_in("COPY w FROM STDIN", b"4\n").tag], ["55P03", "COPY 1"])
    other.send(message(b"Q", string("COPY w FROM STDIN")) + message(b"d", b"5\n6\n"))
    time.sleep(0.1)
    other.vanish()
    one.ask("INSERT INTO w VALUES(5)")
    yield "one that vanishes leaves nothing", differs(one.rows("SELECT max(a) FROM w"), [(5,)])
    silent = Postgres(served.postgres)
    silent.ask("SET idle_in_transaction_session_timeout = '500ms'")
    silent.send(message(b"Q", string("COPY w FROM STDIN")) + message(b"d", b"7\n"))
    silent.receive()
    one.ask("INSERT INTO w VALUES(7)")
    kind, body = silent.receive()
    yield "nor one that says no more", differs([kind, b"25P03" in body, code_of(lambda: silent.ask("SELECT 1"))], [b"E", True, "gone"])
    one.close()


def much(served: Served) -> Iterator[tuple[str, str | None]]:
    """More than an answer or a question has room for, beside others; and a reader who takes nothing."""
    client, other = Postgres(served.postgres), Postgres(served.postgres)
    client.ask("CREATE TABLE m(a INTEGER PRIMARY KEY, b TEXT)")
    rows = b"".join(b"%d\t%s\n" % (number, b"x" * (number % 60)) for number in range(12_000))
    pieces = [rows[at:at + 7777] for at in range(0, len(rows), 7777)]
    came: list[str] = []
    thread, waits = threading.Thread(target=lambda: came.append(client.copy_in("COPY m FROM STDIN", *pieces).tag)), [0.0]
    thread.start()
    while thread.is_alive():
        begun = time.monotonic()
        other.rows("SELECT 1")
        waits.append(time.monotonic() - begun)
    yield "many rows in", differs([came, max(waits) < 1], [["COPY 12000"], True])
    again = client.copy_out("COPY (SELECT a, b FROM m, (SELECT 1 UNION SELECT 2 UNION SELECT 3) ORDER BY 1) TO STDOUT")
    yield "and out", differs(again, b"".join(line + b"\n" for line in rows.splitlines() for _ in range(3)))
    for one in (client, other):
        one.close()


def of_pgbench(client: Postgres) -> Iterator[tuple[str, str | None]]:
    """What pgbench says before its script, and what pg_dump says of keys."""
    tags = [client.ask(sql)[-1].tag for sql in PGBENCH]
    yield "pgbench's own statements", differs(tags, ["DROP TABLE", "CREATE TABLE", "CREATE TABLE", "BEGIN", "TRUNCATE TABLE", "INSERT 0 1",
                                                     "INSERT 0 200", "COMMIT", "VACUUM", "ALTER TABLE", "ALTER TABLE", "VACUUM"])
    client.ask("ALTER TABLE ONLY public.pgbench_accounts ADD CONSTRAINT \"own key\" UNIQUE (bid, aid)")
    seen = client.rows("SELECT count(*), min(aid), max(aid), (SELECT group_concat(name) FROM pragma_index_list('pgbench_accounts')) "
                       "FROM pgbench_accounts")
    code = code_of(lambda: client.ask("INSERT INTO pgbench_accounts(aid) VALUES(7)"))
    yield "what came of them", differs([seen, code], [[(200, 1, 200, "own key,pgbench_accounts_pkey")], "23505"])
    rows = [client.rows(f"SELECT * FROM {words}") for words in (
        "generate_series(1, 3)", "generate_series(5, 1, -2) AS n(x) WHERE x > 1", "generate_series(2, 1) s",
        "t JOIN generate_series((1), max(1, 2)) AS g ON g = t.a ORDER BY 1")]
    yield "series", differs(rows, [[(1,), (2,), (3,)], [(5,), (3,)], [], [(1, "x", 1)]])
    tags = [code_of(lambda sql=sql: client.ask(sql)) for sql in ("DROP TABLE pgbench_accounts, nowhere", "SELECT 1 FROM pgbench_accounts",
                                                                 "TRUNCATE pgbench_accounts, nowhere", "VACUUM (FULL, ANALYZE) t",
                                                                 "VACUUM FULL",
                                                                 "DROP TABLE pgbench_accounts, pgbench_branches CASCADE")]
    yield "all or none of several", differs(tags, ["42P01", "none", "42P01", "none", "none", "none"])
    code = code_of(lambda: client.execute("TRUNCATE t, t"))
    yield "one alone where it is prepared", differs([code, client.execute("TRUNCATE t").tag], ["0A000", "TRUNCATE TABLE"])


def slow_readers(built: Built, room: Path) -> Iterator[tuple[str, str | None]]:
    """One who takes nothing is stopped when his statement's time is over, and goes on when he takes it."""
    start = struct.pack(">II", 9, 196608) + b"\0"
    query = "WITH RECURSIVE c(x) AS (VALUES(1) UNION ALL SELECT x + 1 FROM c WHERE x < 9999) SELECT x, 'xxxxxxxx' FROM c"
    with Fed(built, room / "slow") as fed:
        fed.tell("open", 0, 5432)
        fed.tell("take", 0, start.hex())
        fed.tell("slow", 0, 30_000)
        _, said = fed.tell("take", 0, message(b"Q", string(f"COPY ({query}) TO STDOUT")).hex())
        fed.tell("later", 19_000)
        fed.tell("slow", 0, 1_000)
        fed.tell("later", 2_000)
        _, more = fed.tell("slow", 0, 1_000_000)
        _, after = fed.tell("take", 0, message(b"Q", string("SELECT 42")).hex())
        yield "who takes nothing", differs([said[:1], len(said) < 31_000, b"57014" in more, more[-6:], b"42" in after],
                                           [b"H", True, True, b"Z\0\0\0\5I", True])


def short_of_memory(built: Built, room: Path) -> Iterator[tuple[str, str | None]]:
    """Refused memory fails a copy and nothing else."""
    with Served(built, room / "short", refused=400) as served:
        client, codes = Postgres(served.postgres), set()
        for sql in ("DROP TABLE IF EXISTS t", "CREATE TABLE t(a INTEGER PRIMARY KEY, b TEXT)"):
            while code_of(lambda sql=sql: client.ask(sql)) not in ("none", "42P07"):
                pass
        count = 0
        for turn in range(60):
            rows = [b"%d\t%s\n" % (number, b"y" * 3000) for number in range(20 * turn, 20 * turn + 20)]
            try:
                code = code_of(lambda rows=rows: client.copy_in("COPY t FROM STDIN", *rows))
                count += 20 * (code == "none")
                code_of(lambda: client.copy_out("COPY t TO STDOUT"))
            except (Gone, OSError):
                code = "gone"
            if code == "gone":
                client = Postgres(served.postgres)
            codes.add(code)
            code_of(lambda: client.ask("DELETE FROM t"))
        seen = client.rows("PRAGMA integrity_check")
        client.close()
    yield "without memory", None if seen == [("ok",)] and codes <= {"none", "53200", "gone"} and "none" in codes else f"{codes} {seen}"


def tests(built: Built) -> Iterator[tuple[str, str | None]]:
    with tempfile.TemporaryDirectory() as folder:
        room = Path(folder)
        with Served(built, room / "copying") as served:
            client = Postgres(served.postgres)
            for part in (recorded, words, kinds, in_binary, all_or_none, of_pgbench):
                yield from part(client)
            client.close()
            yield from among_others(served)
            yield from much(served)
        yield from slow_readers(built, room)
        yield from short_of_memory(built, room)
