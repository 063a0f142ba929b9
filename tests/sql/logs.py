"""The write-ahead log, which a new database has: readers and the one who writes go on beside each other, and a log that is full begins anew
as soon as nobody reads in it, also where connections stay."""
from __future__ import annotations

import re
import tempfile
from collections.abc import Iterator
from pathlib import Path

from tests.postgres import Error, Gone, Postgres
from tests.sql.host import Built, Served
from tests.sql.simple import code_of, later
from tests.sql.turns import timed
from tests.sql.units import differs
from tests.sql.web import Browser

# The small disk's log (FLAGS of host.py) has 127 frames of a page each, and the database 255 pages.
ROW = "INSERT INTO t(b) VALUES(randomblob(20000))"  # six pages of the log
CHANGE = "UPDATE t SET b = randomblob(20000)"
CHECK = "SELECT * FROM pragma_integrity_check"
SECTOR, LOG_AT, FIRST_LOG_AT, LOG_SECTORS = 512, 3072, 3584, 512


def idle_reader(served: Served) -> Iterator[tuple[str, str | None]]:
    """psycopg2's default: a SELECT opens a transaction, which stays open."""
    reader, writer = Postgres(served.postgres), Postgres(served.postgres)
    writer.ask("CREATE TABLE t(a INTEGER PRIMARY KEY, b BLOB); INSERT INTO t(b) VALUES('old')")
    reader.ask("BEGIN")
    before = reader.rows("SELECT count(*) FROM t")
    writer.ask("SET lock_timeout = '2s'")
    codes = [code_of(lambda: writer.ask("INSERT INTO t(b) VALUES('new')")) for _ in range(5)]
    other = Postgres(served.postgres)
    seen = [other.rows("SELECT count(*) FROM t"), reader.rows("SELECT count(*) FROM t")]
    yield "an idle reader stops nobody", differs([before, codes, seen], [[(1,)], ["none"] * 5, [[(6,)], [(1,)]]])
    yield "but may not write", differs(code_of(lambda: reader.ask("DELETE FROM t")), "40001")
    for one in (reader, writer, other):
        one.close()


def begins_anew(served: Served) -> Iterator[tuple[str, str | None]]:
    """Several times what the log has room for, by two clients that stay, in three ways."""
    clients = [Postgres(served.postgres) for _ in range(2)]
    clients[0].ask(f"DELETE FROM t; {ROW}; {ROW}; {ROW}")
    codes = [code_of(lambda number=number: clients[number % 2].ask(CHANGE)) for number in range(30)]
    codes += [code_of(lambda number=number: clients[number % 2].ask(f"SELECT count(*) FROM t; {CHANGE}; {CHANGE}")) for number in range(30)]
    codes += [code_of(lambda number=number: clients[number % 2].execute(f"{CHANGE} RETURNING a")) for number in range(30)]
    yield "a log begins anew", differs([set(codes), clients[0].rows(CHECK), clients[0].rows("SELECT count(*) FROM t")],
                                       [{"none"}, [("ok",)], [(3,)]])
    for one in clients:
        one.close()


def too_large(served: Served) -> Iterator[tuple[str, str | None]]:
    """A transaction that the log has no room for is refused; one for which it would have had room, if it were empty, isn't."""
    client = Postgres(served.postgres)
    client.ask("DELETE FROM t")
    code = code_of(lambda: client.ask(";".join([ROW] * 30)))
    yield "more than the log has", differs([code, client.rows("SELECT count(*) FROM t"), client.status], ["53100", [(0,)], "I"])
    for _ in range(10):
        client.ask(f"{ROW}; DELETE FROM t")
    codes = [code_of(lambda: client.ask(";".join([ROW] * 17 + ["SELECT 1", "DELETE FROM t"]))) for _ in range(4)]
    yield "as much as it has", differs([codes, client.rows("SELECT count(*) FROM t")], [["none"] * 4, [(0,)]])
    client.ask("BEGIN")
    codes = [code_of(lambda: client.ask(ROW)) for _ in range(30)] + [code_of(lambda: client.ask("COMMIT"))]
    code_of(lambda: client.ask("ROLLBACK"))
    again = [code_of(lambda: client.ask(ROW)) for _ in range(5)]
    yield "one of the client's own", differs(["53100" in codes, client.rows("SELECT count(*) FROM t"), again], [True, [(5,)], ["none"] * 5])
    client.close()


def reader_in_the_way(served: Served) -> Iterator[tuple[str, str | None]]:
    """One who reads in a log that is full is ended by his time-out; who writes has waited."""
    reader, writers = Postgres(served.postgres), [Postgres(served.postgres) for _ in range(2)]
    reader.ask("SET idle_in_transaction_session_timeout = '1500ms'")
    writers[0].ask(f"DELETE FROM t; {ROW}; {ROW}")
    reader.ask("BEGIN")
    reader.rows("SELECT count(*) FROM t")
    took = [timed(lambda number=number: code_of(lambda: writers[number % 2].ask(CHANGE))) for number in range(30)]
    try:
        reader.ask("SELECT 1")
        said = "nothing"
    except Error as error:
        said = error.code
    except Gone:
        said = "gone"
    waited = max(seconds for _, seconds in took)
    is_right = {code for code, _ in took} == {"none"} and 0.3 < waited < 5 and said in ("25P03", "gone")
    yield "a reader in the way", None if is_right else f"{took}, {said}"
    for one in writers:
        one.close()


def writers_wait(served: Served) -> Iterator[tuple[str, str | None]]:
    """They wait for one who reads for long, and no longer than they may; then they go on."""
    reader, writers = Postgres(served.postgres), [Postgres(served.postgres) for _ in range(3)]
    reader.ask("BEGIN")
    reader.rows("SELECT count(*) FROM t")
    writers[0].ask("SET lock_timeout = '300ms'")
    codes = [code_of(lambda: writers[0].ask(CHANGE)) for _ in range(20)]
    yield "no longer than they may", differs(codes[-1], "55P03")
    threads = [later(lambda one=one: code_of(lambda: one.ask(f"{CHANGE}; SELECT 1"))) for one in writers[1:]]
    before = [list(came) for _, came in threads]
    reader.ask("COMMIT")
    for thread, _ in threads:
        thread.join(30)
    yield "until there is room", differs([before, [came for _, came in threads]], [[[], []], [["none"], ["none"]]])
    for one in (reader, *writers):
        one.close()


def refused(served: Served) -> Iterator[tuple[str, str | None]]:
    client = Postgres(served.postgres)
    words = ("PRAGMA max_page_count = 1000000", "PRAGMA locking_mode = EXCLUSIVE", "PRAGMA main.locking_mode(exclusive)",
             "PRAGMA case_sensitive_like = 1")
    yield "what may not be set", differs([code_of(lambda word=word: client.ask(word)) for word in words], ["42501"] * 4)
    yield "may be asked", differs(client.rows("PRAGMA max_page_count"), [(255,)])
    client.close()


def boots(built: Built, room: Path) -> Iterator[tuple[str, str | None]]:
    """A log that is left by one that was killed, and one on a disk of before, where its area was another."""
    disk = room / "boots"
    served = Served(built, disk)
    client = Postgres(served.postgres)
    client.ask("CREATE TABLE t(a INTEGER PRIMARY KEY, b)")
    for number in range(5):
        client.ask(f"INSERT INTO t VALUES({number}, 'there')")
    client.ask("PRAGMA cache_size = 5")
    client.ask("BEGIN; UPDATE t SET b = 'gone'; WITH RECURSIVE c(x) AS (VALUES(10) UNION ALL SELECT x+1 FROM c WHERE x<500) "
               "INSERT INTO t SELECT x, printf('%.100c', 'a') FROM c")
    served.kill()
    for name in ("where it is", "where it was"):
        with Served(built, disk) as served:
            client = Postgres(served.postgres)
            came = client.rows("SELECT count(*), min(b), max(b), (SELECT * FROM pragma_integrity_check) FROM t")
            said = Browser(served.http).ask("GET", "/log")[1]
            is_said = re.fullmatch(r"[\d.]+ s: recovered \d+ frames from WAL file /db-wal\n", said)
            is_right = came == [(5, "there", "there", "ok")] and is_said
            yield f"a log that is left, {name}", None if is_right else f"{came} {said!r}"
            client.close()
        data = bytearray(disk.read_bytes())
        log = data[LOG_AT * SECTOR:(LOG_AT + LOG_SECTORS) * SECTOR]
        data[FIRST_LOG_AT * SECTOR:(FIRST_LOG_AT + LOG_SECTORS) * SECTOR] = log
        data[LOG_AT * SECTOR:(LOG_AT + LOG_SECTORS) * SECTOR] = bytes(LOG_SECTORS * SECTOR)
        data[56:64] = bytes(8)  # where the log begins (guests/sql/vfs.c)
        disk.write_bytes(data)


def tests(built: Built) -> Iterator[tuple[str, str | None]]:
    with tempfile.TemporaryDirectory() as folder:
        room = Path(folder)
        with Served(built, room / "logs") as served:
            for part in (idle_reader, begins_anew, too_large, reader_in_the_way, writers_wait, refused):
                yield from part(served)
        yield from boots(built, room)
