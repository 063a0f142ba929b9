"""The whole database over HTTP: as a file and as statements, while others write, cut short, and to clients that take nothing."""
from __future__ import annotations

import http.client
import random
import socket
import sqlite3
import struct
import subprocess
import tempfile
import threading
import time
from collections.abc import Iterator
from contextlib import closing
from pathlib import Path

from tests.postgres import Postgres
from tests.sql.host import GUEST, Built, Fed, Served
from tests.sql.units import Units, differs

SETUP = '''CREATE TABLE account(id INTEGER PRIMARY KEY, balance INTEGER NOT NULL, filler TEXT);
CREATE TABLE "odd ""name"" of; it"("a ""b""" TEXT, two REAL GENERATED ALWAYS AS (id * 2) STORED, id INTEGER PRIMARY KEY AUTOINCREMENT, v);
CREATE VIEW total AS SELECT sum(balance) AS sum FROM account;
CREATE INDEX by_balance ON account(balance);
CREATE TRIGGER noted AFTER UPDATE ON account WHEN new.balance > 5000 BEGIN INSERT INTO "odd ""name"" of; it"(v) VALUES(new.id); END;
WITH RECURSIVE c(x) AS (VALUES(1) UNION ALL SELECT x + 1 FROM c WHERE x < 1000)
INSERT INTO account SELECT x, 100, hex(zeroblob(200)) FROM c;
INSERT INTO "odd ""name"" of; it"("a ""b""", v) VALUES('it''s; "x"', x'00ff'), (NULL, 1e300), (char(10, 13, 9, 92), -1.5e-300),
('', 0.1), ('x', 9223372036854775807), ('-- no comment', x''), ('ünïcode', -9e999), ('z', 3.0);
ANALYZE'''
TOTAL = 100_000
DISK = GUEST / "disk"


def asked(served: Served, path: str, method: str = "GET") -> tuple[http.client.HTTPResponse, bytes]:
    connection = http.client.HTTPConnection("127.0.0.1", served.http, timeout=60)
    connection.request(method, path)
    answer = connection.getresponse()
    body = answer.read()
    connection.close()
    return answer, body


def cksum_of(data: bytes) -> str:
    return subprocess.run(["cksum"], input=data, stdout=subprocess.PIPE, check=True).stdout.split()[0].decode()


def looked_at(data: bytes, room: Path, sql: str) -> list[tuple]:
    """What this Python's SQLite finds in a database."""
    (room / "came").write_bytes(data)
    with closing(sqlite3.connect(room / "came")) as file:
        return file.execute("PRAGMA integrity_check").fetchall() + file.execute(sql).fetchall()


def lines_of(database: sqlite3.Connection) -> list[str]:
    return sorted(database.iterdump())


def as_file(served: Served, room: Path) -> Iterator[tuple[str, str | None]]:
    answer, data = asked(served, "/db")
    head, _ = asked(served, "/db", "HEAD")
    told = [answer.getheader(name) for name in ("Content-Type", "Content-Length", "Cksum")]
    yield "a file", differs(told, ["application/vnd.sqlite3", str(len(data)), cksum_of(data)])
    yield "its head alone", differs([head.getheader("Content-Length"), head.getheader("Cksum")], told[1:])
    wanted = [("ok",), (1000, TOTAL)]
    yield "it is a database", differs(looked_at(data, room, "SELECT count(*), sum(balance) FROM account"), wanted)


def transfers(served: Served, is_over: threading.Event) -> None:
    """Changes many pages over and over; the total stays."""
    client, rng = Postgres(served.postgres), random.Random(1)
    while not is_over.is_set():
        one, other = rng.sample(range(1, 1001), 2)
        client.ask(f"BEGIN IMMEDIATE; UPDATE account SET balance = balance - 1 WHERE id = {one};"
                   f"UPDATE account SET balance = balance + 1, filler = hex(randomblob(200)) WHERE id = {other}; COMMIT")
    client.close()


def while_written(served: Served, room: Path) -> Iterator[tuple[str, str | None]]:
    """Each copy is one moment of the database, also where the log begins anew between them."""
    is_over = threading.Event()
    writers = [threading.Thread(target=transfers, args=(served, is_over)) for _ in range(2)]
    for writer in writers:
        writer.start()
    wrong, copies = [], set()
    for _ in range(12):
        answer, data = asked(served, "/db")
        copies.add(data)
        if answer.getheader("Cksum") != cksum_of(data):
            wrong.append("its sum is another")
        if (seen := looked_at(data, room, "SELECT count(*), sum(balance) FROM account")) != [("ok",), (1000, TOTAL)]:
            wrong.append(f"file: {seen}")
        with closing(sqlite3.connect(":memory:")) as again:
            again.executescript(asked(served, "/dump")[1].decode())
            if (seen := again.execute("SELECT count(*), sum(balance) FROM account").fetchall()) != [(1000, TOTAL)]:
                wrong.append(f"statements: {seen}")
    is_over.set()
    for writer in writers:
        writer.join()
    yield "copies while clients write", differs([wrong[:3], len(copies) > 6], [[], True])


def as_statements(served: Served, room: Path) -> Iterator[tuple[str, str | None]]:
    answer, text = asked(served, "/dump")
    _, data = asked(served, "/db")
    (room / "file").write_bytes(data)
    with closing(sqlite3.connect(":memory:")) as again, closing(sqlite3.connect(room / "file")) as file:
        again.executescript(text.decode())
        yield "statements that make it again", differs(lines_of(again), lines_of(file))
        yield "with the same values", differs(*(one.execute('SELECT *, typeof(v) FROM "odd ""name"" of; it"').fetchall()
                                                for one in (again, file)))
        yield "and counts", differs(*(one.execute("SELECT * FROM sqlite_sequence").fetchall() for one in (again, file)))
    yield "in chunks", differs([answer.getheader("Transfer-Encoding"), text[-8:]], ["chunked", b"COMMIT;\n"])
    with socket.create_connection(("127.0.0.1", served.http), 30) as old:
        old.sendall(b"GET /dump HTTP/1.0\r\n\r\n")
        came = b""
        while more := old.recv(65536):
            came += more
    head, _, body = came.partition(b"\r\n\r\n")
    yield "or without them", differs([b"chunked" in head, b"Connection: close" in head, body == text], [False, True, True])


def silent_clients(served: Served) -> Iterator[tuple[str, str | None]]:
    """Clients that take nothing stop nobody, and one that goes leaves no transaction."""
    silent = [socket.create_connection(("127.0.0.1", served.http), 30) for _ in range(8)]
    for one in silent:
        one.setsockopt(socket.SOL_SOCKET, socket.SO_RCVBUF, 4096)
        one.sendall(b"GET /db HTTP/1.1\r\n\r\nGET /dump HTTP/1.1\r\n\r\n" * 20)
    client, begun = Postgres(served.postgres), time.monotonic()
    for _ in range(20):
        client.ask("UPDATE account SET filler = filler WHERE id = 1")
    yield "clients that take nothing", None if time.monotonic() - begun < 5 else f"{time.monotonic() - begun} s"
    for one in silent:
        one.close()
    client.ask("SET lock_timeout = '5s'")
    client.ask("PRAGMA journal_mode = DELETE")
    end = time.monotonic() + 20
    while client.rows("PRAGMA journal_mode") != [("delete",)] and time.monotonic() < end:
        time.sleep(0.2)
        client.ask("PRAGMA journal_mode = DELETE")
    yield "that go leave nothing", differs(client.rows("PRAGMA journal_mode"), [("delete",)])
    client.close()


def without_log(served: Served, room: Path) -> Iterator[tuple[str, str | None]]:
    """With a rollback journal a copy waits for the one who writes."""
    writer = Postgres(served.postgres)
    writer.ask("BEGIN EXCLUSIVE")
    came: list[tuple[http.client.HTTPResponse, bytes]] = []
    thread = threading.Thread(target=lambda: came.append(asked(served, "/db")))
    thread.start()
    time.sleep(0.2)
    before = list(came)
    writer.ask("UPDATE account SET balance = balance + 1; COMMIT")
    thread.join(30)
    seen = looked_at(came[0][1], room, "SELECT sum(balance) FROM account")
    yield "a copy waits where there is no log", differs([before, seen], [[], [("ok",), (TOTAL + 1000,)]])
    writer.ask("BEGIN EXCLUSIVE")
    answer, body = asked(served, "/dump")
    yield "and no longer than it may", differs([answer.status, body],
                                               [503, b"error: canceling statement due to lock timeout\n"])
    writer.close()


def refused(served: Served) -> Iterator[tuple[str, str | None]]:
    connection = http.client.HTTPConnection("127.0.0.1", served.http, timeout=60)
    seen = []
    for path in ("/db", "/dump"):
        connection.request("GET", path, headers={"User-Agent": "Mozilla/5.0", "Sec-Fetch-Site": "cross-site"})
        answer = connection.getresponse()
        answer.read()
        seen.append(answer.status)
        connection.close()
        connection.request("POST", path, "")
        answer = connection.getresponse()
        answer.read()
        seen.append(answer.status)
    yield "who may not have it", differs(seen, [403, 404, 403, 404])


def quiet(built: Built, room: Path) -> Iterator[tuple[str, str | None]]:
    """Whoever takes nothing for a minute is cut off; the file is shorter than was told then. A disk that can't be read on ends it too."""
    with Fed(built, room / "quiet") as fed:
        fed.tell("open", 0, 80)
        fed.tell("take", 0, b"POST /sql HTTP/1.1\r\nContent-Length: 76\r\n\r\n".hex())
        fed.tell("take", 0, b"CREATE TABLE t(a); INSERT INTO t VALUES(zeroblob(200000)),(zeroblob(200000))".hex())
        fed.tell("slow", 0, 20_000)
        fed.tell("take", 0, b"GET /db HTTP/1.1\r\n\r\n".hex())
        fed.tell("later", 59_000)
        before, _ = fed.tell("look", 0)
        fed.tell("later", 2_000)
        is_there, _ = fed.tell("look", 0)
        yield "who takes nothing is cut off", differs([before, is_there], [True, False])


def disk_of(snapshot: bytes, path: Path) -> None:
    """Writes the sectors of a snapshot as a file that is the disk of `served`."""
    text, at = snapshot[snapshot.index(b"\n") + 1:], 532
    with open(path, "wb") as disk:
        for _ in range(struct.unpack_from("<I", text, 528)[0]):
            disk.seek(512 * struct.unpack_from("<I", text, at)[0])
            disk.write(text[at + 4:at + 516])
            at += 516


def as_disk(path: Path) -> subprocess.CompletedProcess[bytes]:
    return subprocess.run([DISK, path], capture_output=True)


def from_outside(built: Built, room: Path, data: bytes) -> Iterator[tuple[str, str | None]]:
    """A database becomes the guest's disk, and comes back the same; what isn't one is refused."""
    (room / "old").write_bytes(data)
    disk_of(as_disk(room / "old").stdout, room / "disk")
    with Served(built, room / "disk") as served:
        client = Postgres(served.postgres)
        seen = client.rows("SELECT count(*), sum(balance), (SELECT * FROM pragma_integrity_check) FROM account")
        mode = client.rows("PRAGMA journal_mode")
        client.ask("UPDATE account SET balance = balance + 1")
        client.close()
        (room / "new").write_bytes(asked(served, "/db")[1])
    yield "a database from outside", differs([seen, mode], [[(1000, TOTAL, "ok")], [("wal",)]])
    with closing(sqlite3.connect(room / "new")) as new, closing(sqlite3.connect(room / "old")) as old:
        old.execute("UPDATE account SET balance = balance + 1")
        yield "and back", differs(lines_of(new), lines_of(old))
    (room / "none").write_bytes(b"no database at all" * 100)
    (room / "torn").write_bytes(data[:8192] + bytes(8192) + data[16384:])
    with closing(sqlite3.connect(room / "wide")) as wide, closing(sqlite3.connect(room / "large")) as large:
        wide.executescript("PRAGMA encoding = 'UTF-16'; CREATE TABLE t(a)")
        large.executescript("CREATE TABLE t(a); INSERT INTO t VALUES(zeroblob(11000000))")
    came = [as_disk(room / name) for name in ("none", "torn", "wide", "large", "nowhere")]
    words = ["file is not a database", "malformed", "its texts are UTF-16le", "the guest has room for 10485760", "no such file"]
    yield "what is none is refused", differs([(ran.returncode, ran.stdout, word in ran.stderr.decode()) for ran, word in zip(came, words)],
                                             [(1, b"", True)] * 5)


def sums(built: Built) -> Iterator[tuple[str, str | None]]:
    units, rng = Units(built), random.Random(3)
    for length in (0, 1, 2, 255, 256, 257, 65_000 // 4):
        data = rng.randbytes(length)
        yield f"the sum of {length} bytes", differs(units.ask("cksum", data.hex() or "zz"), cksum_of(data))
    units.end()


def tests(built: Built) -> Iterator[tuple[str, str | None]]:
    yield from sums(built)
    with tempfile.TemporaryDirectory() as folder:
        room = Path(folder)
        with Served(built, room / "empty") as served:
            answer, data = asked(served, "/db")
            yield "one without tables", differs(looked_at(data, room, "SELECT count(*) FROM sqlite_schema"), [("ok",), (0,)])
        with Served(built, room / "whole") as served:
            client = Postgres(served.postgres)
            client.ask(SETUP)
            client.close()
            yield from as_file(served, room)
            yield from from_outside(built, room, asked(served, "/db")[1])
            yield from as_statements(served, room)
            yield from refused(served)
            yield from while_written(served, room)
            yield from silent_clients(served)
            yield from without_log(served, room)
        yield from quiet(built, room)
