"""The file system over a disk that loses its power, and a database that is killed."""
from __future__ import annotations

import re
import subprocess
import tempfile
import time
from collections.abc import Iterator
from pathlib import Path

from tests.postgres import Postgres
from tests.sql.host import Built, Served
from tests.sql.web import Browser

LEAST = 500  # places at which the power is lost


def power(built: Built, *words: str) -> tuple[int, int, int]:
    ran = subprocess.run([built.room / "power", *words], capture_output=True, text=True, check=True)
    return tuple(map(int, re.fullmatch(r"(\d+) places, (\d+) corrupt, (\d+) wrong\n", ran.stdout).groups()))


def lost_power(built: Built) -> Iterator[tuple[str, str | None]]:
    for mode in ("DELETE", "TRUNCATE", "PERSIST", "WAL"):
        places, corrupt, wrong = power(built, mode)
        is_right = places >= LEAST and not corrupt and not wrong
        yield f"power lost at each sector, {mode}", None if is_right else f"{places} places, {corrupt} corrupt, {wrong} wrong"
    places, corrupt, _ = power(built, "DELETE", "sequential")
    yield "the control, without syncs", None if corrupt > 0 else f"nothing is corrupt at {places} places"


def is_hot(disk: Path) -> bool:
    """Whether there is a journal, of some length (guests/sql/vfs.c: the disk's first sector)."""
    head = disk.read_bytes()[:512]
    exists, length = (int.from_bytes(head[at:at + 8], "little") for at in (16, 40))
    return exists == 1 and length > 0


def killed(built: Built, room: Path) -> Iterator[tuple[str, str | None]]:
    """A transaction that its cache is too small for stands in the database already when the program is killed. The next boot plays the
    journal back."""
    disk = room / "killed"
    served = Served(built, disk)
    client = Postgres(served.postgres)
    client.ask("PRAGMA journal_mode = DELETE")
    client.ask("CREATE TABLE t(a INTEGER PRIMARY KEY, b TEXT)")
    client.ask("WITH RECURSIVE c(x) AS (VALUES(1) UNION ALL SELECT x+1 FROM c WHERE x<2000) "
               "INSERT INTO t SELECT x, printf('%.100c', 'a') FROM c")
    client.ask("PRAGMA cache_size = 5")
    client.ask("BEGIN")
    client.ask("UPDATE t SET b = 'gone'")
    served.kill()
    yield "a journal is left", None if is_hot(disk) else "there is none"
    with Served(built, disk) as served:
        client = Postgres(served.postgres)
        came = client.rows("SELECT count(*), min(b) = max(b), min(length(b)), (SELECT * FROM pragma_integrity_check) FROM t")
        yield "it is played back", None if came == [(2000, 1, 100, "ok")] else f"{came}"
        said = Browser(served.http).ask("GET", "/log")[1]
        yield "and SQLite says so", None if re.fullmatch(r"[\d.]+ s: recovered \d+ pages from /db-journal\n", said) else f"{said!r}"
        client.close()
    yield "and gone then", "it is there still" if is_hot(disk) else None


def full(built: Built, room: Path) -> Iterator[tuple[str, str | None]]:
    """A full disk is SQLite's own error, and nothing is lost."""
    with Served(built, room / "full") as served:
        client, code = Postgres(served.postgres), ""
        client.ask("CREATE TABLE t(a INTEGER PRIMARY KEY, b BLOB)")
        rows, begun = 0, time.monotonic()
        while time.monotonic() < begun + 60:
            try:
                client.ask("INSERT INTO t(b) VALUES(zeroblob(20000))")
                rows += 1
            except Exception as error:
                code = getattr(error, "code", repr(error))
                break
        came = client.rows("SELECT count(*), (SELECT * FROM pragma_integrity_check) FROM t")
        client.ask("DELETE FROM t WHERE a < 5")
        client.ask("INSERT INTO t(b) VALUES(zeroblob(20000))")
        is_right = code == "53100" and rows > 30 and came == [(rows, "ok")]
        yield "a full disk", None if is_right else f"{code} after {rows} rows, {came}"
        client.close()


def tests(built: Built) -> Iterator[tuple[str, str | None]]:
    yield from lost_power(built)
    with tempfile.TemporaryDirectory() as room:
        yield from killed(built, Path(room))
        yield from full(built, Path(room))
