"""A transaction that is open, and stands in the database in part, when its guest is saved (`remus-host ctl save`). The same guest is booted
over that disk (`promote --boot --disk`), and plays the journal back that lies there. What is on the disks is read by oracle/checkpoints.py,
and what is to come of it is worked out by this Python's SQLite, which opens the same files."""
from __future__ import annotations

import contextlib
import re
import sqlite3
import struct
import subprocess
from pathlib import Path

from oracle.checkpoints import read_stream
from tests.hosts import PROGRAM, loopback_pair
from tests.postgres import Postgres
from tests.served import free_port
from tests.sql.image import END, SECTOR, files_of
from tests.sql.two_hosts import Line
from tests.sql.web import Browser

PAGES, SECTORS = 8192, 32768  # of guests/sql
ROWS, LONG = 10_000, 100
# A rollback journal's head: its magic, how many pages it has (ALL: as many as there are), a nonce, the database's pages, and the bytes of
# a sector, which the head takes, and of a page (https://sqlite.org/fileformat2.html#the_rollback_journal).
HEAD, MAGIC, ALL = struct.Struct(">8sIIIII"), bytes.fromhex("d9d505f920a163d7"), 0xffffffff
TABLE = f"""CREATE TABLE t(a INTEGER PRIMARY KEY, b TEXT); WITH RECURSIVE c(x) AS (VALUES(1) UNION ALL SELECT x+1 FROM c WHERE x<{ROWS})
INSERT INTO t SELECT x, printf('%.{LONG}c', 'a') FROM c"""
CHANGE = f"UPDATE t SET b = printf('%.{LONG}c', 'z')"
SEEN = "SELECT count(*), min(b), max(b), (SELECT * FROM pragma_integrity_check) FROM t"
RIGHT = [(ROWS, "a" * LONG, "a" * LONG, "ok")]
SAID = r"\d\.\d{3} s: recovered (\d+) pages from /db-journal\n"


class Trial:
    """What is on the guest's disk when it is saved and when it has played back, what it then answers, and what its log says."""

    def __init__(self, script: Path, room: Path) -> None:
        self.saved, self.again, ports = room / "saved", room / "again", (free_port(), free_port())
        self.hosts = loopback_pair(room, script, steps_per_ms=50_000)
        line = Line([(ports[0], 5432, False), (ports[1], 80, False)], *self.hosts)
        line.start()
        try:
            self.hosts[0].start().ask("promote", boot=True)
            client = Postgres(ports[0], timeout=300)
            for sql in ("PRAGMA journal_mode = DELETE", TABLE, "BEGIN", CHANGE):
                client.ask(sql)
            self.save(0, self.saved)
            self.steps = self.hosts[0].status()["steps"]
            self.hosts[0].kill()
            self.hosts[1].start()
            self.told = self.hosts[1].ask("promote", 60, boot=True, disk=str(self.saved))
            self.steps_then = self.hosts[1].status()["steps"]
            self.rows, self.said = Postgres(ports[0], timeout=300).rows(SEEN), Browser(ports[1]).ask("GET", "/log")[1]
            self.save(1, self.again)
        finally:
            line.end()
            for host in self.hosts:
                host.kill()

    def save(self, place: int, path: Path) -> None:
        answer = self.hosts[place].ask("save", 300, file=str(path))
        if not answer["ok"]:
            raise OSError(f"it isn't saved: {answer}")


def text_of(snapshot: Path) -> bytes:
    """The text behind a snapshot's line."""
    return snapshot.read_bytes().partition(b"\n")[2]


def disk_of(snapshot: Path) -> bytes:
    """The sectors of a snapshot's disk."""
    [checkpoint], ending = read_stream(text_of(snapshot), PAGES, SECTORS)
    if ending is not None:
        raise OSError(f"{snapshot} isn't a checkpoint: {ending!r}")
    return b"".join(checkpoint.sector_records.get(number, bytes(SECTOR)) for number in range(END))


def is_listed(snapshot: Path) -> bool:
    """Whether check-stream reads it as one full checkpoint."""
    words = [PROGRAM, "check-stream", "/dev/stdin", "--pages", str(PAGES), "--sectors", str(SECTORS)]
    ran = subprocess.run(words, input=text_of(snapshot), capture_output=True)
    return ran.returncode == 0 and re.fullmatch(rb"full \d+ 0 pages \d+ sectors \d+ frames 0\n", ran.stdout) is not None


def rows_of(file: Path) -> object:
    """What this machine's SQLite sees in a database; or why it sees nothing."""
    with contextlib.closing(sqlite3.connect(file)) as opened:
        try:
            return opened.execute(SEEN).fetchall()
        except sqlite3.DatabaseError as error:
            return error


def pages_in(journal: Path) -> int:
    """How many pages a journal of one part plays back; 0 where it isn't one."""
    data = journal.read_bytes() if journal.exists() else b""
    if len(data) < HEAD.size:
        return 0
    magic, count, _, _, sector, page = HEAD.unpack_from(data)
    there = (len(data) - sector) // (page + 8)
    return 0 if magic != MAGIC else there if count == ALL else min(count, there)


def left_over(script: Path, room: Path) -> tuple[list[str], str]:
    """What is wrong, and what was seen."""
    trial = Trial(script, room)
    before, after = disk_of(trial.saved), disk_of(trial.again)
    for folder in ("before", "after", "without"):
        (room / folder).mkdir()
    here, there, without = (files_of(disk, room / folder) for disk, folder in
                            ((before, "before"), (after, "after"), (before, "without")))
    left, is_changed = pages_in(here.with_name("database-journal")), b"z" * LONG in here.read_bytes()
    without.with_name("database-journal").unlink(missing_ok=True)
    is_right = {
        "check-stream reads both snapshots": is_listed(trial.saved) and is_listed(trial.again),
        "a journal is left, which has pages": left > 0,
        "the database is changed already": is_changed,
        "without its journal it isn't right": rows_of(without) != RIGHT,
        "it was booted": trial.told["ok"] and trial.steps_then < trial.steps,
        "the transaction is gone, and the database is whole": trial.rows == RIGHT,
        "so it is for this machine's SQLite": rows_of(here) == RIGHT,
        "which makes the same bytes of it": here.read_bytes() == there.read_bytes(),
        "the journal is gone": not there.with_name("database-journal").exists(),
        "the guest's log says so": (said := re.fullmatch(SAID, trial.said)) is not None and int(said[1]) == left,
    }
    seen = f"saved at step {trial.steps} in mid-transaction, with a journal of {left} pages; the booted guest says: {trial.said.strip()}"
    return [f"not so: {name}" for name, is_so in is_right.items() if not is_so], seen
