"""Real clients, as Debian has them, and copies and dumps by them. Of those that aren't installed it is said that they are skipped."""
from __future__ import annotations

import os
import shutil
import sqlite3
import subprocess
import sys
import tempfile
import urllib.request
from collections.abc import Iterator
from contextlib import closing
from pathlib import Path

from tests.postgres import Postgres
from tests.sql.host import Built, Served
from tests.sql.units import differs

PSQL = """CREATE TABLE entry(id INTEGER PRIMARY KEY, text TEXT);
CREATE TABLE log(what TEXT);
BEGIN;
CREATE TRIGGER noted AFTER INSERT ON entry BEGIN
    INSERT INTO log VALUES('new; ' || new.text); -- one;
    UPDATE log SET what = upper(what);
END;
COMMIT;
INSERT INTO entry VALUES(1, 'a');
SELECT what FROM log;
"""
ASYNCPG = """import asyncio, asyncpg, io, sys
async def main():
    client = await asyncpg.connect(host='127.0.0.1', port=int(sys.argv[1]), user='me', database='db', ssl=False)
    await client.execute('CREATE TABLE people(id INTEGER PRIMARY KEY, name TEXT)')
    await client.executemany('INSERT INTO people VALUES($1, $2)', [(7, 'seven'), (8, 'eight')])
    async with client.transaction():
        await client.execute('UPDATE people SET name = $1 WHERE id = $2', 'Seven', 7)
    print(await client.fetchval('SELECT name FROM people WHERE id=$1', 7), await client.fetchval('SELECT CAST($1 AS INTEGER) + id FROM '
          'people WHERE id IN ($2, $3) ORDER BY id LIMIT $4', 1, 7, 8, 1))
    rows = [(n, f'name {n}') for n in range(100, 5100)]
    await client.copy_records_to_table('people', records=rows)
    file = io.BytesIO()
    await client.copy_from_query('SELECT id + 5000, name FROM people WHERE id >= 100', output=file, format='csv', header=True)
    file.seek(0)
    await client.copy_to_table('people', source=file, format='csv', header=True)
    assert [int(n) for n in await client.fetchrow('SELECT count(*), sum(id) FROM people')] == [10002, 50995015]
    try:
        await client.copy_records_to_table('people', records=[(1, 'one'), (7, 'again')])
    except asyncpg.UniqueViolationError:
        print(await client.fetchval('SELECT count(*) FROM people WHERE id = 1'))
    await client.close()
asyncio.run(main())
"""
PSYCOPG2 = """import io, psycopg2, sys
client = psycopg2.connect(host='127.0.0.1', port=int(sys.argv[1]), user='me', dbname='db', sslmode='disable')
cursor = client.cursor()
cursor.execute('CREATE TABLE people(id INTEGER PRIMARY KEY, name TEXT)')
cursor.execute('INSERT INTO people VALUES(%s, %s)', (7, 'Seven'))
client.commit()
cursor.execute('SELECT name, id + 1 FROM people WHERE id = %s', (7,))
print(*cursor.fetchone())
cursor.copy_from(io.StringIO(''.join(f'{n}\\tname {n}\\n' for n in range(100, 5100))), 'people', columns=('id', 'name'))
client.commit()
file = io.StringIO()
cursor.copy_to(file, 'people', sep='|', null='none')
cursor.execute('DELETE FROM people')
file.seek(0)
cursor.copy_expert("COPY people FROM STDIN WITH (DELIMITER '|', NULL 'none')", file)
client.commit()
cursor.execute('SELECT count(*), sum(id) FROM people')
assert cursor.fetchone() == (5001, 12997507)
try:
    cursor.copy_expert('COPY people FROM STDIN', io.StringIO('1\\tone\\n7\\tagain\\n'))
except psycopg2.errors.UniqueViolation:
    client.rollback()
    cursor.execute('SELECT count(*) FROM people WHERE id = 1')
    print(*cursor.fetchone())
"""
PG8000 = """import pg8000, sys
client = pg8000.connect('me', host='127.0.0.1', port=int(sys.argv[1]), database='db')
cursor = client.cursor()
cursor.execute('CREATE TABLE people(id INTEGER PRIMARY KEY, name TEXT)')
cursor.execute('INSERT INTO people VALUES(%s, %s)', (7, 'Seven'))
client.commit()
cursor.execute('SELECT name, id + 1 FROM people WHERE id = %s', (7,))
print(*cursor.fetchone())
"""


DUMPED = """CREATE TABLE entry(id INTEGER PRIMARY KEY AUTOINCREMENT, text TEXT NOT NULL, at REAL DEFAULT 0.5, data BLOB);
CREATE TABLE log(what TEXT, "of" INTEGER REFERENCES entry ON DELETE CASCADE);
CREATE VIEW latest AS SELECT * FROM entry ORDER BY id DESC LIMIT 1;
CREATE TRIGGER noted AFTER INSERT ON entry BEGIN
  INSERT INTO log VALUES('new; ' || new.text, new.id);
  UPDATE log SET what = CASE WHEN what LIKE 'x%' THEN upper(what) ELSE what END;
END;
CREATE TRIGGER through INSTEAD OF DELETE ON latest BEGIN DELETE FROM entry WHERE id = old.id; END;
CREATE TRIGGER checked BEFORE UPDATE OF text ON entry FOR EACH ROW WHEN new.text = '' BEGIN SELECT RAISE(ABORT, 'no text; none'); END;
CREATE INDEX by_text ON entry(text COLLATE NOCASE) WHERE text <> '';
INSERT INTO entry(text, at, data) VALUES('it''s; "odd"', 1e100, x'00ff'), ('two' || char(10) || 'lines', -0.1, NULL), ('end', 3, x'');
DELETE FROM latest"""
TABLES = ("SELECT (SELECT count(*) FROM pgbench_accounts), (SELECT count(*) FROM pgbench_tellers), "
          "(SELECT count(*) FROM pgbench_branches), (SELECT count(*) FROM pgbench_history)")
ENVIRONMENT = {**os.environ, "PGSSLMODE": "disable", "PGCONNECT_TIMEOUT": "30"}


def python_with(module: str) -> str | None:
    """A Python that has a module."""
    for python in (sys.executable, "/usr/bin/python3"):
        if Path(python).exists() and subprocess.run([python, "-c", f"import {module}"], capture_output=True).returncode == 0:
            return python
    return None


def said(command: list[str], text: str = "") -> str:
    """What a command prints, or why it failed."""
    ran = subprocess.run(command, input=text, capture_output=True, text=True, timeout=60, env=ENVIRONMENT)
    return ran.stdout if ran.returncode == 0 else ran.stderr


def psql(served: Served, room: Path) -> Iterator[tuple[str, str | None]]:
    if not shutil.which("psql"):
        print("skipped: psql isn't installed", flush=True)
        return
    script = room / "script.sql"
    script.write_text(PSQL)
    command = ["psql", "-h", "127.0.0.1", "-p", str(served.postgres), "-U", "me", "-X", "-A", "-t", "-q", "-v", "ON_ERROR_STOP=1"]
    yield "psql -f with a trigger", differs(said([*command, "-f", str(script), "db"]), "NEW; A\n")
    trigger = "CREATE TRIGGER more AFTER DELETE ON entry BEGIN DELETE FROM log; END; DELETE FROM entry; SELECT count(*) FROM log"
    yield "psql -c with a trigger", differs(said([*command, "-c", trigger, "db"]), "0\n")


def drivers(served: Served) -> Iterator[tuple[str, str | None]]:
    for name, script, said_of_copies in (("asyncpg", ASYNCPG, "0\n"), ("psycopg2", PSYCOPG2, "0\n"), ("pg8000", PG8000, "")):
        python = python_with(name)
        if python is None:
            print(f"skipped: {name} isn't installed", flush=True)
        else:
            came = said([python, "-c", "import sys; exec(sys.stdin.read())", str(served.postgres)], script)
            yield name, differs(came, f"Seven 8\n{said_of_copies}")
            forget(served)


def forget(served: Served) -> None:
    """Takes away what a driver made."""
    client = Postgres(served.postgres)
    client.ask("DROP TABLE IF EXISTS people")
    client.close()


def copies(served: Served, room: Path) -> Iterator[tuple[str, str | None]]:
    """psql's own copies, of files here and of what stands in a script."""
    if not shutil.which("psql"):
        return
    file = room / "rows.csv"
    script = room / "copies.sql"
    script.write_text(f"""CREATE TABLE pairs(a INTEGER PRIMARY KEY, b TEXT);
COPY public.pairs (a, b) FROM stdin;
1\tone
2\t\\N
\\.
\\copy pairs to '{file}' with (format csv, header)
DELETE FROM pairs;
\\copy pairs(a, b) from '{file}' csv header
\\copy (select b, a from pairs order by a desc) to stdout
""")
    command = ["psql", "-h", "127.0.0.1", "-p", str(served.postgres), "-U", "me", "-X", "-q", "-v", "ON_ERROR_STOP=1"]
    yield "psql's copies", differs([said([*command, "-f", str(script), "db"]), file.read_text()], ["\\N\t2\none\t1\n", "a,b\n1,one\n2,\n"])


def lines_of(database: sqlite3.Connection) -> list[str]:
    """All that it has, as statements; psql takes blanks away."""
    return sorted(" ".join(line.split()) for line in database.iterdump())


def dump(served: Served, room: Path) -> Iterator[tuple[str, str | None]]:
    """A database of SQLite's with triggers, views and odd values, by `.dump | psql`."""
    if not (shutil.which("psql") and shutil.which("sqlite3")):
        print("skipped: psql or sqlite3 isn't installed", flush=True)
        return
    with closing(sqlite3.connect(room / "old")) as old:
        old.executescript(DUMPED)
        wanted = lines_of(old)
    text = subprocess.run(["sqlite3", room / "old", ".dump"], stdout=subprocess.PIPE, text=True, check=True).stdout
    command = ["psql", "-h", "127.0.0.1", "-p", str(served.postgres), "-U", "me", "-X", "-q", "-v", "ON_ERROR_STOP=1", "db"]
    yield "a dump is loaded", differs(said(command, text), "")
    with urllib.request.urlopen(f"http://127.0.0.1:{served.http}/db") as answer:
        (room / "new").write_bytes(answer.read())
    with closing(sqlite3.connect(room / "new")) as new:
        came = lines_of(new)
    yield "and is what it was", differs(came, wanted)


def pgbench(built: Built, room: Path) -> Iterator[tuple[str, str | None]]:
    """pgbench makes its tables in both ways that it has, and runs its script."""
    if not shutil.which("pgbench"):
        print("skipped: pgbench isn't installed", flush=True)
        return
    with Served(built, room / "pgbench", "large") as served:
        command = ["pgbench", "-h", "127.0.0.1", "-p", str(served.postgres), "-U", "me"]
        client = Postgres(served.postgres)
        for way in ("dtgvp", "dtGvp"):
            ran = subprocess.run([*command, "-i", "-I", way, "db"], capture_output=True, text=True, timeout=100, env=ENVIRONMENT)
            seen = client.rows(TABLES)
            yield f"pgbench -i -I {way}", differs([ran.returncode, seen], [0, [(100_000, 10, 1, 0)]]) and f"{ran.stderr} {seen}"
        for mode in ("simple", "extended", "prepared"):
            ran = subprocess.run([*command, "-M", mode, "-c", "4", "-j", "2", "-t", "50", *([] if mode == "simple" else ["-n"]), "db"],
                                 capture_output=True, text=True, timeout=100, env=ENVIRONMENT)
            is_right = ran.returncode == 0 and "number of failed transactions: 0" in ran.stdout
            yield f"pgbench -M {mode}", None if is_right else ran.stdout + ran.stderr
        rows = client.rows("SELECT count(*), (SELECT sum(abalance) FROM pgbench_accounts) = sum(delta), "
                           "(SELECT * FROM pragma_integrity_check) FROM pgbench_history")
        yield "what its script did", differs(rows, [(600, 1, "ok")])
        client.close()


def tests(built: Built) -> Iterator[tuple[str, str | None]]:
    with tempfile.TemporaryDirectory() as folder:
        room = Path(folder)
        with Served(built, room / "clients") as served:
            yield from psql(served, room)
            yield from drivers(served)
            yield from copies(served, room)
        with Served(built, room / "dump") as served:
            yield from dump(served, room)
        yield from pgbench(built, room)
