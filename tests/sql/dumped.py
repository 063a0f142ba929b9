"""A database of SQLite's that is loaded by psql, as `sqlite3 FILE .dump` has it, and comes back as a file."""
from __future__ import annotations

import os
import re
import sqlite3
import subprocess
import time
import urllib.request
from contextlib import closing
from pathlib import Path


def lines_of(path: Path) -> list[str]:
    """All that it has, as statements. psql takes comments and blanks away."""
    with closing(sqlite3.connect(path)) as database:
        return sorted(" ".join(re.sub(r"--[^\n]*", "", line).split()) for line in database.iterdump())


def loaded(path: Path, port: int, web: int, folder: Path) -> tuple[str, str | None]:
    """Loads it, without the one transaction around it, which the guest's log has no room for. Answers what there was, and what is wrong."""
    text = subprocess.run(["sqlite3", path, ".dump"], stdout=subprocess.PIPE, text=True, check=True).stdout
    statements = re.sub(r"(?m)^(BEGIN TRANSACTION|COMMIT);\n", "", text)
    begun = time.monotonic()
    command = ["psql", "-h", "127.0.0.1", "-p", str(port), "-U", "me", "-X", "-q", "-v", "ON_ERROR_STOP=1", "db"]
    ran = subprocess.run(command, input=statements, capture_output=True, text=True, env={**os.environ, "PGSSLMODE": "disable"})
    took = time.monotonic() - begun
    with urllib.request.urlopen(f"http://127.0.0.1:{web}/db", timeout=300) as answer:
        (folder / "came").write_bytes(answer.read())
    came, wanted = lines_of(folder / "came"), lines_of(path)
    with closing(sqlite3.connect(folder / "came")) as database:
        kinds = database.execute("SELECT type, count(*) FROM sqlite_schema GROUP BY 1").fetchall()
        whole = database.execute("PRAGMA integrity_check").fetchall()
    seen = f"{len(came)} statements of {path} in {took:.0f} s, {path.stat().st_size} bytes: {dict(kinds)}"
    is_right = ran.returncode == 0 and came == wanted and whole == [("ok",)]
    return seen, None if is_right else f"{ran.stderr[-300:]} {whole} {[line[:200] for line in came if line not in wanted][:2]}"
