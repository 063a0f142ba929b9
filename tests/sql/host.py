"""The parts of guests/sql built for this machine, by its C compiler and with the SQLite that Python has."""
from __future__ import annotations

import os
import re
import shutil
import sqlite3  # noqa: F401, so that its library is loaded
import subprocess
import sys
from concurrent.futures import ThreadPoolExecutor
from pathlib import Path

ROOT = Path(__file__).resolve().parents[2]
GUEST, HERE = ROOT / "guests/sql", Path(__file__).resolve().parent
LARGE = ["-std=gnu11", "-O1", "-Wall", "-Wextra", "-Werror", '-DFIRST_TOLD="PRAGMA temp_store = MEMORY"', f"-I{HERE}", f"-I{GUEST}"]
# A smaller disk than the guest's: the database has 1 MiB, the journal and the log half of that each.
FLAGS = [*LARGE, "-DDISK_SECTORS=4096", "-DJOURNAL_SECTOR=2048", "-DLOG_SECTOR=3072", "-DFIRST_LOG_SECTOR=3584"]
FILES = ["vfs", "locks", "turns", "database"]
SANITIZERS = ["-g", "-fsanitize=address,undefined", "-fno-sanitize-recover=all"]
UNITS = ["digest", "locks", "statement", "lexer", "escapes", "text", "turns", "request", "cksum"]
SESSIONS = ["text", "log", "settings", "patterns", "functions", "digest", "password", "scram", "statement", "lexer", "dialect", "session",
            "work", "query", "rows", "messages", "parameters", "types", "trigger", "extended", "copy_words", "copy_rows", "copy",
            "postgres", "request", "table", "page", "door", "cksum", "pages", "dump", "whole", "http", "tokens", "escapes", "casts",
            "translate", "arrays", "sets", "expressions", "declarations", "catalog", "catalog_queries", "postgres_sql"]
HOSTS = ["disk", "stacks", "ticks"]  # what the guest has otherwise


def library() -> str:
    """The file of the SQLite that this Python has loaded."""
    found = re.search(r"/\S*libsqlite3\.so\S*", Path("/proc/self/maps").read_text())
    return found.group() if found else sys.exit("this Python has no libsqlite3.so: its SQLite can't be linked with")


def secret(password: str) -> str:
    """What a build keeps of a password, as C."""
    return subprocess.run([sys.executable, GUEST / "secret.py"], env={**os.environ, "PASSWORD": password}, check=True, capture_output=True,
                          text=True).stdout


class Built:
    """The programs, in a folder."""

    def __init__(self, room: Path) -> None:
        self.room, self.library = room, library()
        self.compiler = shutil.which("cc") or shutil.which("gcc") or sys.exit("there is no C compiler: apt-get install gcc")
        self.checks = self.sanitizers()
        parts = {*FILES, *UNITS, *SESSIONS, *HOSTS}
        with ThreadPoolExecutor(4) as pool:
            list(pool.map(self.compile, [*parts, "power", "served", "units", "bytes"]))
            list(pool.map(lambda part: self.compile(part, "checked"), [*parts, "fed"]))
        self.link("units", [*UNITS, *HOSTS, "units"])
        self.link("bytes", ["bytes"])
        self.link("power", [*FILES, *HOSTS, "power"])
        self.link_served("")
        self.link_served("secret")
        self.link_large()

    def run(self, *words: object) -> None:
        subprocess.run([self.compiler, *FLAGS, *map(str, words)], check=True)

    def compile(self, part: str, kind: str = "") -> None:
        """An object file, or one of a kind: `checked`."""
        source = next(place / f"{part}.c" for place in (HERE, GUEST) if (place / f"{part}.c").exists())
        self.run(*(self.checks if kind else []), "-c", source, "-o", self.room / (f"{part}_{kind}".rstrip("_") + ".o"))

    def link(self, name: str, parts: list[str], *options: str) -> None:
        self.run(*options, "-o", self.room / name, *(self.room / f"{part}.o" for part in parts), self.library)

    def link_served(self, password: str) -> None:
        """`served` and `fed`, or `served_PASSWORD` and `fed_PASSWORD`."""
        name = f"served_{password}".rstrip("_")
        (self.room / f"{name}_key.c").write_text(secret(password))
        self.run("-c", self.room / f"{name}_key.c", "-o", self.room / f"{name}_key.o")
        self.link(name, [*FILES, *SESSIONS, *HOSTS, "served", f"{name}_key"])
        checked = [f"{part}_checked" for part in [*FILES, *SESSIONS, *HOSTS, "fed"]]
        self.link(name.replace("served", "fed"), [*checked, f"{name}_key"], *self.checks)

    def link_large(self) -> None:
        """`served_large`, which has a disk as large as the guest's."""
        of_disk = [*FILES, *HOSTS, "served"]
        sources = [next(place / f"{part}.c" for place in (HERE, GUEST) if (place / f"{part}.c").exists()) for part in of_disk]
        others = [self.room / f"{part}.o" for part in [*SESSIONS, "served_key"]]
        subprocess.run([self.compiler, *LARGE, "-o", self.room / "served_large", *sources, *others, self.library], check=True)

    def sanitizers(self) -> list[str]:
        """What makes a program of this compiler's watch its own memory, where it has that."""
        (self.room / "empty.c").write_text("int main(void) { return 0; }\n")
        words = [self.compiler, *SANITIZERS, self.room / "empty.c", "-o", self.room / "empty"]
        has = subprocess.run(words, capture_output=True).returncode == 0 and subprocess.run([self.room / "empty"]).returncode == 0
        return SANITIZERS if has else []


def own(room: Path, amalgamation: Path) -> Built:
    """`served` over SQLite's own source, as the guest has it: a folder that guests/sql/build.sh has filled. The disk is the guest's, and so
    are the 128 bits of a long double, by which SQLite reads and writes numbers."""
    built = Built.__new__(Built)
    built.room, built.compiler = room, shutil.which("cc") or "gcc"
    options = (amalgamation / "options").read_text().split()
    (room / "served_own_key.c").write_text(secret(""))
    sources = [GUEST / f"{name}.c" for name in dict.fromkeys([*FILES, *SESSIONS])]
    sources += [HERE / f"{name}.c" for name in (*HOSTS, "served", "own")]
    flags = ["-std=gnu11", "-O1", "-w", "-DLONGDOUBLE_TYPE=__float128", *options, f"-I{amalgamation}", f"-I{GUEST}"]
    parts = [room / "served_own_key.c", *sources, amalgamation / "sqlite3.c", "-lm"]
    subprocess.run([built.compiler, *flags, "-o", room / "served_own", *parts], check=True)
    return built


class Served:
    """`served`, running over a file that is the disk."""

    def __init__(self, built: Built, disk: Path, password: str = "", refused: int = 0, memory: int = 0) -> None:
        program = built.room / f"served_{password}".rstrip("_")
        self.process = subprocess.Popen([program, disk, str(refused), str(memory)], stdin=subprocess.PIPE, stdout=subprocess.PIPE,
                                        text=True)
        ports = dict(map(int, self.process.stdout.readline().split()) for _ in range(2))
        self.postgres, self.http = ports[5432], ports[80]

    def __enter__(self) -> Served:
        return self

    def kill(self) -> None:
        """Stops it in the midst of whatever it does."""
        self.process.kill()
        self.process.communicate()

    def __exit__(self, *_: object) -> None:
        if self.process.poll() is None:
            self.process.communicate("\n", timeout=60)
        if self.process.returncode not in (0, -9):
            raise RuntimeError(f"it ended with {self.process.returncode}")


class Fed:
    """`fed`, running over a file that is the disk: sessions without a network, and no time but what is told."""

    def __init__(self, built: Built, disk: Path, password: str = "") -> None:
        self.process = subprocess.Popen([built.room / f"fed_{password}".rstrip("_"), disk], stdin=subprocess.PIPE, stdout=subprocess.PIPE,
                                        stderr=subprocess.PIPE, text=True)

    def tell(self, *words: object) -> tuple[bool, bytes]:
        """Does a line. Answers whether the connection is there then, and what was said to it."""
        try:
            self.process.stdin.write(" ".join(map(str, words)) + "\n")
            self.process.stdin.flush()
        except BrokenPipeError:
            pass
        line = self.process.stdout.readline()
        if line == "":
            raise RuntimeError(self.why())
        there, _, said = line.rstrip("\n").partition(" ")
        return there == "there", bytes.fromhex(said)

    def why(self) -> str:
        """Why it has ended."""
        said = self.process.stderr.read()
        self.process.wait(60)
        return f"it ended with {self.process.returncode}, where -14 is its watchdog: {said[:2000]}"

    def __enter__(self) -> Fed:
        return self

    def __exit__(self, kind: object, *_: object) -> None:
        self.process.stdin.close()
        if self.process.wait(60) != 0 and kind is None:
            raise RuntimeError(self.why())
