"""The database on a guest's disk, as a file of this machine's: the script that a pair has played is played again, and its disk is read."""
from __future__ import annotations

import subprocess
from pathlib import Path

SECTOR = 512
DATABASE, JOURNAL, LOG, END = 8, 20488, 24584, 32768  # the first sector of each area, and after the last (guests/sql/vfs.h)


def sectors(program: str, record: Path, first: int, last: int) -> bytes:
    """What stands in these sectors after all lines of a record. The program answers line by line."""
    asked = "".join(f"sector {number}\n" for number in range(first, last))
    ran = subprocess.run([program, "live"], input=record.read_text() + asked, stdout=subprocess.PIPE, text=True, check=True)
    answers = ran.stdout.splitlines()[-(last - first):]
    return b"".join(bytes.fromhex(answer.split()[2]) for answer in answers)


def files_of(disk: bytes, folder: Path) -> Path:
    """The database on a disk, and beside it its journal and its log where there are these."""
    exists = [int.from_bytes(disk[8 + 8 * i:16 + 8 * i], "little") for i in range(3)]
    lengths = [int.from_bytes(disk[32 + 8 * i:40 + 8 * i], "little") for i in range(3)]
    names = ("database", "database-journal", "database-wal")
    for place, there, length, name in zip((DATABASE, JOURNAL, LOG), exists, lengths, names):
        (folder / name).unlink(missing_ok=True)
        if there:
            (folder / name).write_bytes(disk[place * SECTOR:place * SECTOR + length])
    return folder / "database"


def database(program: str, record: Path, folder: Path) -> Path:
    """The database of a record, as a file in a folder."""
    return files_of(sectors(program, record, 0, END), folder)
