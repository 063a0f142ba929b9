"""Disks under the log of a daemon that tests start by tests/host_on_disk: one that is full or fails while a test says so, and one that
keeps account of what isn't synced, so that a test can lose that after the daemon was killed, as a power cut does."""
import errno
import os
import random
import time
from pathlib import Path

from host.log.disk import Disk

SECTOR = 512


class Ailing(Disk):
    """Fails while a file of that name is in the folder above the log's: `full` each call that takes room, `broken` each sync. `low`: there is
    little room."""

    def __init__(self) -> None:
        self.paths = {}

    def create(self, path: Path) -> int:
        return self.named(path, super().create(path))

    def open(self, path: Path) -> int:
        return self.named(path, super().open(path))

    def named(self, path: Path, file: int) -> int:
        self.paths[file] = path
        return file

    def check(self, file: int, name: str, number: int) -> None:
        if (self.paths[file].parent.parent / name).exists():
            raise OSError(number, os.strerror(number))

    def allocate(self, file: int, place: int, count: int) -> None:
        self.check(file, "full", errno.ENOSPC)
        super().allocate(file, place, count)

    def sync(self, file: int) -> None:
        self.check(file, "broken", errno.EIO)
        super().sync(file)

    def room(self, folder: Path) -> int:
        return 5 << 20 if (folder.parent / "low").exists() else super().room(folder)


class Losing(Disk):
    """Beside each file NAME stands NAME.synced in the folder `account`, with how many of its bytes are synced; `account/names` has what was
    done to names since the folder was synced. What is replaced or removed is kept in `account` until then."""

    def __init__(self) -> None:
        self.paths, self.kept, self.slow = {}, 0, float(os.environ.get("REMUS_SLOW_MS", 0)) / 1000

    def wait(self) -> None:
        """A sync takes up to REMUS_SLOW_MS longer, so that power fails before it more often."""
        time.sleep(random.random() * self.slow)

    def account(self, folder: Path) -> Path:
        found = folder.parent / "account"
        found.mkdir(exist_ok=True)
        return found

    def tell(self, folder: Path, *words: str) -> None:
        with open(self.account(folder) / "names", "a") as file:
            file.write(" ".join(words) + "\n")

    def put_aside(self, path: Path) -> str:
        """What stood there is kept under another name, or `-` where nothing did."""
        if not path.exists():
            return "-"
        self.kept += 1
        name = f"kept.{os.getpid()}.{self.kept}"
        os.link(path, self.account(path.parent) / name)
        return name

    def create(self, path: Path) -> int:
        aside = self.put_aside(path)
        path.unlink(missing_ok=True)
        self.synced(path, 0)
        self.tell(path.parent, "made", path.name, aside)
        return self.named(path, super().create(path))

    def open(self, path: Path) -> int:
        return self.named(path, super().open(path))

    def named(self, path: Path, file: int) -> int:
        self.paths[file] = path
        return file

    def synced(self, path: Path, size: int) -> None:
        """In one write, in whose middle no process is killed."""
        file = os.open(self.account(path.parent) / f"{path.name}.synced", os.O_WRONLY | os.O_CREAT, 0o600)
        os.pwrite(file, b"%16d" % size, 0)
        os.close(file)

    def cut(self, file: int, size: int) -> None:
        super().cut(file, size)
        self.synced(self.paths[file], size)

    def sync(self, file: int) -> None:
        path = self.paths[file]
        size = max(self.written(file), known(self.account(path.parent), path.name))
        self.wait()
        super().sync(file)
        self.synced(path, size)

    def written(self, file: int) -> int:
        """Up to the last byte that isn't zero."""
        place = self.size(file)
        while place > 0:
            begin = max(0, place - (1 << 16))
            if found := self.read(file, place - begin, begin).rstrip(b"\0"):
                return begin + len(found)
            place = begin
        return 0

    def rename(self, path: Path, to: Path) -> None:
        if path.parent.name != "log" or to.parent != path.parent:
            return super().rename(path, to)  # into the past, at once
        aside = self.put_aside(to)
        self.synced(to, known(self.account(path.parent), path.name))
        super().rename(path, to)
        self.paths = {file: to if of == path else of for file, of in self.paths.items()}
        self.tell(path.parent, "renamed", path.name, to.name, aside)

    def remove(self, path: Path) -> None:
        if path.exists():
            self.tell(path.parent, "removed", path.name, self.put_aside(path))
            super().remove(path)

    def sync_folder(self, folder: Path) -> None:
        self.wait()
        super().sync_folder(folder)
        if folder.name == "log":
            self.tell(folder, "synced")


def lose(folder: Path, rng: random.Random) -> None:
    """What a daemon on a Losing disk hadn't synced is lost at random, once nothing of it runs: names, and sectors behind what is synced."""
    account = folder.parent / "account"
    if not folder.exists() or not account.exists():
        return
    done = (account / "names").read_text().splitlines() if (account / "names").exists() else []
    begin = max((place + 1 for place, line in enumerate(done) if line == "synced"), default=0)
    for line in reversed(done[begin:]):
        if rng.random() < 0.5:
            undo(folder, account, line.split())
    (account / "names").write_text("")
    for path in folder.iterdir():
        if path.is_file() and not path.name.endswith(".mark"):
            tear(path, known(account, path.name), rng)
    for one in account.glob("kept.*"):
        one.unlink()


def known(account: Path, name: str) -> int:
    """How many bytes of a file are synced."""
    file = account / f"{name}.synced"
    return int(file.read_text()) if file.exists() else 0


def undo(folder: Path, account: Path, words: list[str]) -> None:
    what, name, aside = words[0], folder / words[1], account / words[-1]
    if what == "renamed":
        to = folder / words[2]
        if to.exists():
            os.replace(to, name)
        name = to
    elif what == "made":
        name.unlink(missing_ok=True)
    if aside.exists() and not name.exists():
        os.replace(aside, name)


def tear(path: Path, synced: int, rng: random.Random) -> None:
    data = bytearray(path.read_bytes())
    first = -(-synced // SECTOR) * SECTOR
    how, upto = rng.choice(["none", "all", "front", "any"]), rng.randrange(first, max(first, len(data)) + 1)
    for at in range(first, len(data), SECTOR):
        if {"none": False, "all": True, "front": at >= upto, "any": rng.random() < 0.5}[how]:
            data[at:at + SECTOR] = bytes(min(SECTOR, len(data) - at))
    if rng.random() < 0.5 and len(data) > first:
        del data[rng.randrange(first, len(data)):]
    path.write_bytes(data)
