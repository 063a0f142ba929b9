"""`remus-host log`: what the log of a state folder holds, from its files, whether a daemon runs or not."""
import argparse
import datetime
import sys
import time
from pathlib import Path

from host import settings
from host.log.disk import Disk
from host.log.export import export
from host.log.format import LogBehind, Rotten
from host.log.history import NotThere, as_of, course_of, generations, latest, outlined
from host.log.kept import at
from host.log.past import rooms
from host.log.reading import Found, check_all, newest
from host.node import NodeEnded, Refused

WHOLE, DAMAGED, BAD = range(3)
VERBS = {"list": "says what each log in the state folder holds", "check": "reads all of it, with all sums",
         "export": "makes a snapshot of the guest as it was at the end of the latest log, which may be over, or at a moment"}
TRIES, PAUSE = 3, 0.1  # what a daemon is just writing may look damaged


def add(kinds) -> None:
    """The command line of log."""
    one = kinds.add_parser("log", help="shows or checks a host's log")
    verbs = one.add_subparsers(dest="verb", required=True, metavar="VERB")
    for verb, said in VERBS.items():
        reader = verbs.add_parser(verb, help=said, description=said)
        reader.add_argument("--config", metavar="FILE", help="the configuration, which names the state folder")
        reader.add_argument("--state", metavar="FOLDER", help="the state folder")
        reader.add_argument("--copy", metavar="FOLDER", help="a copy of the folder log of a state folder, which may have been made while a "
                            "daemon ran")
    reader.add_argument("--at", type=moment, metavar="TIME", help="in UTC, as 2031-05-03T12:00:00Z")
    reader.add_argument("file", metavar="FILE", help="the snapshot")


def moment(text: str) -> int:
    """Milliseconds of the wall clock."""
    try:
        found = datetime.datetime.fromisoformat(text)
    except ValueError:
        raise argparse.ArgumentTypeError(f"{text!r} isn't a time as 2031-05-03T12:00:00Z") from None
    return int((found if found.tzinfo else found.replace(tzinfo=datetime.timezone.utc)).timestamp() * 1000)


def folder_of(plan: argparse.Namespace) -> Path:
    return Path(plan.copy) if plan.copy is not None else Path(key_of(plan, "state")) / "log"


def run(plan: argparse.Namespace) -> int:
    why = ""
    for _ in range(TRIES):
        try:
            return put(plan)
        except (Rotten, LogBehind) as error:
            why = f"the log in {folder_of(plan)} is refused, {type(error).__name__}: {error}"
        except NotThere as error:
            why = str(error)
        except OSError as error:
            why = f"{error.filename or getattr(plan, 'file', folder_of(plan))}: {error.strerror or error}"
            if not isinstance(error, FileNotFoundError):
                break
        except (NodeEnded, Refused) as error:
            why = f"the node ended, or refused: {error}"
            break
        time.sleep(PAUSE)
    print(f"remus-host: {why}", file=sys.stderr)
    return DAMAGED


def put(plan: argparse.Namespace) -> int:
    """Raises Rotten, LogBehind, NotThere, OSError, NodeEnded, Refused."""
    lines, status = exported(plan) if plan.verb == "export" else said(plan)
    print(*lines, sep="\n")
    return status


def key_of(plan, key: str):
    """A key of the configuration, which `--state` goes before, or what it is unless given."""
    given = {"state": plan.state} if plan.state is not None else {}
    try:
        return getattr(settings.read(plan.config, given), key) if plan.config else given.get(key, getattr(settings.Settings(), key))
    except settings.Mistakes as mistakes:
        print(mistakes, file=sys.stderr)
        sys.exit(BAD)


def exported(plan: argparse.Namespace) -> tuple[list[str], int]:
    """Raises NotThere, Rotten, LogBehind, OSError, NodeEnded, Refused."""
    disk, folder, is_copy = Disk(), folder_of(plan), plan.copy is not None
    course = latest(disk, folder, is_copy) if plan.at is None else as_of(disk, folder, plan.at, is_copy)
    count, last = export(disk, course, key_of(plan, "node"), plan.file), course.last
    return [f"{plan.file}: {count} bytes, the guest at checkpoint {last.number} of generation {last.generation}, {at(last.ended)}"], WHOLE


def said(plan: argparse.Namespace) -> tuple[list[str], int]:
    """Raises Rotten, LogBehind, OSError."""
    folder, listing = folder_of(plan), Listing(Disk(), folder_of(plan), plan.copy is not None, plan.verb == "check")
    for room in rooms(listing.disk, folder):
        for generation in generations(listing.disk, room):
            listing.look(room, generation)
    return listing.told()


class Listing:
    """A line for each log, the latest generation first, and one for each guest. A copy's log that isn't whole is one that is damaged, where
    it is checked. Raises Rotten, LogBehind, OSError."""

    def __init__(self, disk: Disk, folder: Path, is_copy: bool, checks: bool) -> None:
        self.disk, self.folder, self.is_copy, self.checks = disk, folder, is_copy, checks
        self.counts = None if is_copy else newest(disk, folder)
        self.lines: list[str] = []
        self.spans: dict[str, tuple[int, int]] = {}  # by life, from when to when
        self.status = WHOLE

    def look(self, room: Path, generation: int) -> None:
        try:
            found, more = self.read(room, generation)
        except (Rotten, LogBehind) as error:
            if not self.is_copy:
                raise
            self.lines.append(f"generation {generation}: passed over, {type(error).__name__}: {error}")
            self.status = DAMAGED if self.checks else WHOLE
            return
        if found is not None:
            self.lines.append(described(found, self.how(found, room)) + more)
            begun, ended = self.spans.get(found.head.life, (found.begun, found.ended))
            self.spans[found.head.life] = min(begun, found.begun), max(ended, found.ended)

    def read(self, room: Path, generation: int) -> tuple[Found | None, str]:
        """A log, and what is said of it besides. One of the past is read as a whole only where it is to be checked."""
        if not (self.checks or self.is_copy or room == self.folder):
            return outlined(self.disk, room, generation), ""
        if (course := course_of(self.disk, room, generation, self.is_copy)) is None:
            return None, ""
        return course.last, f", {check_all(self.disk, room, course.logs)} bytes of texts, all as written" if self.checks else ""

    def how(self, found: Found, room: Path) -> str:
        if room != self.folder:
            return "of the past"
        if found.is_over:
            return "over"
        return "the one that counts" if self.counts is not None and found.generation == self.counts.generation else "an earlier one"

    def told(self) -> tuple[list[str], int]:
        lines = [*self.lines, *(f"the guest of life {life} can be had as it was from {at(begun)} to {at(ended)}"
                                for life, (begun, ended) in self.spans.items())]
        return lines or [f"no log is in {self.folder}"], DAMAGED if self.is_copy and not self.spans else self.status


def described(found: Found, how: str) -> str:
    return (f"generation {found.generation}, checkpoints 0 to {found.number}, {at(found.begun)} to {at(found.ended)}, "
            f"life {found.head.life}: {how}")
