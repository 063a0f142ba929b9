"""What a log doesn't need any more, where `log_keep` keeps it: the bases and logs of earlier generations go into the folder `past` of the
log's, a folder for each life, until they are older than that. No host is a standby from there, but the guest can be had as it was."""
import re
import time
from hashlib import blake2b
from pathlib import Path

from host.log.disk import Disk
from host.log.format import HEAD, Head, Rotten, generation_of, read_head
from host.log.reading import LogReader

PAST = "past"


class Past:
    """`folder` is that of the log, `seconds` how long what it had is kept. Each call may raise OSError."""

    def __init__(self, disk: Disk, folder: Path, seconds: float) -> None:
        self.disk, self.folder, self.seconds = disk, folder, seconds

    def take(self, generation: int, names: list[str]) -> list[str]:
        """Takes in a generation's base and log, on the disk, and answers the names of what isn't kept."""
        head = self.head_of(generation, names)
        if head is None:
            return names
        kept = sorted(name for name in names if name.endswith((".base", ".log")))  # the base first, so that no log is there without its own
        room = self.room_for(head.life, kept)
        for name in kept:
            self.disk.rename(self.folder / name, room / name)
            self.disk.sync_folder(room)
        return [name for name in names if name not in kept]

    def head_of(self, generation: int, names: list[str]) -> Head | None:
        """What a log's first record says, if it is there."""
        if f"{generation}.log" not in names:
            return None
        log = LogReader(self.disk, self.folder, generation)
        try:
            first = log.record_at(0)
            return read_head(first.data) if first is not None and first.kind == HEAD else None
        except Rotten:
            return None
        finally:
            log.close()

    def chain(self, generation: int) -> set[int]:
        """A generation, and those on which it stands, which go with it."""
        names, found = self.disk.names(self.folder), {generation}
        while f"{generation}.base" not in names and (head := self.head_of(generation, names)) is not None and head.stands_on is not None:
            generation = head.stands_on[0]
            found.add(generation)
        return found

    def room_for(self, life: str, names: list[str]) -> Path:
        """The life's folder. One that has files of these names, of another course of that life, is put aside."""
        past = self.folder / PAST
        room = past / (life if re.fullmatch("[0-9a-z]{1,64}", life) else blake2b(life.encode(), digest_size=8).hexdigest())
        self.disk.make_folder(past)
        if set(names) & set(self.disk.names(room)):
            number, taken = 1, self.disk.names(past)
            while f"{room.name}-{number}" in taken:
                number += 1
            self.disk.rename(room, room.with_name(f"{room.name}-{number}"))
        self.disk.make_folder(room)
        for folder in (self.folder, past):
            self.disk.sync_folder(folder)
        return room

    def prune(self) -> None:
        """What is older than it is kept goes, but for what something later stands on."""
        for name in self.disk.names(self.folder / PAST):
            self.prune_life(self.folder / PAST / name, time.time() - self.seconds)

    def prune_life(self, room: Path, since: float) -> None:
        names = self.disk.names(room)
        generations = sorted({of for name in names if (of := generation_of(name)) is not None})
        count = 0
        while count < len(generations) and self.is_before(room, f"{generations[count]}.log", names, since):
            count += 1
        while 0 < count < len(generations) and f"{generations[count]}.base" not in names:
            count -= 1
        for generation in reversed(generations[:count]):  # so that each log that is left has what it stands on
            for name in (f"{generation}.log", f"{generation}.base"):
                if name in names:
                    self.disk.remove(room / name)
                    self.disk.sync_folder(room)
        if count and count == len(generations):
            self.disk.remove_folder(room)

    def is_before(self, room: Path, name: str, names: list[str], since: float) -> bool:
        return name not in names or self.disk.changed_at(room / name) < since


def rooms(disk: Disk, folder: Path) -> list[Path]:
    """The log's folder, and those of what it had before."""
    return [folder, *(folder / PAST / name for name in sorted(disk.names(folder / PAST)))]
