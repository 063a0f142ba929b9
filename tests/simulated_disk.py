"""A disk whose power can fail at any moment, for the tests of host/log. What wasn't synced is then kept, dropped or torn at random: each
sector that was written, and each name that was made, changed or removed."""
import random
from pathlib import Path

SECTOR = 512


class PowerCut(BaseException):
    """The power fails: nothing more is done."""


class File:
    """Its bytes as programs see them, those that are on the disk for sure, and which sectors were written since."""

    def __init__(self) -> None:
        self.data, self.kept, self.dirty = bytearray(), bytearray(), set()

    def write(self, data: bytes, place: int) -> None:
        end = place + len(data)
        if end > len(self.data):
            self.data += bytes(end - len(self.data))
        self.data[place:end] = data
        self.dirty.update(range(place // SECTOR, -(-end // SECTOR)))

    def sync(self) -> None:
        for sector in self.dirty:
            at = sector * SECTOR
            if at + SECTOR > len(self.kept):
                self.kept += bytes(min(at + SECTOR, len(self.data)) - len(self.kept))
            self.kept[at:at + SECTOR] = self.data[at:at + SECTOR]
        self.kept += bytes(max(0, len(self.data) - len(self.kept)))
        del self.kept[len(self.data):]
        self.dirty.clear()

    def lose(self, rng: random.Random) -> None:
        """What is there after the power failed."""
        how, first = rng.choice(["none", "all", "front", "any"]), rng.randrange(len(self.dirty) + 1)
        least, most = len(self.kept), max(len(self.kept), len(self.data))
        size = rng.choice([most, rng.randint(least, most)])
        found = bytearray(self.kept[:size] + bytes(max(0, size - len(self.kept))))
        for order, sector in enumerate(sorted(self.dirty)):
            is_kept = {"none": False, "all": True, "front": order < first, "any": rng.random() < 0.5}[how]
            part = self.data[sector * SECTOR:min(size, sector * SECTOR + SECTOR)]
            if is_kept and part:
                found[sector * SECTOR:sector * SECTOR + len(part)] = part
        self.data, self.kept, self.dirty = found, bytearray(found), set()


def moved(names: dict[Path, File], path: Path, to: Path) -> None:
    """A file has another name, or a folder with all its files."""
    for one in [one for one in names if one.is_relative_to(path)]:
        names[to / one.relative_to(path)] = names.pop(one)


class SimulatedDisk:
    """The power fails in the call after `left` more. `tallied` counts calls."""

    def __init__(self, rng: random.Random) -> None:
        self.rng, self.left, self.tallied = rng, None, 0
        self.by_name, self.kept, self.changes = {}, {}, []  # names as programs see them, and as the disk has them; what was done since
        self.handles, self.capacity, self.changed = [], None, {}  # the last: when files of such names were written

    def touched(self) -> None:
        self.tallied += 1
        if self.left is not None:
            self.left -= 1
            if self.left < 0:
                raise PowerCut

    def power_fails(self) -> None:
        for path, change in self.changes:
            if self.rng.random() < 0.5:
                self.apply(path, change)
        self.by_name = dict(self.kept)
        self.changes, self.handles, self.left = [], [], None
        for file in dict.fromkeys(self.by_name.values()):
            file.lose(self.rng)

    def apply(self, path: Path, change: object) -> None:
        """What was done to a name is on the disk."""
        if isinstance(change, tuple):
            if change[1] is None:
                moved(self.kept, change[0], path)
            else:
                self.kept.pop(change[0], None)
                self.kept[path] = change[1]
        elif change is None:
            self.kept.pop(path, None)
        else:
            self.kept[path] = change

    # What host/log/disk.py has.

    def make_folder(self, folder: Path) -> None:
        pass

    def names(self, folder: Path) -> list[str]:
        """Those of folders too, which are there once a file is in them."""
        within = f"{folder}/"
        return list({path.removeprefix(within).partition("/")[0]: None for path in map(str, self.by_name) if path.startswith(within)})

    def create(self, path: Path) -> int:
        self.touched()
        self.by_name[path] = File()
        self.changes.append((path, self.by_name[path]))
        return self.open(path)

    def open(self, path: Path) -> int:
        self.handles.append(self.by_name[path])
        return len(self.handles) - 1

    open_to_read = open

    def close(self, file: int) -> None:
        pass

    def size(self, file: int) -> int:
        return len(self.handles[file].data)

    def read(self, file: int, count: int, place: int) -> bytes:
        return bytes(self.handles[file].data[place:place + count])

    def write(self, file: int, data: bytes, place: int) -> None:
        if self.capacity is not None and place + len(data) > max(self.capacity, len(self.handles[file].data)):
            raise OSError(28, "No space left on device")
        self.handles[file].write(data, place)
        self.touched()

    def allocate(self, file: int, place: int, count: int) -> None:
        if self.capacity is not None and place + count > self.capacity:
            raise OSError(28, "No space left on device")
        self.handles[file].data += bytes(max(0, place + count - len(self.handles[file].data)))

    def cut(self, file: int, size: int) -> None:
        self.touched()
        one = self.handles[file]
        del one.data[size:], one.kept[size:]
        one.sync()

    def sync(self, file: int) -> None:
        self.touched()
        self.handles[file].sync()
        self.touched()

    def rename(self, path: Path, to: Path) -> None:
        """A file, or a folder with all its files."""
        self.touched()
        file = self.by_name.get(path)
        moved(self.by_name, path, to)
        self.changes.append((to, (path, file)))

    def remove(self, path: Path) -> None:
        self.touched()
        if self.by_name.pop(path, None) is not None:
            self.changes.append((path, None))

    def remove_folder(self, folder: Path) -> None:
        self.touched()

    def changed_at(self, path: Path) -> float:
        return self.changed.get(path.name, 0.0)

    def sync_folder(self, folder: Path) -> None:
        """Its names are on the disk; what was moved from one folder to another is, once either is synced."""
        self.touched()
        left = []
        for path, change in self.changes:
            if folder == path.parent or isinstance(change, tuple) and folder == change[0].parent:
                self.apply(path, change)
            else:
                left.append((path, change))
        self.changes = left
        self.touched()

    def room(self, folder: Path) -> int:
        return 1 << 40
