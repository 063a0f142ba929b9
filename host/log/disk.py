"""What a log asks of the system: files, their bytes, and their names. Tests put another disk in its place, whose power can fail."""
import os
from pathlib import Path


class Disk:
    """Each call may raise OSError. What was written counts after `sync`; a name that was made, changed or removed, after `sync_folder`."""

    def make_folder(self, folder: Path) -> None:
        folder.mkdir(mode=0o700, exist_ok=True)

    def names(self, folder: Path) -> list[str]:
        """The names of the folder's files; none where there is no folder."""
        return os.listdir(folder) if folder.exists() else []

    def create(self, path: Path) -> int:
        """An empty file, in place of any that has this name."""
        return os.open(path, os.O_RDWR | os.O_CREAT | os.O_TRUNC, 0o600)

    def open(self, path: Path) -> int:
        return os.open(path, os.O_RDWR)

    def open_to_read(self, path: Path) -> int:
        return os.open(path, os.O_RDONLY)

    def close(self, file: int) -> None:
        os.close(file)

    def size(self, file: int) -> int:
        return os.fstat(file).st_size

    def read(self, file: int, count: int, place: int) -> bytes:
        """So many bytes from a place on, or as many as there are."""
        parts = []
        while count > 0 and (part := os.pread(file, count, place)):
            parts.append(part)
            count, place = count - len(part), place + len(part)
        return b"".join(parts)

    def write(self, file: int, data: bytes, place: int) -> None:
        """Writes all of it. A disk that is full takes a part, and then raises."""
        view = memoryview(data)
        while view:
            count = os.pwrite(file, view, place)
            view, place = view[count:], place + count

    def allocate(self, file: int, place: int, count: int) -> None:
        """Room on the disk for bytes that are written later."""
        os.posix_fallocate(file, place, count)

    def cut(self, file: int, size: int) -> None:
        """What stands behind so many bytes is gone, on the disk too."""
        os.ftruncate(file, size)
        os.fsync(file)

    def sync(self, file: int) -> None:
        os.fdatasync(file)

    def rename(self, path: Path, to: Path) -> None:
        os.replace(path, to)

    def remove(self, path: Path) -> None:
        path.unlink(missing_ok=True)

    def remove_folder(self, folder: Path) -> None:
        """One that has no files."""
        folder.rmdir()

    def changed_at(self, path: Path) -> float:
        """When it was written last, in seconds of the wall clock."""
        return path.stat().st_mtime

    def sync_folder(self, folder: Path) -> None:
        handle = os.open(folder, os.O_RDONLY)
        try:
            os.fsync(handle)
        finally:
            os.close(handle)

    def room(self, folder: Path) -> int:
        """Bytes that the folder's disk still takes."""
        found = os.statvfs(folder)
        return found.f_bavail * found.f_frsize
