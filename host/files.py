"""Files and sockets in folders that others use too: what is read is a regular file, what is written comes into its place as a whole and
replaces a regular file alone, and a socket takes the place of a socket that nobody serves."""
import errno
import os
import socket
import stat
from pathlib import Path
from typing import BinaryIO

NAMELESS = getattr(os, "O_TMPFILE", 0)
NO_NAMELESS = (errno.EOPNOTSUPP, errno.EISDIR, errno.EINVAL)  # of a file system that has no files without a name


def reading(path: str | Path) -> BinaryIO:
    """A regular file, to be read: a pipe or a device might keep who reads it for ever. Raises OSError."""
    file = os.open(path, os.O_RDONLY | os.O_NONBLOCK | os.O_NOCTTY)
    if not stat.S_ISREG(os.fstat(file).st_mode):
        os.close(file)
        raise OSError(None, "it isn't a regular file")
    return open(file, "rb")


class WholeFile:
    """A file that comes into its place once it is whole, for its owner's eyes alone unless its mode says otherwise. Whoever is killed
    meanwhile leaves nothing behind; where the file system has no files without a name, one file `.NAME.part`, which the next one replaces.
    All raise OSError."""

    def __init__(self, path: str | Path, mode: int = 0o600) -> None:
        self.mode = mode
        self.name, parent = os.path.basename(path), os.path.dirname(os.path.abspath(path))
        self.beside = f".{self.name}.part"
        self.folder: int | None = os.open(parent, os.O_RDONLY | os.O_DIRECTORY)
        self.file: BinaryIO | None = None
        try:
            self.check_place()
            self.is_named, number = self.begun(parent)
            self.file = open(number, "wb")
        except OSError:
            self.discard()
            raise

    def begun(self, parent: str) -> tuple[bool, int]:
        """Whether the file has a name already, and its descriptor."""
        try:
            return False, os.open(parent, NAMELESS | os.O_WRONLY, self.mode)
        except OSError as error:
            if error.errno not in NO_NAMELESS:
                raise
        self.unlink()
        return True, os.open(self.beside, os.O_WRONLY | os.O_CREAT | os.O_EXCL, self.mode, dir_fd=self.folder)

    def check_place(self) -> None:
        """Nothing but a regular file is replaced."""
        for name in (self.name, self.beside):
            try:
                mode = os.stat(name, dir_fd=self.folder, follow_symlinks=False).st_mode
            except FileNotFoundError:
                continue
            if not stat.S_ISREG(mode):
                raise OSError(None, "what stands there isn't a regular file, and isn't replaced", name)

    def place(self) -> None:
        """It is whole: it comes into its place, and is on the disk when this returns."""
        self.file.flush()
        os.fsync(self.file.fileno())
        self.check_place()
        if not self.is_named:
            self.unlink()
            os.link(f"/proc/self/fd/{self.file.fileno()}", self.beside, dst_dir_fd=self.folder)  # it follows to the file itself
            self.is_named = True
        os.replace(self.beside, self.name, src_dir_fd=self.folder, dst_dir_fd=self.folder)
        self.is_named = False
        os.fsync(self.folder)
        self.discard()

    def unlink(self) -> None:
        try:
            os.unlink(self.beside, dir_fd=self.folder)
        except FileNotFoundError:
            pass

    def discard(self) -> None:
        """Closes it, and takes it away where it isn't in its place."""
        if self.folder is None:
            return
        try:
            if self.file is not None:
                self.file.close()
        except OSError:
            pass  # what couldn't be written isn't wanted
        if self.file is not None and self.is_named:
            self.unlink()
        os.close(self.folder)
        self.folder = None


def written(path: str | Path, data: bytes, mode: int = 0o600) -> None:
    """Puts a file with these bytes in a place, or leaves what is there; it is on the disk when this returns. Raises OSError."""
    whole = WholeFile(path, mode)
    try:
        whole.file.write(data)
        whole.place()
    finally:
        whole.discard()


class Place:
    """Where a listening socket stands. A socket that nobody serves gives way to it, and nothing else; and only itself is taken away."""

    def __init__(self, path: str, listener: socket.socket, what: str) -> None:
        """Raises OSError, with a sentence."""
        self.path, self.own = path, None
        try:
            self.free(listener.type, what)
            mask = os.umask(0o177)
            try:
                listener.bind(path)
            finally:
                os.umask(mask)
            self.own = self.there()
        except OSError as error:
            if error.errno is None:
                raise
            raise OSError(None, f"{what} {path} can't be had: {error.strerror}") from None

    def there(self) -> tuple[int, int] | None:
        """The identity of what stands there."""
        try:
            found = os.lstat(self.path)
        except OSError:
            return None
        return found.st_dev, found.st_ino

    def free(self, kind: int, what: str) -> None:
        try:
            mode = os.lstat(self.path).st_mode
        except FileNotFoundError:
            return
        if not stat.S_ISSOCK(mode):
            raise OSError(None, f"{what} {self.path} can't be had: what stands there isn't a socket, and isn't replaced")
        if is_served(self.path, kind):
            raise OSError(None, f"another program listens at {self.path}, which is to be {what}")
        os.unlink(self.path)

    def leave(self) -> None:
        if self.own is not None and self.there() == self.own:
            try:
                os.unlink(self.path)
            except OSError:
                pass


def is_served(path: str, kind: int) -> bool:
    """Whether somebody listens at a socket, though he may have no time for it."""
    with socket.socket(socket.AF_UNIX, kind) as line:
        line.setblocking(False)
        try:
            line.connect(path)
        except OSError as error:
            return error.errno not in (errno.ECONNREFUSED, errno.ENOENT)
    return True
