"""This host's certificate and the peer's, as their files have them: each new connection is made with what is there by then, so that neither
is changed by an end of the daemon, and of the guest with it."""
import os

from host.connection import reason
from host.handshakes import Papers, papers
from host.logs import Log
from host.settings import Settings


def stamp(path: str) -> tuple[int, ...] | None:
    """What changes with a file's content; None of one that isn't there."""
    try:
        found = os.stat(path)
    except OSError:
        return None
    return found.st_mtime_ns, found.st_size, found.st_ino


class Certificates:
    """Raises OSError or ValueError where they can't be had at first."""

    def __init__(self, settings: Settings, log: Log) -> None:
        self.settings, self.log = settings, log
        given = () if settings.plain else (settings.key, settings.certificate, settings.peer_certificate)
        self.paths = [path for path in given if path is not None]
        self.stamps = self.stamped()
        self.taken: Papers | None = papers(settings)

    def stamped(self) -> list[tuple[int, ...] | None]:
        return [stamp(path) for path in self.paths]

    def current(self) -> Papers | None:
        """What is there now. While the files don't fit each other, those before go on."""
        stamps = self.stamped()
        if stamps != self.stamps:
            self.stamps = stamps
            try:
                self.taken = papers(self.settings)
                self.log.info("key or certificates have changed: each new link is made with them")
            except (OSError, ValueError) as error:
                self.log.warning(f"key or certificates have changed, and can't be taken ({reason(error)}): those before go on")
        return self.taken
