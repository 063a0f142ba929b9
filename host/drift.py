"""What both hosts have to be configured with alike. Each tells the other when they are joined, and both say what differs: after a failover
the guest would run at another pace, or be announced nowhere, and another one would be booted here than there."""
import hashlib
import json
import os

from host import messages
from host.files import reading
from host.logs import Log
from host.settings import Settings

Value = str | int | float | None
KEYS = ("guest", "steps_per_ms", "epoch_ms", "link_ms", "guest_address", "log")
MAY_BE_LEFT_OUT = ("guest",)  # which only who boots it needs


class Drift:
    """`peer` has by key what the peer said last that it is configured with, and `found` the value here and that, where they differ."""

    def __init__(self, settings: Settings, log: Log) -> None:
        self.settings, self.log = settings, log
        self.stamp: tuple[int, int] | None = None
        self.digest: str | None = None
        self.peer: dict[str, Value] = {}
        self.found: dict[str, tuple[Value, Value]] = {}
        self.image()

    def image(self) -> str | None:
        """A sum of the guest's image, as it would be booted; None where no guest is configured, or it can't be read."""
        try:
            told = os.stat(self.settings.guest or "")
            stamp = told.st_mtime_ns, told.st_size
        except OSError:
            stamp = None
        if stamp != self.stamp:
            self.stamp, self.digest = stamp, digest_of(self.settings.guest) if stamp else None
        return self.digest

    def own(self) -> dict[str, Value]:
        settings = self.settings
        return {"guest": self.image(), "steps_per_ms": settings.steps_per_ms, "epoch_ms": milliseconds(settings.epoch_ms),
                "link_ms": milliseconds(settings.link_ms), "guest_address": settings.guest_address, "log": settings.log}

    def message(self, session: bytes) -> bytes:
        """What the peer is told. It is a ping with a body, which a daemon that doesn't know it takes for a ping."""
        return messages.told(messages.PING, session, **self.own())

    def told(self, body: bytes, peer: str) -> None:
        """What the peer says of itself. Raises Malformed."""
        try:
            there = json.loads(body)
        except (ValueError, RecursionError):
            raise messages.Malformed("a ping whose body isn't JSON") from None
        if not isinstance(there, dict):
            raise messages.Malformed("a ping whose body isn't one JSON object")
        here, self.peer = self.own(), {key: there[key] for key in KEYS if key in there and is_a_value(there[key])}
        self.found = {key: (here[key], value) for key, value in self.peer.items()
                      if here[key] != value and not (key in MAY_BE_LEFT_OUT and None in (here[key], value))}
        if self.found:
            differing = "; ".join(f"{key} is {shown(key, ours)} here and {shown(key, theirs)} at {peer}"
                                  for key, (ours, theirs) in self.found.items())
            self.log.warning(f"the two hosts are configured differently: {differing}")


def milliseconds(seconds: float) -> int | float:
    found = round(seconds * 1000, 3)
    return int(found) if found.is_integer() else found


def digest_of(guest: str) -> str | None:
    """Of the boot line, whose words aren't looked at: that takes long, and the hosts may just have met."""
    try:
        with reading(guest) as file:
            line = next((line for line in file if line.startswith(b"boot ")), None)
    except OSError:
        return None
    return hashlib.sha256(line.rstrip(b"\r\n")).hexdigest()[:16] if line else None


def is_a_value(value: object) -> bool:
    """Whether it may be shown to a reader, and told on as JSON."""
    if isinstance(value, str):
        return len(value) <= 64 and value.isprintable()
    return value is None or isinstance(value, (int, float)) and not isinstance(value, bool) and -1e15 < value < 1e15


def shown(key: str, value: Value) -> str:
    if value is None:
        return "not given"
    return f"the image {value}" if key == "guest" else f"{value}"
