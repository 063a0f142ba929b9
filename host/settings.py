"""The configuration: one flat TOML file, each of whose keys is an option too. All of it is checked before anything starts."""
import ipaddress
import os
import re
import shlex
import socket
import tomllib
from collections.abc import Callable
from dataclasses import dataclass, field
from pathlib import Path

from host import handshakes
from host.boot import BadGuest, boot_of

ROOT = Path(__file__).resolve().parents[1]
PROGRAM = ROOT / "remus"


class Mistake(Exception):
    """What is wrong with a value, as the end of a sentence that begins with its key."""


class Mistakes(Exception):
    """All that is wrong with a configuration, a sentence each."""


@dataclass
class Settings:
    """Durations are in seconds."""
    name: str = field(default_factory=socket.gethostname)
    guest: str | None = None
    node: list[str] = field(default_factory=lambda: [str(PROGRAM), "node"])
    state: str = "/var/lib/remus"
    control: str = "/run/remus/control.sock"
    listen: tuple[str, int] | None = None
    peer: tuple[str, int] | None = None
    key: str | None = None
    certificate: str | None = None
    peer_certificate: str | None = None
    plain: bool = False  # whether the link isn't encrypted
    link_ms: float = 1.0
    epoch_ms: float = 0.01
    steps_per_ms: int = 1000
    drain_ms: float = 2.0
    network: str = "tap"
    tap: str = "remus0"
    bridge: str | None = None
    frames: str | None = None
    guest_address: str | None = None
    metrics: tuple[str, int] | None = None
    log: str = "both"
    log_on_failure: str = "hold"
    log_limit_mb: int = 256
    log_keep: float = 0.0
    log_format: str = field(default_factory=lambda: "journal" if "JOURNAL_STREAM" in os.environ else "text")
    log_level: str = "info"


def text(value: object) -> str:
    if not isinstance(value, str) or not value or "\0" in value or any("\ud800" <= letter <= "\udfff" for letter in value):
        raise Mistake("must be a text that isn't empty, of Unicode's characters but NUL")
    return value


def short_text(value):
    if len(text(value).encode()) > 64 or not value.isprintable():
        raise Mistake("must be a text of at most 64 bytes that can be printed")
    return value


def interface(value):
    if not re.fullmatch(r"[^\s/:]{1,15}", text(value)):
        raise Mistake("must be the name of an interface, of at most 15 bytes")
    return value


def socket_path(value):
    if len(os.fsencode(text(value))) > 107:
        raise Mistake("must be a path of at most 107 bytes, as sockets have it")
    return value


def words(value: object) -> list[str]:
    try:
        found = shlex.split(value) if isinstance(value, str) else value
        if not isinstance(found, list) or not found:
            raise ValueError
        return [text(word) for word in found]
    except (ValueError, Mistake):
        raise Mistake("must be a list of words, the program first") from None


def endpoint(value):
    host, colon, port = text(value).rpartition(":")
    try:
        found = str(ipaddress.ip_address(host.strip("[]"))), int(port)
    except ValueError:
        raise Mistake(f"must be ADDRESS:PORT, as 10.0.0.1:7000, and isn't: {value}") from None
    if not colon or not 0 < found[1] < 65536:
        raise Mistake("must have a port from 1 to 65535")
    return found


def loopback_endpoint(value):
    found = endpoint(value)
    if not ipaddress.ip_address(found[0]).is_loopback:
        raise Mistake("must be an address of the loopback")
    return found


INSECURE = "insecure"


def insecure(value: object) -> bool:
    """Whether there is no encryption, which takes the word for it."""
    if value is False or value == "false":
        return False
    if value == INSECURE:
        return True
    raise Mistake(f'must be "{INSECURE}" or false: each user of this machine can have the guest\'s memory over a link without encryption')


def milliseconds(least: int, most: int) -> Callable[[object], float]:
    def read(value: object) -> float:
        try:
            found = float(value) if not isinstance(value, bool) else None
        except (TypeError, ValueError, OverflowError):
            found = None
        if found is None or not least <= found <= most:  # as no number is that isn't finite
            raise Mistake(f"must be milliseconds, from {least} to {most}")
        return found / 1000
    return read


def count(most):
    def read(value):
        try:
            found = int(value) if not isinstance(value, (bool, float)) else 0
        except (TypeError, ValueError):
            found = 0
        if not 1 <= found <= most:
            raise Mistake(f"must be a whole number from 1 to {most}")
        return found
    return read


def one_of(*names):
    def read(value):
        if value not in names:
            raise Mistake(f"must be one of {', '.join(names)}")
        return value
    return read


def log(value: object) -> str:
    if value in ("text", "json", "journal"):
        raise Mistake(f"must be both, standby or none; how the daemon spells its lines is log_format = {value}")
    return one_of("both", "standby", "none")(value)


UNITS = {"s": 1, "m": 60, "h": 3600, "d": 86400}


def duration(value: object) -> float:
    """Seconds."""
    found = re.fullmatch(r"(\d{1,6})([smhd])", value) if isinstance(value, str) else None
    if found is None:
        raise Mistake("must be a number of seconds, minutes, hours or days, as 90s, 30m, 24h or 7d; 0s is none")
    return float(found[1]) * UNITS[found[2]]


def ipv4(value):
    try:
        return str(ipaddress.IPv4Address(text(value)))
    except ValueError:
        raise Mistake(f"must be an IPv4 address, as 10.0.0.1, and isn't: {value}") from None


DRAIN_MS = milliseconds(1, 600000)

# By key: how its value is read, and what the option's help says.
KEYS = {
    "name": (short_text, "how this host calls itself"),
    "guest": (text, "a file with the guest's boot line"),
    "node": (words, "the node's command"),
    "state": (text, "a folder for what must outlive the daemon"),
    "control": (socket_path, "the control socket's path"),
    "listen": (endpoint, "ADDRESS:PORT, where the peer's link is awaited"),
    "peer": (endpoint, "ADDRESS:PORT, where the peer listens"),
    "key": (text, "this host's key"),
    "certificate": (text, "this host's certificate"),
    "peer_certificate": (text, "the peer's certificate"),
    "plain": (insecure, f"{INSECURE}: the link isn't encrypted, over the loopback alone, and each user of this machine can read the guest"),
    "link_ms": (milliseconds(50, 60000), "a link over which nothing comes for so long is closed"),
    "epoch_ms": (milliseconds(1, 1000), "the longest that an epoch is, which ends early where the guest has sent something"),
    "steps_per_ms": (count(1_000_000), "what the guest was built for"),
    "drain_ms": (DRAIN_MS, "the longest that a drain waits, of a host that is told to end too"),
    "network": (one_of("tap", "socket", "none"), "tap, socket or none"),
    "tap": (interface, "the tap interface"),
    "bridge": (interface, "the bridge that the tap is put on"),
    "frames": (socket_path, "for socket: its path"),
    "guest_address": (ipv4, "the guest's IPv4 address"),
    "metrics": (loopback_endpoint, "ADDRESS:PORT of the loopback for Prometheus"),
    "log": (log, "which hosts keep a log of the guest in the state folder: both, standby (while a host is one), or none"),
    "log_on_failure": (one_of("hold", "go-on"), "what a live host does whose own log fails: hold what the guest sends, or go-on without"),
    "log_limit_mb": (count(1_000_000), "mebibytes after which a log is begun anew, beside the full checkpoint"),
    "log_keep": (duration, "how long what the log doesn't need any more is kept, as 24h or 7d, so that the guest can be had as it was"),
    "log_format": (one_of("text", "json", "journal"), "of what the daemon says: text, json or journal"),
    "log_level": (one_of("debug", "info", "warning", "error"), "debug, info, warning or error"),
}


def line_of(source, key):
    """The number of the line on which a key of a TOML file stands."""
    spelled = re.compile(rf"""\s*["']?{re.escape(key)}["']?\s*[=.]|\s*\[\[?\s*["']?{re.escape(key)}\b""")
    return next((number for number, line in enumerate(source.splitlines(), 1) if spelled.match(line)), 1)


def from_file(path):
    """The keys of a TOML file, and the line of each; all its mistakes beside them."""
    try:
        source = Path(path).read_text()
    except (OSError, UnicodeDecodeError) as error:
        raise Mistakes(f"{path} can't be read: {getattr(error, 'strerror', None) or error}") from None
    try:
        found = tomllib.loads(source)
    except tomllib.TOMLDecodeError as error:
        said = re.fullmatch(r"(.*) \(at (?:line (\d+), column \d+|end of document)\)", str(error), re.S)
        line = said[2] or max(1, len(source.splitlines())) if said else 1
        raise Mistakes(f"{path}, line {line}: this isn't TOML: {said[1] if said else error}") from None
    except RecursionError:
        raise Mistakes(f"{path}: this isn't a configuration: it is nested too deep") from None
    return {key: (value, f"{path}, line {line_of(source, key)}") for key, value in found.items()}


def read(path, options):
    """The settings of a file, where there is one, and of options, which count more. Raises Mistakes."""
    given = from_file(path) if path else {}
    given |= {key: (value, "option --" + key.replace("_", "-")) for key, value in options.items()}
    values, wrong = {}, []
    for key, (value, place) in given.items():
        if key not in KEYS:
            wrong.append(f"{place}: there is no key {key}")
            continue
        try:
            values[key] = KEYS[key][0](value)
        except Mistake as mistake:
            wrong.append(f"{place}: {key} {mistake}")
    if wrong:
        raise Mistakes("\n".join(wrong))
    settings = Settings(**values)
    place_of = lambda key: given[key][1] if key in given else path or "the options"
    if wrong := [f"{place_of(key)}: {why}" for key, why in together(settings, given)]:
        raise Mistakes("\n".join(wrong))
    return settings


def together(settings, given):
    """What is wrong with values beside each other: pairs of a key and a sentence."""
    if settings.peer and not settings.listen or settings.listen and not settings.peer:
        key, other = ("peer", "listen") if settings.peer else ("listen", "peer")
        yield key, f"{key} is given and {other} isn't: a host with a peer needs both"
    if settings.listen and settings.peer and settings.listen == settings.peer:
        yield "peer", "peer is the address at which this host itself listens"
    if settings.plain:
        for key in ("listen", "peer"):
            address = getattr(settings, key)
            if address and not ipaddress.ip_address(address[0]).is_loopback:
                yield "plain", f"plain is for the loopback alone, and {key} isn't an address of it"
    elif settings.listen:
        for key in ("key", "certificate", "peer_certificate"):
            if getattr(settings, key) is None:
                yield "listen", f"{key} isn't given: make keys by 'remus-host keys'"
        yield from keys_together(settings)
    for key in ("key", "certificate", "peer_certificate", "guest"):
        path = getattr(settings, key)
        if path is not None and not os.access(path, os.R_OK):
            yield key, f"{key} can't be read: {path}"
    if settings.guest and os.access(settings.guest, os.R_OK):
        try:
            boot_of(settings.guest)
        except BadGuest as bad:
            yield "guest", str(bad)
    if settings.network == "socket" and settings.frames is None:
        yield "network", "network is socket, and frames isn't given"
    for key in ("tap", "bridge"):
        if key in given and settings.network != "tap":
            yield key, f"{key} is given, and network is {settings.network}"


def keys_together(settings):
    """What is wrong with keys and certificates that can be read."""
    paths = settings.key, settings.certificate, settings.peer_certificate
    if all(path is not None and os.access(path, os.R_OK) for path in paths):
        yield from handshakes.mistakes(settings)


def version():
    """Of all of it, as the file VERSION beside `remus-host` has it."""
    try:
        return (ROOT / "VERSION").read_text().strip()
    except OSError:
        return "unknown"
