"""What the control socket may be asked: a line is one JSON object, and all of it is checked before anything is done."""
import json
import os
from collections.abc import Callable
from typing import Any, NoReturn

from host.settings import DRAIN_MS, Mistake, text

MOST_SHOWN = 40  # characters of a name that nobody knows
MOST_NAME = 256


class Wrong(Exception):
    """What is wrong with a request, as a sentence; `name` is that of the refusal."""

    def __init__(self, why: str, name: str = "Malformed") -> None:
        super().__init__(why)
        self.name = name


def truth(value: object) -> bool:
    if not isinstance(value, bool):
        raise Mistake("must be true or false")
    return value


def name(value: object) -> str:
    if len(text(value)) > MOST_NAME:
        raise Mistake(f"must be a text of at most {MOST_NAME} characters")
    return value


def path(value: object) -> str:
    if not os.path.isabs(text(value)) or os.path.basename(value) in ("", ".", ".."):
        raise Mistake("must be the whole path of a file, from / on")
    return value


def within(value: object) -> float:
    """In seconds."""
    return DRAIN_MS(value if isinstance(value, (int, float)) else None)


Reader = Callable[[object], Any]

# By verb: the fields that a request may have beside `do`, what the verb calls each, and how it is read.
REQUESTS: dict[str, dict[str, tuple[str, Reader]]] = {
    "status": {},
    "promote": {"boot": ("boot", truth), "new": ("new", truth), "from": ("source", path), "disk": ("disk", path), "bare": ("bare", truth),
                "without_peer": ("without_peer", truth), "fenced": ("fenced", truth), "force": ("force", truth)},
    "alone": {"standby": ("standby", name)},
    "drain": {"promote": ("promote", truth), "within_ms": ("within", within)},
    "demote": {},
    "save": {"file": ("file", path)},
    "metrics": {},
}


def read(line: bytes) -> tuple[str, dict[str, Any]]:
    """The verb of a line, and what it is given. Raises Wrong."""
    request = asked(line)
    verb = request.pop("do")
    if verb not in REQUESTS:
        raise Wrong(f"there is no verb {short(verb)}", "Unknown")
    given = {}
    for field, value in request.items():
        if field not in REQUESTS[verb]:
            raise Wrong(f"{verb} has no field {short(field)}")
        called, reader = REQUESTS[verb][field]
        try:
            given[called] = reader(value)
        except Mistake as mistake:
            raise Wrong(f"{field} {mistake}") from None
    if why := TOGETHER.get(verb, fits)(given):
        raise Wrong(why)
    return verb, given


def asked(line: bytes) -> dict[str, Any]:
    """The JSON object of a line. Raises Wrong."""
    try:
        request = json.loads(line.decode(), parse_constant=constant, object_pairs_hook=once_each)
    except (ValueError, RecursionError):
        raise Wrong("the line isn't JSON in UTF-8") from None
    if not isinstance(request, dict):
        raise Wrong("the line isn't one JSON object")
    if not isinstance(request.get("do"), str):
        raise Wrong("the object has no text 'do'")
    return request


def constant(word: str) -> NoReturn:
    raise Wrong(f"{word} isn't JSON")


def once_each(pairs: list[tuple[str, object]]) -> dict[str, object]:
    found = dict(pairs)
    if len(found) < len(pairs):
        raise Wrong("an object has a field twice")
    return found


def short(word: str) -> str:
    """A name that somebody gave, for a sentence."""
    return json.dumps(word[:MOST_SHOWN])


# What is wrong with fields beside each other, by verb: a sentence, or nothing.


def fits(given: dict[str, Any]) -> str | None:
    return None


def promotes(given: dict[str, Any]) -> str | None:
    is_booted, has_source = given.get("boot", False), "source" in given
    if has_source and is_booted or not is_booted and (given.get("new") or "disk" in given):
        return "promote takes boot, with new and disk or without them, or from, or nothing"
    if given.get("bare") and not has_source and "disk" not in given:
        return "bare is said of a snapshot, that of from or disk"
    return None


def saves(given: dict[str, Any]) -> str | None:
    return None if "file" in given else "save takes the field file, a whole path"


TOGETHER = {"promote": promotes, "save": saves}
