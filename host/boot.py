"""A guest's boot line, `boot PAGES SECTORS CLIENTS GUEST` (docs/SCRIPTS.md), read as the node reads it."""
import re
from dataclasses import dataclass

from host.files import reading

MOST_PAGES, MOST_SECTORS, MOST_CLIENTS = 16384, 32768, 16
WORDS_A_PAGE = 1024
MOST_LINE = 1 << 28  # bytes, as the node takes it
MOST_NUMBER = (1 << 64) - 1
WORD, BYTE = re.compile("[0-9a-f]{8}"), re.compile("[0-9a-f]{2}")
NUMBER = re.compile("[0-9]+")


class BadGuest(Exception):
    """The file has no guest that a node boots: a sentence that says why."""


@dataclass(frozen=True)
class Boot:
    line: str
    pages: int
    sectors: int


def boot_of(path: str) -> Boot:
    """The first boot line of a file. Raises BadGuest."""
    try:
        with reading(path) as file:
            found = next(((number, line) for number, line in enumerate(file, 1) if line.startswith(b"boot ")), None)
    except OSError as error:
        raise BadGuest(f"{path} can't be read: {error.strerror}") from None
    if found is None:
        raise BadGuest(f"{path} has no line 'boot PAGES SECTORS CLIENTS ..'")
    number, line = found[0], found[1].removesuffix(b"\n").removesuffix(b"\r").decode(errors="replace")
    if why := wrong(line):
        raise BadGuest(f"{path}, line {number}: {why}")
    pages, sectors = line.split(" ", 3)[1:3]
    return Boot(line, number_of(pages, MOST_PAGES), number_of(sectors, MOST_SECTORS))


def wrong(line: str) -> str | None:
    """What is wrong with a boot line, or nothing."""
    if len(line) > MOST_LINE:
        return f"the boot line has more than {MOST_LINE} bytes"
    fields = line.split(" ")
    if len(fields) < 5 or not all(fields):
        return "the boot line isn't 'boot PAGES SECTORS CLIENTS GUEST', with one space between"
    for name, field, most in zip(("pages", "sectors", "clients"), fields[1:4], (MOST_PAGES, MOST_SECTORS, MOST_CLIENTS)):
        if number_of(field, most) is None:
            return f"the boot line's {name} must be a number from 1 to {most}"
    return wrong_guest(number_of(fields[1], MOST_PAGES), fields[4], fields[5:])


def wrong_guest(pages: int, guest: str, more: list[str]) -> str | None:
    if guest == "words":
        return wrong_words(pages, more)
    if guest not in ("idle", "beacon", "disk"):
        return "the boot line's guest must be words, idle, beacon or disk"
    if guest == "disk" and not (len(more) == 2 and number_of(more[0], MOST_NUMBER, 0) is not None and BYTE.fullmatch(more[1])):
        return "the boot line's disk is followed by a sector's number and a byte of two lower-case hex digits"
    if guest != "disk" and more:
        return f"the boot line goes on behind {guest}"
    return f"{guest} needs 2 pages" if guest != "idle" and pages < 2 else None


def wrong_words(pages: int, words: list[str]) -> str | None:
    if not 1 <= len(words) <= pages * WORDS_A_PAGE:
        return f"the boot line has {len(words)} words, and {pages} pages take 1 to {pages * WORDS_A_PAGE}"
    place = next((place for place, word in enumerate(words, 1) if not WORD.fullmatch(word)), None)
    return None if place is None else f"word {place} of the boot line isn't eight lower-case hex digits"


def number_of(field: str, most: int, least: int = 1) -> int | None:
    """A decimal number of that range; leading zeros are allowed."""
    digits = field.lstrip("0")
    if not NUMBER.fullmatch(field) or len(digits) > 20 or not least <= int(digits or "0") <= most:
        return None
    return int(digits or "0")
