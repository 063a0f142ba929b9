"""What `remus sim` prints of a script: a plain evaluator, written from the tables of docs/SCRIPTS.md and docs/PROTOCOL.md, and
sharing nothing with the program. The lines are read here; what the pair does is in oracle/pair.py.

The guests give their card no buffer, so that it needs no machine for them:
  idle             sends nothing
  beacon           sends one frame to client 1 in its step 22, and nothing else ever
  disk SECTOR HH   fills a sector with the byte HH in its step 23, where the disk has it, and sends nothing
  words W ..       the guest of oracle/sender.py; or words that start no device: each step counts one, whatever they are"""
import re

from oracle.pair import Pair, Refused
from oracle.sender import sender_of

BEACON_STEP, BEACON_FRAME = 22, bytes.fromhex("02000000010102000000000188b5")
DISK_STEP = 23
SECTOR_BYTES, PAGE_WORDS = 512, 1024
MOST_PAGES, MOST_SECTORS, MOST_CLIENTS = 16384, 32768, 16
NUMBERS_END = 2**64
# The lines by which nodes stop, go live and get a new backup.
CHANGES = ["fail primary", "fail backup", "golive", "protect"]


class Bad(Exception):
    """The line is none of the table: it ends the script."""


def number(text):
    """A number of a line: decimal digits, below 2^64."""
    if not re.fullmatch(rb"[0-9]+", text) or len(text.lstrip(b"0")) > 20 or int(text) >= NUMBERS_END:
        raise Bad
    return int(text)


def in_range(value, least, most):
    if not least <= value <= most:
        raise Bad
    return value


def hex_bytes(text):
    if not re.fullmatch(rb"([0-9a-f]{2})+", text):
        raise Bad
    return bytes.fromhex(text.decode())


class Guest:
    """What a boot line's guest does that anyone can see."""

    def __init__(self, fields, pages):
        name, rest = fields[0], fields[1:]
        self.beacon, self.writes, self.sender = name == b"beacon", None, None
        if name in (b"idle", b"beacon") and not rest:
            in_range(pages, 2 if self.beacon else 1, MOST_PAGES)
        elif name == b"disk" and len(rest) == 2:
            in_range(pages, 2, MOST_PAGES)
            sector, byte = number(rest[0]), hex_bytes(rest[1])
            in_range(len(byte), 1, 1)
            self.writes = sector, byte
        elif name == b"words":
            in_range(len(rest), 1, pages * PAGE_WORDS)
            if not all(re.fullmatch(rb"[0-9a-f]{8}", word) for word in rest):
                raise Bad
            self.sender = sender_of(rest)
        else:
            raise Bad

    def steps_to_send(self, steps, most):
        """The steps up to the next one that sends, that one among them, but so many at most."""
        if self.sender:
            return self.sender.steps_to_send(steps, most)
        return min(most, BEACON_STEP - steps) if self.beacon and steps < BEACON_STEP else most

    def sent(self, before, after):
        """The frames of the steps after one step count up to another."""
        if self.sender:
            return self.sender.sent(before, after)
        return [BEACON_FRAME] if self.beacon and before < BEACON_STEP <= after else []

    def sector(self, s, steps):
        """What a sector holds after so many steps."""
        if self.writes and self.writes[0] == s and steps >= DISK_STEP:
            return self.writes[1] * SECTOR_BYTES
        return bytes(SECTOR_BYTES)


def booted(fields, kind_of_pair=Pair):
    """The pair of a boot line."""
    if len(fields) < 5 or fields[0] != b"boot":
        raise Bad
    pages = in_range(number(fields[1]), 1, MOST_PAGES)
    sectors = in_range(number(fields[2]), 1, MOST_SECTORS)
    clients = in_range(number(fields[3]), 1, MOST_CLIENTS)
    return kind_of_pair(Guest(fields[4:], pages), sectors, clients)


def answer(pair, fields):
    """What the line of these fields prints; one space stands between two of them, and none elsewhere."""
    word, rest = fields[0], fields[1:]
    for name in CHANGES:
        if name.encode() == b" ".join(fields):
            return getattr(pair, name.replace(" ", "_"))()
    if word in (b"cut", b"send", b"show") and not rest:
        return getattr(pair, word.decode())()
    if word == b"step" and len(rest) == 1:
        return pair.step(in_range(number(rest[0]), 1, NUMBERS_END))
    if word in (b"backup", b"ack", b"admit", b"take") and len(rest) == 1:
        return getattr(pair, word.decode())(number(rest[0]))
    if word in (b"losein", b"loseout") and len(rest) == 2:
        return getattr(pair, word.decode())(number(rest[0]), number(rest[1]))
    if word == b"deliver" and len(rest) == 2:
        return pair.deliver(number(rest[0]), hex_bytes(rest[1]))
    if word == b"sector" and len(rest) == 1:
        return pair.sector(in_range(number(rest[0]), 0, pair.sectors - 1))
    raise Bad


class Player:
    """A script as it is played, a line at a time: what it has printed so far, and what ended it."""

    def __init__(self, kind_of_pair=Pair):
        self.kind_of_pair = kind_of_pair
        self.pair, self.count, self.printed, self.said, self.status = None, 0, [], b"", 0

    def play(self, line):
        if self.status:
            return
        self.count += 1
        if not line or line.startswith(b"#"):
            return
        try:
            fields = line.split(b" ")
            if self.pair is None:
                self.pair = booted(fields, self.kind_of_pair)
                self.printed.append("booted")
            else:
                self.printed.append(answer(self.pair, fields))
        except Refused as refusal:
            self.printed.append(f"refused {refusal}")
        except Bad:
            self.said, self.status = b"remus: line %d: bad\n" % self.count, 1

    def result(self):
        return "".join(f"{line}\n" for line in self.printed).encode(), self.said, self.status


def lines_of(script):
    """The lines of a file; the last may lack its newline."""
    lines = script.split(b"\n")
    return lines if lines[-1] else lines[:-1]


def is_for_run(name, text):
    """Whether a file is one for `remus run`, and no script: by its name, or by a line that no script has."""
    return name.endswith(".run") or any(line.startswith(b"epochs ") for line in lines_of(text))


def evaluate(script):
    player = Player()
    for line in lines_of(script):
        player.play(line)
    return player
