"""What a history of the pair says: a list of entries is that of one guest that never fails, behind a line that may drop frames. Written
from the tables of docs/PROTOCOL.md, and sharing nothing with the program.

An entry is a tuple: its name, and what it names. Steps stand as `("Ran", count)`, which is so many of them."""
import copy

MOST_WAITING, BOX_FRAMES = 64, 256
EVERYONE, CLIENTS_FRONT = b"\xff" * 6, bytes.fromhex("0200000001")


def targets(frame, clients):
    """The clients that a frame goes to, rising."""
    to = frame[:6]
    if to == EVERYONE:
        return range(1, clients + 1)
    return [to[5]] if to[:5] == CLIENTS_FRONT and 1 <= to[5] <= clients else []


def length(entries):
    return sum(entry[1] if entry[0] == "Ran" else 1 for entry in entries)


class Illegal(Exception):
    """The entry needs what isn't there."""


class State:
    """What a history leads to. `guest` says which frames each of its steps sends; arrivals change nothing of what it sends."""

    def __init__(self, guest, clients):
        self.guest, self.clients = guest, clients
        self.steps, self.number = 0, 1
        self.waiting = {}  # the frames that wait: the client of each number, in the order delivered
        self.out = {c: [] for c in range(1, clients + 1)}
        self.boxes = {c: [] for c in range(1, clients + 1)}

    def copy(self):
        """The same state, apart from this one."""
        other = copy.copy(self)
        other.waiting = dict(self.waiting)
        other.out, other.boxes = ({c: list(frames) for c, frames in lists.items()} for lists in (self.out, self.boxes))
        return other

    def inbox(self, c):
        return [number for number, client in self.waiting.items() if client == c]

    def move(self, entry):
        """Does what an entry does, where it has what it needs."""
        name, told = entry[0], entry[1:]
        if not getattr(self, "_" + name.lower())(*told):
            raise Illegal(entry)

    def after(self, entries):
        for entry in entries:
            self.move(entry)
        return self

    def follow(self, entries, seen):
        """Goes on from the beginning of a history that has so many entries, steps counted one by one, to its end."""
        left, rest = length(entries) - seen, []
        for entry in reversed(entries):
            if left <= 0:
                break
            rest.append(("Ran", min(left, entry[1])) if entry[0] == "Ran" else entry)
            left -= length(rest[-1:])
        return self.after(reversed(rest))

    def _ran(self, count):
        for frame in self.guest.sent(self.steps, self.steps + count):
            for c in targets(frame, self.clients):
                self.out[c].append(frame)
        self.steps += count
        return count > 0

    def _arrive(self, n):
        return n in self.waiting and n == self.inbox(self.waiting[n])[0] and self.waiting.pop(n)

    def _delivered(self, c, frame, n):
        fits = c in self.boxes and 14 <= len(frame) <= 1514 and n == self.number
        self.number += 1
        self.waiting[n] = c
        return fits

    def _refused(self, c, frame):
        return c in self.boxes and 14 <= len(frame) <= 1514 and len(self.inbox(c)) >= MOST_WAITING

    def _land(self, c):
        if not self.out[c] or len(self.boxes[c]) >= BOX_FRAMES:
            return False
        self.boxes[c].append(self.out[c].pop(0))
        return True

    def _dropin(self, n):
        return self.waiting.pop(n, None)

    def _dropout(self, c, place):
        box, out = self.boxes[c], self.out[c]
        frames, at = (box, place) if place < len(box) else (out, place - len(box))
        if at >= len(frames):
            return False
        del frames[at]
        return True

    def _took(self, c, frame):
        box = self.boxes[c]
        return frame == box.pop(0) if box else frame is None
