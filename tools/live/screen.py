"""What the operator sees and presses, and what can be seen of the clients' traffic."""
import os
import select
import shutil
import sys
import termios
import tty

from guests.lib.frames import FIN, RST, SYN
from tools.live.segments import head_of

EVERY = 0.2  # seconds, from one status line to the next


def several(number, noun):
    return f"{number} {noun}" + ("" if number == 1 else "s")


def short(number):
    """A number in at most five characters."""
    for least, size, letter in ((1e10, 1e9, "G"), (1e7, 1e6, "M"), (1e5, 1e3, "k")):
        if number >= least:
            return f"{number / size:.0f}{letter}"
    return f"{number:.0f}"


def fitted(parts, width):
    """As many of these parts as fit, the first ones first, in a line."""
    line = parts[0][:width]
    for part in parts[1:]:
        if len(line) + 3 + len(part) <= width:
            line += " | " + part
    return line


class Screen:
    """Standard output, with a status line where it is a terminal, and the keys of standard input. Either may be closed."""

    def __init__(self):
        self.input, self.kept = descriptor(sys.stdin), None
        self.is_terminal = descriptor(sys.stdout) is not None and sys.stdout.isatty()
        self.is_open = self.input is not None
        self.shown_at, self.line = 0.0, ""
        self.connections, self.requests, self.second = {}, 0, (0.0, 0, 0.0)

    def __enter__(self):
        self.take_keys()
        return self

    def take_keys(self):
        """Each key comes as it is pressed, from a terminal too; also after a shell had the terminal."""
        if self.is_open and os.isatty(self.input):
            self.kept = self.kept or termios.tcgetattr(self.input)
            tty.setcbreak(self.input)

    def give_back(self):
        """The terminal is as it was found."""
        if self.kept:
            termios.tcsetattr(self.input, termios.TCSADRAIN, self.kept)

    def __exit__(self, *_):
        self.give_back()
        if self.line:
            print()

    def watch(self):
        return [(self.input, select.POLLIN)] if self.is_open else []

    def keys(self, ready):
        """The keys that were pressed, given the events of poll by descriptor."""
        if not ready.get(self.input):
            return ""
        try:
            pressed = os.read(self.input, 64).decode(errors="replace")
        except OSError:
            pressed = ""  # there is no terminal any more
        self.is_open = pressed != ""
        return "".join(key for key in pressed if key in "pbrq")

    def tell(self, text):
        """A line for what happens."""
        if sys.stdout is None:
            return
        print(f"\r\x1b[K{text}" if self.line else text, flush=True)
        self.line = ""

    def count(self, frame):
        """Follows the TCP connections and the requests of HTTP in a frame, whichever way it goes."""
        head = head_of(frame)
        if head is None:
            return
        tcp, end = head
        ends = frozenset((frame[26:30] + frame[tcp:tcp + 2], frame[30:34] + frame[tcp + 2:tcp + 4]))
        number, flags = frame[tcp + 4:tcp + 8], frame[tcp + 13]
        if flags & SYN:
            self.connections[ends] = None
        elif flags & (FIN | RST):
            self.connections.pop(ends, None)
        data = frame[end:]
        if data[:4] in (b"GET ", b"HEAD", b"POST") and self.connections.get(ends) != number:
            self.connections[ends], self.requests = number, self.requests + 1

    def show(self, loop, now):
        """Keeps the status line up to date."""
        if not self.is_terminal or now - self.shown_at < EVERY:
            return
        self.shown_at = now
        since, requests, rate = self.second
        if now - since >= 1:
            rate = (self.requests - requests) / (now - since)
            self.second = now, self.requests, rate
        self.line = fitted(loop.status(len(self.connections), rate), shutil.get_terminal_size().columns - 1)
        print(f"\r\x1b[K{self.line}", end="", flush=True)


def descriptor(stream):
    """The number of an open stream's file, or None."""
    try:
        return None if stream is None else stream.fileno()
    except (ValueError, OSError):
        return None
