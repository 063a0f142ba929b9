"""The log: lines on standard error, each with a time and a level. A daemon's lines are written by a thread of their own."""
import datetime
import json
import os
import select
import signal
import sys
import threading
import time
from collections import deque
from collections.abc import Callable
from typing import TextIO

LEVELS = {"debug": 7, "info": 6, "warning": 4, "error": 3}  # as syslog numbers them
MOST_WAITING = 1000  # lines


class Lines:
    """Writes lines to a descriptor by a thread, so that whoever doesn't read them stops nothing but that. Lines beyond the most that may
    wait are left out; `left_out` makes the line that says how many, which is written in their place."""

    def __init__(self, descriptor: int, left_out: Callable[[int], str]) -> None:
        self.descriptor, self.left_out = descriptor, left_out
        self.waiting, self.lost, self.is_writing = deque(), 0, False
        self.changed = threading.Condition()
        threading.Thread(target=self.run, name="log", daemon=True).start()

    def write(self, line: str) -> None:
        with self.changed:
            if len(self.waiting) >= MOST_WAITING:
                self.lost += 1
                return
            if self.lost:
                self.waiting.append(self.told())
            self.waiting.append(line)
            self.changed.notify_all()

    def run(self) -> None:
        signal.pthread_sigmask(signal.SIG_BLOCK, signal.valid_signals())  # they are the daemon's
        while True:
            self.put(self.next())

    def next(self) -> str:
        with self.changed:
            self.is_writing = False
            self.changed.notify_all()
            self.changed.wait_for(lambda: self.waiting or self.lost)
            self.is_writing = True
            return self.waiting.popleft() if self.waiting else self.told()

    def told(self) -> str:
        lost, self.lost = self.lost, 0
        return self.left_out(lost)

    def put(self, line: str) -> None:
        data = line.encode(errors="backslashreplace")
        try:
            while data:
                try:
                    data = data[os.write(self.descriptor, data):]
                except BlockingIOError:  # whoever shares the descriptor has made it so
                    select.select([], [self.descriptor], [])
        except (OSError, ValueError):
            pass  # nobody reads it any more

    def end(self, patience: float) -> None:
        """Waits until all is written, for so many seconds at most."""
        with self.changed:
            self.changed.wait_for(lambda: not self.waiting and not self.lost and not self.is_writing, patience)


def one_line(text: str) -> str:
    """With what can't be printed, above all the ends of lines, spelled out."""
    return text if text.isprintable() else "".join(each if each.isprintable() else ascii(each)[1:-1] for each in text)


class Log:
    """`form` is text, json, or journal, where journald knows the time and wants the level's number."""

    def __init__(self, form: str = "text", level: str = "info", name: str = "", out: TextIO | Lines | None = None) -> None:
        self.form, self.most, self.name, self.out = form, LEVELS[level], name, out or sys.stderr
        self.seldom_at, self.unsaid = {}, {}

    def write_by_thread(self, descriptor: int) -> None:
        """From now on."""
        self.out = Lines(descriptor, lambda count: self.line("warning", f"{count} lines were left out here, since nobody read the log"))

    def end(self, patience: float = 1.0) -> None:
        """What was said is written, if anybody reads it."""
        if isinstance(self.out, Lines):
            self.out.end(patience)

    def say(self, level: str, text: str) -> None:
        if LEVELS[level] <= self.most:
            self.out.write(self.line(level, text))

    def line(self, level: str, text: str) -> str:
        """One line, whatever paths and names stand in it."""
        text = one_line(text)
        if self.form == "journal":
            return f"<{LEVELS[level]}>{text}\n"
        now = datetime.datetime.now(datetime.timezone.utc).isoformat(timespec="milliseconds").replace("+00:00", "Z")
        if self.form == "json":
            return json.dumps({"time": now, "level": level, "host": self.name, "text": text}) + "\n"
        return f"{now} {level} {self.name}: {text}\n"

    def debug(self, text: str) -> None:
        self.say("debug", text)

    def info(self, text: str) -> None:
        self.say("info", text)

    def warning(self, text: str) -> None:
        self.say("warning", text)

    def error(self, text: str) -> None:
        self.say("error", text)

    def seldom(self, kind: str, level: str, text: str) -> bool:
        """Says this at most once a second for its kind, with how many were not said. Answers whether it was its turn."""
        now = time.monotonic()
        if now - self.seldom_at.get(kind, -1) < 1:
            self.unsaid[kind] = self.unsaid.get(kind, 0) + 1
            return False
        more = self.unsaid.pop(kind, 0)
        self.seldom_at[kind] = now
        self.say(level, text + (f" (and {more} more of this kind)" if more else ""))
        return True
