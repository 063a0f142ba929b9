"""What is wrong for a while, said once, and not each time that it is seen."""
import time
from collections import OrderedDict

from host.logs import Log

SAID_AGAIN = 60.0  # seconds, before which nothing is said again, where two things are seen by turns
MOST_KNOWN = 64  # sentences, and addresses


class Said:
    """Sentences about something, as an address: each is said where it differs from the last one about it. Of those of a kind, which
    strangers may bring about, no more than one is said in a second."""

    def __init__(self, log: Log, kind: str | None = None) -> None:
        self.log, self.kind = log, kind
        self.last, self.said_at = OrderedDict(), OrderedDict()

    def say(self, level: str, text: str, about: str = "") -> None:
        if self.last.get(about) == text:
            return
        now = time.monotonic()
        if now - self.said_at.get((about, text), -SAID_AGAIN) >= SAID_AGAIN:
            if self.kind is None:
                self.log.say(level, text)
            elif not self.log.seldom(self.kind, level, text):
                return
            keep(self.said_at, (about, text), now)
        keep(self.last, about, text)

    def forget(self, about: str = "") -> None:
        """What was said about it isn't so any more: it is said again if it is."""
        self.last.pop(about, None)
        for one in [one for one in self.said_at if one[0] == about]:
            del self.said_at[one]


def keep(known: OrderedDict, key: object, value: object) -> None:
    known[key] = value
    if len(known) > MOST_KNOWN:
        known.popitem(last=False)


class Trouble:
    """What is wrong with one thing, as a sentence, or None. It is said when it begins and where it changes, and that it is over."""

    def __init__(self, log: Log) -> None:
        self.log, self.said, self.why, self.is_grave = log, Said(log), None, False

    def is_so(self, why: str, level: str = "warning") -> None:
        self.why, self.is_grave = why, level != "info"
        self.said.say(level, why)

    def is_over(self, told: str) -> None:
        if self.why is not None and self.is_grave:
            self.log.info(told)
        self.why = None
        self.said.forget()
