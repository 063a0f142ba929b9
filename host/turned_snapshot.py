"""A snapshot at a standby that keeps no log. Its live host turns its guest over into a later generation, as for a long log, so that the
standby's node is made anew by a full checkpoint: that goes into the file too, while the guest and its protection go on."""
import os
import threading
from typing import Any

from host import messages
from host.live_snapshot import Writing
from host.tasks import Answer, Tell, refusal

PATIENCE = 30.0  # seconds, until the live host has turned its guest over


class Turned(Writing):
    """What the daemon has as its `saving`. It is readable where there is something to be done."""

    def __init__(self, host: Any, path: str, answer: Tell, now: float) -> None:
        """Raises OSError."""
        self.host, self.path, self.answer, self.at = host, path, answer, None
        self.woken, self.wakes = os.pipe()
        self.timer = threading.Timer(PATIENCE, self.wake)
        self.timer.daemon = True
        try:
            super().__init__(path)
        except OSError:
            self.close()
            raise
        self.timer.start()
        host.link.send(messages.message(messages.LONG, host.standby.session), now)

    def fileno(self) -> int:
        return self.woken

    def wake(self) -> None:
        try:
            os.write(self.wakes, b"x")
        except OSError:
            pass  # it is closed

    def begins(self, generation: int, number: int) -> "Turned":
        """The guest stands there, and its full checkpoint comes."""
        self.at = generation, number
        return self

    def run(self) -> None:
        super().run()
        self.wake()

    def turn(self) -> None:
        """It is in its place, or can't be, or the live host hasn't turned."""
        os.read(self.woken, 64)
        if self.at is None and not self.is_over:
            self.leave()
        elif not self.is_over and self.is_wanted:
            return
        self.host.saving = None
        self.close()
        self.answer(self.answered())

    def answered(self) -> Answer:
        if self.error is not None:
            return refusal("File", f"{self.path} can't be written: {self.error.strerror}")
        if self.at is None:
            return refusal("TimedOut", f"the live host didn't turn its guest over within {PATIENCE:.0f} s, as it has to for a standby "
                                       "without a log")
        if self.bytes is None:
            return refusal("Node", "the node that was to make it ended, or refused")
        told, (generation, number) = f"saved {self.bytes} bytes as {self.path}", self.at
        self.host.log.info(f"{told}: the guest at checkpoint {number} of generation {generation}")
        return self.host.control.did(told, bytes=self.bytes, of_generation=generation, checkpoint=number)

    def close(self) -> None:
        self.timer.cancel()
        for end in (self.woken, self.wakes):
            os.close(end)
