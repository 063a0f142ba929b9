"""How long to wait before what has failed is tried again."""

FIRST, MOST = 1.0, 60.0  # seconds


class Backoff:
    """After each failure in a row twice as long; after the first ones of them, as many as are `free`, not at all."""

    def __init__(self, free: int = 0) -> None:
        self.free, self.count, self.seconds, self.until = free, 0, 0.0, 0.0

    def failed(self, now: float) -> float:
        """For how many seconds it isn't tried again."""
        self.count += 1
        if self.count > self.free:
            self.seconds = min(2 * self.seconds or FIRST, MOST)
            self.until = now + self.seconds
        return self.seconds

    def worked(self) -> None:
        self.count, self.seconds, self.until = 0, 0.0, 0.0

    def left(self, now: float) -> float:
        """For how many seconds it isn't to be tried."""
        return max(0.0, self.until - now)
