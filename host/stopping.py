"""The end of a daemon that has the guest and nobody to hand it to: the guest stops, and all of it goes into this host's own log, from which
it goes on after the next start."""
from collections.abc import Callable

Tell = Callable[[str | None], None]


class Stop:
    """`told` is called once, with what is wrong, if something is."""

    name = "this host is about to end"

    def __init__(self, host: "Daemon", within: float, told: Tell, now: float) -> None:
        self.host, self.live, self.told, self.end = host, host.live, told, now + within
        self.is_cut = False
        if not self.live.is_stopped:
            self.live.run(now)
            self.live.stop(now)

    def due(self, now: float) -> float:
        return self.end

    def turn(self, now: float) -> None:
        live = self.live
        if not self.is_cut and live.cut is not None:
            self.is_cut = True
            live.end_epoch(now)
        live.send(now)
        if live.own.failed is not None:
            self.finish(f"the log of this host failed, {live.own.failed}: what it hadn't written by then is gone")
        elif live.cut is not None and live.own.number_in(live.generation) == live.cut:
            self.finish(None)
        elif now >= self.end:
            self.finish("the disk takes longer: what isn't in the log of this host by then is gone")

    def finish(self, wrong: str | None) -> None:
        self.host.task = None
        self.told(wrong)

    def fail(self, why: str) -> None:
        self.finish(why)
