"""The loop of `tools/serve`: it runs the guest by the clock, ends epochs, hands frames in and out, and stops hosts."""
import select
import time

from tools.live.hosts import ALONE, MID_EPOCH, PLACES, STOPPED, Hosts
from tools.live.screen import several, short

QUICK = 20_000  # steps that take the program a fraction of a millisecond
LATE = 0.1  # a guest that is so many seconds late isn't hurried any more


class Clock:
    """The machine's clock, which waits for what comes. It stands while the process is stopped."""

    def __init__(self):
        self.skipped, self.read_at = 0.0, time.monotonic()

    def now(self):
        self.read_at = time.monotonic()
        return self.read_at - self.skipped

    def wait(self, watched, until):
        """The events of poll, by descriptor, as soon as there are any, and at the latest then."""
        poll = select.poll()
        for descriptor, events in watched:
            poll.register(descriptor, events)
        return dict(poll.poll(max(0, until - self.now()) * 1000))

    def was_stopped(self):
        """The process was stopped, and goes on: the time since the clock was read last is left out."""
        now = time.monotonic()
        self.skipped, self.read_at = self.skipped + now - self.read_at, now


class Loop:
    """`plan` has the options of `tools/serve` in seconds, `networks` those of the clients, and `screen` shows what happens."""

    def __init__(self, plan, program, boot, networks, screen, rng, clock):
        self.plan, self.screen, self.rng, self.clock = plan, screen, rng, clock
        self.networks = {network.client: network for network in networks}
        self.hosts = Hosts(program, boot, list(self.networks), self.put, plan.link, plan.lose_in, plan.lose_out,
                           not getattr(plan, "no_gate", False))
        self.rate = plan.steps_per_ms * 1000
        self.slice = plan.steps_per_ms
        now = clock.now()
        self.begun = self.epoch_begun = now
        self.guest_begun, self.made = now, 0  # since when the guest runs, and the steps that it made since then
        self.epoch_length, self.late = plan.epoch, 0.0
        self.period, self.next_failure = now, None  # since when a failure is due, and when it comes
        if plan.fail_every:
            self.plan_failure()
        self.place, self.stopped = None, None  # where the primary is to stop, and since when it has
        self.silent, self.pause = None, None  # since when clients wait for the backup's first frame, and how long they waited the last time
        self.failures, self.is_over = 0, False

    def run(self):
        while not self.is_over:
            self.turn()

    def end(self):
        self.is_over = True

    def turn(self):
        ready = self.wait(self.due())
        frames = [frame for network in self.networks.values() for frame in network.frames(ready)]
        now = self.clock.now()
        self.run_guest(now)
        for _, frame in frames:
            self.screen.count(frame)
            if self.stopped is not None and self.silent is None:
                self.silent = now
        self.hosts.deliver(frames)
        self.hosts.arrive(now)
        for key in self.screen.keys(ready):
            self.press(key, now)
        self.fail(now)
        self.end_epoch(now)
        self.screen.show(self, now)
        if self.plan.seconds and now - self.begun >= self.plan.seconds:
            self.end()

    # Waiting.

    def due(self):
        """When there is something to do, if nothing comes before."""
        times = [self.begun + self.plan.seconds] if self.plan.seconds else []
        times += [when for when, _, _ in self.hosts.way[:1]]
        if self.hosts.mode == STOPPED:
            return min([*times, self.stopped + self.plan.detect])
        if self.hosts.can_cut():
            times.append(self.epoch_begun + self.plan.epoch)
        if not self.hosts.is_full:
            times.append(self.guest_begun + (self.made + self.batch()) / self.rate)
        return min(times)

    def wait(self, until):
        watched = self.screen.watch()
        for network in self.networks.values():
            descriptors, most = network.watch()
            watched += descriptors
            until = min(until, self.clock.now() + most)
        return self.clock.wait(watched, until)

    def put(self, client, frame):
        """A client takes a frame."""
        if self.silent is not None:
            self.pause, self.silent = self.clock.now() - self.silent, None
        self.screen.count(frame)
        self.networks[client].put(frame)

    # The guest.

    def run_guest(self, now):
        """The steps that are due by now, a batch at the most. Those that are too many to catch up with are left out of the guest's time."""
        if self.hosts.mode == STOPPED:
            return
        behind = (now - self.guest_begun) - self.made / self.rate
        if behind > LATE:
            self.late, self.guest_begun = self.late + behind - LATE, self.guest_begun + behind - LATE
        due = min(int((now - self.guest_begun) * self.rate) - self.made, self.batch())
        if due > 0 and not self.hosts.is_full:
            before, slices = self.hosts.steps, [self.slice] * (due // self.slice)
            self.hosts.step(slices + [due % self.slice] if due % self.slice else slices)
            self.made += self.hosts.steps - before

    def batch(self):
        """How many steps are made before the networks are looked at again: few where they may let frames out."""
        return self.slice if self.hosts.mode == ALONE else max(self.slice, QUICK)

    def end_epoch(self, now):
        """Ends the epoch, where it has lasted long enough and another checkpoint may be pending."""
        if self.hosts.can_cut() and (now - self.epoch_begun >= self.plan.epoch or self.hosts.is_full):
            place, self.place = self.place, None
            self.hosts.cut(now, place)
            self.epoch_length = now - self.epoch_begun
            # The next one ends in its turn, unless this machine is much too late.
            self.epoch_begun = max(self.epoch_begun + min(self.epoch_length, self.plan.epoch), now - self.plan.epoch)
            if place is not None:
                self.has_stopped(now, place)
        elif self.hosts.mode == ALONE:
            self.epoch_begun = now

    # What happens to hosts.

    def press(self, key, now):
        if key == "q":
            self.end()
        elif key == "p" and self.hosts.has_backup:
            self.stop_primary(now)
        elif key == "b" and self.hosts.backup and self.hosts.mode != STOPPED:
            self.screen.tell(f"host {self.hosts.backup}, the backup, stops: host {self.hosts.live} goes on alone")
            self.hosts.fail_backup()
            self.place = None
        elif key == "r" and self.hosts.mode == ALONE:
            self.protect(now)
        elif key in "pbr":
            self.screen.tell({"p": "no backup could go on", "b": "there is no backup", "r": "there is a backup"}[key] + ": nothing happens")

    def stop_primary(self, now):
        """The primary stops, now or at the end of this epoch."""
        self.place = self.rng.randrange(len(PLACES))
        if self.place == MID_EPOCH:
            self.place = None
            self.hosts.fail_primary()
            self.has_stopped(now, MID_EPOCH)

    def has_stopped(self, now, place):
        self.stopped, self.failures = now, self.failures + 1
        # One who isn't connected waits from the first frame that he sends.
        self.silent = now if self.screen.connections else None
        self.screen.tell(f"host {self.hosts.live}, the primary, stops {PLACES[place]}")

    def plan_failure(self):
        """The next failure comes at a random moment of the second half of its period: one that kept step with the half seconds by which TCP
        repeats a frame could take the same frame each time."""
        self.next_failure = self.period + self.plan.fail_every * (1 + self.rng.random()) / 2
        self.period += self.plan.fail_every

    def fail(self, now):
        """Stops the primary where it is time, and lets its backup go live where that has been noticed."""
        if self.next_failure is not None and now >= self.next_failure and self.hosts.has_backup and self.place is None:
            self.plan_failure()
            self.stop_primary(now)
        if self.hosts.mode == STOPPED and now >= self.stopped + self.plan.detect:
            lost = self.hosts.lost
            self.stopped = None
            self.hosts.go_live()
            self.guest_begun, self.made = now, 0
            lost = self.hosts.lost - lost
            frames = several(lost, "frame") + (" is" if lost == 1 else " are")
            self.screen.tell(f"host {self.hosts.live} goes on from step {self.hosts.steps:,}; {frames} lost")
            if not self.plan.alone:
                self.protect(now)

    def protect(self, now):
        self.hosts.protect(now)
        self.epoch_begun = now
        self.screen.tell(f"host {self.hosts.backup} is the new backup")

    # What is shown.

    def status(self, connections, rate):
        """Who is live, what clients see, and frames: the parts of a line, the first ones first where not all fit."""
        hosts = self.hosts
        live = {STOPPED: "gone", ALONE: "alone"}.get(hosts.mode, f"live, {hosts.backup} backup")
        parts = [f"host {hosts.live} {live}", f"gen {hosts.generation}", f"epoch {short(hosts.epochs)}",
                 f"{short(connections)} conn {short(rate)}/s"]
        parts += [f"pause {self.pause * 1000:.0f} ms"] if self.pause is not None else []
        parts += [f"late {self.late:.1f} s"] if self.late >= 0.1 else []
        return parts + [f"lost {short(hosts.lost)}", f"out {short(hosts.let_out)}", f"held {hosts.held}"]

    def report(self):
        hosts = self.hosts
        said = (f"{several(self.failures, 'failure')} of a primary; {several(hosts.epochs, 'epoch')}, {several(hosts.came, 'frame')} in, "
                f"{hosts.let_out} out, {hosts.dropped} dropped, {hosts.lost} lost by failures; {several(self.screen.requests, 'request')}")
        return said + (f"; the guest is {self.late:.1f} s late, since this machine is too slow for it" if self.late >= 0.1 else "")
