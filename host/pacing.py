"""How many steps a guest is given while its standby is filled. Until the full checkpoint's text is fetched no epoch ends, and the first cut
takes as long as there are pages that the guest has written by then. So it may write so many more with each part of the text that is
fetched; one that has written its part waits for the next part. A guest that writes less makes its steps as ever.

No pace by pages helps where a burst comes: a guest's disk may write nearly all its memory within one step, and a guest that isn't paced,
since the link takes nothing, as much. The filling is then begun again, since the next full checkpoint has what was written; and each time
the guest runs slower meanwhile, so that one whose disk does so over and over is filled between two of its bursts. That isn't done for long,
since over a slow link a filling takes longer than a guest may be slow."""
from host.node import WRITTEN

AT_ONCE = 256  # pages that it may write before any of the text is fetched
BUDGET = 1000  # pages that it may have written once all of it is
STEPS_A_PAGE = 2  # a guest's own stores need about so many for a page that it hasn't written; its disk needs one step for all
GROWTH = 4  # times as many steps as the last ones, at most, so that one that begins to write is seen
MOST = 8000  # steps at once: one that begins to write with them writes so many pages more as are compared in 7 ms
TRY_EVERY = 0.001  # seconds, of one that waits
PATIENCE = 0.004  # after so many seconds without a step it is given
FEW = 32  # steps
STALLED = 0.05  # seconds without a part of the text that the link took
BURST = BUDGET + MOST // STEPS_A_PAGE  # pages: above the budget by as many as its own stores write with so many steps at once
MOST_AGAIN = 3  # times that a filling is begun again: then it goes on, so that each guest is protected in the end
SLOWER = 8  # times as slow each time
MOST_LEFT_OUT = 2.0  # seconds in all, of the time of a guest that runs slower: then it runs as ever


class Pace:
    """Of one filling. `written` is how many pages had been written when it began."""

    def __init__(self, written=0):
        self.base = self.written = written
        self.last, self.steps_a_page = 0, STEPS_A_PAGE
        self.is_held = False  # whether it waits for the next part of the text

    def steps(self, due, part, waited):
        """How many of the steps that are due it is given at once, where this part of the text is fetched, and it made none for so many
        seconds. 0: it has to wait."""
        left = self.base + int(AT_ONCE + (BUDGET - AT_ONCE) * part) - self.written
        self.is_held = left <= 0 and waited < PATIENCE
        if left <= 0:
            return 0 if self.is_held else min(due, FEW)
        return min(due, MOST, max(STEPS_A_PAGE * left, min(GROWTH * self.last, int(self.steps_a_page * left))))

    def made(self, steps, written):
        """It made these steps, and has written so many pages since the last cut."""
        more = written - self.written
        self.last, self.written = steps, written
        self.steps_a_page = steps / more if more > 0 else GROWTH * max(steps, 1)


class Pacer:
    """Paces the guest of a live host from an attachment to the first cut after its full checkpoint was fetched; but not while the link is
    gone or takes nothing, since then it would wait for long."""

    def __init__(self, live):
        self.live, self.pace = live, None
        self.is_counted = True  # whether what the pace knows to be written is all
        self.sent_at = self.tried_at = 0.0  # when a part of a text was sent, or memory looked at for it; and the guest was to make steps
        self.again, self.left_out = 0, 0.0  # how often the filling was begun again, and the seconds left out since it is slower

    def begin(self, now):
        self.pace, self.is_counted, self.sent_at, self.tried_at = Pace(), True, now, now

    def end(self):
        self.pace, self.again, self.left_out = None, 0, 0.0

    def was_cut(self):
        if self.pace is not None:
            self.pace = None if self.live.is_fetched else Pace()

    @property
    def is_held(self):
        return self.pace.is_held

    def is_on(self, now):
        if self.pace is None:
            return False
        is_on = self.live.is_linked and (self.live.is_fetched or now - self.sent_at < STALLED)
        self.is_counted &= is_on
        return is_on

    def run(self, due, now):
        """The steps that are due, a few at a time, as far as the guest's pace lets it. The time that it waits is left out."""
        live = self.live
        if not self.is_counted:
            self.pace, self.is_counted = Pace(live.node.ask("show").number(WRITTEN)), True
            if self.pace.written > BURST:
                self.burst(self.pace.written, "while the link took nothing", now)
                return
        part = live.part_fetched
        due = self.slowed(due)
        while due > 0 and not live.is_full and (steps := self.pace.steps(due, part, now - live.ran_at)) > 0:
            live.longest = max(live.longest, now - live.ran_at)
            before, (step, show) = live.steps, live.tell(b"step %d" % steps, b"show")
            live.stepped(step, now)
            self.pace.made(live.steps - before, show.number(WRITTEN))
            due, now = due - steps, live.link.now()
            live.ran_at = now
            if self.pace.written - self.pace.base > BURST:
                self.burst(self.pace.written - self.pace.base, "at once, by its disk", now)
                return
        self.tried_at = now
        left = now - live.guest_begun - (live.made + live.slice) / live.rate
        if self.is_held and left > 0:
            self.leave_out(left)

    def slowed(self, due):
        """Of the steps that are due those that it is given, fewer each time that the filling was begun again. The time of the others is
        left out."""
        if self.left_out >= MOST_LEFT_OUT:
            return due
        given = max(due // SLOWER ** self.again, min(due, 1))
        seconds = (due - given) / self.live.rate
        self.left_out += seconds
        self.leave_out(seconds)
        return given

    def leave_out(self, seconds):
        self.live.skip(seconds)
        self.live.counts.paced += seconds

    def burst(self, pages, how, now):
        """Begins the filling again, or, where that was done often enough or all of the text is fetched, lets it and the guest go on."""
        log, standby, again, left_out = self.live.log, self.live.standby[0], self.again, self.left_out
        told = f"{pages} pages of the guest's memory were written {how}, and {standby} isn't filled yet"
        if again < MOST_AGAIN and not self.live.is_fetched:
            log.info(f"{told}: it is filled anew, {again + 1} of {MOST_AGAIN} times, so that the guest doesn't stand for them at a cut")
            self.live.begin_again(now)
            self.again, self.left_out = again + 1, left_out
        else:
            log.warning(f"{told}: it was filled anew {again} times, and now the guest stands for them at the next cut")
            self.pace = None
