"""The pair of docs/PROTOCOL.md with its clients: what each event is answered, and what it adds to the history. A plain evaluator,
written from the tables of that page and sharing nothing with the program. It needs no machine: `guest` says which frames each step
sends and what a sector holds after so many steps, and frames that arrive change nothing of either."""
import collections

from oracle.history import BOX_FRAMES, MOST_WAITING, State, length, targets

MOST_PENDING, OUTBOX_ROOM = 4, 192
PAIRED, FILLING, ALONE, STOPPED = "paired", "filling", "alone", "stopped"
SHOWN = {FILLING: PAIRED}  # what `show` calls a mode, where that isn't its own name
EMPTY = -1  # the number of the last committed checkpoint where the backup holds no image


class Refused(Exception):
    """A refusal, by its number and name."""


FULL, BAD_FRAME, NO_CLIENT, HAS_STOPPED, BEHIND = "1 Full", "2 BadFrame", "3 NoClient", "4 Stopped", "5 Behind"
NOT_PAIRED, ALREADY_PAIRED, NO_IMAGE, STALE, GAP = "6 NotPaired", "7 AlreadyPaired", "8 NoImage", "9 Stale", "10 Gap"
CUT_NEEDED = "13 CutNeeded"


class Pair:
    def __init__(self, guest, sectors, clients):
        self.guest, self.sectors, self.clients = guest, sectors, clients
        self.mode, self.generation = PAIRED, 1
        self.steps, self.image_steps = 0, 0  # of the live guest, and of the backup's image, or None where that is empty
        self.running, self.outbox = [], []  # the running epoch: the entries that it will add, and its frames
        self.next, self.committed, self.pending = 1, 0, []  # checkpoints: the next number, the last committed, those not acknowledged
        self.sealed, self.cut_at = {}, {}  # by checkpoint: the entries of an epoch not committed; the steps at its cut
        self.held = {}  # by checkpoint: the frames of its epoch, until they land
        self.packets, self.acks = [], []  # on either line: (generation, number)
        self.inboxes = {c: collections.deque() for c in range(1, clients + 1)}
        self.boxes = {c: collections.deque() for c in range(1, clients + 1)}
        self.delivered = 0
        self.history = []

    # What the tables say in passing.

    def refuse(self, **why):
        """The first refusal of a row that names this mode."""
        if self.mode in why:
            raise Refused(why[self.mode])

    def client(self, c):
        if c not in self.inboxes:
            raise Refused(NO_CLIENT)
        return c

    def keep(self, entry):
        """A step or an arrival: it enters the history at once where one node is alone, else with its epoch."""
        self.add(entry, self.history if self.mode == ALONE else self.running)

    def record(self, *entry):
        self.add(entry, self.history)

    @staticmethod
    def add(entry, entries):
        if entry[0] == "Ran" and entries and entries[-1][0] == "Ran":
            entry = ("Ran", entries.pop()[1] + entry[1])
        entries.append(entry)

    def land(self, frames):
        """Frames land in the order sent, each for its clients in rising order; how many were put into boxes."""
        landed = 0
        for frame in frames:
            for c in targets(frame, self.clients):
                if len(self.boxes[c]) < BOX_FRAMES:
                    self.boxes[c].append(frame)
                    self.record("Land", c)
                    landed += 1
                else:
                    self.record("DropOut", c, BOX_FRAMES)
        return landed

    # The events.

    def step(self, count):
        """So many steps, up to the first refusal."""
        while count:
            self.refuse(stopped=HAS_STOPPED)
            if len(self.outbox) > OUTBOX_ROOM:
                raise Refused(CUT_NEEDED)
            # Up to the next step that sends, or all that are left.
            made = self.guest.steps_to_send(self.steps, count)
            frames = self.guest.sent(self.steps, self.steps + made)
            self.keep(("Ran", made))
            self.steps += made
            count -= made
            if self.mode == ALONE:
                self.land(frames)
            else:
                self.outbox += frames
        return f"steps {self.steps}"

    def cut(self):
        self.refuse(stopped=HAS_STOPPED, alone=NOT_PAIRED)
        if len(self.pending) == MOST_PENDING:
            raise Refused(BEHIND)
        n = self.next
        self.next += 1
        self.pending.append(n)
        self.sealed[n], self.held[n], self.cut_at[n] = self.running, self.outbox, self.steps
        self.running, self.outbox = [], []
        return f"cut {self.generation} {n}"

    def send(self):
        self.refuse(stopped=HAS_STOPPED, alone=NOT_PAIRED)
        self.packets += [(self.generation, n) for n in self.pending]
        return f"sent {len(self.pending)}"

    def backup(self, k):
        self.refuse(alone=NOT_PAIRED)
        if k >= len(self.packets):
            return "lost"
        generation, n = self.packets[k]
        if generation != self.generation:
            raise Refused(STALE)
        if n > self.committed + 1:
            raise Refused(GAP)
        word = "again"
        if n == self.committed + 1:
            word = "committed"
            self.commit(n)
        self.acks.append((self.generation, self.committed))
        return f"{word} {self.generation} {self.committed}"

    def commit(self, n):
        """The image becomes the guest at that cut, whose epoch moves to the history. A full checkpoint makes a pair."""
        self.committed, self.image_steps = n, self.cut_at[n]
        for entry in self.sealed.pop(n):
            self.record(*entry)
        if self.mode == FILLING:
            self.mode = PAIRED

    def ack(self, k):
        self.refuse(stopped=HAS_STOPPED, alone=NOT_PAIRED)
        if k >= len(self.acks):
            return "lost"
        generation, n = self.acks[k]
        if generation != self.generation:
            raise Refused(STALE)
        landed = sum(self.land(self.held.pop(m)) for m in self.pending if m <= n)
        self.pending = [m for m in self.pending if m > n]
        return f"acked {self.generation} {n} landed {landed}"

    def deliver(self, c, frame):
        inbox = self.inboxes[self.client(c)]
        if not 14 <= len(frame) <= 1514:
            raise Refused(BAD_FRAME)
        if len(inbox) == MOST_WAITING:
            self.record("Refused", c, frame)
            raise Refused(FULL)
        self.delivered += 1
        inbox.append(self.delivered)
        self.record("Delivered", c, frame, self.delivered)
        return f"delivered {self.delivered}"

    def admit(self, c):
        inbox = self.inboxes[self.client(c)]
        self.refuse(stopped=HAS_STOPPED)
        if not inbox:
            return "empty"
        n = inbox.popleft()
        self.keep(("Arrive", n))
        return f"admitted {n}"

    def take(self, c):
        box = self.boxes[self.client(c)]
        frame = box.popleft() if box else None
        self.record("Took", c, frame)
        return "none" if frame is None else f"frame {frame.hex()}"

    def losein(self, c, place):
        inbox = self.inboxes[self.client(c)]
        if place >= len(inbox):
            return "empty"
        self.record("DropIn", inbox[place])
        del inbox[place]
        return "dropped"

    def loseout(self, c, place):
        box = self.boxes[self.client(c)]
        if place >= len(box):
            return "empty"
        self.record("DropOut", c, place)
        del box[place]
        return "dropped"

    def fail_primary(self):
        self.refuse(stopped=HAS_STOPPED, alone=NO_IMAGE, filling=NO_IMAGE)
        self.mode = STOPPED
        return "stopped primary"

    def fail_backup(self):
        self.refuse(stopped=HAS_STOPPED, alone=NOT_PAIRED)
        for entry in self.kept():
            self.record(*entry)
        landed = self.land([frame for n in self.pending for frame in self.held[n]] + self.outbox)
        self.forget(ALONE)
        return f"alone {self.generation} landed {landed}"

    def golive(self):
        self.refuse(alone=NOT_PAIRED, paired=ALREADY_PAIRED, filling=ALREADY_PAIRED)
        # What uncommitted epochs took in is dropped, by rising number; then what committed ones sent and hasn't landed does.
        for n in sorted(entry[1] for entry in self.kept() if entry[0] == "Arrive"):
            self.record("DropIn", n)
        self.land(held_to(self, self.committed + 1))
        self.forget(ALONE)
        self.generation += 1
        self.steps = self.image_steps
        return f"live {self.generation} steps {self.steps}"

    def protect(self):
        self.refuse(stopped=HAS_STOPPED, paired=ALREADY_PAIRED, filling=ALREADY_PAIRED)
        self.mode = FILLING
        self.generation += 1
        # The full checkpoint is number 0. It ends an epoch in which nothing was done: what a lone node did is in the history.
        self.next, self.committed, self.pending = 1, EMPTY, [0]
        self.sealed, self.held, self.cut_at = {0: []}, {0: []}, {0: self.steps}
        self.image_steps = None
        return f"protecting {self.generation}"

    def kept(self):
        """The entries of the epochs that are not committed, the running one last."""
        return [entry for n in sorted(self.sealed) for entry in self.sealed[n]] + self.running

    def forget(self, mode):
        """Nothing is kept, pending, held or in the outbox any more."""
        self.mode = mode
        self.sealed, self.running, self.pending, self.held, self.outbox = {}, [], [], {}, []

    # What an operator sees.

    def shown_steps(self):
        return self.image_steps if self.mode == STOPPED else self.steps

    def show(self):
        return (f"mode {SHOWN.get(self.mode, self.mode)} generation {self.generation} pending {len(self.pending)} "
                f"steps {self.shown_steps()} entries {length(self.history)}")

    def sector(self, s):
        return f"sector {s} {self.guest.sector(s, self.shown_steps()).hex()}"


class Follower:
    """Follows a pair by its history alone."""

    def __init__(self, pair):
        self.shown, self.seen = State(pair.guest, pair.clients), 0

    def differs(self, pair):
        """What of the pair isn't as its history says, by name: the history goes on legally, and inboxes, boxes, held frames and both
        guests are those that it and what is kept lead to."""
        shown, self.seen = self.shown.follow(pair.history, self.seen), length(pair.history)
        kept = shown.copy().after(pair.kept())
        wanted = {
            "number": (pair.delivered + 1, shown.number),
            "steps": (pair.steps, kept.steps),
            "image": (committed_steps(pair), shown.steps),
            "inboxes": ({c: list(numbers) for c, numbers in pair.inboxes.items()}, {c: kept.inbox(c) for c in pair.boxes}),
            "boxes": ({c: list(frames) for c, frames in pair.boxes.items()}, shown.boxes),
            "owed": (by_client(pair, held_to(pair, pair.next) + pair.outbox), kept.out),
            "owed by what is committed": (by_client(pair, held_to(pair, pair.committed + 1)), shown.out),
            "numbers": (numbers_fit(pair), True),
        }
        return [name for name, (here, there) in wanted.items() if here != there]


def committed_steps(pair):
    """The steps of the image; of a new backup, those of its full checkpoint, and where a node is alone, its own."""
    if pair.mode == FILLING:
        return pair.cut_at[0]
    return pair.steps if pair.mode == ALONE else pair.image_steps


def held_to(pair, end):
    """The frames that are held under numbers before that one."""
    return [frame for n in pair.pending if n < end for frame in pair.held[n]]


def by_client(pair, frames):
    return {c: [frame for frame in frames if c in targets(frame, pair.clients)] for c in pair.boxes}


def numbers_fit(pair):
    """Whether the numbers of checkpoints, packets and acknowledgements are those of the pair's mode."""
    if pair.mode == ALONE:
        return not (pair.kept() or pair.pending or pair.held or pair.outbox)
    sealed, first = list(range(pair.committed + 1, pair.next)), pair.next - len(pair.pending)
    now = [[n for generation, n in line if generation == pair.generation] for line in (pair.packets, pair.acks)]
    return (sorted(pair.sealed) == sealed and pair.pending == list(range(first, pair.next)) == sorted(pair.held)
            and first <= pair.committed + 1 and len(pair.pending) <= MOST_PENDING
            and max(now[0], default=0) < pair.next and max(now[1], default=EMPTY) <= pair.committed
            and (pair.mode == FILLING) == (pair.committed == EMPTY) and (pair.mode != FILLING or not pair.sealed[0]))
