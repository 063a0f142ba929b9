"""Plays both hosts of a pair, and the link between them, over `remus live`: each line is one of a script of `sim`, and has its answer at
once. All times are the caller's, in seconds."""
import heapq
import subprocess
import sys

PAIRED, FILLING, ALONE, STOPPED = "paired", "filling", "alone", "stopped"
MOST_PENDING = 4  # checkpoints, as the pair allows
# Where a primary may stop in its epoch.
PLACES = ("in mid-epoch", "after a cut that was not sent", "after a send that was not committed",
          "after a commit that was not acknowledged")
MID_EPOCH, NOT_SENT, NOT_COMMITTED, NOT_ACKNOWLEDGED = range(4)


class Program:
    """`remus live`, and the record of what it was told and what it answered."""

    def __init__(self, command, record=None):
        try:
            self.files = [open(name, "wb") for name in (record, f"{record}.answers")] if record else []
        except OSError as error:
            sys.exit(f"{error.filename} can't be written: {error.strerror}")
        try:
            # In a session of its own, so that Ctrl-C ends it by the end of its input, with each line answered.
            self.process = subprocess.Popen([command, "live"], stdin=subprocess.PIPE, stdout=subprocess.PIPE, start_new_session=True)
        except OSError as error:
            sys.exit(f"{command} can't be started: {error.strerror}; name the program by --program")
        self.is_booted = False

    def say(self, lines):
        """The answers to these lines, of which each prints one. Together they, or their answers, fit into a pipe."""
        told = "".join(f"{line}\n" for line in lines).encode()
        try:
            self.process.stdin.write(told)
            self.process.stdin.flush()
        except BrokenPipeError:
            pass
        came = [self.process.stdout.readline() for _ in lines]
        if not came[-1].endswith(b"\n"):
            by = "play the record by `remus sim`" if self.files else "try `remus live` by hand"
            sys.exit(f"the program ended, status {self.process.wait()}: {by}")
        if b"refused 12 NoMemory\n" in came and self.is_booted:
            sys.exit("there is no memory left: the history keeps every frame, so end other programs, or begin anew")
        self.is_booted = True
        for file, text in zip(self.files, (told, b"".join(came))):
            file.write(text)
        return [answer.decode().rstrip("\n") for answer in came]

    def close(self):
        """Ends the program by the end of its input."""
        for pipe in (self.process.stdin, self.process.stdout):
            try:
                pipe.close()
            except BrokenPipeError:
                pass
        self.process.wait()
        for file in self.files:
            file.close()


class Hosts:
    """Two hosts, of which one may be missing. `put` gets each frame that a client takes, with the client's number."""

    def __init__(self, program, boot, clients, put, link=0.0, lose_in=0, lose_out=0, is_gated=True):
        self.say, self.clients, self.put, self.link, self.lose_in, self.lose_out = program.say, clients, put, link, lose_in, lose_out
        self.is_gated = is_gated  # else the program's gate lets frames go at once, and clients take them as they come
        self.mode, self.generation, self.steps = PAIRED, 1, 0
        self.live, self.backup, self.last = 1, 2, 2  # the hosts by number, and the last number
        self.next, self.acked = 1, 0  # checkpoints: the next number, and the last one that was acknowledged
        self.packets, self.acks = 0, 0  # how many were sent on either line
        self.way = []  # what is on the link: when it arrives, the event, and its packet's number
        self.waiting = dict.fromkeys(clients, 0)  # frames in inboxes
        self.taken_in = [0]  # frames, by the epochs that aren't committed, the running one last
        self.is_full = False  # the outbox: the guest goes on after the next cut
        self.came, self.went, self.let_out, self.dropped, self.lost, self.epochs = 0, 0, 0, 0, 0, 0
        self.held = 0  # frames, until the last acknowledgement
        [answer] = self.say([boot])
        if answer != "booted":
            sys.exit(why_not_booted(boot, answer))

    # The guest and its clients.

    def step(self, counts):
        """The live guest makes so many steps, count by count, or fewer where its outbox is full."""
        answers = self.say([f"step {count}" for count in counts])
        self.is_full = answers[-1].startswith("refused")
        self.steps = self.shown("steps") if self.is_full else int(answers[-1].split()[1])
        if self.mode == ALONE or not self.is_gated:
            self.collect()

    def shown(self, what):
        """A number of the line that `show` prints."""
        fields = self.say(["show"])[0].split()
        return int(fields[fields.index(what) + 1])

    def deliver(self, frames):
        """Clients deliver frames: pairs of a client and a frame. The line loses each `lose_in`th."""
        answers = self.say([f"deliver {client} {frame.hex()}" for client, frame in frames]) if frames else []
        for (client, _), answer in zip(frames, answers):
            if not answer.startswith("delivered"):
                self.dropped += 1
                continue
            self.came, self.waiting[client] = self.came + 1, self.waiting[client] + 1
            if self.lose_in and self.came % self.lose_in == 0:
                self.waiting[client] -= 1
                self.dropped += 1
                self.say([f"losein {client} {self.waiting[client]}"])
        self.admit()

    def admit(self):
        """The live host's card gets all frames that wait."""
        lines = [f"admit {client}" for client, count in self.waiting.items() for _ in range(count)]
        if lines and self.mode != STOPPED:
            self.say(lines)
            self.taken_in[-1] += len(lines)
            self.waiting = dict.fromkeys(self.waiting, 0)

    def collect(self, landed=1):
        """Clients take all that lies in their boxes, so many frames at a time. The line loses each `lose_out`th."""
        for client in self.clients:
            is_empty = False
            while not is_empty:
                words = ["loseout {} 0" if self.lose_out and (self.went + 1 + i) % self.lose_out == 0 else "take {}" for i in range(landed)]
                answers = self.say([word.format(client) for word in words])
                is_empty = answers[-1] in ("none", "empty")
                self.went += sum(answer not in ("none", "empty") for answer in answers)
                self.dropped += answers.count("dropped")
                for answer in answers:
                    if answer.startswith("frame"):
                        self.let_out += 1
                        self.put(client, bytes.fromhex(answer[6:]))

    # Epochs.

    @property
    def pending(self):
        return self.next - 1 - self.acked

    @property
    def has_backup(self):
        """Whether there is a backup that could go on."""
        return self.mode == PAIRED

    def can_cut(self):
        return self.mode in (PAIRED, FILLING) and self.pending < MOST_PENDING

    def cut(self, now, stops=None):
        """The epoch ends, and its checkpoint goes to the backup. The primary stops at a place thereafter, if one is given."""
        self.say(["cut"] if stops == NOT_SENT else ["cut", "send"])
        self.next, self.epochs, self.is_full = self.next + 1, self.epochs + 1, False
        self.taken_in.append(0)
        if stops != NOT_SENT:
            self.send(now)
        if stops == NOT_COMMITTED:
            # It is lost with the host.
            self.way = [one for one in self.way if one[2] != self.packets - 1 or one[1] != "backup"]
            heapq.heapify(self.way)
        if stops == NOT_ACKNOWLEDGED:
            self.way = [one for one in self.way if one[1] == "backup"]
            for _, _, packet in sorted(self.way):
                self.arrive_at_backup(now, packet)
            self.way = []
        if stops is not None:
            self.fail_primary()
        self.arrive(now)

    def send(self, now):
        """What was sent is on its way: a packet for each pending checkpoint, of which the last is the only new one."""
        self.packets += self.pending
        heapq.heappush(self.way, (now + self.link / 2, "backup", self.packets - 1))

    def arrive(self, now):
        """What was due on the link until now arrives."""
        while self.way and self.way[0][0] <= now:
            when, event, packet = heapq.heappop(self.way)
            if event == "backup":
                self.arrive_at_backup(when, packet)
            elif self.mode != STOPPED:
                self.arrive_at_primary(packet)

    def arrive_at_backup(self, when, packet):
        [answer] = self.say([f"backup {packet}"])
        if answer.startswith("committed"):
            del self.taken_in[0]
        self.acks += 1
        if self.mode == FILLING:
            self.mode = PAIRED
        heapq.heappush(self.way, (when + self.link / 2, "ack", self.acks - 1))

    def arrive_at_primary(self, packet):
        fields = self.say([f"ack {packet}"])[0].split()
        self.acked, self.held = int(fields[2]), int(fields[4])
        if self.held:
            self.collect(self.held)

    # Failures.

    def fail_primary(self):
        self.say(["fail primary"])
        self.mode = STOPPED

    def go_live(self):
        """The backup goes on in the stopped primary's place. Lost is what the epochs that it hadn't committed had taken in; what the
        others sent, and wasn't let out before, lands."""
        _, self.generation, _, self.steps = map(int_or_word, self.say(["golive"])[0].split())
        self.lost += sum(self.taken_in)
        self.live, self.backup = self.backup, None
        self.be_alone()
        self.collect()
        self.admit()

    def fail_backup(self):
        landed = int(self.say(["fail backup"])[0].split()[3])
        self.backup = None
        self.be_alone()
        if landed:
            self.collect(landed)

    def be_alone(self):
        self.mode, self.way, self.is_full = ALONE, [], False
        self.acked, self.taken_in = self.next - 1, [0]

    def protect(self, now):
        """A new backup comes, and the full checkpoint is on its way to it."""
        answer, _ = self.say(["protect", "send"])
        self.mode, self.generation = FILLING, int(answer.split()[1])
        self.last += 1
        self.backup = self.last
        self.next, self.acked = 1, -1
        self.taken_in = [0, 0]  # the full checkpoint ends an epoch without frames
        self.send(now)
        self.arrive(now)


def int_or_word(text):
    return int(text) if text.isdigit() else text


def why_not_booted(boot, answer):
    if answer.startswith("refused"):
        return f"there is no memory for this guest ({answer}): give its boot line fewer pages or sectors"
    pages, words = boot.split(" ")[1], len(boot.split(" ")[5:])
    return (f"the boot line is bad: {words} words for {pages} pages; at most 1024 words fit into a page, of which there are 1 to 16384, "
            "with 1 to 32768 sectors and 1 to 16 clients")
