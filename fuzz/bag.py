"""Runs of two nodes under a bag of messages: texts and acknowledgements that are lost, doubled, late, broken off in mid-text, or of an
older generation, while hosts stop and new standbys come. Each line's answer is that of oracle/nodes.py, which the generator plays as it
writes. Beside the lines of each host stands what the pair of docs/PROTOCOL.md does meanwhile, as a script for `remus sim`."""
import random
from dataclasses import dataclass, field

from fuzz.spellings import COMMENTS
from oracle import mirror, strider
from oracle.history import BOX_FRAMES, targets
from oracle.nodes import ALONE, FILLING, MOST_PENDING, PAGES_AT, Node, printed, raw_piece, text_bytes
from oracle.sender import Sender

OF_A_PRIMARY = [b"cut", b"step 1", b"alone", b"protect", b"ack 2 0", b"text 0 0 9", b"rawtext 0 0 9", b"arrive " + b"5a" * 14, b"arrive 5a"]
OF_A_STANDBY = [b"piece 52", raw_piece(b"R\n"), b"commit", b"restart", b"golive"]
OF_NEITHER = [b"boot 2 1 1 idle", b"standby 2 1 1", b"standby 2 1 9"]
FIRST_STEPS = {mirror.PAGES: 60, strider.PAGES: 250}  # by the guest's pages: those in which it gets ready, or goes all over its memory
CLIENT_FRONT, CARD = bytes.fromhex("0200000001"), bytes.fromhex("020000000001")


def spelled(rng: random.Random, data: bytes) -> bytes:
    """The line of a piece, by digits or by its bytes."""
    return raw_piece(data) if rng.random() < 0.5 else b"piece " + data.hex().encode()


@dataclass
class Text:
    """A checkpoint's text on its way. It may have been read in part only."""
    generation: int
    number: int
    data: bytes
    is_all: bool


@dataclass
class Host:
    """A process: its node, its lines, and what each was answered."""
    node: Node = field(default_factory=Node)
    lines: list = field(default_factory=list)
    answers: list = field(default_factory=list)
    reading: Text = None  # what a standby gets, and how much of it has come
    came: int = 0

    def printed(self):
        return printed(self.answers)


class Script:
    """What the pair does, as lines of `remus sim` with their answers. Clients take each frame as soon as it lands."""

    def __init__(self, boot, clients):
        self.clients, self.delivered, self.packets, self.sent, self.acks, self.lost = clients, 0, {}, 0, 0, 0
        self.lines = [(boot, "booted"), (b"fail backup", "alone 1 landed 0")]

    def add(self, line, answer):
        self.lines.append((line, answer))

    def let_out(self, line, answer, frames):
        """A line by which these frames land; `answer` has a place for how many times they do."""
        boxes = {c: [frame for frame in frames if c in targets(frame, self.clients)][:BOX_FRAMES] for c in range(1, self.clients + 1)}
        landed = sum(map(len, boxes.values()))
        self.add(line, answer.format(landed))
        for c, box in boxes.items():
            for frame in box:
                self.add(b"take %d" % c, f"frame {frame.hex()}")
        return landed

    def steps(self, made, steps, frames):
        if made:
            self.let_out(b"step %d" % made, f"steps {steps}", frames)

    def arrive(self, frame):
        self.delivered += 1
        self.add(b"deliver 1 " + frame.hex().encode(), f"delivered {self.delivered}")
        self.add(b"admit 1", f"admitted {self.delivered}")

    def send(self, generation, pending):
        """One packet for each pending checkpoint."""
        self.add(b"send", f"sent {len(pending)}")
        for number in pending:
            self.packets[generation, number] = self.sent
            self.sent += 1

    def get(self, text, answer):
        """The backup gets that text. Where it answers, that is an acknowledgement: its place among all of them."""
        self.add(b"backup %d" % self.packets[text.generation, text.number], answer)
        if answer.startswith("refused"):
            return None
        self.acks += 1
        return self.acks - 1


class Run:
    """A run as it is written: who is primary and who is standby, and what is on its way."""

    def __init__(self, rng):
        self.rng, self.hosts, self.order = rng, [], []  # the order: which host got its next line
        self.primary = self.standby = None
        self.is_deaf = False  # the standby has stopped, and the primary doesn't know
        self.texts, self.acks, self.is_over = [], [], False
        self.boot()

    # Lines and their answers.

    def host(self):
        self.hosts.append(Host())
        return self.hosts[-1]

    def ask(self, host, line):
        answer = host.node.answer(line)
        host.lines.append(line)
        host.answers.append(answer)
        self.order.append(self.hosts.index(host))
        return answer

    def number(self, n):
        """A number as it may be written."""
        return b"0" * self.rng.choice([0] * 30 + [1, 2, 25]) + b"%d" % n

    def boot(self):
        rng = self.rng
        self.sectors, self.clients = rng.choice([1, 1, 2, 8]), rng.choice([1, 2, 2, 3, 16])
        sender = Sender(rng.choices(range(4), k=8), rng.choice([1, 1, 2, 5, 64]), rng.choice([0, 4, 30]))
        self.pages, guest = rng.choice([
            (2, b"beacon"), (2, b"idle"), (2, b"disk %d %02x" % (rng.randrange(self.sectors + 1), rng.randrange(256))),
            (strider.PAGES, b"words " + strider.words(rng.choice(strider.STRIDES))),
            *[(rng.choice([1, 2]), b"words " + sender.words())] * 3, *[(mirror.PAGES, b"words " + mirror.words())] * 3])
        self.is_mirror = self.pages == mirror.PAGES
        line = b"boot %d %d %d %s" % (self.pages, self.sectors, self.clients, guest)
        self.primary, self.script = self.host(), Script(line, self.clients)
        self.strew(self.primary)
        self.ask(self.primary, line)
        if self.pages in FIRST_STEPS and rng.random() < 0.9:
            self.step(FIRST_STEPS[self.pages])

    def machine(self):
        return self.primary.node.role.machine

    def mode(self):
        return self.primary.node.role.mode

    # What a primary does.

    def step(self, count):
        before = self.machine().steps
        answer = self.ask(self.primary, b"step " + self.number(count))
        frames = [bytes.fromhex(line[6:]) for line in answer.split("\n")[1:]]
        steps = self.machine().steps
        self.script.steps(steps - before, steps, frames)
        if answer.startswith("refused"):
            self.script.add(b"step 1", answer)

    def arrive(self):
        rng = self.rng
        to = rng.choice([CLIENT_FRONT + bytes([rng.randint(1, self.clients)]), CLIENT_FRONT + b"\1", b"\xff" * 6, CARD, rng.randbytes(6)])
        frame = (to + rng.randbytes(rng.choice([8, 54, rng.randint(8, 120), rng.choice([0, 7, 1508, 1509])])))
        if self.ask(self.primary, b"arrive " + frame.hex().encode()) == "arrived":
            self.script.arrive(frame)

    def cut(self):
        answer = self.ask(self.primary, b"cut")
        self.script.add(b"cut", " ".join(answer.split(" ")[:3]))
        if answer.startswith("cut"):
            self.script.send(self.primary.node.role.generation, [pending.number for pending in self.primary.node.role.pending])

    def read(self):
        """A text is read from the primary, in some parts, and mostly whole; or there is none of that number."""
        rng, primary = self.rng, self.primary.node.role
        if not primary.pending or rng.random() < 0.03:
            self.ask(self.primary, b"text %d 0 5" % rng.choice([0, 1, primary.next, 2**64 - 1]))
            return
        pending = rng.choice(primary.pending)
        data, parts, length = b"", rng.choice([1, 1, 1, 2, 5]), len(pending.text)
        for part in range(parts):
            count = length // parts + 1 if rng.random() < 0.8 else rng.choice([length, 1000, 2**64 - 1])
            word = rng.choice([b"text", b"rawtext"])
            answer = self.ask(self.primary, b"%s %d %s %s" % (word, pending.number, self.number(len(data)), self.number(count)))
            data += text_bytes(answer)
        self.texts.append(Text(primary.generation, pending.number, data, len(data) == length))

    def look(self):
        """The primary looks at more of its guest's memory for the full checkpoint. It is asked for none of that text, or for bytes in front
        of the pages' count, or for one behind those."""
        begin, count = self.rng.choice([(0, 0), (0, 0), (0, 0), (0, PAGES_AT), (PAGES_AT - 3, 3), (PAGES_AT - 3, 4), (PAGES_AT + 1, 0)])
        self.ask(self.primary, b"text 0 %d %d" % (begin, count))

    def acknowledge(self):
        """The primary gets an acknowledgement, which is mostly a new one and may come again."""
        rng = self.rng
        place = rng.choice([-1, -1, -1, rng.randrange(len(self.acks))])
        generation, number, sim = self.acks[place]
        answer = self.ask(self.primary, b"ack %s %s" % (self.number(generation), self.number(number)))
        frames = [bytes.fromhex(line[6:]) for line in answer.split("\n")[1:]]
        wanted = f"acked {generation} {number} landed {{}}" if answer.startswith("acked") else answer
        self.script.let_out(b"ack %d" % sim, wanted, frames)

    def alone(self):
        """The primary hears that its standby has stopped."""
        answer = self.ask(self.primary, b"alone")
        frames = [bytes.fromhex(line[6:]) for line in answer.split("\n")[1:]]
        self.script.let_out(b"fail backup", f"{' '.join(answer.split(' ')[:2])} landed {{}}", frames)
        self.is_deaf = False

    def protect(self):
        answer = self.ask(self.primary, b"protect")
        self.script.add(b"protect", " ".join(answer.split(" ")[:2]))
        self.script.send(self.primary.node.role.generation, [0])

    # What a standby does.

    def stand_by(self):
        self.standby = self.host()
        self.strew(self.standby)
        self.ask(self.standby, b"standby %d %d %s" % (self.pages, self.sectors, self.number(self.primary.node.role.generation)))

    def begin(self):
        """The standby gets a text: the one that it needs, where there is, or any that ever was on its way."""
        standby, wanted = self.standby.node.role, []
        if self.rng.random() < 0.7:
            wanted = [text for text in self.texts if (text.generation, text.number) == (standby.generation, standby.committed + 1)]
        self.standby.reading, self.standby.came = self.rng.choice(wanted or self.texts), 0

    def feed(self):
        """The next bytes of a text. It may break off, and then the standby is told so."""
        rng, host, text = self.rng, self.standby, self.standby.reading
        left = text.data[host.came:]
        if not left or rng.random() < 0.04:
            host.reading = None
            self.ask(host, b"restart")
            return
        part = left[:rng.choice([len(left), len(left), rng.randint(1, len(left)), min(len(left), 3)])]
        more = rng.choice(self.texts).data[:rng.randint(1, 600)] if len(part) == len(left) and text.is_all and rng.random() < 0.1 else b""
        self.ask(host, spelled(self.rng, part + more))
        host.came += len(part)
        if host.node.role.whole:
            if rng.random() < 0.1:
                self.ask(host, rng.choice([b"piece 00", b"show"]))
            host.reading = None
            self.commit(text)

    def commit(self, text):
        if self.rng.random() < 0.03:
            self.ask(self.standby, b"restart")
            return
        answer = self.ask(self.standby, b"commit")
        sim = self.script.get(text, answer)
        if sim is not None:
            self.acks.append((*map(int, answer.split(" ")[1:]), sim))

    def go_live(self):
        """The standby goes on, or there is no guest any more."""
        dead, standby = self.primary.node.role, self.standby.node.role
        answer = self.ask(self.standby, b"golive")
        if answer.startswith("refused"):
            self.is_over = True
            return
        lost = [frame for pending in dead.pending if pending.number <= standby.committed for frame in pending.frames]
        self.script.add(b"fail primary", "stopped primary")
        self.script.lost += self.script.let_out(b"golive", answer, lost)
        self.primary, self.standby = self.standby, None

    # What an operator does, and all the rest.

    def strew(self, host):
        """Lines that change nothing: comments, bad lines, those of the other kind of node, and what shows a node."""
        rng, node = self.rng, host.node.role
        others = OF_A_STANDBY if host is self.primary else OF_A_PRIMARY
        for _ in range(rng.choice([0, 0, 1, 2])):
            lines = [b"show", b"show", b"sector %d" % rng.randint(0, self.sectors), rng.choice(COMMENTS), b"steps", rng.choice(others)]
            self.ask(host, rng.choice(lines + OF_NEITHER if node else lines))

    def acts(self):
        """What may come next, by weight."""
        rng, acts = self.rng, {}
        is_lone = self.mode() == ALONE
        acts[self.arrive] = 2 if self.is_mirror else 0.3
        acts[lambda: self.step(rng.choice([1, 2, 6, 10, 22, 27, 28, 50, 100, rng.choice([1, 300])]))] = 2
        acts[lambda: self.strew(self.primary)] = 0.5
        if is_lone:
            acts[self.protect] = 1
        else:
            pending = len(self.primary.node.role.pending)
            acts[self.cut], acts[self.read] = 2 if pending < MOST_PENDING else 0.2, 2.5 if pending else 0.1
            acts[self.look] = 2 if self.mode() == FILLING else 0.05
            acts[self.alone if self.is_deaf else self.stop_standby] = 1 if self.is_deaf else 0.12
            if not self.standby and not self.is_deaf:
                acts[self.stand_by] = 4
        if self.acks:
            acts[self.acknowledge] = 2 if not is_lone else 0.1
        if self.standby:
            acts |= self.standby_acts()
            acts[self.stop_primary] = 0.15
        return acts

    def standby_acts(self):
        acts = {lambda: self.strew(self.standby): 0.5}
        if self.standby.reading:
            acts[self.feed] = 5
        elif self.texts:
            acts[self.begin] = 4
        return acts

    def stop_standby(self):
        self.standby, self.is_deaf = None, True

    def stop_primary(self):
        """It stops for good. What was on its way to the standby may come still; then the standby goes live."""
        for _ in range(self.rng.choice([0, 0, 3, 12])):
            self.pick(self.standby_acts())
        self.go_live()

    def pick(self, acts):
        self.rng.choices(list(acts), list(acts.values()))[0]()

    def write(self, count):
        for _ in range(count):
            if self.is_over:
                return
            self.pick(self.acts())
        self.ask(self.primary, b"show")
        sector = b"sector %d" % self.rng.randrange(self.sectors)
        self.script.add(sector, self.ask(self.primary, sector))
