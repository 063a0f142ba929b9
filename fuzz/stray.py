"""Lines for one node that no lawful pair would give it: any line in any state, and checkpoints that no machine made."""
from fuzz.bag import CARD, Host, spelled
from fuzz.spellings import BAD_LINES, COMMENTS, GREATEST, NO_HEX, NO_NUMBERS, TOO_BIG
from oracle import checkpoints
from oracle.nodes import END, Node, Standby, raw_piece

BOOTS = [b"boot 2 1 1 beacon", b"boot 2 8 2 disk 3 ab", b"boot 1 1 16 idle", b"boot 2 2 1 words 0000006f"]
SHAPES = [(2, 1), (2, 8), (1, 1), (2, 2)]
GENERATIONS = [1, 1, 2, 3, END - 2, END - 1]
NUMBERS = [0, 0, 1, 2, 3, 4, 5, END - 1, END, 2**64 - 1]
WORDS = b"boot standby arrive step cut text rawtext ack alone protect piece rawpiece commit restart golive show sector".split()
# Those that mostly do something at a standby, and elsewhere.
OF_A_STANDBY = b"piece piece commit commit commit restart golive sector".split()
OF_A_PRIMARY = b"arrive step cut cut text rawtext ack ack protect protect sector".split()
BAD = (
    b"boot 2 1 1|boot 0 1 1 idle|boot 1 1 1 beacon|boot 2 1 17 idle|boot 16385 1 1 idle|boot 2 32769 1 idle|standby|standby 2 1|"
    b"standby 2 1 0|standby 2 1 4611686018427387904|standby 0 1 1|standby 2 0 1|standby 16385 1 1|standby 2 32769 1|standby 2 1 1 1|arrive|"
    b"arrive |step|step 0|step 1 1|cut 1|cut |text|text 1|text 1 0|text 1 0 0 0|text 1  0 0|text a 0 1|ack|ack 1|ack 1 1 1|ack 1 -1|"
    b"rawtext|rawtext 1 0|rawtext 1 0 0 0|rawtext 1 0 x|rawpiece|rawpiece |rawpiece 0|rawpiece x|rawpiece -1|rawpiece 1 |rawpiece  1|"
    b"rawpiece 18446744073709551616|rawpiece 00000000000000000000000001|alone 1|alones|protect 1|piece|piece |piece 0|piece AB|"
    b"piece 00 00|commit 1|commits|restart 1|golive 1|go live|show 1|sector|sector 0 0|sector 99|Show| show|show |show\r|show\0|nodes").split(b"|")


def texts_of(boot, rng):
    """Texts of a pair of such a guest: of generation 2, and of 3 after a standby that failed."""
    node, found = Node(), []
    steps = [b"step %d" % rng.randint(1, 30) for _ in range(2)]
    for line in [boot, steps[0], b"protect", steps[1], b"cut", b"step 5", b"cut", b"alone", b"protect"]:
        node.answer(line)
        if line in (b"protect", b"cut"):
            found.append(node.role.pending[-1].text)
    return found


class Stray:
    """A host, and the lines that it gets."""

    def __init__(self, rng):
        self.rng, self.host = rng, Host()
        self.hosts, self.script = [self.host], None

    def ask(self, line):
        answer = self.host.node.answer(line)
        self.host.lines.append(line)
        self.host.answers.append(answer)
        return answer

    @property
    def order(self):
        return [0] * len(self.host.lines)

    def feed(self, text):
        """A text in some pieces."""
        at = 0
        while at < len(text):
            part = text[at:at + self.rng.choice([len(text), len(text), 700, self.rng.randint(1, 600)])]
            self.ask(spelled(self.rng, part))
            at += len(part)


def wild(rng):
    """Any line in any state."""
    stray, boot = Stray(rng), rng.choice(BOOTS)
    texts, number = texts_of(boot, rng), lambda: b"%d" % rng.choice(NUMBERS)
    begins = [boot, b"standby %s %s %d" % (*boot.split(b" ")[1:3], rng.choice([1, 2, 2, 2, 3, 3, *GENERATIONS]))]

    def piece():
        wanted = stray.host.node.role.committed + 1 if isinstance(stray.host.node.role, Standby) else 0
        text = bytearray(texts[wanted] if rng.random() < 0.5 and wanted < len(texts) else rng.choice(texts))
        if rng.random() < 0.1:
            text[rng.randrange(len(text))] = rng.choice([0, 1, 2, 0x40, 0x80, 0xFF])
        return bytes(text[:rng.choice([len(text)] * 4 + [rng.randint(1, len(text))])])

    makes = {
        b"arrive": lambda: b"arrive " + (CARD + rng.randbytes(rng.choice([7, 8, 60, 1508, 1509]))).hex().encode(),
        b"step": lambda: b"step %d" % rng.choice([1, 5, 22, 30]), b"text": lambda: b"text %s %s %s" % (number(), number(), number()),
        b"rawtext": lambda: b"rawtext %s %s %s" % (number(), number(), number()), b"rawpiece": lambda: raw_piece(piece()),
        b"ack": lambda: b"ack %d %s" % (rng.choice([1, 2, 2, 2, 3, 3]), number()), b"piece": lambda: spelled(rng, piece()),
        b"sector": lambda: b"sector %s" % number(),
        b"boot": lambda: rng.choice(BOOTS), b"standby": lambda: b"standby 2 1 %d" % rng.choice(GENERATIONS)}
    stray.ask(rng.choice(begins)) if rng.random() < 0.9 else None
    for _ in range(rng.randint(5, 60)):
        useful = OF_A_STANDBY if isinstance(stray.host.node.role, Standby) else OF_A_PRIMARY
        word = rng.choice(WORDS if rng.random() < 0.3 else useful)
        stray.ask(makes[word]() if word in makes else word)
        if rng.random() < 0.2:
            stray.ask(rng.choice([rng.choice(BAD), rng.choice(BAD), rng.choice(BAD_LINES), rng.choice(COMMENTS), bad_spelling(rng)]))
    stray.ask(b"show")
    return stray


def bad_spelling(rng):
    """A line with a field that is no number, or no hex."""
    bad = rng.choice(NO_NUMBERS + TOO_BIG)
    fields = rng.choice([
        [b"step", bad], [b"step", b"0" + GREATEST + b"0"], [b"text", bad, b"0", b"9"], [b"text", b"0", bad, b"9"],
        [b"text", b"0", b"0", bad], [b"ack", bad, b"0"], [b"ack", b"1", bad], [b"sector", bad], [b"standby", b"2", b"1", bad],
        [b"arrive", rng.choice(NO_HEX)], [b"piece", rng.choice(NO_HEX)]])
    return b" ".join(fields)


def forged(rng):
    """A standby that gets checkpoints of any contents, some of them damaged, and the guest that comes of it."""
    stray, shape = Stray(rng), rng.choice(SHAPES + [(3, 5), (17, 64)])
    generation = rng.choice(GENERATIONS)
    stray.ask(b"standby %d %d %d" % (*shape, generation))
    for _ in range(rng.choice([1, 1, 2, 4])):
        standby = stray.host.node.role
        c = checkpoints.random_checkpoint(rng, *shape)
        c.generation = generation if rng.random() < 0.95 else c.generation
        c.number = standby.committed + 1 if rng.random() < 0.85 else c.number
        if c.number == 0:
            c.frames = []
            c.sector_records = {s: data for s, data in c.sector_records.items() if any(data)}
        text = bytearray(checkpoints.text(c))
        if rng.random() < 0.15:
            text[rng.randrange(len(text))] = rng.choice([0, 1, 2, 0x40, 0x80, 0xFF])
        stray.feed(bytes(text))
        stray.ask(b"commit")
        if stray.host.node.role.malformed is not None:
            stray.ask(b"piece 00")
            stray.ask(b"restart")
        stray.ask(b"sector %d" % rng.randrange(shape[1] + 1))
    stray.ask(b"show")
    for line in [b"golive", b"arrive " + (CARD + bytes(60)).hex().encode(), b"step %d" % rng.choice([1, 20, 200]), b"show", b"protect",
                 b"text 0 0 %d" % 2**63, b"step 20", b"cut", b"text 1 0 %d" % 2**63, b"alone", b"show"]:
        stray.ask(line)
    return stray
