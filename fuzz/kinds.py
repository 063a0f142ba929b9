"""The scripts that fuzz/play plays: each kind of them is a function of this file."""
import functools
import random

from fuzz.spellings import BAD_LINES, BOOTS, COMMENTS, GREATEST, NO_HEX, NO_NUMBERS, TOO_BIG, WORDS
from fuzz.worked import NEW_PAIR, broken as broken_scripts
from oracle.evaluator import CHANGES, NUMBERS_END, Player
from oracle.pair import ALONE, STOPPED
from oracle.sender import Sender


STRIDE = 1009  # a prime that divides no count of broken scripts
PLACES = [0, 0, 0, 1, 2, 5, 63, 64, 255, 256, NUMBERS_END - 1]  # of frames that are to be lost


class Writer:
    """Writes a script line by line, and plays each with the evaluator, so as to know which packets there are."""

    LINES = "step cut send backup ack deliver admit take losein loseout show sector #".split()

    def __init__(self, rng):
        self.rng, self.lines, self.player = rng, [], Player()
        # Nodes fail in few scripts of most kinds.
        self.fails = rng.random() < 0.15
        self.next = {b"backup": 0, b"ack": 0}

    @property
    def pair(self):
        return self.player.pair

    def add(self, *lines):
        for line in lines:
            self.lines.append(line)
            self.player.play(line)

    def boot(self):
        rng = self.rng
        sectors, clients = rng.choice([1, 1, 2, 8, 200]), rng.choice([1, 1, 2, 3, 16])
        guest = rng.choice([
            b"idle", b"beacon", b"beacon", b"beacon",
            b"disk %d %02x" % (rng.choice([0, sectors - 1, sectors, rng.randrange(sectors)]), rng.randrange(256)),
            b"words " + b" ".join(rng.choices(WORDS, k=rng.randint(1, 6))), self.sender()])
        self.add(*rng.choices(COMMENTS, k=rng.choice([0, 0, 0, 1, 3])))
        self.add(b"boot %d %d %d %s" % (rng.choice([2, 2, 2, 3, 32]), sectors, clients, guest))

    def sender(self):
        rng = self.rng
        return b"words " + Sender(rng.choices(range(4), k=8), rng.choice([1, 1, 2, 5, 64]), rng.choice([0, 4, 30])).words()

    def text(self, n):
        """A number as it may be written."""
        return b"0" * self.rng.choice([0] * 30 + [1, 2, 25]) + b"%d" % n

    def count(self):
        rng = self.rng
        if self.pair.guest.sender:
            return rng.choice([1, 1, 2, 6, 10, 22, 27, 28, 50, 100, 300])
        return rng.choice([1, 1, 2, 3, 20, 21, 22, 23, 24, 100, 5000, rng.randint(1, 30), rng.randint(1, 5000)] +
                          ([100_000, 250_000] if rng.random() < 0.05 else []))

    def client(self):
        rng, clients = self.rng, self.pair.clients
        if rng.random() < 0.12:
            return rng.choice([0, clients + 1, clients + 256, 17, 2**32 + 1, NUMBERS_END - 1])
        return rng.choice([1, rng.randint(1, clients)])

    def packet(self, word):
        """The number of a packet: the next in order, one that was got before, one that wasn't, or one that there isn't."""
        rng, in_order = self.rng, self.next_packet(word)
        there = len(self.sent_on(word))
        if rng.random() < 0.6 or not there:
            return in_order
        return rng.choice([rng.randrange(there), rng.randrange(there), there - 1, max(0, there - 3), there, there + rng.randint(1, 9),
                           NUMBERS_END - 1 if rng.random() < 0.2 else 0])

    def get(self, word, k):
        """The line by which that packet is got."""
        if k < len(self.sent_on(word)):
            self.next[word] = k + 1
        return word + b" " + self.text(k)

    def sent_on(self, word):
        """The packets of the line that this word gets from, or its acknowledgements."""
        return self.pair.packets if word == b"backup" else self.pair.acks

    def next_packet(self, word):
        """The number of the next packet in order. Those of an older generation are mostly passed over."""
        sent, k = self.sent_on(word), self.next[word]
        if self.rng.random() < 0.8:
            while k < len(sent) and sent[k][0] != self.pair.generation:
                k += 1
        return k

    def frame(self):
        rng = self.rng
        length = rng.choice([1, 13, 14, 14, 15, 60, 60, 60, 600, 1513, 1514, 1515, 1516, 3000, rng.randint(14, 1514)])
        to = rng.choice([b"\x02\0\0\0\0\x01", b"\xff" * 6, b"\x02\0\0\0\x01\x01", rng.randbytes(6)])
        return (to + rng.randbytes(length))[:length]

    def line(self, word):
        pair = self.pair
        if word == b"step":
            return b"step " + self.text(self.count())
        if word in (b"backup", b"ack"):
            return self.get(word, self.packet(word))
        if word == b"deliver":
            return b"deliver " + self.text(self.client()) + b" " + self.frame().hex().encode()
        if word in (b"admit", b"take"):
            return word + b" " + self.text(self.client())
        if word in (b"losein", b"loseout"):
            return word + b" " + self.text(self.client()) + b" " + self.text(self.rng.choice(PLACES))
        if word == b"sector":
            return b"sector " + self.text(self.rng.choice([0, pair.sectors - 1, self.rng.randrange(pair.sectors)]))
        if word == b"#":
            return self.rng.choice(COMMENTS)
        return word

    def some(self, count, **weights):
        """So many lines; each word's weight is 1, or what is given."""
        words = self.LINES + CHANGES
        weight = {"losein": 0.5, "loseout": 0.5, "sector": 0.3, "#": 0.4, "show": 0.7} | weights
        for _ in range(count):
            changes = self.changes() if self.fails else dict.fromkeys(CHANGES, 0)
            self.add(self.line(self.rng.choices(words, [(changes | weight).get(word, 1) for word in words])[0].encode()))

    def changes(self):
        """Weights by which a primary that stopped rarely stays so for long, nor a node alone."""
        mode = self.pair.mode
        return {"fail primary": 0.1, "fail backup": 0.05, "golive": 1.5 if mode == STOPPED else 0.05,
                "protect": 0.8 if mode == ALONE else 0.05}

    def of_use(self):
        """Weights by which lines mostly find something to do."""
        pair = self.pair
        there = {"backup": self.next[b"backup"] < len(pair.packets), "ack": self.next[b"ack"] < len(pair.acks),
                 "take": any(pair.boxes.values()), "admit": any(pair.inboxes.values()), "send": bool(pair.pending)}
        return {word: 1.5 if something else 0.2 for word, something in there.items()}

    def round(self):
        """An epoch that goes well, but for what comes in between."""
        for word in [b"step", b"cut", b"send", b"backup", b"ack", b"take"]:
            self.add(self.line(word))
            if self.rng.random() < 0.3:
                self.some(self.rng.randint(1, 3))

    def script(self):
        end = b"" if self.rng.random() < 0.15 else b"\n"
        return b"\n".join(self.lines) + (end if self.lines else b"")


def wild(w, _):
    w.boot()
    w.some(w.rng.randint(0, 60))
    w.add(b"show")


def orderly(w, _):
    w.boot()
    for _ in range(w.rng.randint(1, 8)):
        w.round()
    w.add(b"show")


def packets(w, _):
    """Packets and acknowledgements late, again, out of order, or never."""
    w.boot()
    w.add(w.line(b"step"))
    w.some(w.rng.randint(10, 120), cut=2, send=1.5, backup=4, ack=3, deliver=0.3, admit=0.3, take=0.5)
    w.add(b"show")


def behind(w, _):
    """Up to 6 cuts in a row."""
    w.boot()
    for _ in range(w.rng.randint(1, 4)):
        for _ in range(w.rng.randint(1, 6)):
            if w.rng.random() < 0.4:
                w.some(1, cut=0)
            w.add(b"cut")
        w.add(b"show", b"send")
        w.some(w.rng.randint(0, 12), backup=6, ack=5, deliver=0.3)
    w.add(b"show")


def crowded(w, _):
    """70 deliveries in a row to one client; then some are admitted, and others come."""
    w.boot()
    rng, client = w.rng, b"%d" % w.rng.randint(1, w.pair.clients)
    for _ in range(rng.choice([63, 64, 65, 70, 70])):
        w.add(b"deliver " + client + b" " + rng.randbytes(rng.choice([14, 60, 60, 600, 1514])).hex().encode())
    w.add(b"show")
    w.some(rng.randint(5, 40), deliver=4, admit=3)
    w.add(*[b"admit " + client] * rng.choice([1, 3, 66]), b"show", b"cut", b"send", b"show")
    w.add(*[b"backup %d" % k for k in range(len(w.pair.packets))], b"show", b"ack 0", b"show")
    w.add(*[b"deliver " + client + b" " + b"5a" * 60] * rng.choice([1, 4, 70]), b"show")


def beacons(w, _):
    """The beacon's frame in an epoch that ends before its step, with it or after it, on its way through packets of all kinds."""
    rng = w.rng
    w.add(b"boot %d 1 %d beacon" % (rng.choice([2, 3, 64]), rng.choice([1, 2, 16])))
    for count in rng.choice([[21, 1, 1], [22, 1], [20, 1, 2], [1, 30], [100], [21, 21, 21]]):
        w.add(b"step %d" % count, *[b"take 1"] * rng.choice([0, 0, 1]), *[b"cut"] * rng.choice([0, 1, 1]))
        w.some(rng.randint(0, 4), step=0, cut=0.3)
    w.some(rng.randint(0, 20), backup=4, ack=3, send=2, take=2, deliver=0.5)
    w.add(b"cut")
    for _ in range(2):
        w.add(b"send", *[w.line(word) for word in [b"backup", b"backup", b"ack", b"ack"]])
        w.add(b"show", b"take 1", b"take 2", b"take 1", b"show")


def losses(w, _):
    """Frames lost in an inbox and in a box, first, in the middle and last, with what the client and the guest get of the others."""
    rng = w.rng
    w.add(b"boot 2 1 %d beacon" % rng.choice([1, 2, 16]), b"step 22", b"cut", b"send", b"backup 0")
    w.some(rng.randint(0, 3), step=0, losein=3, deliver=3)
    w.add(b"ack 0", *[b"take 1"] * rng.choice([0, 0, 1]), b"loseout 1 %d" % rng.choice([0, 0, 0, 1]), b"take 1", b"show")
    count = rng.choice([1, 3, 5, 64, 65])
    w.add(*[b"deliver 1 " + rng.randbytes(14).hex().encode() for _ in range(count)])
    for _ in range(rng.randint(1, 6)):
        w.add(b"losein 1 %d" % rng.choice([0, 0, 1, count // 2, count - 1, count, count - 2 if count > 2 else 0]))
        w.some(rng.randint(0, 3), deliver=3, admit=3, losein=3)
    w.add(b"show", *[b"admit 1"] * rng.choice([1, 3, count]), b"show", b"cut", b"send", b"losein 1 0", b"backup 1", b"show")


def full_boxes(w, _):
    """Client 1's box filled by 255, 256 or 257 frames, in a pair or where a node is alone, so that it drops none or one; then losses at
    places 64, 255 and 256 of it, what lands after that, and what the client gets."""
    rng, sender = w.rng, Sender(w.rng.choices([0, 1], k=8), 1, 0)
    count, first = rng.choice([255, 256, 257]), rng.choice([64, 100, 192])
    w.add(b"boot 2 1 %d words " % rng.choice([1, 2, 16]) + sender.words())
    if rng.random() < 0.3:
        w.add(b"fail backup", b"step %d" % sender.steps_of(count))
    else:
        w.add(b"step %d" % sender.steps_of(first), b"cut", b"step %d" % (sender.steps_of(count) - sender.steps_of(first)), b"cut", b"send",
              b"backup 0", b"backup 1", b"ack 0",
              *rng.choice([[b"ack 1"], [b"ack 1"], [b"fail backup"], [b"fail primary", b"golive"]]))
    w.add(b"show")
    for _ in range(rng.randint(1, 4)):
        w.add(b"loseout 1 %d" % rng.choice([0, 64, 64, 254, 255, 255, 256, 256]), b"step %d" % rng.choice([5, 6, 12]))
        w.some(rng.randint(0, 3), step=0, take=4)
    w.add(b"cut", b"send", w.line(b"backup"), w.line(b"ack"), b"show", *[b"take 1"] * rng.choice([1, 64, 258]), b"show")


def events(w, _):
    """60 events of all kinds; what there is after many of them is shown."""
    rng, w.fails = w.rng, True
    w.add(b"boot 2 %d %d " % (rng.choice([1, 8]), rng.choice([1, 2, 2, 3, 16])) +
          rng.choice([b"beacon", b"disk 0 ab", w.sender(), w.sender(), w.sender()]))
    for _ in range(60):
        w.some(1, **{"show": 0, "sector": 0, "#": 0} | w.of_use())
        w.some(rng.choice([0, 0, 1]), **dict.fromkeys(w.LINES + CHANGES, 0) | {"show": 1, "sector": 0.2})
    w.add(b"show")


def generations(w, _):
    """Nodes that fail and are replaced again and again: what each new pair still gets of the packets of all those before it."""
    rng = w.rng
    w.add(b"boot 2 %d %d " % (rng.choice([1, 8]), rng.choice([1, 2, 16])) +
          rng.choice([b"beacon", b"disk 0 ab", w.sender(), w.sender()]))
    for _ in range(rng.choice([1, 2, 3, 3, 5, 10, 25])):
        calm(w, rng.choice([0, 0, 2, 5, 10]), step=2, deliver=0.7)
        w.add(*rng.choice([[b"fail backup"], [b"fail primary", b"golive"], [b"fail primary", b"golive"]]))
        calm(w, rng.choice([0, 0, 1, 4]), step=2, take=2, backup=0.5, ack=0.5)
        w.add(b"protect", *rng.choices([b"show", b"protect", b"golive", b"fail primary", b"sector 0"], k=rng.choice([0, 0, 1, 3])))
        filling(w)
    w.some(rng.randint(0, 10), **dict.fromkeys(CHANGES, 0.3))
    w.add(b"show", *[b"take 1"] * rng.choice([0, 3, 260]), b"cut", b"send", b"show")


def calm(w, count, **weights):
    """So many lines by which no node changes; mostly ones that find something to do."""
    for _ in range(count):
        w.some(1, **w.of_use() | dict.fromkeys(CHANGES, 0) | weights)


def filling(w):
    """A new pair: its full checkpoint is committed, with others after it, late or never, or its backup fails before that."""
    rng = w.rng
    calm(w, rng.choice([0, 0, 1, 4]), step=2, cut=1.5, backup=0.5, ack=0.5)
    if rng.random() < 0.15:
        w.add(b"fail backup", b"show", *[b"take 1"] * rng.choice([0, 2]), b"protect")
    w.add(*[b"cut"] * rng.choice([0, 0, 1, 4]), *[b"send"] * rng.choice([1, 1, 2]))
    for word in b"backup", b"ack":
        w.add(*[w.get(word, k) for k in came(w, word)], b"show")


def came(w, word):
    """Some packets that were ever sent, and then those of this generation: some or all, in order or turned round, one of them again."""
    rng, sent = w.rng, w.sent_on(word)
    now = [k for k, (generation, _) in enumerate(sent) if generation == w.pair.generation][:rng.choice([0, 1, 9, 9, 9])]
    return rng.choices(range(len(sent)), k=rng.choice([0, 0, 1, 3]) if sent else 0) + now[::rng.choice([1, 1, 1, -1])] + now[:1]


def broken(w, turn):
    """A worked script in which a node fails before one of its events, and gets a new backup; then the rest of the script."""
    every = all_broken()
    # Neighbours are of different scripts.
    before, failure, is_filled, after = every[turn * STRIDE % len(every)]
    w.add(*before, failure, *NEW_PAIR)
    if is_filled:
        sent = len(w.pair.packets)
        w.add(b"send")
        w.add(*[b"backup %d" % k for k in range(sent, len(w.pair.packets))])
        w.add(b"ack %d" % (len(w.pair.acks) - 1))
    w.add(*after, b"show")


@functools.cache
def all_broken():
    return broken_scripts()


def failures(w, _):
    """A primary that fails with epochs open, cut, sent, committed or acknowledged, and what the backup still gets; or a failing backup."""
    rng = w.rng
    w.add(b"boot 2 1 %d " % rng.choice([1, 2, 16]) + rng.choice([b"beacon", w.sender(), w.sender()]))
    none = dict.fromkeys(CHANGES, 0)
    for _ in range(rng.choice([0, 1, 1, 2, 4])):
        w.add(b"step %d" % rng.choice([22, 27, 50, 100]), b"cut", b"send")
        w.some(rng.randint(0, 8), deliver=2, admit=3, backup=3, ack=2, take=2, **none)
    w.some(rng.randint(0, 6), deliver=2, admit=3, step=2, **none)
    w.add(b"show")
    for name in rng.choice([[b"fail primary", b"golive"], [b"fail primary", b"golive"], [b"fail backup"], [b"fail primary"]]):
        w.add(name, b"show")
        w.some(rng.randint(0, 6), backup=4, **none)
    w.some(rng.randint(0, 20), take=3)
    w.add(b"show", *[b"take 1"] * rng.choice([0, 3, 260]), *[name.encode() for name in CHANGES], b"show")


def disks(w, _):
    """A sector before, in and after the step that writes it; then one beyond the disk."""
    rng = w.rng
    sectors = rng.choice([1, 2, 8, 200, 32768])
    s = rng.choice([0, sectors - 1, rng.randrange(sectors), sectors, sectors + 7])
    w.add(b"boot %d %d 1 disk %d %02x" % (rng.choice([2, 3, 64]), sectors, s, rng.randrange(256)))
    seen = [b"sector %d" % t for t in sorted({0, max(0, s - 1), s, s + 1, sectors - 1}) if t < sectors]
    w.add(b"step %d" % rng.choice([1, 21, 22]), *seen, w.line(b"step"), *seen)
    w.some(rng.randint(0, 10))
    w.add(b"cut", b"step 23", *seen, b"show")
    if rng.random() < 0.5:
        w.add(b"sector %d" % rng.choice([sectors, sectors + 1, 2**23, 2**32, 2**55, NUMBERS_END - 1]), b"show")


def mutated(w):
    """A good line with something wrong in it."""
    rng = w.rng
    words = "step cut send backup ack deliver admit take losein loseout show sector".split() + CHANGES
    line = w.line(rng.choice(words).encode())
    fields = line.split(b" ")
    place = rng.randrange(len(line) + 1)
    odd = bytes([rng.choice([0, 9, 11, 13, 32, 43, 45, 48, 64, 127, 128, 255])])
    numbered = [fields[0], rng.choice(NO_NUMBERS + TOO_BIG)] + fields[2:]
    return rng.choice([
        b" " + line, line + b" ", line.replace(b" ", b"  "), line.replace(b" ", b"\t"), line + b"\r", line.upper(), line.capitalize(),
        b" ".join(fields[:-1]), line + b" 1", line[:place] + odd + line[place:], line[:place] + line[place + 1:], line[::-1],
        b" ".join(numbered), b" ".join(numbered), b" ".join(numbered)])


def bad(w, turn):
    """A bad line of the lists amid good ones."""
    w.boot()
    w.some(w.rng.randint(0, 12))
    wrong = BAD_LINES + [b"deliver 1 " + text for text in NO_HEX]
    names = [b"step", b"backup", b"ack", b"admit", b"take", b"sector", b"deliver", b"losein", b"loseout 1"]
    tails = {b"deliver": b" " + b"00" * 14, b"losein": b" 0"}
    for place, text in enumerate(2 * (NO_NUMBERS + TOO_BIG)):
        name = names[place % len(names)]
        wrong.append(name + b" " + text + tails.get(name, b""))
    w.add(wrong[turn % len(wrong)])
    w.add(*w.rng.choices([b"show", b"step 5", b"bad too", b"", b"# x"], k=w.rng.randint(0, 3)))


def mutants(w, _):
    """A good line changed in one place or several: mostly bad, and the evaluator knows where it is good after all."""
    w.boot()
    w.some(w.rng.randint(0, 12))
    w.add(mutated(w))
    if not w.player.status:
        w.some(w.rng.randint(0, 5))


def edges(w, _):
    """The greatest numbers, which are good, with 2^64 after them, which isn't."""
    w.boot()
    w.some(w.rng.randint(0, 20))
    names = [b"backup", b"ack", b"admit", b"take", b"deliver", b"losein", b"loseout 1", b"losein 1"]
    for name in w.rng.sample(names, k=3):
        tail = b" " + w.frame().hex().encode() if name == b"deliver" else b" 0" if name == b"losein" else b""
        w.add(name + b" " + b"0" * w.rng.choice([0, 1, 30]) + GREATEST + tail)
    w.add(b"show")
    name = w.rng.choice(names + [b"step", b"sector"])
    w.add(name + b" " + b"0" * w.rng.choice([0, 1, 30]) + w.rng.choice(TOO_BIG) + 
          {b"deliver": b" " + b"00" * 60, b"losein": b" 0"}.get(name, b""))
    w.add(b"show")


def boots(w, turn):
    """Each boot line of the list, with something after it."""
    w.add(*w.rng.choices(COMMENTS, k=w.rng.choice([0, 0, 0, 2])))
    w.add(BOOTS[turn % len(BOOTS)])
    if w.player.status:
        w.add(*w.rng.choices([b"boot 2 1 1 idle", b"show", b"", b"# x"], k=w.rng.randint(0, 3)))
    else:
        w.some(w.rng.randint(0, 15))
        w.round()
        w.add(b"sector %d" % (w.pair.sectors - 1), b"show")


def bare(w, turn):
    """No boot line, or nothing but one."""
    choice = turn % 8
    if choice in (1, 2):
        w.add(*w.rng.choices(COMMENTS, k=w.rng.randint(1, 9)))
    elif choice == 3:
        w.add(b"boot 2 1 1 " + w.rng.choice([b"idle", b"beacon"]))
    elif choice == 4:
        w.add(*[b""] * w.rng.randint(1, 4), b"boot 2 1 1 idle", *[b""] * w.rng.randint(1, 4), w.rng.choice([b"show", b"boot 2 1 1 idle"]))
    elif choice == 5:
        w.add(*w.rng.choices(COMMENTS, k=3), w.rng.choice(BAD_LINES), b"show")
    elif choice == 6:
        w.add(w.rng.choice([b"step 1", b"show", b"cut", b"send", b"take 1", b"sector 0"]), b"boot 2 1 1 idle")
    elif choice == 7:
        w.add(w.rng.randbytes(w.rng.randint(1, 40)))


# Enough of `bad` and `boots` that 1000 scripts try all their lines.
KINDS = [wild, bad, packets, boots, orderly, bad, beacons, mutants, wild, boots, crowded, bad, packets, behind, edges, disks,
         bad, beacons, losses, bad, boots, events, failures, bad, generations, broken, events, boots, failures, bad, generations,
         full_boxes, bare]


def named(name):
    """The kind of that name."""
    for kind in KINDS:
        if kind.__name__ == name:
            return kind
    raise ValueError(name)


def generate(seed, index, only=None):
    """The script of that number, of the kind that is asked for, if one is."""
    w = Writer(random.Random(f"{seed} {index}"))
    if only:
        only(w, index)
        return w.script()
    kind = KINDS[index % len(KINDS)]
    # A kind that stands in the list more than once takes its turns one after another.
    places = [place for place, other in enumerate(KINDS) if other is kind]
    kind(w, index // len(KINDS) * len(places) + places.index(index % len(KINDS)))
    return w.script()
