"""`remus node` by other means than the program: what each line is answered, written from the tables of docs/NODES.md. A node owns a machine
(oracle/machine.py) or an image; checkpoints are those of oracle/checkpoints.py. Memory is never refused here."""
from dataclasses import dataclass

from oracle import checkpoints
from oracle.checkpoints import BLOCK, PAGE, SECTOR, Checkpoint, Malformed, Short, Units
from oracle.evaluator import MOST_CLIENTS, MOST_PAGES, MOST_SECTORS, NUMBERS_END, PAGE_WORDS, Bad, hex_bytes, in_range, number
from oracle.machine import Machine
from oracle.pair import ALREADY_PAIRED, BAD_FRAME, BEHIND, CUT_NEEDED, GAP, MOST_PENDING, NO_IMAGE, NOT_PAIRED, OUTBOX_ROOM, STALE, Refused

EXHAUSTED, OLD_VERSION, MALFORMED = "14 Exhausted", "15 OldVersion", "11 Malformed"
END = 2**62  # of generations and of the numbers of checkpoints and frames
PAGES_AT = 524  # where a text has the count of its page records
LONGEST_LINE = 268_435_456
LONGEST_HEAD = 32  # bytes of a line that bytes follow, without its newline
RAW_PIECE = b"rawpiece "
ALONE, FILLING, PAIRED, STANDBY, EMPTY = "alone", "filling", "paired", "standby", "empty"

SELF_LOOP = 0x6F
# What beacon and disk run, but for the device's address (at 0), the queue's number and size (at 10), and the queue that is notified.
BEACON = """100012b7 00100313 0662a823 00300393 0672a823 0262a223 0262a023 00b00393 0672a823 0702a403 0262a823 0262ac23 800013b7 0872a023
04038393 0872a823 04038393 0a72a023 0462a223 00f00393 0672a823 0462a823 0000006f"""
DISK = """100022b7 00100313 0662a823 00300393 0672a823 0262a223 0262a023 00b00393 0672a823 0702a403 0202a823 00400393 0272ac23 800013b7
0872a023 04038393 0872a823 04038393 0a72a023 0462a223 00f00393 0672a823 0402a823 0000006f"""


def words_of(text):
    return [int(word, 16) for word in text.split()]


def guest_words(fields, pages):
    """The words of a boot line's guest."""
    name, rest = fields[0], fields[1:]
    if name == b"idle" and not rest:
        return [SELF_LOOP]
    if name == b"beacon" and not rest:
        in_range(pages, 2, MOST_PAGES)
        return with_data(BEACON, {
            0x000: (0x80001100).to_bytes(8, "little") + (26).to_bytes(4, "little"), 0x042: b"\1",
            0x100: bytes(12) + bytes.fromhex("02000000010102000000000188b5")})
    if name == b"disk" and len(rest) == 2:
        in_range(pages, 2, MOST_PAGES)
        sector, byte = number(rest[0]), hex_bytes(rest[1])
        in_range(len(byte), 1, 1)
        chain = [(0x80001100, 16, 1, 1), (0x80001200, 512, 1, 2), (0x80001110, 1, 2, 0)]
        return with_data(DISK, {
            0x000: b"".join(b"".join(n.to_bytes(size, "little") for n, size in zip(entry, (8, 4, 2, 2))) for entry in chain), 0x042: b"\1",
            0x100: (1).to_bytes(8, "little") + sector.to_bytes(8, "little") + b"\xff", 0x200: 512 * byte})
    if name == b"words":
        in_range(len(rest), 1, pages * PAGE_WORDS)
        if any(len(word) != 8 for word in rest):
            raise Bad
        return [int.from_bytes(hex_bytes(word), "big") for word in rest]
    raise Bad


def with_data(code, data):
    """Words with these bytes behind them, from the second page on."""
    memory = bytearray(2 * PAGE)
    for i, word in enumerate(words_of(code)):
        memory[4 * i:4 * i + 4] = word.to_bytes(4, "little")
    for place, part in data.items():
        memory[PAGE + place:PAGE + place + len(part)] = part
    return [int.from_bytes(memory[at:at + 4], "little") for at in range(0, len(memory), 4)]


def shape_of(fields):
    return in_range(number(fields[0]), 1, MOST_PAGES), in_range(number(fields[1]), 1, MOST_SECTORS)


# Checkpoints of a machine, and a machine of a checkpoint.


def checkpoint_of(machine, generation, n):
    """The checkpoint without records and frames."""
    c = Checkpoint(len(machine.ram) // PAGE, len(machine.disk.data) // SECTOR, generation, n, machine.steps)
    c.registers, c.pc, c.csrs = machine.regs[1:], machine.pc, list(machine.csrs.values())
    c.msip, c.mtimecmp = machine.msip, machine.mtimecmp
    c.net, c.disk = device_record(machine.card), device_record(machine.disk)
    return c


def device_record(device):
    own, queues = device.numbers()
    return checkpoints.Device([checkpoints.Queue(*numbers) for numbers in queues], *own)


def put_pages(c, old, new):
    """The records of what differs."""
    for page in range(c.pages):
        at = PAGE * page
        if old[at:at + PAGE] == new[at:at + PAGE]:
            continue
        blocks = {}
        for i in range(PAGE // BLOCK):
            place = at + BLOCK * i
            if old[place:place + BLOCK] != new[place:place + BLOCK]:
                blocks[i] = xor(old[place:place + BLOCK], new[place:place + BLOCK])
        c.page_records[page] = blocks


def xor(a, b):
    return (int.from_bytes(a, "little") ^ int.from_bytes(b, "little")).to_bytes(len(a), "little")


def put_sectors(c, data, numbers):
    for s in numbers:
        c.sector_records[s] = bytes(data[SECTOR * s:SECTOR * s + SECTOR])


def applied(machine, c):
    """The machine after the checkpoint."""
    for page, blocks in c.page_records.items():
        for i, change in blocks.items():
            at = PAGE * page + BLOCK * i
            machine.ram[at:at + BLOCK] = xor(machine.ram[at:at + BLOCK], change)
    for s, data in c.sector_records.items():
        machine.disk.data[SECTOR * s:SECTOR * s + SECTOR] = data
    machine.regs, machine.pc, machine.steps = [0, *c.registers], c.pc, c.steps
    machine.csrs = dict(zip(machine.csrs, c.csrs))
    machine.msip, machine.mtimecmp = c.msip, c.mtimecmp
    for device, record in (machine.card, c.net), (machine.disk, c.disk):
        own = [record.status, record.device_features_sel, record.driver_features_sel, record.driver_features, record.queue_sel,
               record.interrupt_status]
        device.restore(own, [list(vars(queue).values()) for queue in record.queues])
    return machine


def most_bytes(c):
    """How long the text of a full checkpoint is at most: as if no block of memory were all zero."""
    page_record, sector_record = 4 + 8 + PAGE, 4 + SECTOR
    return PAGES_AT + 4 + page_record * c.pages + 4 + sector_record * len(c.sector_records) + 4


@dataclass
class Pending:
    number: int
    text: bytes
    frames: list


def with_frames(answer, frames):
    return "\n".join([f"{answer} frames {len(frames)}", *[f"frame {frame.hex()}" for frame in frames]])


class Primary:
    def __init__(self, machine, generation):
        self.machine, self.generation, self.mode = machine, generation, ALONE
        machine.ram.written.clear()
        self.original, self.next, self.pending = None, 1, []  # memory at the last cut; the next number; those not acknowledged

    def need_standby(self):
        if self.mode == ALONE:
            raise Refused(NOT_PAIRED)

    def arrive(self, frame):
        if not 14 <= len(frame) <= 1514:
            raise Refused(BAD_FRAME)
        self.machine.card.arrive(frame, self.machine.ram)
        return "arrived"

    def step(self, count):
        machine = self.machine
        for _ in range(count):
            if len(machine.sent) > OUTBOX_ROOM:
                if self.mode == ALONE:
                    break
                raise Refused(CUT_NEEDED)
            machine.step()
        frames = self.taken() if self.mode == ALONE else []
        return with_frames(f"steps {machine.steps} outbox {len(machine.sent)}", frames)

    def taken(self):
        """The frames that the guest has sent since they were taken last."""
        frames, self.machine.sent = self.machine.sent, []
        return frames

    def cut(self):
        self.need_standby()
        if len(self.pending) == MOST_PENDING:
            raise Refused(BEHIND)
        if self.next == END:
            raise Refused(EXHAUSTED)
        machine, c = self.machine, checkpoint_of(self.machine, self.generation, self.next)
        put_pages(c, self.original, machine.ram)
        put_sectors(c, machine.disk.data, machine.disk.written)
        c.frames = self.taken()
        self.hold(c)
        return f"cut {self.generation} {c.number} {len(self.pending[-1].text)}"

    def hold(self, c):
        """The checkpoint is pending, and the next epoch begins."""
        self.original, self.machine.disk.written = bytes(self.machine.ram), set()
        self.machine.ram.written.clear()
        self.pending.append(Pending(c.number, checkpoints.text(c), c.frames))
        self.next = c.number + 1

    def part(self, n: int, start: int, count: int) -> bytes:
        self.need_standby()
        found = [pending.text for pending in self.pending if pending.number == n]
        if not found:
            raise Refused(GAP)
        return found[0][start:start + count]

    def text(self, n: int, start: int, count: int) -> str:
        return f"text {self.part(n, start, count).hex()}"

    def rawtext(self, n: int, start: int, count: int) -> str:
        part = self.part(n, start, count)
        return f"rawtext {len(part)}\n{part.decode('latin-1')}"

    def ack(self, generation, n):
        self.need_standby()
        if generation != self.generation:
            raise Refused(STALE)
        if n >= self.next:
            raise Refused(GAP)
        frames = [frame for pending in self.pending if pending.number <= n for frame in pending.frames]
        self.pending = [pending for pending in self.pending if pending.number > n]
        self.mode = PAIRED
        return with_frames(f"acked {generation} {n}", frames)

    def alone(self):
        self.need_standby()
        frames = [frame for pending in self.pending for frame in pending.frames] + self.taken()
        self.mode, self.pending = ALONE, []
        return with_frames(f"alone {self.generation}", frames)

    def protect(self):
        if self.mode != ALONE:
            raise Refused(ALREADY_PAIRED)
        if self.generation + 1 == END:
            raise Refused(EXHAUSTED)
        self.generation, self.mode = self.generation + 1, FILLING
        machine, c = self.machine, checkpoint_of(self.machine, self.generation, 0)
        put_pages(c, bytes(len(machine.ram)), machine.ram)
        data = machine.disk.data
        put_sectors(c, data, [s for s in range(c.sectors) if any(data[SECTOR * s:SECTOR * s + SECTOR])])
        self.hold(c)
        return f"protecting {self.generation} {most_bytes(c)}"


class Standby:
    def __init__(self, shape, generation):
        self.shape, self.generation = shape, generation
        self.machine, self.committed = None, -1  # the image, and the number of its last commit
        self.restart()

    def restart(self):
        self.came, self.whole, self.malformed = b"", None, None
        return "restarted"

    def piece(self, data):
        if self.malformed is not None:
            raise Refused(f"{MALFORMED} {self.malformed}")
        if self.whole:
            return "taken 0"
        before, self.came = len(self.came), self.came + data
        units = Units(self.came)
        try:
            found = checkpoints.read_one(units, *self.shape)
        except Short:
            return f"taken {len(data)}"
        except Malformed as malformed:
            self.malformed = malformed.args[0]
            raise Refused(f"{MALFORMED} {self.malformed}")
        self.whole, self.came = found, self.came[:units.at]
        taken = units.at - before
        return f"whole {found.generation} {found.number}" if taken == len(data) else f"taken {taken}"

    def commit(self):
        c = self.whole
        if not c:
            raise Refused(NO_IMAGE)
        self.restart()
        if c.generation != self.generation:
            raise Refused(STALE)
        if c.number > self.committed + 1:
            raise Refused(GAP)
        if c.number <= self.committed:
            return f"again {self.generation} {self.committed}"
        if c.number and c.version == 1:
            raise Refused(OLD_VERSION)
        self.machine = applied(self.machine or Machine(*self.shape), c)
        self.committed = c.number
        return f"committed {self.generation} {self.committed}"


# The lines of either kind of node, with how their fields are read.
NONE = ()
PRIMARY_LINES = {b"arrive": (hex_bytes,), b"step": (lambda text: in_range(number(text), 1, NUMBERS_END),), b"cut": NONE,
                 b"text": (number,) * 3, b"rawtext": (number,) * 3, b"ack": (number,) * 2, b"alone": NONE, b"protect": NONE}
STANDBY_LINES = {b"piece": (hex_bytes,), b"commit": NONE, b"restart": NONE}


def read(kinds, fields):
    if len(kinds) != len(fields):
        raise Bad
    return [kind(text) for kind, text in zip(kinds, fields)]


def following(line: bytes) -> int:
    """How many bytes follow a line, behind its newline."""
    if len(line) > LONGEST_HEAD or not line.startswith(RAW_PIECE):
        return 0
    try:
        return number(line[len(RAW_PIECE):])
    except Bad:
        return 0


def lines_of(data: bytes) -> list[bytes]:
    """The lines of an input, each with the bytes that follow it. The last one is open, and empty where the one before it ends the input."""
    found, at = [], 0
    while (end := data.find(b"\n", at)) >= 0:
        count = following(data[at:end])
        stop = end + 1 + count if count else end
        if stop > len(data):
            break
        found.append(data[at:stop])
        at = stop if count else end + 1
    return [*found, data[at:]]


def raw_piece(data: bytes) -> bytes:
    """The line of a piece, with its bytes."""
    return RAW_PIECE + b"%d\n%b" % (len(data), data)


def text_bytes(answer: str) -> bytes:
    """What a text's answer spells."""
    word, _, rest = answer.partition(" ")
    return bytes.fromhex(rest) if word == "text" else rest.partition("\n")[2].encode("latin-1")


def printed(answers: list[str | None]) -> bytes:
    """What a process prints that answers so."""
    return "".join(f"{answer}\n" for answer in answers if answer is not None).encode("latin-1")


class Node:
    """A node, as its process plays it."""

    def __init__(self):
        self.role = None  # a Primary, a Standby, or nothing yet

    def answer(self, line):
        """What a line, with the bytes that follow it, prints, each character a byte, without its last newline; None: nothing."""
        if not line or (line.startswith(b"#") and len(line) <= LONGEST_LINE):
            return None
        try:
            if len(line) > LONGEST_LINE:
                raise Bad
            head, newline, data = line.partition(b"\n")
            if newline or head.startswith(RAW_PIECE):
                return self.rawpiece(head, data)
            return self.answered(*line.split(b" "))
        except Bad:
            return "bad"
        except Refused as refusal:
            return f"refused {refusal}"

    def rawpiece(self, head: bytes, data: bytes) -> str:
        if not data or following(head) != len(data):
            raise Bad
        return self.of_kind(Standby, ALREADY_PAIRED).piece(data)

    def answered(self, word, *fields):
        if word in PRIMARY_LINES:
            values = read(PRIMARY_LINES[word], fields)
            return getattr(self.of_kind(Primary, NOT_PAIRED), word.decode())(*values)
        if word in STANDBY_LINES:
            values = read(STANDBY_LINES[word], fields)
            return getattr(self.of_kind(Standby, ALREADY_PAIRED), word.decode())(*values)
        if word == b"boot":
            return self.boot(fields)
        if word == b"standby" and len(fields) == 3:
            return self.standby(fields)
        if word == b"golive" and not fields:
            return self.golive()
        if word == b"show" and not fields:
            return self.show()
        if word == b"sector" and len(fields) == 1:
            return self.sector(number(fields[0]))
        raise Bad

    def of_kind(self, kind, refusal):
        if self.role is None:
            raise Refused(NO_IMAGE)
        if not isinstance(self.role, kind):
            raise Refused(refusal)
        return self.role

    def need_nothing(self):
        if self.role:
            raise Refused(ALREADY_PAIRED)

    def boot(self, fields):
        if len(fields) < 4:
            raise Bad
        pages, sectors = shape_of(fields)
        in_range(number(fields[2]), 1, MOST_CLIENTS)
        words = guest_words(fields[3:], pages)
        self.need_nothing()
        self.role = Primary(Machine(pages, sectors, words), 1)
        return "booted"

    def standby(self, fields):
        shape, generation = shape_of(fields), in_range(number(fields[2]), 1, END - 1)
        self.need_nothing()
        self.role = Standby(shape, generation)
        return f"waiting {generation}"

    def golive(self):
        standby = self.of_kind(Standby, ALREADY_PAIRED)
        if not standby.machine:
            raise Refused(NO_IMAGE)
        if standby.generation + 1 == END:
            raise Refused(EXHAUSTED)
        self.role = Primary(standby.machine, standby.generation + 1)
        return f"live {self.role.generation} steps {self.role.machine.steps}"

    def machine(self):
        """The machine that an operator sees, if there is one."""
        return self.role.machine if self.role else None

    def show(self):
        machine, node = self.machine(), self.role
        mode = EMPTY if not machine else STANDBY if isinstance(node, Standby) else node.mode
        pending = len(node.pending) if isinstance(node, Primary) else 0
        steps = machine.steps if machine else 0
        written = len(machine.ram.written) if isinstance(node, Primary) else 0
        return f"mode {mode} generation {node.generation if node else 0} pending {pending} steps {steps} written {written}"

    def sector(self, s):
        machine = self.machine()
        if not machine or SECTOR * s >= len(machine.disk.data):
            raise Bad
        return f"sector {s} {machine.disk.data[SECTOR * s:SECTOR * s + SECTOR].hex()}"
