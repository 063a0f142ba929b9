"""Guests that change their own code, and frames that change it for them.

A guest has eight pages. The first has its start and its handler. Three pages of code and one of data are random instructions: pairs that
belong together, loops that count, laps that change nothing, jumps to the pages' edges, and stores of other instructions into these pages,
also into the very next word, into one word of a pair, and into a loop that runs. The last pages have the rings of both devices: requests
read sectors of instructions into the code, and frames that arrive are put there. A timer interrupts at random deadlines, and goes on
where it was or at a random word.

One guest in 20 is wide: it has 300 pages more, more than are kept decoded, with a few words each that lead to another of them, and now and
then change a word of that one."""
import random

from tests.instructions import (EBREAK, ECALL, FENCE, MCAUSE, MEPC, MIE, MIP, MRET, MSCRATCH, MSTATUS, MTVEC, WFI, addi, auipc, branch, csr,
                                immediate, jump, jump_to, load, lui, op, shift, store)

PAGES, WIDE_PAGES, SECTORS = 8, 300, 16
WORDS = 1024
BASE, PAGE_BYTES, SECTOR_BYTES = 0x80000000, 4096, 512
CODE_PAGES, DATA_PAGE, DISK_PAGE, NET_PAGE, HOP_PAGE = (1, 2, 3), 4, 5, 6, 7
CODE_START, CODE_WORDS = BASE + PAGE_BYTES, WORDS * len(CODE_PAGES)
CARD, DISK = 0x10001000, 0x10002000
INTERRUPTS_ON = csr(6, 0, MSTATUS, 8)
# The middles of the code's pages and of the data's, both devices, and their rings.
CODE, DATA, AT_DISK, AT_CARD, DISK_RINGS, NET_RINGS = (1, 2, 3), 4, 16, 17, 18, 19
# What the handler alone uses.
MTIMECMP, MTIME, RANDOM, SPARE, CAUSE, BIT, TIME, FIRST = 20, 21, 22, 23, 24, 25, 26, 27
# What random instructions write, and what snippets use: a number, a count, a word and its place.
FREE = (0, 5, 6, 7, 8, 9, 10, 11, 12, 13, 14, 15)
NUMBER, COUNT, WORD, PLACE = 28, 29, 30, 31
# Where the rings stand in their pages: descriptors, what is available, what was used; and requests, with a byte for what became of each.
AVAILABLE, USED, REQUESTS, STATUSES = 0x400, 0x500, 0x800, 0xa00
SEND, SEND_AVAILABLE, SEND_USED, UNUSED = 0x740, 0x7c0, 0x7d8, 0x7f8
MOST_CHAINS, QUEUE, SEND_QUEUE = 64, 64, 8
READ, WRITE = 0, 1
# Where in their page the words stand that begin to hop over the wide pages, and those that are copied to each; and how many these are.
HOPS_BEGIN, HOP_WORDS, HOP_COUNT = 64, 128, 32
NEXT_FLAG, WRITE_FLAG = 1, 2


class Draw:
    """Random numbers, the same ones for a seed in every version of Python."""

    def __init__(self, seed):
        self.random = random.Random(seed).random

    def below(self, end):
        return int(self.random() * end)

    def between(self, low, high):
        return low + int(self.random() * (high - low))

    def of(self, rows):
        return rows[int(self.random() * len(rows))]

    def chance(self, part):
        return self.random() < part


class Style:
    """What a guest is made of, in hundredths: some hardly write into their code, others all the time, and some into one page alone."""

    def __init__(self, draw):
        self.stores = draw.of([1, 1, 2, 2, 4, 8, 20])
        self.pairs = draw.of([4, 10, 25])
        self.loops = draw.of([1, 3, 6])
        self.laps = draw.of([0, 0, 1])
        self.transfers = draw.of([0, 1, 1, 2])
        self.jumps = draw.of([3, 6, 10])
        self.targets = draw.of([CODE, CODE, CODE[:1], CODE[1:2], CODE[2:], CODE[1:]])
        # A deadline is less than 2 to this many steps ahead; and how often of eight times the handler goes on where it was.
        self.deadline_bits = draw.of([9, 11, 12, 13, 14, 15])
        self.stays = draw.of([0, 2, 4, 6])
        # And how often of eight times it has the disk serve a request.
        self.serves = draw.of([0, 0, 1, 3])
        self.interrupts = draw.of([0x80, 0x880, 0x880])
        self.is_wide = draw.chance(0.05)
        if self.is_wide:
            self.stays = draw.of([6, 7])


class Code:
    """Random words, snippet by snippet."""

    def __init__(self, draw, style):
        self.draw, self.style = draw, style
        rows = [(style.stores, self.changed), (style.pairs, self.pair), (style.loops, self.loop), (style.laps, self.lap),
                (style.transfers, self.transfer), (style.jumps, self.leap)]
        # One of these in a hundred each.
        self.snippets = [snippet for share, snippet in rows for _ in range(share)]
        self.snippets += [lambda: [self.plain()]] * (100 - len(self.snippets))
        # The place of the next word among the code's.
        self.place = 0

    def words(self, count, first):
        """So many words, of which the first one stands at a place of its own among the code's."""
        words = []
        while len(words) < count:
            self.place = first + len(words)
            words += self.draw.of(self.snippets)()
        return words[:count]

    def free(self):
        return self.draw.of(FREE)

    def any_register(self):
        return self.draw.below(16)

    def word_offset(self):
        return 4 * self.draw.between(-512, 512)

    def offset(self, width):
        """An offset into a page for an access of that width: one of eight bytes is aligned mostly, the others always."""
        return self.word_offset() & (~7 if width == 3 and self.draw.chance(0.95) else ~3)

    def loaded(self, widths, base):
        width = self.draw.of(widths)
        return load(width, self.free(), base, self.offset(width))

    def stored(self, widths, base):
        width = self.draw.of(widths)
        return store(width, base, self.any_register(), self.offset(width))

    def plain(self):
        """An instruction that stays in its page, or traps."""
        draw, free, reg = self.draw, self.free, self.any_register
        kind = draw.below(100)
        if kind < 28:
            return immediate(0x13, draw.of([0, 0, 2, 3, 4, 6, 7]), free(), reg(), draw.between(-2048, 2048))
        if kind < 40:
            return op(draw.below(8), free(), reg(), reg(), draw.of([0, 0, 1]))
        if kind < 46:
            funct3, funct7, opcode = draw.of([(0, 0x20, 0x33), (5, 0x20, 0x33), (draw.of([0, 1, 5]), 0, 0x3b),
                                              (draw.of([0, 4, 5, 6, 7]), 1, 0x3b)])
            return op(funct3, free(), reg(), reg(), funct7, opcode)
        if kind < 52:
            return shift(draw.of([1, 5]), free(), reg(), draw.below(64))
        if kind < 66:
            return self.loaded([0, 1, 2, 2, 2, 3, 3, 4, 5, 6], DATA)
        if kind < 72:
            return self.loaded([2, 3, 4], draw.of(CODE))
        if kind < 77:
            return self.stored([0, 1, 2, 3], DATA)
        if kind < 95:
            return branch(draw.of([0, 1, 4, 5, 6, 7]), reg(), reg(), draw.between(-12, 40))
        if kind < 97:
            return draw.of([load(3, free(), MTIME, -8), load(2, free(), AT_CARD, 0x60), load(3, free(), MTIMECMP, 0)])
        if kind < 98:
            return draw.of([load(2, free(), DATA, draw.below(2048)), store(2, DATA, reg(), draw.below(2048)), jump_to(0, reg(), 2), 0])
        return draw.of([WFI, FENCE, ECALL, EBREAK, csr(1, free(), MSCRATCH, reg()), csr(2, free(), MIP, 0), csr(2, free(), MSTATUS, 0)])

    def pair(self):
        """Two words that follow each other often, or that look so."""
        draw = self.draw
        words = self.wide_pair() if draw.chance(0.4) else self.frequent_pair()
        # Now and then a branch leads to the second one alone.
        if draw.chance(0.15):
            words = [branch(draw.of([0, 1, 4, 5]), self.any_register(), self.any_register(), 2)] + words
        return words

    def wide_pair(self):
        """A number that one word has no place for, and what is cut from one."""
        draw, rd = self.draw, self.free()
        other = rd if draw.chance(0.85) else self.free()
        small, large = draw.between(-2048, 2048), draw.below(1 << 20)
        kind = draw.below(3)
        if kind == 0:
            return [lui(rd, large), immediate(draw.of([0x13, 0x1b]), 0, other, rd, small)]
        if kind == 1:
            return [auipc(rd, draw.of([0, 0, 1, -1, large])), draw.of([addi(other, rd, small), jump_to(0, rd, 4 * draw.between(2, 40)),
                                                                      load(draw.of([2, 5]), other, rd, 4 * draw.between(-512, 512))])]
        by = draw.of([32, 32, 48, 56, draw.below(64)])
        return [shift(1, rd, self.any_register(), by), shift(draw.of([5, 5, 5, 1]), other, rd, by)]

    def frequent_pair(self):
        """One of those that the program makes in one go (src/kind.rt of rv64_core), where the second reads what the first writes, mostly."""
        draw, rd, to, reg = self.draw, self.free(), self.free(), self.any_register
        read = rd if draw.chance(0.85) else self.free()
        small, by, ahead = draw.between(-2048, 2048), draw.below(32), draw.between(-3, 6)
        address = op(0, rd, DATA, draw.of([0, 0, 0, reg()]))
        return draw.of([
            lambda: [self.stored([3], DATA), self.stored([3], DATA)],
            lambda: [load(3, rd, DATA, self.offset(3)), load(3, to, DATA, self.offset(3))],
            lambda: [load(2, rd, DATA, self.offset(2)), load(2, to, draw.of([DATA, read]), self.offset(2))],
            lambda: [load(2, rd, DATA, self.offset(2)), op(0, to, reg(), read, 0x20, 0x3b)],
            lambda: [load(3, rd, DATA, self.offset(3)), addi(to, read, small)],
            lambda: [load(4, rd, DATA, small), branch(0, read, reg(), ahead)],
            lambda: [load(4, rd, DATA, small), branch(1, reg(), read, ahead)],
            lambda: [branch(5, reg(), reg(), ahead), branch(1, reg(), reg(), ahead)],
            lambda: [addi(rd, reg(), small), addi(to, read, 1)],
            lambda: [addi(rd, reg(), small), op(0, to, reg(), read)],
            lambda: [addi(rd, reg(), small), branch(draw.of([0, 6]), read, reg(), ahead)],
            lambda: [immediate(0x13, 7, rd, reg(), small), branch(0, read, reg(), ahead)],
            lambda: [shift(5, rd, reg(), by), op(0, to, reg(), read)],
            lambda: [address, load(4, to, read, small)],
            lambda: [address, load(5, to, read, self.offset(1))],
            lambda: [op(6, rd, reg(), reg()), op(4, to, reg(), read)],
            lambda: [op(4, rd, reg(), reg()), shift(1, to, read, by)],
            lambda: [op(4, rd, reg(), reg()), op(0, to, reg(), read, 0, 0x3b)],
            lambda: [immediate(0x1b, 0, rd, reg(), small), immediate(0x1b, 0, to, read, small)],
            lambda: [immediate(0x1b, 0, rd, reg(), small), branch(6, read, reg(), ahead)],
            lambda: [immediate(0x1b, 1, rd, reg(), by), op(6, to, reg(), read)],
            lambda: [immediate(0x1b, 1, rd, reg(), by), immediate(0x1b, 5, to, read, by)],
            lambda: [immediate(0x1b, 5, rd, reg(), by), immediate(0x1b, 1, to, read, by)],
            lambda: [immediate(0x1b, 5, rd, reg(), by), branch(1, read, reg(), ahead)],
            lambda: [immediate(0x1b, 5, rd, reg(), by), op(6, to, reg(), read)],
            lambda: [op(0, rd, reg(), reg(), 0, 0x3b), shift(1, to, read, by)],
            lambda: [op(0, rd, reg(), reg(), 0, 0x3b), op(0, to, read, reg(), 0, 0x3b)],
            lambda: [op(0, rd, reg(), reg(), 0, 0x3b), branch(7, read, reg(), ahead)],
            lambda: [op(5, rd, reg(), reg(), 1), immediate(0x1b, 0, to, read, small)],
        ])()

    def changed(self):
        """Stores into code: anywhere, or near by."""
        draw = self.draw
        kind = draw.below(10)
        if kind < 4:
            base, offset = draw.of(self.style.targets), self.word_offset()
            return [load(2, WORD, DATA, self.word_offset()), store(2, base, WORD, offset)]
        if kind < 5:
            return [self.stored([0, 1, 2, 2, 3], draw.of(self.style.targets))]
        if kind < 8:
            # One word of the pair that comes next, or the word before it, or behind.
            pair = self.pair()
            return [auipc(PLACE, 0), load(2, WORD, DATA, self.word_offset()), store(2, PLACE, WORD, 4 * draw.between(2, 6))] + pair
        return [auipc(PLACE, 0), load(3, WORD, DATA, 8 * draw.between(-256, 256)), immediate(0x13, 7, PLACE, PLACE, -8),
                store(3, PLACE, WORD, 8 * draw.between(-3, 4))]

    def body(self, most):
        """What a loop does: words that don't leave it, mostly."""
        words = []
        while len(words) < most:
            kind = self.draw.below(10)
            if kind < 3:
                words += self.pair()
            elif kind < 4:
                words.append(self.stored([2, 3], DATA))
            else:
                words.append(self.quiet())
        return words

    def quiet(self):
        draw, reg = self.draw, self.any_register
        return draw.of([addi(self.free(), reg(), draw.between(-2048, 2048)), op(draw.below(8), self.free(), reg(), reg()),
                        self.loaded([2, 3], DATA), shift(5, self.free(), reg(), draw.below(64))])

    def loop(self):
        """A loop that counts down. In some a word of the loop is stored anew in each round, in others once it has run for a while."""
        draw = self.draw
        body = self.body(draw.between(1, 8))
        kind = draw.below(10)
        if kind < 2:
            patch = [load(2, WORD, DATA, self.word_offset()), store(2, PLACE, WORD, 4 * draw.between(1, len(body) + 1))]
            body += patch
        elif kind < 5:
            patch = [load(2, WORD, DATA, self.word_offset()), store(2, PLACE, WORD, 4 * draw.between(1, len(body) + 4))]
            # Both are passed over until the count is small.
            body += [immediate(0x13, 3, NUMBER, COUNT, draw.of([2, 10, 50])), branch(0, NUMBER, 0, 3)] + patch
        first = [addi(COUNT, 0, draw.of([3, 20, 200, 600, 2000])), auipc(PLACE, 0)]
        last = [addi(COUNT, COUNT, -1), branch(1, COUNT, 0, -len(body) - 1)]
        return first + body + last

    def lap(self):
        """A loop in which nothing changes until an interrupt comes. Some store what stands there, and one in four a word of itself."""
        draw = self.draw
        rows = [load(2, NUMBER, DATA, self.word_offset()), immediate(0x13, 7, NUMBER, NUMBER, 1), op(4, NUMBER, NUMBER, NUMBER), WFI, FENCE,
                store(3, DISK_RINGS, 0, UNUSED)]
        body, first = [draw.of(rows) for _ in range(draw.between(1, 6))], []
        if draw.chance(0.25):
            first = [auipc(PLACE, 0), load(2, WORD, DATA, self.word_offset())]
            body.append(store(2, PLACE, WORD, 4 * draw.between(2, len(body) + 4)))
        return first + body + [branch(0, 0, 0, -len(body))]

    def transfer(self):
        return self.draw.of([TRANSFER, TRANSFER, TRANSFER, SENDING])

    def leap(self):
        """A jump within the page, to the edge of one, or to another."""
        draw = self.draw
        kind = draw.below(10)
        if kind < 3:
            return [jump(draw.of([0, 5]), draw.between(-60, 100))]
        if kind < 6:
            edge = WORDS * draw.between(1, len(CODE_PAGES) + 1)
            return [jump(draw.of([0, 5]), edge + draw.between(-6, 3) - self.place)]
        if kind < 8:
            return [jump(draw.of([0, 5]), draw.between(-300, 500))]
        return [jump_to(draw.of([0, 5]), draw.of(CODE), self.word_offset())]


def number(rd, value):
    """A number below 2^31 into a register."""
    low = (value & 0xfff ^ 0x800) - 0x800
    return [lui(rd, (value - low) >> 12), addi(rd, rd, low)]


def written(base, offset, value):
    """A value into a device's register."""
    return number(SPARE, value) + [store(2, base, SPARE, offset)]


def queue_start(base, queue, size, areas):
    """A queue's size and where its three areas stand, whose upper halves are 0, and it is ready."""
    words = written(base, 0x30, queue) + written(base, 0x38, size)
    for offset, (upper, lower) in zip((0x80, 0x90, 0xa0), areas):
        words += [lui(SPARE, upper), addi(SPARE, SPARE, lower), store(2, base, SPARE, offset)]
    return words + written(base, 0x44, 1)


def device_start(base, queues):
    """A device is set up (virtio 1.1, section 3.1.1), with version 1 alone of what it offers."""
    words = written(base, 0x70, 1) + written(base, 0x70, 3) + written(base, 0x24, 1) + written(base, 0x20, 1) + written(base, 0x70, 11)
    for row in queues:
        words += queue_start(base, *row)
    return words + written(base, 0x70, 15)


def areas(page, descriptors, available, used):
    upper = (BASE >> 12) + page
    return [(upper, descriptors), (upper, available), (upper, used)]


# The registers that code needs, from the address of the first word of the code: the handler sets them anew at each interrupt.
BASES = [
    addi(SPARE, 0, 1), shift(1, SPARE, SPARE, 11), lui(TIME, 1), op(0, 1, FIRST, SPARE), op(0, 2, 1, TIME), op(0, 3, 2, TIME),
    op(0, DATA, 3, TIME), op(0, DISK_RINGS, DATA, SPARE), op(0, NET_RINGS, DISK_RINGS, TIME), lui(AT_DISK, DISK >> 12),
    lui(AT_CARD, CARD >> 12),
]


def told(rings, available, device, queue):
    """One more chain is available to a device, and it is told."""
    return [load(5, NUMBER, rings, available + 2), addi(NUMBER, NUMBER, 1), store(1, rings, NUMBER, available + 2), addi(NUMBER, 0, queue),
            store(2, device, NUMBER, 0x50)]


TRANSFER = told(DISK_RINGS, AVAILABLE, AT_DISK, 0)
SENDING = told(NET_RINGS, SEND_AVAILABLE, AT_CARD, 1)


def is_below(number):
    """Whether the lowest three bits of SPARE are a number below this one."""
    return [immediate(0x13, 7, SPARE, SPARE, 7), immediate(0x13, 3, SPARE, SPARE, number)]


def handler_of(style):
    """What a trap does: a pc outside memory and some interrupts go on at a random word of the code, others where they were, and other
    exceptions at the word behind theirs."""
    exception = [addi(SPARE, 0, 1), None, csr(2, SPARE, MEPC, 0), addi(SPARE, SPARE, 4), csr(1, 0, MEPC, SPARE), MRET]
    acknowledged = [word for device in (AT_DISK, AT_CARD) for word in (load(2, SPARE, device, 0x60), store(2, device, SPARE, 0x64))]
    deadline = [
        shift(1, SPARE, RANDOM, 13), op(4, RANDOM, RANDOM, SPARE), shift(5, SPARE, RANDOM, 7), op(4, RANDOM, RANDOM, SPARE),
        shift(1, SPARE, RANDOM, 17), op(4, RANDOM, RANDOM, SPARE), shift(5, SPARE, RANDOM, 64 - style.deadline_bits),
        load(3, TIME, MTIME, -8), op(0, TIME, TIME, SPARE), store(3, MTIMECMP, TIME, 0),
    ]
    serves = [shift(5, SPARE, RANDOM, 8), *is_below(style.serves), branch(0, SPARE, 0, len(TRANSFER) + 1), *TRANSFER]
    stays = [addi(SPARE, RANDOM, 0), *is_below(style.stays), branch(0, SPARE, 0, 2), MRET]
    # 4 times a number below 2048 above the first word: the last page is reached by running on.
    word = [shift(1, SPARE, RANDOM, 40), shift(5, SPARE, SPARE, 53), shift(1, SPARE, SPARE, 2)]
    if style.is_wide:
        word = [lui(SPARE, HOP_PAGE - CODE_PAGES[0]), addi(SPARE, SPARE, 4 * HOPS_BEGIN)]
    elsewhere = word + [op(0, SPARE, SPARE, FIRST), csr(1, 0, MEPC, SPARE), MRET]
    interrupt = [*BASES, *acknowledged, *deadline, *serves, *stays]
    # Words of a wide page that trap are followed by none.
    exception[1] = branch(0, *([0, 0] if style.is_wide else [CAUSE, SPARE]), len(exception) - 1 + len(interrupt))
    return [csr(2, CAUSE, MCAUSE, 0), branch(4, CAUSE, 0, len(exception) + 1), *exception, *interrupt, *elsewhere]


def first_page(draw, style):
    """The start, and behind it the handler."""
    disk = device_start(AT_DISK, [(0, QUEUE, areas(DISK_PAGE, 0, AVAILABLE, USED))])
    card = device_start(AT_CARD, [(0, QUEUE, areas(NET_PAGE, 0, AVAILABLE, USED)),
                                  (1, SEND_QUEUE, areas(NET_PAGE, SEND, SEND_AVAILABLE, SEND_USED))])
    start = [
        auipc(FIRST, 1), *BASES, *disk, *card, store(2, AT_DISK, 0, 0x50), lui(MTIMECMP, 0x2004), lui(MTIME, 0x200c),
        addi(RANDOM, 0, draw.between(1, 2048)), store(3, MTIMECMP, 0, 0), *number(BIT, style.interrupts), csr(1, 0, MIE, BIT),
    ]
    last = [auipc(SPARE, 0), addi(SPARE, SPARE, 4 * 5), csr(1, 0, MTVEC, SPARE), FENCE if style.is_wide else INTERRUPTS_ON]
    words = start + last
    words.append(jump(0, WORDS * (HOP_PAGE if style.is_wide else CODE_PAGES[0]) - len(words)))
    return words + handler_of(style)


def hop_page(draw, code):
    """Copies some words to each of the wide pages, and goes to one of these. There they go on to the page so many pages ahead, from the
    last ones to the first, and now and then change a word of that page before."""
    copied = [word for at in range(0, 4 * HOP_COUNT, 8) for word in (load(3, NUMBER, WORD, at), store(3, PLACE, NUMBER, at))]
    copied += [lui(NUMBER, 1), op(0, PLACE, PLACE, NUMBER), addi(COUNT, COUNT, -1)]
    start = [auipc(PLACE, 1), auipc(WORD, 0), addi(WORD, WORD, 4 * HOP_WORDS - 4), addi(COUNT, 0, WIDE_PAGES), *copied,
             branch(1, COUNT, 0, -len(copied)), INTERRUPTS_ON]
    begin = [auipc(PLACE, 1), addi(PLACE, PLACE, -4 * HOPS_BEGIN), addi(COUNT, COUNT, 1), immediate(0x13, 7, NUMBER, COUNT, 255),
             shift(1, NUMBER, NUMBER, 12), op(0, PLACE, PLACE, NUMBER), jump_to(0, PLACE, 0)]
    start.append(jump(0, HOPS_BEGIN - len(start)))
    hop = [
        addi(COUNT, COUNT, 1), lui(NUMBER, draw.of([1, 1, 7, 131])), op(0, PLACE, PLACE, NUMBER),
        lui(NUMBER, (BASE >> 12) + PAGES + WIDE_PAGES), shift(1, NUMBER, NUMBER, 32), shift(5, NUMBER, NUMBER, 32),
        branch(6, PLACE, NUMBER, 3), lui(NUMBER, WIDE_PAGES), op(0, PLACE, PLACE, NUMBER, 0x20),
        immediate(0x13, 7, NUMBER, COUNT, draw.of([15, 63, 255])), branch(1, NUMBER, 0, 3),
        load(2, WORD, DATA, code.word_offset()), store(2, PLACE, WORD, 4 * draw.below(HOP_COUNT)), jump_to(0, PLACE, 0),
    ]
    # Words that don't lead away.
    body = [word for word in code.body(2 * HOP_COUNT) if word & 0x7f != 0x67][:HOP_COUNT - len(hop)]
    words = [0] * WORDS
    for at, part in (0, start), (HOPS_BEGIN, begin), (HOP_WORDS, body + hop):
        words[at:at + len(part)] = part
    return words


class Page:
    """A page that is written byte by byte."""

    def __init__(self, number):
        self.address, self.bytes = BASE + PAGE_BYTES * number, bytearray(PAGE_BYTES)

    def put(self, at, width, *values):
        for value in values:
            self.bytes[at:at + width] = value.to_bytes(width, "little")
            at += width

    def descriptor(self, number, address, length, flags, following=0, table=0):
        at = table + 16 * number
        self.put(at, 8, address)
        self.put(at + 8, 4, length)
        self.put(at + 12, 2, flags, following)

    def words(self):
        return [int.from_bytes(self.bytes[at:at + 4], "little") for at in range(0, PAGE_BYTES, 4)]


class Targets:
    """Where devices write and read code."""

    def __init__(self, draw, style):
        self.draw, self.style = draw, style

    def place(self, most):
        """Where so many bytes stand, now and then across a page's edge."""
        draw = self.draw
        if self.style.is_wide:
            return BASE + PAGE_BYTES * (PAGES + draw.below(WIDE_PAGES - 1)) + 4 * draw.below(HOP_COUNT)
        if draw.chance(0.25):
            return CODE_START + PAGE_BYTES * draw.between(1, len(CODE_PAGES)) - 4 * draw.below(most // 4 + 1)
        return CODE_START + 4 * draw.below(CODE_WORDS - most // 4)


def disk_page(draw, targets):
    """The disk's rings. Two chains write the data's page and the first of the code to the disk, and are served at the start; the others
    read sectors into the code, or write some again."""
    page, used, heads = Page(DISK_PAGE), 0, []

    def chain(kind, sector, parts, status):
        """A request whose data are these parts of memory."""
        nonlocal used
        at, places = REQUESTS + 16 * len(heads), range(used, used + len(parts) + 2)
        page.put(at, 4, kind)
        page.put(at + 8, 8, sector)
        flag = WRITE_FLAG if kind == READ else 0
        rows = [(page.address + at, 16, 0), *[(address, length, flag) for address, length in parts], (status, 1, WRITE_FLAG)]
        for place, (address, length, flags) in zip(places, rows):
            is_last = place == places[-1]
            page.descriptor(place, address, length, flags | (0 if is_last else NEXT_FLAG), 0 if is_last else place + 1)
        heads.append(used)
        used = places[-1] + 1

    own = lambda: page.address + STATUSES + len(heads)
    chain(WRITE, 0, [(BASE + PAGE_BYTES * DATA_PAGE, PAGE_BYTES)], own())
    chain(WRITE, 8, [(CODE_START, PAGE_BYTES)], own())
    while used + 4 <= MOST_CHAINS:
        length = SECTOR_BYTES * draw.of([1, 1, 1, 2])
        first = 4 * draw.between(1, length // 4)
        parts = [(targets.place(length), length)]
        if draw.chance(0.4):
            parts = [(targets.place(first), first), (targets.place(length - first), length - first)]
        # The byte that says what became of it may be one of the code's.
        status = own() if draw.chance(0.75) else targets.place(4) + draw.below(4)
        chain(WRITE if draw.chance(0.2) else READ, draw.below(SECTORS - 1), parts, status)
    page.put(AVAILABLE + 2, 2, 2)
    page.put(AVAILABLE + 4, 2, heads[0], heads[1], *[draw.of(heads[2:]) for _ in range(QUEUE - 2)])
    return page.words()


def net_page(draw, targets):
    """The card's rings: chains for frames, all of them in the code, and some bytes of the code to send."""
    page = Page(NET_PAGE)
    for number in range(0, QUEUE, 2):
        first = 4 * draw.between(3, 60)
        page.descriptor(number, targets.place(first), first, WRITE_FLAG | NEXT_FLAG, number + 1)
        page.descriptor(number + 1, targets.place(400), 400, WRITE_FLAG)
    page.put(AVAILABLE + 2, 2, QUEUE)
    page.put(AVAILABLE + 4, 2, *[2 * draw.below(QUEUE // 2) for _ in range(QUEUE)])
    for number in range(SEND_QUEUE):
        page.descriptor(number, targets.place(212), 4 * draw.between(7, 53), 0, table=SEND)
    page.put(SEND_AVAILABLE + 4, 2, *range(SEND_QUEUE))
    return page.words()


class Guest:
    """A guest's words, and the frames that come to it."""

    def __init__(self, draw):
        self.draw, style = draw, Style(draw)
        self.code, targets = Code(draw, style), Targets(draw, style)
        head = first_page(draw, style)
        code = self.code.words(WORDS * (len(CODE_PAGES) + 1), 0)
        self.words = head + [0] * (WORDS - len(head)) + code + disk_page(draw, targets) + net_page(draw, targets)
        self.is_wide, self.pages = style.is_wide, PAGES
        if style.is_wide:
            self.words += hop_page(draw, self.code)
            self.pages += WIDE_PAGES

    def frame(self):
        """Instructions, in 14 bytes at least."""
        words = self.code.words(self.draw.between(4, 90), self.draw.below(CODE_WORDS))
        return b"".join(word.to_bytes(4, "little") for word in words)

    def boot(self):
        return f"boot {self.pages} {SECTORS} 1 words {' '.join([f'{word:08x}' for word in self.words])}"
