"""A guest for generated runs that sends back each frame that arrives, with its number in it, by both queues of the card."""
import struct

from oracle.sender import addi, i_type, jump, sh, sw, upper

PAGES = 6  # of its memory, at least: one of code, one of rings, four of buffers
BUFFERS, STRIDE, LENGTH, WRITE, NUMBER_AT = 8, 2048, 1526, 2, 26
# From the start of the second page: descriptors, available and used ring of queue 0, and of queue 1.
RECEIVING, SENDING = (0x00, 0x80, 0xC0), (0x140, 0x1C0, 0x200)
CARD, ONE, SPARE, RINGS, CAME, SEEN = 5, 6, 7, 9, 11, 12
SLOT, ENTRY, BYTES, CHAIN, DESCRIPTOR, HALF, NEXT, BUFFER = 13, 14, 15, 16, 17, 18, 19, 20


def load(funct3, rd, rs1, imm):
    return i_type(0x03, funct3, rd, rs1, imm)


def lhu(rd, imm, rs1):
    return load(5, rd, rs1, imm)


def lwu(rd, imm, rs1):
    return load(6, rd, rs1, imm)


def slli(rd, rs1, by):
    return i_type(0x13, 1, rd, rs1, by)


def andi(rd, rs1, imm):
    return i_type(0x13, 7, rd, rs1, imm)


def add(rd, rs1, rs2):
    return rs2 << 20 | rs1 << 15 | rd << 7 | 0x33


def beq(rs1, rs2, offset):
    imm = offset & 0x1FFF
    return (imm >> 12) << 31 | (imm >> 5 & 0x3F) << 25 | rs2 << 20 | rs1 << 15 | (imm >> 1 & 15) << 8 | (imm >> 11 & 1) << 7 | 0x63


def store_number(value, at):
    return [addi(SPARE, 0, value), sw(SPARE, at, CARD)]


def queue(number, places):
    """Sets a queue up."""
    code = store_number(number, 0x30) + store_number(BUFFERS, 0x38)
    for place, at in zip(places, (0x80, 0x90, 0xA0)):
        code += [addi(SPARE, RINGS, place), sw(SPARE, at, CARD)]
    return code + [sw(ONE, 0x44, CARD)]


def code():
    set_up = [upper(0x17, RINGS, 1), upper(0x37, CARD, 0x10001), addi(ONE, 0, 1), sw(ONE, 0x70, CARD), *store_number(3, 0x70),
              sw(ONE, 0x24, CARD), sw(ONE, 0x20, CARD), *store_number(11, 0x70), *queue(0, RECEIVING), *queue(1, SENDING),
              *store_number(15, 0x70)]
    loop = [
        lhu(CAME, RECEIVING[2] + 2, RINGS), beq(CAME, SEEN, -4),
        # The chain that came, and how long its packet is.
        andi(SLOT, SEEN, BUFFERS - 1), slli(ENTRY, SLOT, 3), add(ENTRY, ENTRY, RINGS), lwu(BYTES, RECEIVING[2] + 8, ENTRY),
        lwu(CHAIN, RECEIVING[2] + 4, ENTRY), slli(DESCRIPTOR, CHAIN, 4), add(DESCRIPTOR, DESCRIPTOR, RINGS),
        addi(SEEN, SEEN, 1), lwu(BUFFER, SENDING[0], DESCRIPTOR), sh(SEEN, NUMBER_AT, BUFFER),
        # It is sent, and then its buffer is offered anew.
        sw(BYTES, SENDING[0] + 8, DESCRIPTOR), slli(HALF, SLOT, 1), add(HALF, HALF, RINGS), sh(CHAIN, SENDING[1] + 4, HALF),
        sh(SEEN, SENDING[1] + 2, RINGS), sw(ONE, 0x50, CARD), sh(CHAIN, RECEIVING[1] + 4, HALF), addi(NEXT, SEEN, BUFFERS - 1),
        sh(NEXT, RECEIVING[1] + 2, RINGS)]
    return set_up + loop + [jump(-4 * len(loop))]


def words():
    """The words of its boot line."""
    memory = bytearray(0x1200)
    struct.pack_into(f"<{len(code())}I", memory, 0, *code())
    for i in range(BUFFERS):
        buffer = 0x80002000 + STRIDE * i
        struct.pack_into("<QIHH", memory, 0x1000 + RECEIVING[0] + 16 * i, buffer, LENGTH, WRITE, 0)
        struct.pack_into("<QIHH", memory, 0x1000 + SENDING[0] + 16 * i, buffer, 0, 0, 0)
        struct.pack_into("<H", memory, 0x1000 + RECEIVING[1] + 4 + 2 * i, i)
    struct.pack_into("<H", memory, 0x1000 + RECEIVING[1] + 2, BUFFERS)
    return b" ".join(b"%08x" % word for word in struct.unpack(f"<{len(memory) // 4}I", memory))
