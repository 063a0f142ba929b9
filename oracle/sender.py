"""A guest for generated scripts that sends frames for ever: at each round of its loop so many, each to whom its place in the ring says,
with the round's number in it. Its words, and what it sends in which step, worked out by counting its instructions."""
import re
import struct

# Where its queue of 8 descriptors and its buffers lie, from the start of memory: fronts of frames, each after 12 bytes of header, and
# the rest, which all share.
DESCRIPTORS, AVAILABLE, USED, FRONTS, REST = 0x100, 0x180, 0x1C0, 0x240, 0x2A0
FRONT_BYTES, REST_BYTES, HEADER_BYTES, NEXT = 24, 4, 12, 1
GUEST_MAC, TYPE = bytes.fromhex("020000000001"), bytes.fromhex("88b5")
# Client 1, every client, client 2, and the guest's own address, which is nowhere.
TO = [bytes.fromhex(text) for text in ["020000000101", "ffffffffffff", "020000000102", "020000000001"]]
ROUND = 6  # instructions of a round without the idle ones
NOTIFIES = 5  # the instruction of a round that sends


def i_type(opcode, funct3, rd, rs1, imm):
    return (imm & 0xFFF) << 20 | rs1 << 15 | funct3 << 12 | rd << 7 | opcode


def s_type(funct3, rs1, rs2, imm):
    return (imm >> 5 & 0x7F) << 25 | rs2 << 20 | rs1 << 15 | funct3 << 12 | (imm & 31) << 7 | 0x23


def addi(rd, rs1, imm):
    return i_type(0x13, 0, rd, rs1, imm)


def sh(rs2, imm, rs1):
    return s_type(1, rs1, rs2, imm)


def sw(rs2, imm, rs1):
    return s_type(2, rs1, rs2, imm)


def upper(opcode, rd, imm):
    return imm << 12 | rd << 7 | opcode


def jump(offset):
    imm = offset & 0x1FFFFF
    return (imm >> 20) << 31 | (imm >> 1 & 0x3FF) << 21 | (imm >> 11 & 1) << 20 | (imm >> 12 & 0xFF) << 12 | 0x6F


IDLE = addi(0, 0, 0)
# x5 is the card, x6 is 1, x8 the start of memory, x9 the round, x10 how many chains were made available.
SET_UP = [
    upper(0x17, 8, 0), upper(0x37, 5, 0x10001), addi(6, 0, 1), sw(6, 0x70, 5), addi(7, 0, 3), sw(7, 0x70, 5),
    sw(6, 0x24, 5), sw(6, 0x20, 5), addi(7, 0, 11), sw(7, 0x70, 5), sw(6, 0x30, 5), addi(7, 0, 8), sw(7, 0x38, 5),
    addi(7, 8, DESCRIPTORS), sw(7, 0x80, 5), addi(7, 8, AVAILABLE), sw(7, 0x90, 5), addi(7, 8, USED), sw(7, 0xA0, 5),
    sw(6, 0x44, 5), addi(7, 0, 15), sw(7, 0x70, 5)]


class Sender:
    def __init__(self, ring, burst, idle):
        self.ring, self.burst, self.idle = list(ring), burst, idle

    def words(self):
        code = SET_UP + [addi(9, 9, 1), sh(9, REST + 2, 8), addi(10, 10, self.burst), sh(10, AVAILABLE + 2, 8), sw(6, 0x50, 5)]
        code += [IDLE] * self.idle + [jump(-4 * (ROUND - 1 + self.idle))]
        memory = bytearray(REST + REST_BYTES)
        struct.pack_into(f"<{len(code)}I", memory, 0, *code)
        base = 0x80000000
        for i, to in enumerate(TO):
            struct.pack_into("<QIHH", memory, DESCRIPTORS + 16 * i, base + FRONTS + FRONT_BYTES * i, FRONT_BYTES, NEXT, len(TO))
            at = FRONTS + FRONT_BYTES * i + HEADER_BYTES
            memory[at:at + 12] = to + GUEST_MAC
        struct.pack_into("<QIHH", memory, DESCRIPTORS + 16 * len(TO), base + REST, REST_BYTES, 0, 0)
        struct.pack_into("<8H", memory, AVAILABLE + 4, *self.ring)
        memory[REST:REST + 2] = TYPE
        return b" ".join(b"%08x" % word for word in struct.unpack(f"<{len(memory) // 4}I", memory))

    def steps_of(self, rounds):
        """How many steps so many rounds take, up to the one of the last of them that sends."""
        return len(SET_UP) + NOTIFIES + (rounds - 1) * (ROUND + self.idle)

    def sending_step(self, steps):
        """The first step after so many that sends, and its round."""
        period, first = ROUND + self.idle, self.steps_of(1)
        rounds = max(0, -((first - 1 - steps) // period)) if steps >= first else 0
        return first + rounds * period, rounds + 1

    def steps_to_send(self, steps, most):
        return min(most, self.sending_step(steps)[0] - steps)

    def sent(self, before, after):
        frames = []
        while (at := self.sending_step(before))[0] <= after:
            before, number = at
            for i in range(self.burst):
                to = TO[self.ring[((number - 1) * self.burst + i) % len(self.ring)]]
                frames.append(to + GUEST_MAC + TYPE + struct.pack("<H", number % 2**16))
        return frames


def sender_of(words):
    """The guest whose words these are, if they are such a guest's."""
    text = b" ".join(words)
    if len(words) != (REST + REST_BYTES) // 4 or not re.fullmatch(rb"([0-9a-f]{8} ?)+", text):
        return None
    values = [int(word, 16) for word in words]
    ring = struct.unpack("<8H", struct.pack("<5I", *values[AVAILABLE // 4:AVAILABLE // 4 + 5])[4:])
    found = Sender(ring, values[len(SET_UP) + 2] >> 20, values[len(SET_UP) + 5:DESCRIPTORS // 4].count(IDLE))
    return found if max(ring) < len(TO) and found.burst and found.words() == text else None
