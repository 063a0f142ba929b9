"""Writes the images of guests that send so many frames of so many bytes a round, for bench/checkpoints.sh: `senders.py FOLDER`. After the
first 22 steps a round takes six; FOLDER/NxB.image sends N frames of B bytes, 64 a notify at most, and FOLDER/NxB.steps says in how many
steps."""
import struct
import sys
from pathlib import Path

ROOT = Path(__file__).resolve().parent.parent
sys.path.insert(0, str(ROOT))
from oracle.sender import GUEST_MAC, NEXT, ROUND, SET_UP, TO, TYPE, addi, jump, sh, sw

QUEUE, BASE = 64, 0x80000000
# Where the queue's areas lie, the front of the frame, after 12 bytes of header, and the rest of it.
DESCRIPTORS, AVAILABLE, USED, FRONT, REST = 0x100, 0x500, 0x588, 0x7A0, 0x7C0
FRONT_BYTES, ADDRESSES = 24, 12
# The registers of oracle/sender.py's guest, but for the queue's size and where its areas lie.
MOVED = {0x100: DESCRIPTORS, 0x180: AVAILABLE, 0x1C0: USED}


def set_up():
    words = [addi(7, 0, QUEUE) if word == addi(7, 0, 8) else word for word in SET_UP]
    return [next((addi(7, 8, to) for at, to in MOVED.items() if word == addi(7, 8, at)), word) for word in words]


def image(burst, size):
    code = set_up() + [addi(9, 9, 1), sh(9, REST + 2, 8), addi(10, 10, burst), sh(10, AVAILABLE + 2, 8), sw(6, 0x50, 5)]
    code.append(jump(-4 * (ROUND - 1)))
    memory = bytearray(REST + size - ADDRESSES)
    struct.pack_into(f"<{len(code)}I", memory, 0, *code)
    struct.pack_into("<QIHH", memory, DESCRIPTORS, BASE + FRONT, FRONT_BYTES, NEXT, 1)
    struct.pack_into("<QIHH", memory, DESCRIPTORS + 16, BASE + REST, size - ADDRESSES, 0, 0)
    memory[FRONT + 12:FRONT + 24] = TO[0] + GUEST_MAC
    memory[REST:REST + 2] = TYPE
    return bytes(memory)


for size in (64, 1514):
    for frames in (0, 1, 16, 256):
        burst, name = min(frames, QUEUE), Path(sys.argv[1]) / f"{frames}x{size}"
        name.with_suffix(".image").write_bytes(image(burst, size))
        name.with_suffix(".steps").write_text(f"{ROUND * max(1, frames // QUEUE)}\n")
