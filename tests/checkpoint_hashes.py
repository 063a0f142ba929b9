#!/usr/bin/env python3
"""Hashes of the checkpoints of fifty guests, so that two builds can be compared: `tests/checkpoint_hashes.py EPOCHS` prints a line for
each guest, its name and the SHA-256 of the bytes that `epochs cuts` writes of it, taken back
to version 1: without their frames. tests/checkpoint_hashes.txt keeps what it printed;
tests/checkpoint_hashes.sh compares.

Half of the guests are eight of guests/words, in turns of different lengths; the others are words from a fixed sequence: stores all over
memory, mixed with arithmetic and words of any kind, so that pages change in many ways."""
import hashlib
import struct
import subprocess
import sys
import tempfile
from pathlib import Path

sys.path.insert(0, str(Path(__file__).resolve().parent.parent))
from oracle.checkpoints import read_stream, text

GUESTS = Path(__file__).resolve().parent.parent / "guests" / "words"
PAGES, SECTORS, FIFTY = 64, 256, 50
# Those that were there when the file was written.
NAMES = ["crc32", "disk", "division", "flood", "ping", "sha256", "sort", "stream"]


def numbers(seed):
    """A fixed sequence of 32-bit words: a linear congruence modulo 2^64 (MMIX), of which the upper half is taken."""
    state = seed
    while True:
        state = (state * 6364136223846793005 + 1442695040888963407) % 2**64
        yield state >> 32


def stores(seed):
    """x1 is the memory's start and x2 its size less 8; a loop XORs its counter into x3, masks it, and stores there; then words of any kind."""
    sequence = numbers(seed)
    add, shift = next(sequence) % 2048, 1 + next(sequence) % 13
    loop = [
        0x00000097 & 0xFFFFF07F | 1 << 7,  # auipc x1, 0
        0x00040137,  # lui x2, 0x40           256 KiB
        0xFF810113,  # addi x2, x2, -8
        (add << 20) | 0x00018193,  # addi x3, x3, add
        (shift << 20) | 0x00019213,  # slli x4, x3, shift
        0x00324233,  # xor x4, x4, x3
        0x00227233,  # and x4, x4, x2
        0x001202B3,  # add x5, x4, x1
        0x0032B423,  # sd x3, 8(x5)
        0xFE9FF06F,  # jal x0, -24           to the addi
    ]
    return loop + [next(sequence) for _ in range(200)]


def guest(index):
    if index % 2 == 0:
        name = NAMES[index // 2 % len(NAMES)]
        return name, [int(word, 16) for word in (GUESTS / f"{name}.words").read_text().split()], 5000 * (index + 1)
    return f"stores {index}", stores(index), 37 * (index + 1)


def old_text(data):
    """The same checkpoints in version 1."""
    found, ending = read_stream(data, PAGES, SECTORS)
    assert ending is None, ending
    for checkpoint in found:
        checkpoint.version, checkpoint.frames = 1, []
    return b"".join(map(text, found))


def main(program):
    with tempfile.TemporaryDirectory() as folder:
        image = Path(folder) / "image"
        for index in range(FIFTY):
            name, words, steps = guest(index)
            image.write_bytes(b"".join(struct.pack("<I", word) for word in words))
            command = [program, "cuts", str(image), str(PAGES), str(SECTORS), str(steps)]
            data = old_text(subprocess.run(command, capture_output=True, check=True).stdout)
            print(f"{index} {name}, {steps} steps: {len(data)} bytes, {hashlib.sha256(data).hexdigest()}")


main(sys.argv[1])
