#!/usr/bin/env python3
"""Prints what each guest of the bare machine answers in a0, worked out with no part of the guests."""
import hashlib
import zlib

MASK = 2**64 - 1


def signed(x, bits=64):
    return x - 2**bits if x >> bits - 1 else x


def shifted(x):
    """The number after this one in a sequence of random ones, by three shifts."""
    x ^= x << 13 & MASK
    x ^= x >> 7
    return x ^ x << 17 & MASK


def sort():
    numbers, x = [], 88172645463325252
    for _ in range(100):
        x = shifted(x)
        numbers.append(signed(x))
    return sum(n * (i + 1) for i, n in enumerate(sorted(numbers))) & MASK


def crc32():
    return zlib.crc32(b"123456789")


def sha256():
    return int.from_bytes(hashlib.sha256(b"abc").digest()[:8], "big")


def divided(a, b, bits):
    """The quotient and the remainder of the RISC-V instructions, of whole numbers in their range."""
    if b == 0:
        return -1, a
    quotient = abs(a) // abs(b)
    if (a < 0) != (b < 0):
        quotient = -quotient
    return quotient, a - quotient * b


def division():
    numbers = [0, 1, 2, 3, 10, 0x7FFFFFFF, 0x80000000, 0xFFFFFFFF, 0x100000001, 0x123456789ABCDEF0]
    numbers += [2**63 - 1, 2**63, 2**63 + 1, 0xFFFFFFFF80000000, 2**64 - 10, 2**64 - 1]
    total = 0xCBF29CE484222325
    for a in numbers:
        for b in numbers:
            low = (a & 0xFFFFFFFF, b & 0xFFFFFFFF)
            for x, y, bits in (
                (a, b, 64),
                (signed(a), signed(b), 64),
                (*low, 32),
                (signed(low[0], 32), signed(low[1], 32), 32),
            ):
                for answer in divided(x, y, bits):
                    # A word form sign extends its 32 bits.
                    answer = signed(answer & 2**bits - 1, bits) & MASK
                    total = (total ^ answer) * 0x100000001B3 & MASK
    return total


def disk():
    total = 0xCBF29CE484222325
    for place in range(200 * 512):
        byte = (place + 1) * 0x9E3779B97F4A7C15 % 2**64 >> 56
        total = (total ^ byte) * 0x100000001B3 & MASK
    return total


def deflate_text():
    """The text that guests/deflate.c deflates."""
    text, x = bytearray(), 88172645463325252
    while len(text) < 8192:
        x = shifted(x)
        word = x >> 58
        text += bytes(ord("a") + (7 * word + 5 * i * i + word * i) % 26 for i in range(2 + word % 8)) + b" "
    return bytes(text[:8192])


def deflate():
    return zlib.adler32(deflate_text())


if __name__ == "__main__":
    for guest in (sort, crc32, sha256, division, disk, deflate):
        print(f"{guest.__name__} {guest():016x}")
