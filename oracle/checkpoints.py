#!/usr/bin/env python3
"""Checkpoints as bytes, from the table of docs/CHECKPOINT.md: writes them, reads them, and says the offset of the first unit
that breaks its rule. It shares nothing with the crate checkpoint_stream.

    checkpoints.py beacon [1]                      the checkpoint of the beacon after 22 steps, on standard output; of version 1 with a 1
    checkpoints.py disk [1]                        that of the guest 'disk 3 ab' after 23 steps, on 2 pages and 8 sectors
    checkpoints.py random SEED                     a stream of random checkpoints (its shape: 'shape SEED')
    checkpoints.py shape SEED                      'PAGES SECTORS', the shape of that stream
    checkpoints.py lines FILE PAGES SECTORS        what 'remus check-stream' has to print of FILE
    checkpoints.py play REMUS COUNT [FIRST_SEED]   plays random streams, whole, cut short and damaged, through REMUS
    checkpoints.py damage REMUS                    plays the beacon's and the disk guest's checkpoint, of both versions, through REMUS, cut to
                                                   each length, and with each byte set to each of a dozen others; and after one another
"""
import random
import struct
import subprocess
import sys
import tempfile
from concurrent.futures import ThreadPoolExecutor
from dataclasses import dataclass, field
from pathlib import Path

MAGICS = {1: b"RMC1", 2: b"RMC2"}
MOST_FRAMES, SHORTEST, LONGEST = 256, 14, 1514
# Pages of a machine, at most, and of one whose checkpoint is of version 1.
MOST_PAGES, MOST_OLD_PAGES = 16384, 4096
BLOCK, PAGE, SECTOR = 64, 4096, 512
QUEUE_SIZES = (0, 1, 2, 4, 8, 16, 32, 64)


@dataclass
class Queue:
    num: int = 0
    ready: int = 0
    desc: int = 0
    driver: int = 0
    device: int = 0
    next_available: int = 0
    next_used: int = 0


@dataclass
class Device:
    queues: list
    status: int = 0
    device_features_sel: int = 0
    driver_features_sel: int = 0
    driver_features: int = 0
    queue_sel: int = 0
    interrupt_status: int = 0


@dataclass
class Checkpoint:
    pages: int
    sectors: int
    generation: int = 1
    number: int = 1
    steps: int = 0
    registers: list = field(default_factory=lambda: [0] * 31)
    pc: int = 0x80000000
    # mstatus, mie, mtvec, mscratch, mepc, mcause, mtval
    csrs: list = field(default_factory=lambda: [0x1800, 0, 0, 0, 0, 0, 0])
    msip: int = 0
    mtimecmp: int = 2**64 - 1
    net: Device = field(default_factory=lambda: Device([Queue(), Queue()]))
    disk: Device = field(default_factory=lambda: Device([Queue()]))
    # page index -> {block index -> 64 bytes}
    page_records: dict = field(default_factory=dict)
    # sector index -> 512 bytes
    sector_records: dict = field(default_factory=dict)
    # version 1 has none
    version: int = 2
    frames: list = field(default_factory=list)


def queue_text(q):
    return struct.pack("<IIQQQHH", q.num, q.ready, q.desc, q.driver, q.device, q.next_available, q.next_used)


def device_text(d):
    record = struct.pack("<IIIQII", d.status, d.device_features_sel, d.driver_features_sel, d.driver_features, d.queue_sel, d.interrupt_status)
    return record + b"".join(map(queue_text, d.queues))


def text(c):
    """The one spelling of a checkpoint."""
    out = bytearray(MAGICS[c.version] + struct.pack("<IIQQQ", c.pages, c.sectors, c.generation, c.number, c.steps))
    out += struct.pack("<31Q", *c.registers) + struct.pack("<Q", c.pc) + struct.pack("<7Q", *c.csrs)
    out += struct.pack("<IQ", c.msip, c.mtimecmp) + device_text(c.net) + device_text(c.disk)
    out += struct.pack("<I", len(c.page_records))
    for page, blocks in sorted(c.page_records.items()):
        out += struct.pack("<IQ", page, sum(1 << i for i in blocks))
        out += b"".join(blocks[i] for i in sorted(blocks))
    out += struct.pack("<I", len(c.sector_records))
    for sector, data in sorted(c.sector_records.items()):
        out += struct.pack("<I", sector) + data
    if c.version == 2:
        out += struct.pack("<I", len(c.frames))
        out += b"".join(struct.pack("<I", len(frame)) + frame for frame in c.frames)
    return bytes(out)


class Malformed(Exception):
    """At the offset of the first byte of the first whole unit that breaks its rule."""


class Short(Exception):
    """The bytes end inside a unit, or between two units of one checkpoint."""


class Units:
    """The units of some bytes, one after another."""

    def __init__(self, data):
        self.data, self.at = data, 0

    def take(self, width, rule=lambda _: True):
        unit = self.data[self.at : self.at + width]
        if len(unit) < width:
            raise Short
        value = unit if width > 8 else int.from_bytes(unit, "little")
        if not rule(value):
            raise Malformed(self.at)
        self.at += width
        return value


def read_queue(units):
    num = units.take(4, lambda n: n in QUEUE_SIZES)
    ready = units.take(4, lambda n: n <= (1 if num else 0))
    return Queue(num, ready, *(units.take(8) for _ in range(3)), units.take(2), units.take(2))


def read_device(units, queues):
    status = units.take(4, lambda n: n & ~0xCF == 0)
    fields = [units.take(4), units.take(4), units.take(8), units.take(4), units.take(4, lambda n: n <= 3)]
    return Device([read_queue(units) for _ in range(queues)], status, *fields)


def read_one(units, pages, sectors):
    versions = {int.from_bytes(magic, "little"): version for version, magic in MAGICS.items()}
    version = versions[units.take(4, lambda n: n in versions)]
    units.take(4, lambda n: n == pages and (version == 2 or n <= MOST_OLD_PAGES))
    units.take(4, lambda n: n == sectors)
    c = Checkpoint(pages, sectors, version=version)
    c.generation = units.take(8, lambda n: 1 <= n < 2**62)
    c.number = units.take(8, lambda n: n < 2**62)
    c.steps = units.take(8)
    c.registers = [units.take(8) for _ in range(31)]
    c.pc = units.take(8, lambda n: n & 3 == 0)
    allowed = [
        lambda n: n & ~0x88 == 0x1800,
        lambda n: n & ~0x888 == 0,
        lambda n: n & 2 == 0,
        lambda n: True,
        lambda n: n & 3 == 0,
        lambda n: True,
        lambda n: True,
    ]
    c.csrs = [units.take(8, rule) for rule in allowed]
    c.msip = units.take(4, lambda n: n <= 1)
    c.mtimecmp = units.take(8)
    c.net, c.disk = read_device(units, 2), read_device(units, 1)
    last = -1
    for _ in range(units.take(4, lambda n: n <= pages)):
        last = units.take(4, lambda n: last < n < pages)
        mask = units.take(8, lambda n: n != 0)
        c.page_records[last] = {i: units.take(BLOCK, any) for i in range(64) if mask >> i & 1}
    last = -1
    for _ in range(units.take(4, lambda n: n <= sectors)):
        last = units.take(4, lambda n: last < n < sectors)
        c.sector_records[last] = units.take(SECTOR, any if c.number == 0 else lambda _: True)
    if c.version == 2:
        for _ in range(units.take(4, lambda n: n <= (MOST_FRAMES if c.number else 0))):
            length = units.take(4, lambda n: SHORTEST <= n <= LONGEST)
            c.frames.append(units.take(length))
    return c


def read_stream(data, pages, sectors):
    """The whole checkpoints, and the exception that ends them, or None where the bytes end with a checkpoint."""
    units, found = Units(data), []
    while units.at < len(data):
        try:
            found.append(read_one(units, pages, sectors))
        except (Malformed, Short) as ending:
            return found, ending
    return found, None


def lines(data, pages, sectors):
    """What check-stream prints, and its exit status."""
    found, ending = read_stream(data, pages, sectors)
    out = ""
    for c in found:
        kind = "full" if c.number == 0 else "delta"
        out += f"{kind} {c.generation} {c.number} pages {len(c.page_records)} sectors {len(c.sector_records)}"
        out += f" frames {len(c.frames)}\n" if c.version == 2 else "\n"
    if isinstance(ending, Malformed):
        return out + f"refused 11 Malformed {ending.args[0]}\n", 1
    if isinstance(ending, Short):
        return out + f"short at {len(data)}\n", 1
    return out, 0


def beacon(version=2):
    """The beacon on 2 pages and 1 sector, cut as number 1 of generation 1 after 22 steps: its frame is sent, and the used
    ring's idx, two bytes at 0x80001082, became 1. The frame is a header alone: to client 1, from the guest, of type 0x88b5."""
    c = Checkpoint(2, 1, generation=1, number=1, steps=22, pc=0x80000058, mtimecmp=MTIMECMP_AT_BOOT, version=version)
    c.registers[4:8] = [0x10001000, 1, 15, 11]
    sender = Queue(1, 1, 0x80001000, 0x80001040, 0x80001080, 1, 1)
    c.net = Device([Queue(), sender], 15, 0, 1, 1 << 32, 1, 1)
    block = bytearray(BLOCK)
    block[2] = 1
    c.page_records = {1: {2: bytes(block)}}
    if version == 2:
        c.frames = [bytes.fromhex("020000000101" "020000000001" "88b5")]
    return c


def disk_guest(version=2):
    """The guest 'disk 3 ab' on 2 pages and 8 sectors, cut as number 1 of generation 1 after 23 steps: its one request, of three
    descriptors, is done. The used ring at 0x80001080 has one entry, of the chain that begins at descriptor 0, with 1 byte written; the
    status byte at 0x80001110 went from ff to 0; and sector 3 is all ab."""
    c = Checkpoint(2, 8, generation=1, number=1, steps=23, pc=0x8000005C, mtimecmp=MTIMECMP_AT_BOOT, version=version)
    c.registers[4:8] = [0x10002000, 1, 15, 11]
    c.disk = Device([Queue(4, 1, 0x80001000, 0x80001040, 0x80001080, 1, 1)], 15, 0, 1, 1 << 32, 0, 1)
    used, status = bytearray(BLOCK), bytearray(BLOCK)
    used[2], used[8] = 1, 1
    status[16] = 0xFF
    c.page_records = {1: {2: bytes(used), 4: bytes(status)}}
    c.sector_records = {3: bytes([0xAB]) * SECTOR}
    return c


MTIMECMP_AT_BOOT = 2**64 - 1


def random_queue(r):
    num = r.choice(QUEUE_SIZES)
    ready = r.randrange(2) if num else 0
    return Queue(num, ready, *(r.getrandbits(64) for _ in range(3)), r.getrandbits(16), r.getrandbits(16))


def random_device(r, queues):
    numbers = [r.getrandbits(32), r.getrandbits(32), r.getrandbits(64), r.getrandbits(32), r.randrange(4)]
    return Device([random_queue(r) for _ in range(queues)], r.getrandbits(32) & 0xCF, *numbers)


def random_bytes(r, size):
    """Not all zero, and mostly zero."""
    data = bytearray(size)
    for _ in range(r.randrange(1, 5)):
        data[r.randrange(size)] = r.randrange(1, 256)
    return bytes(data)


def random_checkpoint(r, pages, sectors):
    number = r.choice((0, 0, 1, 2, r.randrange(1, 2**62), 2**62 - 1))
    c = Checkpoint(pages, sectors, r.choice((1, 2, r.randrange(1, 2**62), 2**62 - 1)), number, r.getrandbits(64))
    c.registers = [r.getrandbits(64) for _ in range(31)]
    c.pc = r.getrandbits(64) & ~3
    c.csrs = [0x1800 | r.getrandbits(12) & 0x88, r.getrandbits(12) & 0x888, r.getrandbits(64) & ~2, r.getrandbits(64)]
    c.csrs += [r.getrandbits(64) & ~3, r.getrandbits(64), r.getrandbits(64)]
    c.msip, c.mtimecmp = r.randrange(2), r.getrandbits(64)
    c.net, c.disk = random_device(r, 2), random_device(r, 1)
    for page in r.sample(range(pages), r.randrange(min(pages, 6) + 1)):
        mask = r.choice((1, 1 << 63, 2**64 - 1, r.getrandbits(64) | 1 << 40))
        c.page_records[page] = {i: random_bytes(r, BLOCK) for i in range(64) if mask >> i & 1}
    for sector in r.sample(range(sectors), r.randrange(min(sectors, 4) + 1)):
        zeros = number and r.random() < 0.3
        c.sector_records[sector] = bytes(SECTOR) if zeros else random_bytes(r, SECTOR)
    c.version = r.choice((1, 2, 2)) if pages <= MOST_OLD_PAGES else 2
    if c.version == 2 and number:
        for _ in range(r.choice((0, 0, 1, 2, 3, r.randrange(20), MOST_FRAMES))):
            c.frames.append(r.randbytes(r.choice((SHORTEST, 60, LONGEST, r.randrange(SHORTEST, LONGEST + 1)))))
    return c


def random_shape(seed):
    r = random.Random(f"shape {seed}")
    return r.choice((1, 2, 3, 17, 300, MOST_OLD_PAGES, MOST_OLD_PAGES + 1, MOST_PAGES)), r.choice((1, 2, 5, 64, 32768))


def random_stream(seed):
    r = random.Random(f"stream {seed}")
    pages, sectors = random_shape(seed)
    return b"".join(text(random_checkpoint(r, pages, sectors)) for _ in range(r.randrange(5)))


def variants(seed, data):
    """The stream itself, two of its beginnings, and some of its bytes set to others."""
    r = random.Random(f"variant {seed}")
    yield data
    if data:
        yield data[: r.randrange(len(data))]
        yield data[:-1]
        for _ in range(4):
            damaged = bytearray(data)
            damaged[r.randrange(len(data))] = r.choice((0, 1, 2, 0x40, 0x80, 0xFF))
            yield bytes(damaged)


def compare(remus, file, data, pages, sectors):
    """Ends the program where check-stream doesn't print what is printed here."""
    file.write_bytes(data)
    command = [remus, "check-stream", str(file), "--pages", str(pages), "--sectors", str(sectors)]
    ran = subprocess.run(command, capture_output=True, text=True)
    wanted, status = lines(data, pages, sectors)
    if (ran.stdout, ran.returncode, ran.stderr) != (wanted, status, ""):
        failed = Path(tempfile.mkdtemp()) / "failed.stream"
        failed.write_bytes(data)
        raise AssertionError(f"shape {pages} {sectors}: {ran.returncode} {ran.stdout!r}, not {status} {wanted!r}; see {failed}")


def compare_all(remus, streams):
    """Plays streams with their shapes, several at once."""
    played = 0
    with tempfile.TemporaryDirectory() as folder, ThreadPoolExecutor() as pool:

        def one(numbered):
            number, (data, pages, sectors) = numbered
            file = Path(folder) / str(number)
            compare(remus, file, data, pages, sectors)
            file.unlink()

        for _ in pool.map(one, enumerate(streams)):
            played += 1
    print(f"{played} streams are answered as they are here")


def random_variants(count, first):
    for seed in range(first, first + count):
        pages, sectors = random_shape(seed)
        for data in variants(seed, random_stream(seed)):
            yield data, pages, sectors


OTHER_BYTES = (0x00, 0x01, 0x02, 0x03, 0x04, 0x08, 0x10, 0x18, 0x40, 0x7F, 0x80, 0x88, 0xFE, 0xFF)


def damaged():
    """The beacon's and the disk guest's checkpoint, of both versions, cut to each length, and with each byte set to each of a dozen others;
    after a whole one too, where the offsets count from the file's start."""
    for c, other in ((guest(version), guest(3 - version)) for guest in (beacon, disk_guest) for version in (1, 2)):
        whole = text(c)
        for data in (whole, whole + whole, text(other) + whole, text(disk_guest()) + whole, bytes()):
            yield data, c.pages, c.sectors
        for place, byte in enumerate(whole):
            yield whole[:place], c.pages, c.sectors
            yield whole + whole[:place], c.pages, c.sectors
            others = [other for other in OTHER_BYTES if other != byte][:12]
            for other in others:
                yield whole[:place] + bytes([other]) + whole[place + 1 :], c.pages, c.sectors
            yield whole + whole[:place] + bytes([byte ^ 0xFF]) + whole[place + 1 :], c.pages, c.sectors


def main(words):
    match words:
        case ["beacon", *old]:
            sys.stdout.buffer.write(text(beacon(1 if old else 2)))
        case ["disk", *old]:
            sys.stdout.buffer.write(text(disk_guest(1 if old else 2)))
        case ["random", seed]:
            sys.stdout.buffer.write(random_stream(int(seed)))
        case ["shape", seed]:
            print(*random_shape(int(seed)))
        case ["lines", file, pages, sectors]:
            printed, status = lines(Path(file).read_bytes(), int(pages), int(sectors))
            sys.stdout.write(printed)
            sys.exit(status)
        case ["play", remus, count]:
            compare_all(remus, random_variants(int(count), 0))
        case ["play", remus, count, first]:
            compare_all(remus, random_variants(int(count), int(first)))
        case ["damage", remus]:
            compare_all(remus, damaged())
        case _:
            sys.exit(__doc__)


if __name__ == "__main__":
    main(sys.argv[1:])
