#!/usr/bin/env bash
# What it takes that a node gets a new backup, in a machine of 16384 pages, of which none, 16 or all aren't zero, and on a disk of which no
# sector or every one is written, beside the same in plain Rust (oracle/interpreter). First the full checkpoint, as tests/epochs cuts and encodes
# it: all is compared with zeros, and what isn't zero is copied and encoded. Then the whole line `protect`, which makes the new backup's empty
# machine besides; plain Rust writes as many zeros. There both take all large memory anew from the system (MALLOC_MMAP_THRESHOLD_), and
# the backup fails after each, so that the next one can come. Processor time, the best of TIMES (3 if left out) runs each, in turn; a run of
# no rounds is taken off.
#
# Beside each stands how many bytes the checkpoint has: 532, for each page that isn't zero 12 and 64 for each of its blocks that isn't, for
# each such sector 516, and for the others none. REMUS names another program to measure in the place of the repository's own, and EPOCHS
# another build of tests/epochs.
set -eu
cd "$(dirname "$0")/.."
program=${REMUS:-crates/remus/out/remus}
epochs=${EPOCHS:-$(tests/epochs/build.sh)}
# Built before the clock starts.
[ -n "${REMUS:-}" ] || ./remus sim /dev/null
(cd oracle/interpreter && cargo build --release --quiet)
exec python3 - "$program" "$epochs" "${1:-3}" <<'PYTHON'
import os
import resource
import struct
import subprocess
import sys
import tempfile
from pathlib import Path

from oracle.checkpoints import Units, read_one
from oracle.sender import addi, i_type, jump, s_type, upper

PROGRAM, EPOCHS, TIMES = sys.argv[1], sys.argv[2], int(sys.argv[3])
INTERPRETER = "oracle/interpreter/target/release/interpreter"
PAGES, BLOCK, PAGE = 16384, 64, 4096
# So many bytes of checkpoints are made in one run, but no more rounds than that.
BYTES, ROUNDS = 400_000_000, 100


def filler(pages, blocks):
    """A guest that writes the last bytes of the first block, or of all blocks, of so many pages, and then stays where it is; and how many
    steps that takes. It lies in a block that it writes."""
    base, end, stride, one = 8, 9, 7, 6
    step = upper(0x37, stride, 1) if blocks == 1 else addi(stride, 0, BLOCK)
    add = [base << 20 | end << 15 | end << 7 | 0x33, stride << 20 | base << 15 | base << 7 | 0x33]
    back = end << 20 | base << 15 | 6 << 12 | 0x7F << 25 | 0b11001 << 7 | 0x63  # BLTU base, end, -8
    words = [upper(0x17, base, 0), upper(0x37, end, pages), add[0], step, addi(one, 0, 1), s_type(2, base, one, 60), add[1], back, jump(0)]
    return words, 5 + 3 * pages * blocks


def stream():
    """The guest of stream.c, which writes the whole disk several times."""
    return [int(word, 16) for word in Path("guests/words/stream.words").read_text().split()], 581_939


def nothing():
    """No guest: the memory is zero."""
    return [0], 1


def spent(command, fresh):
    """The processor time of a command, and what it prints; where large memory always comes anew from the system, or as the C library likes."""
    environment = os.environ | ({"MALLOC_MMAP_THRESHOLD_": "131072"} if fresh else {})
    before = resource.getrusage(resource.RUSAGE_CHILDREN)
    printed = subprocess.run(command, check=True, capture_output=True, text=True, env=environment).stdout
    after = resource.getrusage(resource.RUSAGE_CHILDREN)
    return after.ru_utime + after.ru_stime - before.ru_utime - before.ru_stime, printed


def script(folder, words, steps, sectors, rounds):
    lines = [f"boot {PAGES} {sectors} 1 words " + " ".join(f"{word:08x}" for word in words), f"step {steps}", "fail backup"]
    path = Path(folder) / f"{rounds}.sim"
    path.write_text("\n".join(lines + ["protect", "fail backup"] * rounds) + "\n")
    return [PROGRAM, "sim", str(path)]


def has_protected(printed, rounds):
    return printed.count("protecting ") == rounds and printed.endswith(f"alone {rounds + 1} landed 0\n")


def plain(folder, steps, sectors, zeros, rounds):
    return [INTERPRETER, "protect", str(PAGES), str(sectors), f"{folder}/words", str(steps), zeros, str(rounds)]


def size_of_full(image, steps, sectors):
    """The bytes of the full checkpoint among those that tests/epochs cuts of a guest, and how many pages and sectors stand there."""
    command = [EPOCHS, "cuts", str(image), str(PAGES), str(sectors), str(steps)]
    units = Units(subprocess.run(command, check=True, capture_output=True).stdout)
    while True:
        start = units.at
        found = read_one(units, PAGES, sectors)
        if found.number == 0:
            return units.at - start, len(found.page_records), len(found.sector_records)


def best_of(commands, rounds, fresh):
    """The least time of a round of each of these commands, which take the number of rounds."""
    best = {}
    for _ in range(TIMES):
        for what, command in commands.items():
            for count in (0, rounds):
                seconds, printed = spent(command(count), fresh)
                if what == "line" and not has_protected(printed, count):
                    sys.exit(printed[-200:])
                best[what, count] = min(seconds, best.get((what, count), seconds))
    return {what: (best[what, rounds] - best[what, 0]) / rounds for what in commands}


def measure(name, guest, sectors):
    words, steps = guest
    with tempfile.TemporaryDirectory() as folder:
        (Path(folder) / "words").write_text(" ".join(f"{word:08x}" for word in words))
        image = Path(folder) / "image"
        image.write_bytes(struct.pack(f"<{len(words)}I", *words))
        size, pages, used = size_of_full(image, steps, sectors)
        if int(spent(plain(folder, steps, sectors, "unmade", 0), False)[1]) != size:
            sys.exit(f"{name}: plain Rust has other than {size} bytes")
        rounds = max(8, min(ROUNDS, BYTES // size))
        cut = best_of({
            "proved": lambda n: [EPOCHS, "full", str(image), str(PAGES), str(sectors), str(steps), str(n)],
            "plain": lambda n: plain(folder, steps, sectors, "unmade", n),
        }, rounds, False)
        whole = best_of({
            "line": lambda n: script(folder, words, steps, sectors, n),
            "plain": lambda n: plain(folder, steps, sectors, "written", n),
        }, rounds, True)
        print(f"{name}: {size} bytes, {pages} pages, {used} sectors\n"
              f"    its checkpoint  {cut['proved'] * 1e3:7.2f} ms, plain Rust {cut['plain'] * 1e3:7.2f} ms, ratio {cut['proved'] / cut['plain']:.2f}\n"
              f"    the whole line  {whole['line'] * 1e3:7.2f} ms, plain Rust {whole['plain'] * 1e3:7.2f} ms, ratio {whole['line'] / whole['plain']:.2f}",
              flush=True)


FEW, MANY = 64, 32768
measure("nothing but zeros, 64 sectors", nothing(), FEW)
measure("16 pages of one block, 64 sectors", filler(16, 1), FEW)
measure("16 whole pages, 64 sectors", filler(16, 64), FEW)
measure("16384 pages of one block, 64 sectors", filler(PAGES, 1), FEW)
measure("16384 whole pages, 64 sectors", filler(PAGES, 64), FEW)
measure("16 whole pages, 32768 sectors of zeros", filler(16, 64), MANY)
measure("a driver's pages, 32768 sectors that aren't zero", stream(), MANY)
PYTHON
