#!/usr/bin/env bash
# How long the backup takes to go live, at four sizes of memory and disk, beside a copy of as many bytes, and beside what the system
# takes to be given back the memory of a machine, as that of the stopped primary is then; the same where it has kept 1024 frames of 1514
# bytes, which land for 16 clients, beside a copy of these; how fast a loop of arithmetic runs where a node is alone, beside the same
# loop in a pair; and the most memory that 20 million steps take there. Going live is the middle of TIMES (20 if left out) times, and too
# noisy where that is less than can be seen from outside; the others are the best of some times. REMUS names another program to measure in
# the place of the repository's own.
set -eu
cd "$(dirname "$0")/.."
program=${REMUS:-crates/remus/out/remus}
# Built before the clock starts.
[ -n "${REMUS:-}" ] || ./remus sim /dev/null
exec python3 - "$program" "${1:-20}" <<'PYTHON'
import mmap
import os
import re
import resource
import statistics
import subprocess
import sys
import tempfile
import time
from pathlib import Path

PROGRAM, TIMES = sys.argv[1], int(sys.argv[2])
PAGE, SECTOR = 4096, 512
FRAMES, LONGEST, BOX = 1024, 1514, 256
CACHES = 64 << 20
ROUNDS = 100


def processor_time():
    """The processor time of the programs that were played so far."""
    usage = resource.getrusage(resource.RUSAGE_CHILDREN)
    return usage.ru_utime + usage.ru_stime


def play(lines, wanted=()):
    """Plays a script: its processor time, and when each of the wanted texts was printed, by a reader that doesn't sleep."""
    with tempfile.NamedTemporaryFile("w", suffix=".sim") as script:
        script.write("\n".join(lines) + "\n")
        script.flush()
        before = processor_time()
        process = subprocess.Popen([PROGRAM, "sim", script.name], stdout=subprocess.PIPE)
        os.set_blocking(process.stdout.fileno(), False)
        printed, when = b"", {}
        while True:
            try:
                part = os.read(process.stdout.fileno(), 65536)
            except BlockingIOError:
                continue
            now = time.perf_counter()
            printed = printed[-100:] + part
            for text in wanted:
                if text in printed:
                    when.setdefault(text, now)
            if not part:
                break
        process.wait()
        for text in wanted:
            if text not in when:
                sys.exit(f"{text.decode()} was not printed")
        return processor_time() - before, [when[text] for text in wanted]


def failing(lines, live):
    """How long `golive` takes after these lines. A line `step 100000` has all that was printed before it written out, and where the
    primary has stopped it does nothing else."""
    written = ["step 100000"]
    _, (before, after) = play(lines + ["fail primary"] + written + ["golive"] + written, [b"stopped primary\n", live])
    return after - before


def going_live(pages, sectors):
    return failing([f"boot {pages} {sectors} 1 beacon", "step 22", "cut", "send", "backup 0", "step 5"], b"live 2 steps 22\n")


def landing_kept(used):
    """The guest of guests/flood.c, but for 16 clients, which is one constant of its words: its loop ends at CLIENTS + 1. It sends until its
    outbox is full, 256 frames an epoch, 16 of them to each client. Four epochs are kept. Where boxes have been used, each was full once,
    and all was taken; else their memory is still to come from the system."""
    few, many = "00400813", "01100813"
    words = Path("guests/words/flood.words").read_text().strip()
    if words.count(few) != 1:
        sys.exit("guests/words/flood.words isn't the guest that this script knows")
    lines, before = [f"boot 2 1 16 words {words.replace(few, many)}"], BOX // 16 if used else 0
    for epoch in range(before):
        lines += ["step 30000", "cut", "send", f"backup {epoch}", f"ack {epoch}"]
    lines += [f"take {client}" for client in range(1, 17) for _ in range(BOX)]
    lines += ["step 30000", "cut"] * 4 + ["send"] + [f"backup {before + packet}" for packet in range(4)]
    return failing(lines, b"\nlive 2 steps ")


def succeeded(pages, sectors, rounds):
    """The processor time of so many failures of a primary, after each of which a new backup is filled."""
    lines = [f"boot {pages} {sectors} 1 beacon", "step 22"]
    for packet in range(rounds):
        lines += ["fail primary", "golive", "protect", "send", f"backup {packet}", f"ack {packet}"]
    return play(lines)[0]


def copying(count, fresh=False):
    """The time in which so many bytes are copied that no cache holds any longer, as those of frames that were kept some epochs ago: into
    memory that is fresh from the system, or that isn't."""
    source, target = memoryview(bytearray(b"x" * count)), mmap.mmap(-1, count)
    if not fresh:
        target[:] = source
    bytearray(b"x" * CACHES)
    start = time.perf_counter()
    target[:] = source
    return time.perf_counter() - start


def giving_back(pages, sectors):
    """The time in which a machine's memory is given back: its pages, these as they were at the last settle, and its disk."""
    areas = [mmap.mmap(-1, count) for count in (pages * PAGE, pages * PAGE, sectors * SECTOR)]
    for area in areas:
        area.write(b"x" * len(area))
    start = time.perf_counter()
    for area in areas:
        area.close()
    return time.perf_counter() - start


def seen(seconds):
    """A time in microseconds, or that it can't be told from none."""
    return f"{seconds * 1e6:6.0f} us" if seconds * 1e6 >= 0.5 else "too noisy"


for pages, sectors in [(16, 64), (256, 2048), (4096, 32768), (16384, 32768)]:
    live = statistics.median(going_live(pages, sectors) for _ in range(TIMES))
    copied = min(copying(pages * PAGE + sectors * SECTOR) for _ in range(TIMES))
    given = min(giving_back(pages, sectors) for _ in range(TIMES))
    one, more = (min(succeeded(pages, sectors, rounds) for _ in range(5)) for rounds in (1, ROUNDS + 1))
    print(f"{pages:5} pages, {sectors:5} sectors: going live {seen(live)}, copying them {copied * 1e6:6.0f} us, "
          f"giving back a machine's {given * 1e6:6.0f} us; with a new backup {seen((more - one) / ROUNDS)}", flush=True)

for used, boxes in [(True, "boxes that were used"), (False, "boxes fresh from the system")]:
    live = statistics.median(landing_kept(used) for _ in range(TIMES))
    copied = min(copying(FRAMES * LONGEST, not used) for _ in range(TIMES))
    ratio = f", ratio {live / copied:.2f}" if seen(live) != "too noisy" else ""
    print(f"{FRAMES} kept frames of {LONGEST} bytes, {boxes}: going live {seen(live)}, copying them {copied * 1e6:6.0f} us{ratio}",
          flush=True)

words = Path("bench/loops/arithmetic.words").read_text().strip()
count, modes = 50_000_000, {"paired": [], "alone": ["fail backup"]}
best = {}
for _ in range(3):
    for mode, lines in modes.items():
        spent, _ = play([f"boot 2 1 1 words {words}", *lines, f"step {count}"])
        best[mode] = min(spent, best.get(mode, spent))
print(f"arithmetic: alone {count / best['alone'] / 1e6:.0f} million steps a second, "
      f"{best['paired'] / best['alone']:.2f} times as many as in a pair", flush=True)

for mode, lines in modes.items():
    with tempfile.NamedTemporaryFile("w", suffix=".sim") as script:
        script.write("\n".join([f"boot 2 1 1 words {words}", *lines, "step 20000000"]) + "\n")
        script.flush()
        process, most = subprocess.Popen([PROGRAM, "sim", script.name], stdout=subprocess.DEVNULL), "nothing"
        while process.poll() is None:
            seen = re.search(r"VmHWM:\s*(.*)", Path(f"/proc/{process.pid}/status").read_text())
            most = seen[1] if seen else most
            time.sleep(0.02)
        print(f"20 million steps, {mode}: at most {most} of memory", flush=True)
PYTHON
