"""Scripts that stand elsewhere with what they print, each with the failures that fuzz/play puts before each of its events."""
from pathlib import Path

EXAMPLES = Path(__file__).parent.parent / "examples"
FRAME = "02000000010102000000000188b5"

IN_WORDS = {
    "a disk goes back to what was committed": "boot 2 8 1 disk 3 ab|step 23|cut|fail primary|golive|sector 3",
    "or has it, where the backup has it": "boot 2 8 1 disk 3 ab|step 23|cut|send|backup 0|fail primary|golive|sector 3",
    "a committed frame lands where the backup goes live":
        "boot 2 1 1 beacon|step 22|cut|send|backup 0|fail primary|golive|take 1|show",
    "and doesn't land again":
        "boot 2 1 1 beacon|step 22|cut|send|backup 0|ack 0|fail primary|golive|take 1|take 1|show",
    "packets late, twice and never": "boot 2 1 1 idle|cut|cut|send|backup 1|backup 0|backup 0|backup 1|backup 9",
    "an old acknowledgement opens no gate":
        "boot 2 1 1 beacon|cut|send|backup 0|fail backup|protect|step 22|cut|ack 0|take 1|show",
    "a new pair holds what came after its full checkpoint":
        "boot 2 1 1 beacon|fail backup|protect|step 22|send|backup 0|ack 0|take 1|fail primary|golive|take 1|step 22|take 1|show",
    "a new backup that fails": "boot 2 1 1 beacon|fail backup|protect|step 22|take 1|fail backup|take 1|show",
    "a pair has a backup": "boot 2 1 1 idle|protect|take 0|take 2",
    "four are pending": "boot 2 1 1 idle|cut|cut|cut|cut|cut|send|backup 0|ack 0|cut",
    "a frame that was taken in is dropped with its epoch":
        f"boot 2 1 1 idle|deliver 1 {FRAME}|admit 1|show|fail primary|golive|admit 1|show",
    "a stopped pair": "boot 2 1 1 idle|fail primary|step 1|fail backup|golive|fail primary|cut",
}
# Those in which fuzz/refusals refuses each allocation: each event that takes memory succeeds in one of them.
MEMORY_SCRIPTS = {
    "one frame to a client": "boot 2 1 1 beacon|step 22|cut|take 1|send|backup 0|take 1|ack 0|take 1|take 1|show",
    "a disk that goes back": "boot 2 8 1 disk 3 ab|step 23|cut|fail primary|golive|sector 3",
    "a disk that doesn't": "boot 2 8 1 disk 3 ab|step 23|cut|send|backup 0|fail primary|golive|sector 3",
    "going live": "boot 2 1 1 beacon|step 22|cut|send|backup 0|fail primary|golive|take 1|show",
    "a stale acknowledgement": "boot 2 1 1 beacon|cut|send|backup 0|fail backup|protect|step 22|cut|ack 0|take 1|show",
    "a new backup":
        "boot 2 1 1 beacon|fail backup|protect|step 22|send|backup 0|ack 0|take 1|fail primary|golive|take 1|step 22|take 1|show",
    "all other events":
        f"boot 2 1 1 idle|deliver 1 {FRAME}|admit 1|losein 1 0|step 1|cut|send|backup 0|backup 0|ack 0|deliver 1 {FRAME}|admit 1"
        "|fail primary|golive",
}
# Those of which oracle/evaluator.py knows the guest.
OF_EXAMPLES = ["first_frame", "losses", "lost_packets", "pending", "words"]

NEW_PAIR = [b"golive", b"protect"]
# Which node fails; and whether the new backup has its full checkpoint, and its acknowledgement came, before the script goes on.
BREAKS = [(node, is_filled) for is_filled in (False, True) for node in (b"fail primary", b"fail backup")]


def scripts():
    """Each worked script, as its lines."""
    examples = [(EXAMPLES / f"{name}.sim").read_bytes().splitlines() for name in OF_EXAMPLES]
    return [text.encode().split(b"|") for text in IN_WORDS.values()] + examples


def parts(lines):
    """The script cut in two before each of its events: N lines `step N` are N events."""
    for place, line in enumerate(lines):
        word, _, count = line.partition(b" ")
        if place == 0 or not line or line.startswith((b"#", b"boot")):
            continue
        yield lines[:place], lines[place:]
        for made in range(1, int(count) if word == b"step" else 1):
            yield lines[:place] + [b"step %d" % made], [b"step %d" % (int(count) - made)] + lines[place + 1:]


def broken():
    """Each failure before each event of each worked script, as (lines before, the node that fails, is the new pair filled, lines after)."""
    return [(before, *failure, after) for lines in scripts() for before, after in parts(lines) for failure in BREAKS]
