#!/usr/bin/env python3
"""Hostile requests at a daemon's control socket, of all verbs, with all fields and values of all types and sizes, where it is empty, live
and alone, live with a standby, and a standby, while a client asks the guest:

    fuzz/requests.py 20000 --seed 1

Each gets one answer, and none of it ends a daemon, changes its role, stops the guest, or goes wrong by a mistake of the daemon's. REMUS
and REMUS_NODE name the program as in tests/hosts.py. The last line says how many requests were answered how, and what is wrong."""
import argparse
import collections
import json
import os
import random
import socket
import sys
import tempfile
import time
from pathlib import Path
from typing import Any

ROOT = Path(__file__).resolve().parents[1]
sys.path.insert(0, str(ROOT))
from host import requests
from host.control import MOST_LINE
from tests.hosts import Asker, Host, loopback_pair, protected

COUNTER = ROOT / "examples" / "counter.sim"
PATIENCE = 30.0  # seconds
FIELDS = sorted({field for fields in requests.REQUESTS.values() for field in fields})
NUMBERS = ["0", "1", "-1", "2.5", "1e3", "1e400", "-1e400", "1e-400", "9" * 400, "9" * 5000, "NaN", "Infinity", "-Infinity", "-0", "1e308",
           str(2**63), str(2**64)]
OTHERS = ["null", "true", "false", "[]", "{}", "[[[]]]", '{"do": "status"}', "[" * 900 + "]" * 900, '[1, "/x", null]']


# Only to be read: a daemon that replaced one of these would take it from the whole machine.
DEVICES = [json.dumps(each) for each in ("/dev/null", "/dev/zero", "/dev/full", "/proc/self/mem", "/proc/self/fd/0")]


def texts(room: Path) -> list[str]:
    """What a text may be, spelled as JSON. No path of these can be written, but one in the room."""
    return [json.dumps(each) for each in (
        "", "\0", "/\0", "/a\0b", "\ud800", "/\ud800", "/\udcff", "/", "//", "/.", "/..", "/tmp/", "x", "../x", "~", "/nowhere/x",
        "/" + "x" * 300, "/" + "x" * 5000, "/" + "x/" * 3000, "x" * 60000,
        f"{room}/é\n\r\t\x1b[0m", "true", "9", str(room), str(room / "pipe"), str(room / "socket"), str(room / "link"),
        str(room / "folder"), str(room / "short"), str(room / "saved"), str(room / "guest"), "status", "a standby")]


def prepared(room: Path) -> None:
    """What stands in the room: of each kind of file one."""
    os.mkfifo(room / "pipe")
    (room / "folder").mkdir()
    (room / "link").symlink_to(room / "nowhere")
    (room / "short").write_bytes(b"RMC2" + bytes(20))
    (room / "guest").write_bytes(COUNTER.read_bytes())
    with socket.socket(socket.AF_UNIX) as line:
        line.bind(str(room / "socket"))


def request(rng: random.Random, words: list[str]) -> bytes:
    """One request, without its newline: nearly a right one, or one of anything."""
    if rng.random() < 0.5:
        verb = rng.choice(list(requests.REQUESTS))
        own = [field for field in requests.REQUESTS[verb] if rng.random() < 0.6]
        likely = {"within_ms": NUMBERS, "from": words + DEVICES, "disk": words + DEVICES, "file": words, "standby": words}
        pairs = [(field, rng.choice(likely.get(field, ["true", "true", "false"]))) for field in own]
        return ('{"do": "%s"' % verb + "".join(f', "{field}": {value}' for field, value in pairs) + "}").encode()
    values = NUMBERS + OTHERS + 2 * words
    verb = json.dumps(rng.choice([*requests.REQUESTS] * 3 + ["nothing", "", "__init__", "do", "did", "\0", "x" * 5000]))
    fields = [('"do"', verb if rng.random() < 0.95 else rng.choice(values))]
    for _ in range(rng.choice([0, 1, 1, 1, 2, 2, 3, 5])):
        name = rng.choice(FIELDS * 4 + ["answer", "self", "source", "", "\ud800", "x" * 3000])
        fields.append((json.dumps(name), rng.choice(values)))
    rng.shuffle(fields)
    line = "{" + ", ".join(f"{name}: {value}" for name, value in fields) + "}"
    return (line if rng.random() < 0.98 else line[:rng.randrange(len(line))]).encode()


def changes_role(role: str, verb: str, given: dict[str, Any]) -> bool:
    """Whether a request that is right would change what this host is."""
    if role == "empty":
        return verb == "promote" and given.get("boot", False) and "disk" not in given
    if role == "standby":
        return verb == "promote" and not given.get("boot") and "source" not in given
    return verb == "demote" or role == "paired" and verb in ("alone", "drain")


def asked(host: Host, role: str, rng: random.Random, count: int, words: list[str], seen: collections.Counter) -> str | None:
    """Asks so many, and counts what they were answered. Answers what is wrong."""
    with socket.socket(socket.AF_UNIX) as line:
        line.settimeout(PATIENCE)
        line.connect(host.control)
        with line.makefile("rb") as answers:
            while count > 0:
                one = request(rng, words)
                if is_change(role, one) or len(one) > MOST_LINE:
                    continue
                count -= 1
                line.sendall(one + b"\n")
                came = answers.readline()
                if not came:
                    return f"{role}: no answer to {one[:200]!r}: {host.said()[-1500:]}"
                answer = json.loads(came)
                seen["done" if answer["ok"] else answer["refused"]] += 1
                if answer.get("refused") == "Internal":
                    return f"{role}: {one[:200]!r} went wrong: {answer['why']}"
    return None


def is_change(role: str, line: bytes) -> bool:
    try:
        return changes_role(role, *requests.read(line))
    except requests.Wrong:
        return False


def play(room: Path, count: int, seed: int) -> tuple[collections.Counter, str | None]:
    """So many requests, a quarter in each role. Answers how they were answered, and what is wrong."""
    rng, seen = random.Random(seed), collections.Counter()
    a, b = loopback_pair(room, COUNTER)
    prepared(room)
    words = texts(room)
    asker = Asker(a, b)
    try:
        a.start()
        wrong = asked(a, "empty", rng, count // 4, words, seen)
        if (role := a.status()["role"]) != "empty":
            return seen, f"an empty host is {role}"
        a.ask("promote", boot=True)
        asker.start()
        asker.wait(3)
        wrong = wrong or asked(a, "alone", rng, count // 4, words, seen)
        asker.wait(3)
        b.start()
        protected(a, b)
        wrong = wrong or asked(a, "paired", rng, count // 4, words, seen) or asked(b, "standby", rng, count // 4, words, seen)
        asker.wait(3)
        asker.end()
        roles = a.status()["mode"], b.status()["role"], b.status()["full"]
        left = sorted(path.name for path in room.iterdir() if path.name.startswith("."))
        return seen, wrong or asker.wrong() or (f"{roles}, {left}" if (roles, left) != (("paired", "standby", True), []) else None)
    except (TimeoutError, OSError, KeyError) as error:
        return seen, f"{type(error).__name__}: {error}"
    finally:
        a.kill()
        b.kill()


def main() -> bool:
    reader = argparse.ArgumentParser(description=__doc__, formatter_class=argparse.RawDescriptionHelpFormatter)
    reader.add_argument("count", type=int)
    reader.add_argument("--seed", type=int, default=1)
    plan = reader.parse_args()
    with tempfile.TemporaryDirectory() as room:
        begun = time.monotonic()
        seen, wrong = play(Path(room), plan.count, plan.seed)
        kinds = ", ".join(f"{count} {kind}" for kind, count in seen.most_common())
        print(f"{sum(seen.values())} requests in {time.monotonic() - begun:.0f} s ({kinds}): {wrong or 'right'}")
    return wrong is not None


if __name__ == "__main__":
    sys.exit(main())
