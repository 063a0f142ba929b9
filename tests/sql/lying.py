"""Messages of PostgreSQL's protocol whose lengths and counts aren't so, at each stage of a connection: the guest's own parts are fed with
them, watched by a timer and by the compiler's checks of memory."""
from __future__ import annotations

import base64
import random
import re
import struct
import tempfile
from collections.abc import Callable, Iterator
from pathlib import Path

from tests.postgres import bind, message, parse, string
from tests.sql.host import Built, Fed
from tests.sql.units import differs

POSTGRES, HTTP = 5432, 80
RUNS = 500  # conversations of each stage
GOOD, LIAR = 0, 1  # places
LIES = [0, 1, 2, 3, 4, 5, 7, 8, 9, -1, -2, -3, -4, -5, 0x7FFFFFFF, -0x80000000, -0x7FFFFFFC, 255, 256, 65535, 65536, 262143, 262144, 262145]
SYNC = message(b"S")
START = struct.pack(">II", 17, 196608) + b"user\0me\0\0"


class Part:
    """A message, and where in it numbers stand that tell lengths or counts: the place and the bytes of each."""

    def __init__(self, data: bytes, *numbers: tuple[int, int]) -> None:
        self.data, self.numbers = data, numbers

    def lying(self, rng: random.Random) -> bytes:
        """The same with another number in one of these places."""
        at, size = rng.choice(self.numbers)
        true = int.from_bytes(self.data[at:at + size], "big")
        lie = rng.choice([*LIES, true - 1, true + 1, true + 4, rng.randrange(1 << 32)])
        return self.data[:at] + (lie % (1 << 8 * size)).to_bytes(size, "big") + self.data[at + size:]


def typed(data: bytes, *numbers: tuple[int, int]) -> Part:
    """A message that has a type, and behind that its length."""
    return Part(data, (1, 4), (1, 4), *numbers)


def parse_part(name: str, sql: str, types: int) -> Part:
    front = message(b"P", string(name), string(sql))
    data = message(b"P", string(name), string(sql), struct.pack(f">H{types}I", types, *[25] * types))
    return typed(data, (len(front), 2))


def bind_part(portal: str, name: str, *values: bytes) -> Part:
    at = 5 + len(portal) + 1 + len(name) + 1
    data = string(portal) + string(name) + struct.pack(">HHH", 1, 0, len(values))
    places = [(at, 2), (at + 4, 2)]
    for value in values:
        places.append((5 + len(data), 4))
        data += struct.pack(">I", len(value)) + value
    places.append((5 + len(data), 2))
    return typed(message(b"B", data, struct.pack(">HH", 1, 0)), *places)


def execute_part(portal: str, most: int) -> Part:
    return typed(message(b"E", string(portal), struct.pack(">I", most)), (6 + len(portal), 4))


def first_proof() -> Part:
    said = b"n,,n=,r=" + base64.b64encode(b"x" * 18)
    data = message(b"p", string("SCRAM-SHA-256"), struct.pack(">I", len(said)), said)
    return typed(data, (5 + 14, 4))


EXTENDED = [parse_part("s", "SELECT $1 || $2, 7", 2), bind_part("", "s", b"abc", b"def"), typed(message(b"D", b"P\0")), execute_part("", 0),
            typed(SYNC)]
PORTALS = [typed(message(b"Q", string("BEGIN"))), parse_part("r", "VALUES(1),(2),(3)", 0), bind_part("p", "r"), execute_part("p", 1),
           typed(SYNC), execute_part("p", 1), typed(message(b"C", b"Pp\0")), typed(SYNC)]
TABLE = typed(message(b"Q", string("CREATE TABLE IF NOT EXISTS t(a INTEGER, b TEXT); DELETE FROM t")))
TUPLES = typed(message(b"d", b"PGCOPY\n\xff\r\n\0", struct.pack(">IIHiqi", 0, 0, 2, 8, 7, 1), b"x\xff\xff"), (16, 4), (20, 4), (24, 2), (26, 4),
               (38, 4), (43, 2))
# What a client says at each stage; whether it is let in only with a password.
STAGES: dict[str, tuple[str, list[Part]]] = {
    "the start": ("", [Part(START, (0, 4))]),
    "the start, where a password is asked for": ("secret", [Part(START, (0, 4))]),
    "an encryption that is asked for": ("", [Part(struct.pack(">II", 8, 80877103), (0, 4)), Part(START, (0, 4))]),
    "a cancelling": ("", [Part(struct.pack(">IIII", 16, 80877102, 1, 1), (0, 4))]),
    "who it is": ("secret", [Part(START, (0, 4)), first_proof()]),
    "the proof": ("secret", [Part(START, (0, 4)), first_proof(), typed(message(b"p", b"c=biws,r=x,p=" + base64.b64encode(b"y" * 32)))]),
    "before the proof": ("secret", [Part(START, (0, 4)), *EXTENDED]),
    "simple queries": ("", [Part(START, (0, 4)), typed(message(b"Q", string("SELECT 7"))), typed(message(b"Q", string("")))]),
    "extended queries": ("", [Part(START, (0, 4)), *EXTENDED]),
    "portals": ("", [Part(START, (0, 4)), *PORTALS]),
    "a copy that was refused": ("", [Part(START, (0, 4)), typed(message(b"Q", string("COPY nowhere FROM STDIN"))),
                                     typed(message(b"d", b"1\t2\n")), typed(message(b"c")), typed(message(b"f", string("no")))]),
    "a copy": ("", [Part(START, (0, 4)), TABLE, typed(message(b"Q", string("COPY t FROM STDIN"))), typed(message(b"d", b"1\t2\n3")),
                    typed(message(b"d", b"\t4\n")), typed(message(b"c")), typed(message(b"Q", string("COPY t TO STDOUT")))]),
    "a copy in CSV": ("", [Part(START, (0, 4)), TABLE, typed(message(b"Q", string("COPY t(a, b) FROM STDIN WITH (FORMAT csv, HEADER)"))),
                           typed(message(b"d", b'a,b\n"1 ""')), typed(message(b"d", b'",\n')), typed(message(b"f", string("no")))]),
    "a copy in binary": ("", [Part(START, (0, 4)), TABLE, typed(message(b"Q", string("COPY t FROM STDIN (FORMAT binary)"))), TUPLES,
                              typed(message(b"c")), typed(message(b"Q", string("COPY t TO STDOUT (FORMAT binary)")))]),
}


def is_whole(said: bytes) -> bool:
    """Whether what the server says is messages, after the N of an encryption that isn't there."""
    while said[:1] == b"N" and said[1:5] not in (b"", b"\0\0\0\x4f") and not 4 < int.from_bytes(said[1:5], "big") < 500:
        said = said[1:]
    said = b"" if said == b"N" else said
    while said:
        if len(said) < 5 or (length := int.from_bytes(said[1:5], "big")) < 4 or length >= len(said):
            return False
        said = said[1 + length:]
    return True


def answered(fed: Fed) -> bytes:
    """What a client that is right gets."""
    return fed.tell("take", GOOD, message(b"Q", string("SELECT 42")).hex())[1]


def converse(fed: Fed, rng: random.Random, parts: list[Part]) -> str | None:
    """A conversation in which one message lies, in as many pieces as it happens. Answers what is wrong with what was said."""
    liar = rng.randrange(len(parts))
    data = b"".join(part.lying(rng) if at == liar else part.data for at, part in enumerate(parts))
    fed.tell("open", LIAR, POSTGRES)
    is_there, said = True, b""
    while data and is_there:
        count = rng.choice([1, 5, 17, len(data), len(data)])
        is_there, more = fed.tell("take", LIAR, data[:count].hex())
        data, said = data[count:], said + more
    said += fed.tell("end", LIAR)[1]
    return None if is_whole(said) else f"what it said isn't whole messages: {said!r}"


def stage(built: Built, room: Path, name: str, password: str, parts: list[Part]) -> str | None:
    rng = random.Random(name)
    with Fed(built, room / f"disk_{password}", password) as fed:
        if not password:
            fed.tell("open", GOOD, POSTGRES)
            fed.tell("take", GOOD, START.hex())
            wanted = answered(fed)
        for run in range(RUNS):
            wrong = converse(fed, rng, parts)
            if wrong is None and not password and run % 20 == 0:
                wrong = differs(answered(fed), wanted)
            if wrong:
                return f"run {run}: {wrong}"
    return None


def hidden_length(fed: Fed) -> str | None:
    """A message of no more than its head, whose length is -1, behind one that is whole: 26 bytes of a client that has no password."""
    fed.tell("open", LIAR, POSTGRES)
    data = struct.pack(">II", 9, 196608) + b"\0" + message(b"p", b"SCRAM-S") + b"x\xff\xff\xff\xff"
    is_there, said = fed.tell("take", LIAR, data.hex())
    return differs([is_there, said[:1], b"28P01" in said], [False, b"R", True])


def many(fed: Fed) -> str | None:
    """As many messages as there is room for, none of which executes anything: they are looked at once."""
    fed.tell("open", LIAR, POSTGRES)
    fed.tell("take", LIAR, START.hex())
    seen = fed.tell("take", LIAR, (message(b"H") * 75_000).hex())
    return differs([seen, fed.tell("take", LIAR, SYNC.hex())], [(True, b""), (True, b"Z\0\0\0\5I")])


def wider(fed: Fed) -> str | None:
    """A portal whose statement has got more columns than it had when the portal was made."""
    fed.tell("open", LIAR, POSTGRES)
    said = b""
    for data in [START, ask("CREATE TABLE wide(a)"), ask("BEGIN"),
                 parse("w", "INSERT INTO wide(a) SELECT 1 WHERE 0 RETURNING *") + bind("old", "w", (), False, True) + SYNC,
                 *(ask(f"ALTER TABLE wide ADD COLUMN b{column}") for column in range(60)),
                 bind("new", "w") + message(b"E", string("new"), bytes(4)) + message(b"D", b"P", string("old")) + SYNC]:
        is_there, said = fed.tell("take", LIAR, data.hex())
    return differs([is_there, b"0A000" in said], [True, True])


def ask(sql: str) -> bytes:
    return message(b"Q", string(sql))


def fed_alone(built: Built, disk: Path, password: str, act: Callable[[Fed], str | None]) -> str | None:
    with Fed(built, disk, password) as fed:
        return act(fed)


REQUESTS = [
    b"POST /sql HTTP/1.1\r\nHost: a\r\nContent-Length: 8\r\n\r\nSELECT 7", b"GET /sql?q=SELECT+7&format=json HTTP/1.1\r\nHost: a\r\n\r\n",
    b"POST /sql HTTP/1.1\r\nContent-Type: application/x-www-form-urlencoded\r\nContent-Length: 12\r\n\r\nq=SELECT+%37",
    b"GET / HTTP/1.1\r\nOrigin: https://a:443\r\nHost: a\r\nAuthorization: Basic bWU6d3Jvbmc=\r\nReferer: http://a/\r\n\r\n",
    b"PUT /sql HTTP/1.1\r\nExpect: 100-continue\r\nContent-Length: 4\r\n\r\nx\r\n\r",
    b"HEAD /log HTTP/1.0\r\nConnection: keep-alive\r\n\r\n",
]


def broken(rng: random.Random, request: bytes) -> bytes:
    """A request of which some bytes are others, gone, or there twice, or whose length isn't so."""
    for _ in range(rng.randrange(1, 4)):
        at, kind = rng.randrange(len(request)), rng.randrange(4)
        if kind == 0:
            request = request[:at] + bytes([rng.choice(b"\r\n\0 :=%&?/\xff\t09")]) + request[at + 1:]
        elif kind == 1:
            request = request[:at] + request[at + rng.randrange(1, 8):]
        elif kind == 2:
            request = request[:at] + request[max(0, at - rng.randrange(40)):]
        else:
            request = re.sub(rb"Length: -?\d+", b"Length: %d" % rng.choice([*LIES, 10 ** 20]), request)
        request = request or b"x"
    return request


def requests(fed: Fed) -> str | None:
    """Broken requests; a client that is right is answered after each."""
    rng = random.Random(5)
    fed.tell("open", GOOD, HTTP)
    for run in range(RUNS):
        data, is_there, said = b"".join(broken(rng, rng.choice(REQUESTS)) for _ in range(rng.randrange(1, 4))), True, b""
        fed.tell("open", LIAR, HTTP)
        while data and is_there:
            count = rng.choice([1, 30, len(data), len(data)])
            is_there, more = fed.tell("take", LIAR, data[:count].hex())
            data, said = data[count:], said + more
        said += fed.tell("end", LIAR)[1]
        wrong = None if said == b"" or said.startswith(b"HTTP/1.1 ") else f"it said {said[:100]!r}"
        wrong = wrong or differs(fed.tell("take", GOOD, REQUESTS[1].hex())[1][:15], b"HTTP/1.1 200 OK")
        if wrong:
            return f"run {run}: {wrong}"
    return None


def tried(act: Callable[[], str | None]) -> str | None:
    try:
        return act()
    except RuntimeError as error:
        return str(error)


def tests(built: Built) -> Iterator[tuple[str, str | None]]:
    checked = "memory checked" if built.checks else "memory not checked: this compiler has no -fsanitize"
    with tempfile.TemporaryDirectory() as folder:
        room = Path(folder)
        for name, password, act in [("26 bytes without the password", "secret", hidden_length), ("75,000 messages at once", "", many),
                                    ("a portal of fewer columns", "", wider), (f"{RUNS} connections of broken requests", "", requests)]:
            yield name, tried(lambda: fed_alone(built, room / "alone", password, act))
        for name, (password, parts) in STAGES.items():
            yield (f"{RUNS} conversations with a length that isn't so, in {name} ({checked})",
                   tried(lambda: stage(built, room, name, password, parts)))
