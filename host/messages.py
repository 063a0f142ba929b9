"""The messages of the link. Each is its length (4 bytes, big end first, of what follows), its kind (1), the attachment's name (16, zero
before there is one), and its body:

    1 HELLO     who dials: JSON, what it is
    2 OFFER     who is live: JSON, its guest's life, generation and shape; the message bears the new attachment's name
    3 READY     the standby, whose node waits for that generation. Only now the full checkpoint is cut
    4 RESUME    who is live, to its own standby that dialled again. What is pending comes again, text by text
    5 NO        who is dialled: JSON, why. The dialler asks again later. With an attachment's name it answers OFFER, since the dialler can't
                be a standby, or READY, since who is live can't protect its guest: that attachment never begins
    6 OVER      who is live: JSON, why. That attachment is over: the dialler gives up what it holds, and comes anew
    7 TEXT      who is live: generation, number, place, and length of the whole text (8 bytes each), and bytes of it. With the last bytes
                the length is exact; of number 0 it may be more with those before, since it is known only once the end was fetched
    8 ACK       the standby: generation and number (8 bytes each) of the last commit
    9 PING      both, where nothing else was said for a quarter of `link_ms`. With a body, once both are joined: JSON, what the host is
                configured with that has to be the same at both (host/drift.py); or, as `log`, the generation and the number up to which
                who is live has its own log on its disk
    10 GO_LIVE  who was live, and has drained and stopped: generation and number of the last checkpoint
    11 LIVE     who was told so: it is live, alone, from that checkpoint on. Only now the other gives the guest up
    12 STAYS    who was told so: JSON, why it isn't live. The other one's guest goes on
    13 LONG     the standby: its log is long, and is to go on with a later generation
    14 TURN     who is live: a generation and a number (8 bytes each), and a later generation, whose checkpoint 0 is the guest as it is
                there. No text of it comes; the standby acknowledges it as any other
    15 JOIN     who is live, to a standby that was filled from its log: generation and number of the last checkpoint that was sent. From
                there on nothing is let out that the standby hasn't acknowledged
    16 KEEPS    who was live, and has drained and stopped: generation and number of the last checkpoint, with which it keeps its guest
    17 FOLLOW   who went live from there: as TURN, and the attachment's name from then on. Who keeps the guest is its standby

FIELDS has the fields of the JSON objects."""
import json
import struct

HELLO, OFFER, READY, RESUME, NO, OVER, TEXT, ACK, PING, GO_LIVE, LIVE, STAYS, LONG, TURN, JOIN, KEEPS, FOLLOW = range(1, 18)
LENGTH, HEAD = struct.Struct(">I"), struct.Struct(">IB16s")
PLACE = struct.Struct(">QQQQ")  # of a text's bytes: generation, number, where they begin, and how many the whole text has, at most
TEXT_HEAD = struct.Struct(">IB16sQQQQ")  # both
NUMBER = struct.Struct(">QQ")  # generation and number
TURNED = struct.Struct(">QQQ")  # generation, number, later generation
FOLLOWED = struct.Struct(">QQQ16s")  # the same, and an attachment's name
NO_SESSION = bytes(16)
MOST_BEFORE = 4096  # bytes of a message, before the two hosts have met
MOST = 1 << 20
VERSION = 2


class Malformed(Exception):
    """What came isn't a message."""


def message(kind, session, body=b""):
    return HEAD.pack(17 + len(body), kind, session) + body


def told(kind, session, /, **fields):
    """A message whose body is a JSON object."""
    return message(kind, session, json.dumps(fields, separators=(",", ":")).encode())


def text(session, generation, number, begin, total, data):
    return TEXT_HEAD.pack(TEXT_HEAD.size - LENGTH.size + len(data), TEXT, session, generation, number, begin, total) + data


def acknowledgement(session, generation, number):
    return message(ACK, session, NUMBER.pack(generation, number))


def joined(session: bytes, generation: int, number: int) -> bytes:
    return message(JOIN, session, NUMBER.pack(generation, number))


def turn(session: bytes, generation: int, number: int, later: int) -> bytes:
    return message(TURN, session, TURNED.pack(generation, number, later))


def follow(session: bytes, generation: int, number: int, later: int, after: bytes) -> bytes:
    return message(FOLLOW, session, FOLLOWED.pack(generation, number, later, after))


def taken(buffer: bytearray, most: int) -> list[tuple[int, bytes, bytes]]:
    """The messages that are whole in a bytearray, which then has the rest: triples of kind, session and body. Where that begins with a longer
    one it is Malformed, once nothing stands before it: by what does, longer ones may be due."""
    found, at, end = [], 0, len(buffer)
    while end - at >= HEAD.size:
        length, kind, session = HEAD.unpack_from(buffer, at)
        if not 17 <= length <= most:
            break
        if not HELLO <= kind <= FOLLOW:
            raise Malformed(f"a message of kind {kind}")
        begin, behind = at + HEAD.size, at + LENGTH.size + length
        if behind > end:
            break
        found.append((kind, session, bytes(buffer[begin:behind])))
        at = behind
    if not found and end - at >= LENGTH.size and not 17 <= (length := LENGTH.unpack_from(buffer, at)[0]) <= most:
        raise Malformed(f"a message of {length} bytes")
    del buffer[:at]
    return found


# By kind: the fields of its JSON object, with the types that they may have.
TEXTUAL, NUMBERS, TRUTH = (str, type(None)), (int,), (bool,)
FIELDS = {
    HELLO: {"version": NUMBERS, "name": TEXTUAL, "instance": TEXTUAL, "role": TEXTUAL, "life": TEXTUAL, "generation": NUMBERS,
            "session": TEXTUAL, "full": TRUTH, "committed": (int, type(None))},
    OFFER: {"name": TEXTUAL, "instance": TEXTUAL, "life": TEXTUAL, "generation": NUMBERS, "pages": NUMBERS, "sectors": NUMBERS},
    RESUME: {"name": TEXTUAL, "instance": TEXTUAL},
    NO: {"why": TEXTUAL, "role": TEXTUAL, "name": TEXTUAL},
    OVER: {"why": TEXTUAL, "name": TEXTUAL},
    STAYS: {"why": TEXTUAL},
}


# What these may have besides, where hosts keep logs. A greeting: logs of that life up to that generation are stale; what was heard of the
# other host's log; the session of the log behind which this one went live. A refusal by a host that isn't live: what it holds. An offer:
# whether what was let out is in the live host's log, and the standby is told once it has that too. Who is resumed is told whether he lacks
# something that was let out; and who is over, up to which number of its generation its log is a beginning of the live one's.
OF_LOGS = {"outlived_life": TEXTUAL, "outlived_generation": NUMBERS, "heard_life": TEXTUAL, "heard_generation": NUMBERS,
           "heard_number": NUMBERS}
BESIDES = {
    HELLO: {**OF_LOGS, "went_from": TEXTUAL, "branch": TEXTUAL},
    NO: {**OF_LOGS, "life": TEXTUAL, "generation": NUMBERS, "full": TRUTH, "committed": (int, type(None))},
    OFFER: {"joins": TRUTH},
    RESUME: {"behind": TRUTH},
    OVER: {"upto": NUMBERS},
}


def fields(kind, body):
    """The JSON object of a body, with the fields of its kind and no other."""
    try:
        found = json.loads(body)
    except (ValueError, RecursionError):
        raise Malformed("a body that isn't JSON") from None
    wanted = FIELDS[kind]
    if isinstance(found, dict):
        wanted = wanted | {name: types for name, types in BESIDES.get(kind, {}).items() if name in found}
    if not isinstance(found, dict) or found.keys() != wanted.keys():
        raise Malformed("a body without its fields")
    for name, value in found.items():
        is_number = isinstance(value, int) and not isinstance(value, bool)
        if not isinstance(value, wanted[name]) or isinstance(value, bool) != (wanted[name] is TRUTH):
            raise Malformed(f"a body whose {name} is of a wrong type")
        if is_number and not 0 <= value < 1 << 62 or isinstance(value, str) and len(value) > 256:
            raise Malformed(f"a body whose {name} is out of range")
    return found


def log_of(body: bytes) -> tuple[int, int] | None:
    """The generation and the number that a ping has of its host's log, if it does."""
    try:
        found = json.loads(body)
    except (ValueError, RecursionError):
        return None
    log = found.get("log") if isinstance(found, dict) else None
    if not isinstance(log, list) or [type(one) for one in log] != [int, int] or not all(0 <= one < 1 << 62 for one in log):
        return None
    return log[0], log[1]


def numbers(body):
    """A body's generation and number."""
    if len(body) != NUMBER.size:
        raise Malformed("an acknowledgement of a wrong length")
    return NUMBER.unpack(body)


def turned(body: bytes) -> tuple[int, int, int]:
    """A body's generation, number, and later generation."""
    if len(body) != TURNED.size:
        raise Malformed("a turn of a wrong length")
    return TURNED.unpack(body)


def followed(body: bytes) -> tuple[int, int, int, bytes]:
    """A body's generation, number, later generation, and the attachment's name from then on."""
    if len(body) != FOLLOWED.size:
        raise Malformed("a word to follow of a wrong length")
    return FOLLOWED.unpack(body)


def place(body):
    """A text's generation, number, begin, total, and these bytes."""
    if len(body) <= PLACE.size:
        raise Malformed("a text without bytes")
    generation, number, begin, total = PLACE.unpack_from(body)
    data = body[PLACE.size:]
    if begin + len(data) > total:
        raise Malformed("a text that is longer than it says")
    return generation, number, begin, total, data
