"""Parts of guests/sql on their own: what they answer is worked out here by Python's library, by a model, or by hand."""
from __future__ import annotations

import base64
import hashlib
import hmac
import random
import subprocess
from collections.abc import Iterator

from tests.sql.host import Built

NOTHING, PLAIN, BEGIN, COMMIT, ROLLBACK, SAVEPOINT, ROLLBACK_TO, SET, SHOW, DISCARD, DEALLOCATE = range(11)
# A statement; its kind, tag, whether that has a count, a name, what SQLite is told in its place, and where it ends, if not at its end.
STATEMENTS = [
    ("", NOTHING, "", 0, "", "", None), (" -- x\n /* y */ ", NOTHING, "", 0, "", "", None), (" ;SELECT 1", NOTHING, "", 0, "", "", 2),
    ("SELECT ';' ; x", PLAIN, "SELECT", 1, "", "", 12), ("select \"a;b\", [c;d], `e;f` -- ;\n;", PLAIN, "SELECT", 1, "", "", None),
    ("VALUES(1)", PLAIN, "SELECT", 1, "", "", None), ("Pragma x", PLAIN, "SELECT", 1, "", "", None),
    ("/* x */ inSert into t values(1);", PLAIN, "INSERT 0", 1, "", "", None),
    ("REPLACE INTO t VALUES(1)", PLAIN, "INSERT 0", 1, "", "", None),
    ("UPDATE t SET a = 1", PLAIN, "UPDATE", 1, "", "", None), ("DELETE FROM t", PLAIN, "DELETE", 1, "", "", None),
    ("WITH c AS (SELECT 1) INSERT INTO t SELECT * FROM c", PLAIN, "INSERT 0", 1, "", "", None),
    ("WITH RECURSIVE c(x) AS (SELECT 1 UNION ALL SELECT x FROM c) DELETE FROM t", PLAIN, "DELETE", 1, "", "", None),
    ("WITH c AS (DELETE) SELECT 1", PLAIN, "SELECT", 1, "", "", None), ("CREATE TABLE t(a)", PLAIN, "CREATE TABLE", 0, "", "", None),
    ("CREATE TEMP TABLE t(a)", PLAIN, "CREATE TABLE", 0, "", "", None),
    ("create unique index i on t(a)", PLAIN, "CREATE INDEX", 0, "", "", None),
    ("DROP VIEW v", PLAIN, "DROP VIEW", 0, "", "", None), ("ALTER TABLE t ADD b", PLAIN, "ALTER TABLE", 0, "", "", None),
    ("VACUUM", PLAIN, "VACUUM", 0, "", "", None), ("BEGIN", BEGIN, "BEGIN", 0, "", "BEGIN", None),
    ("begin;", BEGIN, "BEGIN", 0, "", "BEGIN", None),
    ("BEGIN IMMEDIATE TRANSACTION", BEGIN, "BEGIN", 0, "", "BEGIN IMMEDIATE", None),
    ("BEGIN EXCLUSIVE", BEGIN, "BEGIN", 0, "", "BEGIN EXCLUSIVE", None), ("BEGIN DEFERRED", BEGIN, "BEGIN", 0, "", "BEGIN", None),
    ("BEGIN ISOLATION LEVEL SERIALIZABLE, READ WRITE", BEGIN, "BEGIN", 0, "", "BEGIN", None),
    ("START TRANSACTION READ ONLY ; x", BEGIN, "BEGIN", 0, "", "BEGIN", 29), ("BEGIN nonsense", PLAIN, "BEGIN", 0, "", "", None),
    ("START", PLAIN, "START", 0, "", "", None), ("COMMIT", COMMIT, "COMMIT", 0, "", "COMMIT", None),
    ("END TRANSACTION;", COMMIT, "COMMIT", 0, "", "COMMIT", None), ("commit work", COMMIT, "COMMIT", 0, "", "COMMIT", None),
    ("COMMIT PREPARED 'x'", PLAIN, "COMMIT", 0, "", "", None), ("ROLLBACK", ROLLBACK, "ROLLBACK", 0, "", "ROLLBACK", None),
    ("ABORT", ROLLBACK, "ROLLBACK", 0, "", "ROLLBACK", None), ("ROLLBACK TO SAVEPOINT s", ROLLBACK_TO, "ROLLBACK", 0, "", "", None),
    ("SAVEPOINT s", SAVEPOINT, "SAVEPOINT", 0, "", "", None), ("RELEASE s", PLAIN, "RELEASE", 0, "", "", None),
    ("SET a TO 'b;c'; x", SET, "SET", 0, "a", "", 15), ("RESET ALL", SET, "RESET", 0, "all", "", None),
    ("SET LOCAL Lock_Timeout = 5", SET, "SET", 0, "lock_timeout", "", None),
    ("SET SESSION a.b TO DEFAULT", SET, "SET", 0, "a.b", "", None),
    ("SHOW server_version", SHOW, "SHOW", 0, "server_version", "", None), ("SHOW DateStyle;", SHOW, "SHOW", 0, "datestyle", "", None),
    ("SHOW TRANSACTION ISOLATION LEVEL", SHOW, "SHOW", 0, "transaction_isolation", "", None),
    ("DISCARD ALL", DISCARD, "DISCARD ALL", 0, "all", "", None), ("DEALLOCATE ALL", DISCARD, "DEALLOCATE", 0, "all", "", None),
    ("DEALLOCATE \"S_1\"", DEALLOCATE, "DEALLOCATE", 0, "S_1", "", None),
    ("DEALLOCATE PREPARE s", DEALLOCATE, "DEALLOCATE", 0, "s", "", None),
    ("SELECT 'open", PLAIN, "SELECT", 1, "", "", None), ("SELECT /* open ;", PLAIN, "SELECT", 1, "", "", None),
]
GET, HEAD, POST, OPTIONS, OTHER = range(5)
BROWSER = "User-Agent: Mozilla/5.0 (X11)"
# Who asks, and whether it is or may be a page of another place.
ASKERS = [
    ("Host: a\r\nOrigin: https://a", False), ("Host: a:443\r\nOrigin: https://a", False), ("Host: a\r\nOrigin: http://a:80", False),
    ("Host: a\r\nOrigin: https://a:8443", True), ("Host: a:80\r\nOrigin: https://a", True), ("Host: a\r\nOrigin: ftp://a", True),
    ("Host: a\r\nOrigin: https://a.b", True), ("Host: a.b\r\nOrigin: https://a", True), ("Origin: http://a", True),
    ("Host: A\r\nOrigin: http://a", False), ("Host: [::1]:80\r\nOrigin: http://[::1]", False), ("Host: a\r\nOrigin: http://", True),
    ("Host: a\r\nOrigin: http://" + "a" * 600, True),
    (f"Host: a\r\n{BROWSER}", True), (f"Host: a\r\n{BROWSER}\r\nReferer: http://a/x?y", False),
    (f"Host: a\r\n{BROWSER}\r\nReferer: http://b/a", True), (f"Host: a\r\n{BROWSER}\r\nReferer: https://a", False),
    (f"Host: a\r\n{BROWSER}\r\nSec-Fetch-Site: none", False), (f"Host: a\r\n{BROWSER}\r\nSec-Fetch-Site: cross-site", True),
    (f"Host: a\r\n{BROWSER}\r\nSec-Fetch-Site: same-site", True),
    ("Host: inside\r\nOrigin: https://outside\r\nSec-Fetch-Site: same-origin", False),
    ("Host: a\r\nOrigin: http://a\r\nSec-Fetch-Site: cross-site", True), ("Host: a\r\nUser-Agent: curl/7.88", False),
]
# A head; what it comes to: the bytes of the head, the method, the path, the length of q and q, the body's length, five flags (kept,
# expecting, form, JSON, strange), and the password; or the status of its refusal (-1: it hasn't come whole).
REQUESTS = [
    ("GET / HTTP/1.1\r\n\r\n", "18 0 / -1|0 10000 "), ("GET /sql?q=a%20b+c&x=1 HTTP/1.0\n\n", "33 0 /sql 5a b c|0 00000 "),
    ("HEAD /sql?x=1&q=%2b HTTP/1.1\r\nConnection: close\r\n\r\n", "51 1 /sql 1+|0 00000 "),
    ("POST /sql HTTP/1.1\r\nContent-Length: 12\r\nExpect: 100-continue\r\nAccept: text/x, application/json\r\n\r\n",
     "98 2 /sql -1|12 11010 "),
    ("POST /sql HTTP/1.1\r\ncontent-type: application/x-www-form-urlencoded\r\n\r\n", "71 2 /sql -1|0 10100 "),
    ("OPTIONS * HTTP/1.1\r\n\r\n", "22 3 * -1|0 10000 "), ("PUT /x HTTP/1.1\r\n\r\n", "19 4 /x -1|0 10000 "),
    ("GET / HTTP/1.0\r\nConnection: Keep-Alive\r\n\r\n", "42 0 / -1|0 10000 "),
    ("GET / HTTP/1.1\r\nAuthorization: Basic YTpi\r\n\r\n", "45 0 / -1|0 10000 YTpi"),
    ("GET / HTTP/1.1\r\nHost: a:80\r\nOrigin: http://a:80\r\n\r\n", "51 0 / -1|0 10000 "),
    ("GET / HTTP/1.1\r\nHost: a:80\r\nOrigin: http://b\r\n\r\n", "48 0 / -1|0 10001 "),
    ("GET / HTTP/1.1\r\nHost: a:80\r\nOrigin: null\r\n\r\n", "44 0 / -1|0 10001 "),
    *((f"GET / HTTP/1.1\r\n{fields}\r\n\r\n", f"{len(fields) + 20} 0 / -1|0 1000{int(is_strange)} ") for fields, is_strange in ASKERS),
    ("POST / HTTP/1.1\r\nContent-Length: 1\r\nContent-Length: 1\r\n\r\n", "400"),
    ("POST / HTTP/1.1\r\nContent-Length: 1\r\nContent-length: 2\r\n\r\n", "400"),
    ("POST / HTTP/1.1\r\nContent-Length: 1, 1\r\n\r\n", "400"), ("POST / HTTP/1.1\r\nContent-Length : 1\r\n\r\n", "400"),
    ("GET / HTTP/1.1\r\nHost: a\r\nHost: b\r\n\r\n", "400"), ("GET / HTTP/1.1\r\nX: a\r\n b: c\r\n\r\n", "400"),
    ("GET / HTTP/1.1\r\n: x\r\n\r\n", "400"), ("GET / HTTP/1.1\r\n", "-1"), ("", "-1"),
    ("GET /\r\n\r\n", "400"), ("GET / HTTP/2.0\r\n\r\n", "400"), ("x\r\n\r\n", "400"), ("GET / HTTP/1.1\r\nno colon\r\n\r\n", "400"),
    ("POST / HTTP/1.1\r\nContent-Length: -1\r\n\r\n", "400"), ("POST / HTTP/1.1\r\nContent-Length: \r\n\r\n", "400"),
    ("POST / HTTP/1.1\r\nContent-Length: 99999999999\r\n\r\n", "413"), ("POST / HTTP/1.1\r\nTransfer-Encoding: chunked\r\n\r\n", "411"),
]


class Units:
    """The program, which answers line by line."""

    def __init__(self, built: Built) -> None:
        self.process = subprocess.Popen([built.room / "units"], stdin=subprocess.PIPE, stdout=subprocess.PIPE, text=True)

    def ask(self, name: str, *words: object) -> str:
        self.process.stdin.write(" ".join([name, *map(str, words)]) + "\n")
        self.process.stdin.flush()
        return self.process.stdout.readline().rstrip("\n")

    def end(self) -> None:
        self.process.communicate()


def differs(came: object, wanted: object) -> str | None:
    return None if came == wanted else f"{came!r}, not {wanted!r}"


def digests(units: Units) -> Iterator[tuple[str, str | None]]:
    rng = random.Random(1)
    for length in [0, 1, 55, 56, 63, 64, 65, 119, 120, 128, *(rng.randrange(2000) for _ in range(40))]:
        data, key = rng.randbytes(length), rng.randbytes(rng.randrange(1, 200))
        yield f"SHA-256 of {length} bytes", differs(units.ask("sha", data.hex() or "zz"), hashlib.sha256(data).hexdigest())
        yield f"HMAC of {length} bytes", differs(units.ask("hmac", key.hex(), data.hex() or "zz"), hmac.digest(key, data, "sha256").hex())
        yield f"base64 of {length} bytes", differs(units.ask("base64", data.hex() or "zz"), base64.b64encode(data).decode())
    for rounds in (1, 2, 4096):
        wanted = hashlib.pbkdf2_hmac("sha256", b"password", b"salt", rounds).hex()
        yield f"PBKDF2 of {rounds} rounds", differs(units.ask("stretch", b"password".hex(), b"salt".hex(), rounds), wanted)
    for length in range(1, 100):
        data = rng.randbytes(length)
        yield f"base64 of {length} bytes back", differs(units.ask("unbase64", base64.b64encode(data).hex()), data.hex())
    for text in (b"abc", b"ab=c", b"a===", b"ab c", b"====", b"abcd=", b"abc\xff", b"A" * 404):
        yield f"no base64: {text!r}", differs(units.ask("unbase64", text.hex()), "bad")


def statements(units: Units) -> Iterator[tuple[str, str | None]]:
    for text, kind, tag, is_counted, name, sql, end in STATEMENTS:
        came = units.ask("statement", text.encode().hex() or "zz").split("|")
        wanted = [str(kind), tag, str(is_counted), name, sql, str(len(text) if end is None else end)]
        yield f"the statement {text!r}", differs(came[:6], wanted)
    for text in ("", " ; -- x\n;", "/* */"):
        yield f"{text!r} is blank", differs(units.ask("statement", text.encode().hex() or "zz")[-1], "1")


def is_text(data: bytes) -> bool:
    """Whether it is UTF-8 without a zero."""
    try:
        return "\0" not in data.decode()
    except UnicodeDecodeError:
        return False


def texts(units: Units) -> Iterator[tuple[str, str | None]]:
    rng, wrong = random.Random(4), None
    for number in (0, 7, -7, 10, -2**63, 2**63 - 1, *(rng.randrange(-2**63, 2**63) for _ in range(20))):
        wrong = wrong or differs(units.ask("number", number), str(number))
    yield "numbers", wrong
    for _ in range(1500):
        parts = [rng.choice(["a", "é", "漢", "𝄞", "\x7f", "word after word"]).encode() for _ in range(rng.randrange(12))]
        data = bytearray(b"".join(parts))
        if data and rng.random() < 0.5:
            data[rng.randrange(len(data))] = rng.choice([0, 0x80, 0xC1, 0xED, 0xFF, 0x41, rng.randrange(256)])
        skipped = rng.randrange(len(data) + 1)
        wrong = wrong or differs(units.ask("utf8", data.hex() or "zz", skipped), str(int(is_text(bytes(data[skipped:])))))
    yield "what is UTF-8", wrong


def requests(units: Units) -> Iterator[tuple[str, str | None]]:
    for text, wanted in REQUESTS:
        came = units.ask("request", text.encode().hex() or "zz")
        yield f"the request {text!r}", differs(came, wanted)


class Locks:
    """SQLite's rules (https://sqlite.org/lockingv3.html and https://sqlite.org/walformat.html), over what each connection has."""

    def __init__(self) -> None:
        self.levels, self.read, self.written = [0] * 4, [set() for _ in range(4)], [set() for _ in range(4)]

    def raise_to(self, who: int, level: int) -> bool:
        others = [other for i, other in enumerate(self.levels) if i != who]
        if self.levels[who] >= level:
            return True
        if level == 1 and max(others) >= 3 or level > 1 and max(others) >= 2:
            return False
        waits = level == 4 and max(others) >= 1
        self.levels[who] = 3 if waits else level
        return not waits

    def take(self, who: int, places: set[int], to_write: bool) -> bool:
        others = [i for i in range(4) if i != who]
        if any(self.written[i] & places or to_write and self.read[i] & places for i in others):
            return False
        (self.written if to_write else self.read)[who] |= places
        return True


def locks(units: Units) -> Iterator[tuple[str, str | None]]:
    """Random calls, as SQLite makes them: a lock is raised step by step, and to RESERVED or EXCLUSIVE only above SHARED."""
    rng, model, wrong = random.Random(2), Locks(), None
    for _ in range(4000):
        who, kind, first = rng.randrange(4), rng.choice(["raise", "raise", "lower", "take", "give"]), rng.randrange(8)
        count, to_write = rng.randrange(1, 9 - first), rng.randrange(2)
        places, answer = set(range(first, first + count)), True
        if kind == "raise":
            level = 1 if model.levels[who] == 0 else rng.choice([2, 4])
            answer = model.raise_to(who, level)
            came = units.ask("raise", who, level)
        elif kind == "lower":
            level = rng.randrange(2)
            came, model.levels[who] = units.ask("lower", who, level), min(model.levels[who], level)
        elif kind == "take":
            answer, came = model.take(who, places, bool(to_write)), units.ask("take", who, first, count, to_write)
        else:
            model.read[who] -= places
            model.written[who] -= places
            came = units.ask("give", who, first, count)
        is_reserved = max(model.levels) >= 2
        masks = [sum(1 << place for place in has) for has in (model.read[who], model.written[who])]
        fields = came.split()
        wrong = wrong or differs([int(fields[0]), int(fields[1]), int(fields[2]), *(int(field, 16) for field in fields[4:])],
                                 [int(answer), model.levels[who], int(is_reserved), *masks])
    yield "4000 calls of locks", wrong


def tests(built: Built) -> Iterator[tuple[str, str | None]]:
    units = Units(built)
    for part in (digests, texts, statements, requests, locks):
        yield from part(units)
    units.end()
    ran = subprocess.run([built.room / "bytes"], stdout=subprocess.PIPE, text=True)
    yield "bytes of memory", differs(ran.stdout, "400000 calls\n")
