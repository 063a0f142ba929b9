"""SQL over HTTP."""
from __future__ import annotations

import base64
import http.client
import json
import socket
import struct
import tempfile
import time
from collections.abc import Iterator
from pathlib import Path

from tests.postgres import Postgres
from tests.sql.host import Built, Fed, Served
from tests.sql.simple import later
from tests.sql.units import differs

JSON = {"Accept": "application/json"}
STRANGE = "a page of another place may not ask; a browser asks from the page at /\n"


class Browser:
    """A connection that is kept."""

    def __init__(self, port: int) -> None:
        self.connection = http.client.HTTPConnection("127.0.0.1", port, timeout=60)

    def ask(self, method: str, path: str, body: str | None = None, headers: dict[str, str] | None = None) -> tuple[int, str]:
        self.connection.request(method, path, body, headers or {})
        answer = self.connection.getresponse()
        return answer.status, answer.read().decode()

    def post(self, sql: str) -> str:
        return self.ask("POST", "/sql", sql)[1]


def answers(browser: Browser) -> Iterator[tuple[str, str | None]]:
    cases = [
        ("POST", "/sql", "CREATE TABLE t(a INTEGER PRIMARY KEY, b)", {}, (200, "")),
        ("POST", "/sql", "INSERT INTO t VALUES(1,'one'),(2,NULL); SELECT * FROM t", {}, (200, "1\tone\n2\t\n")),
        ("GET", "/sql?q=SELECT+a+FROM+t%3bSELECT+%27%25%27", None, {}, (200, "1\n2\n%\n")),
        ("HEAD", "/sql?q=SELECT+1", None, {}, (200, "")), ("OPTIONS", "/sql", None, {}, (204, "")), ("OPTIONS", "*", None, {}, (204, "")),
        ("GET", "/sql?q=DELETE+FROM+t", None, {}, (400, "error: this may only read: what changes the database is asked by POST\n")),
        ("POST", "/sql", "SELEC 1", {}, (400, 'error: near "SELEC": syntax error\n')),
        ("POST", "/sql", "INSERT INTO t VALUES(3, 3); INSERT INTO t VALUES(1, 1)", {}, (400, "error: UNIQUE constraint failed: t.a\n")),
        ("POST", "/sql", "BEGIN; INSERT INTO t VALUES(4, 4)", {}, (400,
                                                                   "error: the transaction was open at the end, and is rolled back\n")),
        ("POST", "/sql", "BEGIN; INSERT INTO t VALUES(4, 4); COMMIT; SELECT max(a) FROM t", {}, (200, "4\n")),
        ("POST", "/sql", "q=SELECT+1%2B1", {"Content-Type": "application/x-www-form-urlencoded"}, (200, "2\n")),
        ("POST", "/sql", "SELECT 1", {"Content-Type": "application/x-www-form-urlencoded"}, (200, "1\n")),
        ("POST", "/sql", "", {}, (200, "")), ("GET", "/sql", None, {},
                                              (400, "ask by /sql?q=SELECT+1, or by POST with statements as the body\n")),
        ("GET", "/log", None, {}, (200, "nothing was said\n")), ("POST", "/log", "", {}, (404, "there are /, /sql, /db, /dump and /log\n")),
        ("GET", "/nothing", None, {}, (404, "there are /, /sql, /db, /dump and /log\n")),
        ("PUT", "/sql", "x", {}, (405, "GET, HEAD, POST and OPTIONS are served\n")),
        ("POST", "/sql", "SELECT 1", {"Origin": "http://elsewhere"}, (403, STRANGE)),
        ("GET", "/sql?q=SELECT+1", None, {"User-Agent": "Mozilla/5.0", "Sec-Fetch-Site": "cross-site"}, (403, STRANGE)),
        ("GET", "/sql?q=SELECT+1", None, {"User-Agent": "Mozilla/5.0", "Referer": "http://elsewhere/"}, (403, STRANGE)),
        ("GET", "/sql?q=SELECT+1", None, {"User-Agent": "Mozilla/5.0"}, (403, STRANGE)),
        ("GET", "/sql?q=SELECT+1", None, {"User-Agent": "Mozilla/5.0", "Sec-Fetch-Site": "none"}, (200, "1\n")),
        ("GET", "/log", None, {"User-Agent": "Mozilla/5.0"}, (200, "nothing was said\n")),
        ("POST", "/sql", "SELECT 1\0; SELECT 2", {}, (400, "error: text must be UTF-8, without a zero\n")),
        ("GET", "/sql?q=SELECT+%27%ff%27", None, {}, (400, "error: text must be UTF-8, without a zero\n")),
        ("GET", "/sql?q=SELECT+1%00", None, {}, (400, "error: text must be UTF-8, without a zero\n")),
    ]
    for method, path, body, headers, wanted in cases:
        yield f"{method} {path} {body}", differs(browser.ask(method, path, body, headers), wanted)
    yield "the page", differs("<title>SQLite that survives</title>" in browser.ask("GET", "/")[1], True)
    sql = "SELECT 1 AS a, 2.5, NULL, 'x\"\n\x01', x'00ff'; DELETE FROM t WHERE a > 3; SELECT a FROM t WHERE a > 9"
    status, text = browser.ask("POST", "/sql", sql, JSON)
    wanted = {"results": [{"columns": ["a", "2.5", "NULL", "'x\"\n\x01'", "x'00ff'"], "rows": [[1, 2.5, None, "x\"\n\x01", "\\x00ff"]]},
                          {"changes": 1}, {"columns": ["a"], "rows": []}]}
    yield "JSON", differs([status, json.loads(text)], [200, wanted])
    status, text = browser.ask("GET", "/sql?format=json&q=SELECT+x", None)
    yield "JSON's errors", differs([status, json.loads(text)], [400, {"error": "no such column: x", "code": "42703"}])
    status, text = browser.ask("POST", "/sql", "SELECT CAST(x'61ff62c3e282ac' AS TEXT), CAST(x'eda080f4908080c0af' AS TEXT)", JSON)
    yield "JSON of what is no UTF-8", differs(json.loads(text)["results"][0]["rows"], [["a\ufffdb\ufffd\u20ac", "\ufffd" * 9]])
    sql = "WITH RECURSIVE c(x) AS (VALUES(1) UNION ALL SELECT x+1 FROM c WHERE x<300000) SELECT x FROM c"
    status, text = browser.ask("POST", "/sql", sql)
    yield "an answer that is too long", differs([status, "more than a megabyte" in text], [400, True])


def raw(served: Served, data: bytes, is_closed: bool = True) -> bytes:
    """What comes of bytes, to the connection's end."""
    with socket.create_connection(("127.0.0.1", served.http), 10) as one:
        came = b""
        try:
            one.sendall(data)
            if is_closed:
                one.shutdown(socket.SHUT_WR)
            while data := one.recv(1 << 16):
                came += data
        except OSError:
            pass
        return came


def bodies(served: Served, browser: Browser) -> Iterator[tuple[str, str | None]]:
    head = b"POST /sql HTTP/1.1\r\nContent-Length: 100\r\n\r\n"
    yield "a body that is cut short", differs([raw(served, head + b"DELETE FROM t;"), browser.post("SELECT count(*) FROM t")], [b"", "2\n"])
    came = raw(served, b"POST /sql HTTP/1.0\r\nContent-Length: 8\r\n\r\nSELECT 1")
    yield "HTTP/1.0 through a half-closed connection", differs([came[:15], came[-6:]], [b"HTTP/1.1 200 OK", b"\r\n\r\n1\n"])
    many = b"".join(b"GET /sql?q=SELECT+%d HTTP/1.1\r\n\r\n" % number for number in range(20))
    yield "20 at once", differs(raw(served, many).count(b"200 OK"), 20)
    came = raw(served, b"POST /sql HTTP/1.1\r\nExpect: 100-continue\r\nContent-Length: 8\r\n\r\n")
    yield "a body that is asked for", differs(came, b"HTTP/1.1 100 Continue\r\n\r\n")
    for data, status in [(b"POST /sql HTTP/1.1\r\nContent-Length: 300000\r\n\r\n", b"413"),
                         ((b"GET / HTTP/1.1\r\nX: " + b"x" * 16384)[:16385], b"431"),
                         (b"nonsense\r\n\r\n", b"400"), (b"POST /sql HTTP/1.1\r\nTransfer-Encoding: chunked\r\n\r\n0\r\n\r\n", b"411")]:
        yield f"refused: {data[:40]}", differs(raw(served, data)[9:12], status)
    many = b"".join(b"GET /sql?q=SELECT+printf(%%27%%250200000d%%27,%d) HTTP/1.1\r\n\r\n" % number for number in range(20))
    came = raw(served, many, is_closed=True)
    yield "20 long answers at once", differs([came.count(b"200 OK"), len(came) > 4_000_000], [20, True])
    for status, head in [(b"413", b"POST /sql HTTP/1.1\r\nContent-Length: 2000000\r\n\r\n"),
                         (b"403", b"POST /sql HTTP/1.1\r\nOrigin: http://b\r\nContent-Length: 200000\r\n\r\n"),
                         (b"405", b"PUT /sql HTTP/1.1\r\nContent-Length: 200000\r\n\r\n")]:
        came = raw(served, head + b"x" * int(head.split()[-1]))
        yield f"{status.decode()} after a body that isn't wanted", differs([came[9:12], came.count(b"HTTP/1.1")], [status, 1])
    long = "SELECT '" + "x" * 250_000 + "'"
    yield "a long body", differs(browser.post(long), long[8:-1] + "\n")


def waits(served: Served, browser: Browser) -> Iterator[tuple[str, str | None]]:
    client = Postgres(served.postgres)
    client.ask("BEGIN; UPDATE t SET b = 'held' WHERE a = 1")
    sql = "SELECT b FROM t WHERE a = 1; UPDATE t SET b = b || '+' WHERE a = 1; SELECT b FROM t WHERE a = 1"
    thread, came = later(lambda: Browser(served.http).post(sql))
    seen = [list(came), browser.ask("GET", "/sql?q=SELECT+b+FROM+t+WHERE+a=1")]
    client.ask("COMMIT")
    thread.join(30)
    yield "a question waits", differs([seen, came], [[[], (200, "one\n")], ["held\nheld+\n"]])
    client.close()


def passwords(built: Built, room: Path) -> Iterator[tuple[str, str | None]]:
    with Served(built, room / "web_secret", "secret") as served:
        browser = Browser(served.http)
        seen = []
        for word in (None, "me:wrong", "me:secret", ":secret", "secret", "me:secret"):
            headers = {} if word is None else {"Authorization": "Basic " + base64.b64encode(word.encode()).decode()}
            seen.append(browser.ask("GET", "/sql?q=SELECT+1", None, headers)[0])
        begun = time.monotonic()
        yield "a password", differs([seen, browser.ask("GET", "/")[0], time.monotonic() - begun < 5],
                                    [[401, 401, 200, 200, 401, 200], 401, True])


def credentials(word: str) -> bytes:
    return b"Authorization: Basic " + base64.b64encode(word.encode()) + b"\r\n"


def question(word: str, body: int = 0) -> str:
    """A request with a password, in hex; its body isn't there."""
    return (b"POST /sql HTTP/1.1\r\n" + credentials(word) + b"Content-Length: %d\r\n\r\n" % body).hex()


def turns(fed: Fed, place: int) -> tuple[bool, bytes]:
    """What comes to one after as many turns as it takes."""
    for _ in range(20_000):
        fed.tell("turn")
        is_there, said = fed.tell("look", place)
        if said:
            return is_there, said
    return True, b"nothing"


def door(built: Built, room: Path) -> Iterator[tuple[str, str | None]]:
    """Passwords are looked at one at a time, in turns with all else."""
    with Fed(built, room / "door", "secret") as fed:
        def ask(place: int, word: str) -> tuple[bool, bytes]:
            fed.tell("open", place, 80)
            is_there, said = fed.tell("take", place, question(word))
            return is_there, said[9:12]
        begun = ask(0, "me:wrong")
        is_there, said = turns(fed, 0)
        yield "a wrong password is worked off in turns", differs([begun, is_there, said[9:12], b"Connection: close" in said],
                                                                [(True, b""), False, b"401", True])
        fed.tell("open", 0, 80)
        is_there, said = fed.tell("take", 0, b"GET / HTTP/1.1\r\n\r\n".hex())
        yield "none ends the connection at once", differs([is_there, said[9:12]], [False, b"401"])
        begun = ask(0, "me:secret")
        fed.tell("later", 1000)
        early = fed.tell("look", 0)
        fed.tell("later", 1001)
        is_there, said = turns(fed, 0)
        yield "not two in two seconds", differs([begun, early, is_there, said[9:12]], [(True, b""), (True, b""), True, b"200"])
        crowd = [ask(place, f"me:wrong{place}") for place in range(1, 7)]
        known = [fed.tell("take", 0, question("me:secret"))[1][9:12], ask(7, "you:secret")]
        yield "one that is known isn't looked at again", differs([crowd, known], [[(True, b"")] * 6, [b"200", (True, b"200")]])
        fed.tell("end", 3)
        fed.tell("later", 2001)
        is_there, said = turns(fed, 1)
        yield "the next in the line is", differs([is_there, said[9:12]], [False, b"401"])
    with Fed(built, room / "door", "secret") as fed:
        came = [ask(place, f"me:wrong{place}") for place in range(8)]
        fed.tell("open", 8, 80)
        is_there, said = fed.tell("take", 8, question("me:wrong"))
        yield "no more than 8 wait", differs([came, is_there, said[9:12]], [[(True, b"")] * 8, False, b"429"])
    with Fed(built, room / "door", "secret") as fed:
        fed.tell("open", 0, 80)
        fed.tell("take", 0, question("me:wrong", 200_000))
        is_there, said = turns(fed, 0)
        bodies = [fed.tell("take", 0, b"x".hex() * 100_000)[0] for _ in range(2)]
        yield "a stranger's body isn't waited for", differs([is_there, said[9:12], bodies], [True, b"401", [True, False]])


def quiet(built: Built, room: Path) -> Iterator[tuple[str, str | None]]:
    """A stranger's minute counts from its connection, whatever it says."""
    start, letter = struct.pack(">II", 9, 196608) + b"\0", b"G".hex()
    with Fed(built, room / "quiet", "secret") as fed:
        fed.tell("open", 0, 80)
        fed.tell("open", 1, 5432)
        fed.tell("take", 1, start.hex())
        seen = []
        for _ in range(3):
            fed.tell("later", 29_000)
            seen.append([fed.tell("take", 0, letter)[0], fed.tell("take", 1, b"p".hex() if seen == [] else b"\0".hex())[0]])
        yield "a byte now and then keeps no place", differs(seen, [[True, True], [True, True], [False, False]])
        fed.tell("open", 0, 80)
        fed.tell("take", 0, b"OPTIONS / HTTP/1.1\r\n\r\n".hex())
        fed.tell("later", 31_000)
        fed.tell("take", 0, b"OPTIONS / HTTP/1.1\r\n\r\n".hex())
        fed.tell("later", 31_000)
        yield "nor do questions that need no password", differs(fed.tell("look", 0)[0], False)
    with Fed(built, room / "quiet") as fed:
        fed.tell("open", 0, 80)
        fed.tell("open", 1, 5432)
        fed.tell("take", 1, start.hex())
        fed.tell("take", 0, question(""))
        fed.tell("later", 59_000)
        seen = [fed.tell("take", 0, question(""))[0]]
        fed.tell("later", 59_000)
        seen += [fed.tell("look", 0)[0], fed.tell("look", 1)[0]]
        fed.tell("later", 2_000)
        yield "who may ask has a minute after each byte, or any time", differs(
            [*seen, fed.tell("look", 0)[0], fed.tell("look", 1)[0]], [True, True, True, False, True])


def tests(built: Built) -> Iterator[tuple[str, str | None]]:
    with tempfile.TemporaryDirectory() as folder:
        room = Path(folder)
        with Served(built, room / "web") as served:
            browser = Browser(served.http)
            yield from answers(browser)
            yield from bodies(served, browser)
            yield from waits(served, browser)
        yield from passwords(built, room)
        yield from door(built, room)
        yield from quiet(built, room)
