"""Extended queries of PostgreSQL's protocol, and passwords."""
from __future__ import annotations

import struct
import tempfile
from collections.abc import Iterator
from pathlib import Path

from tests.postgres import BYTEA, FLOAT8, INT8, TEXT, Postgres, bind, message, parse, string
from tests.sql.host import Built, Served
from tests.sql.simple import START, code_of
from tests.sql.units import differs

INT4, NUMERIC, BOOL, VARCHAR = 23, 1700, 16, 1043
SYNC = message(b"S")


def execute(portal: str = "", most: int = 0) -> bytes:
    return message(b"E", string(portal), struct.pack(">I", most))


def describe(kind: bytes, name: str = "") -> bytes:
    return message(b"D", kind, string(name))


def kinds(client: Postgres, data: bytes) -> str:
    """The kinds of the messages that come for these, to the first Z."""
    client.send(data)
    came = ""
    while not came.endswith("Z"):
        kind, body = client.receive()
        came += kind.decode()
    client.status = body.decode()
    return came


def parameters(client: Postgres) -> Iterator[tuple[str, str | None]]:
    cases = [
        ((INT8,), b"12", 12), ((INT4,), b" -3 ", -3), ((FLOAT8,), b"2.5", 2.5), ((NUMERIC,), b"7", 7), ((NUMERIC,), b"7.5", 7.5),
        ((BOOL,), b"true", 1), ((BOOL,), b"f", 0), ((BYTEA,), b"\\x00ff", b"\0\xff"), ((VARCHAR,), b"x", "x"), ((), b"12", "12"),
        ((), None, None),
    ]
    for types, value, wanted in cases:
        yield f"the value {value!r} of {types}", differs(client.execute("SELECT $1", (value,), types).rows, [(wanted,)])
    binary = [((INT8,), struct.pack(">q", -5), -5), ((INT4,), struct.pack(">i", 7), 7), ((FLOAT8,), struct.pack(">d", 0.1), 0.1),
              ((BYTEA,), b"\0\1", b"\0\1"), ((TEXT,), b"abc", "abc"), ((BOOL,), b"\1", 1), ((21,), b"\xff\xff", -1),
              ((700,), struct.pack(">f", 0.5), 0.5)]
    for types, value, wanted in binary:
        yield f"the binary value {value!r} of {types}", differs(client.execute("SELECT $1", (value,), types, True).rows, [(wanted,)])
    # Decimal numbers: digits to the base of 10,000, the weight of the first, the sign, digits after the point.
    decimals = [((1, 0, 0, 0, 7), 7), ((2, 0, 0, 2, 1, 5000), 1.5), ((1, -1, 0x4000, 4, 25), -0.0025), ((1, 1, 0, 0, 3), 30000),
                ((3, 1, 0, 2, 12, 3456, 7800), 123456.78), ((0, 0, 0, 0), 0), ((1, -2, 0, 8, 1), 1e-8)]
    for numbers, wanted in decimals:
        value = struct.pack(f">HhHH{len(numbers) - 4}H", *numbers)
        yield f"the decimal number {wanted}", differs(client.execute("SELECT $1", (value,), (NUMERIC,), True).rows, [(wanted,)])
    for types, value, code in [((INT8,), b"x", "22P02"), ((INT8,), b"9223372036854775808", "22003"), ((FLOAT8,), b"", "22P02"),
                               ((BOOL,), b"x", "22P02"), ((BYTEA,), b"\\x0", "22P02")]:
        yield f"no value {value!r} of {types}", differs(code_of(lambda: client.execute("SELECT $1", (value,), types)), code)
    yield "binary of a wrong length", differs(code_of(lambda: client.execute("SELECT $1", (b"\0",), (INT8,), True)), "22P03")
    result = client.execute("SELECT $2 || $1 || $2", (b"a", b"b"))
    yield "in their order", differs(result.rows, [("bab",)])
    yield "too few", differs(code_of(lambda: client.execute("SELECT $2", (b"a",))), "08P01")
    client.execute("INSERT INTO t VALUES($1, $2)", (b"20", b"text"))
    result = client.execute("SELECT a, b, a / 2.0, count(*) FROM t WHERE a = $1", (b"20",), is_binary=True)
    yield "into columns", differs([result.rows, result.types], [[(20, "text", 10.0, 1)], [INT8, TEXT, FLOAT8, INT8]])
    code = code_of(lambda: client.execute("SELECT 1 UNION ALL SELECT 2.5", (), is_binary=True))
    yield "mixed in binary", differs([code, client.execute("SELECT 1 UNION ALL SELECT 2.5").rows], ["42804", [(1.0,), (2.5,)]])


BOTH = "CREATE TABLE both(id INTEGER PRIMARY KEY, name VARCHAR(20), price DECIMAL(8, 2), bytes BLOB, any, \"odd name\" INT)"
# A statement, and the types of its parameters that a client is told who names none.
BESIDE = [
    ("SELECT * FROM both WHERE id = $1", [INT8]), ("SELECT * FROM both WHERE $1 = id", [INT8]), ("SELECT $1", [TEXT]),
    ("SELECT * FROM both AS b WHERE b.id=$1 AND b.name <> $2", [INT8, TEXT]), ("SELECT CAST($1 AS INTEGER)", [INT8]),
    ("SELECT CAST($1 AS double precision), $2::bigint, $3::text", [FLOAT8, INT8, TEXT]), ("SELECT 1 LIMIT $1 OFFSET $2", [INT8, INT8]),
    ("SELECT * FROM both WHERE id IN ($1, $2) OR name IN ($3)", [INT8, INT8, TEXT]),
    ("SELECT * FROM both WHERE \"odd name\" >= $1", [INT8]),
    ("SELECT * FROM both WHERE id NOT BETWEEN $1 AND $2 AND name = $3", [INT8, INT8, TEXT]), ("SELECT * FROM both WHERE any = $1", [TEXT]),
    ("INSERT INTO both VALUES($1, $2, $3, $4, $5, $6)", [INT8, TEXT, FLOAT8, BYTEA, TEXT, INT8]),
    ("INSERT INTO both(price, id) VALUES($1, $2), ($3, max($4, 1))", [FLOAT8, INT8, FLOAT8, TEXT]),
    ("INSERT INTO main.both AS b (name, bytes) VALUES(/* , */ $2, $1) ON CONFLICT(id) DO UPDATE SET price = $3", [BYTEA, TEXT, FLOAT8]),
    ("UPDATE both SET price = price + $1, name = $2 WHERE id = $3", [FLOAT8, TEXT, INT8]), ("DELETE FROM both WHERE id <= $1", [INT8]),
    ("SELECT * FROM u, both WHERE price > $1 AND u.a = $2", [FLOAT8, INT8]), ("SELECT * FROM both WHERE name LIKE $1", [TEXT]),
    ("SELECT * FROM u JOIN both ON both.id = u.a WHERE both.id IS NOT $1", [INT8]), ("SELECT 'id = $1', $1", [TEXT]),
    ("WITH c AS (SELECT * FROM both WHERE id = $1) SELECT * FROM c WHERE name = $2", [INT8, TEXT]), ("SELECT $2", [TEXT, TEXT]),
]


def beside(client: Postgres) -> Iterator[tuple[str, str | None]]:
    """A parameter has the type of what stands beside it, where the client names none."""
    client.ask(BOTH)
    for sql, wanted in BESIDE:
        client.send(parse("", sql) + describe(b"S") + SYNC)
        types = []
        while (came := client.receive())[0] != b"Z":
            types = list(struct.unpack(f">{(len(came[1]) - 2) // 4}I", came[1][2:])) if came[0] == b"t" else types
        yield f"the types of {sql}", differs(types, wanted)
    client.send(parse("", "SELECT id FROM both WHERE id = $1", (INT4,)) + describe(b"S") + SYNC)
    told = [body for kind, body in iter(client.receive, (b"Z", b"I")) if kind == b"t"]
    yield "a type that is named stays", differs(told, [struct.pack(">HI", 1, INT4)])
    client.ask("INSERT INTO both(id, name) VALUES(7, 'seven')")
    client.send(parse("", "SELECT name FROM both WHERE id = $1") + describe(b"S") + bind("", "", (struct.pack(">q", 7),), True)
                + execute() + SYNC)
    yield "and its value in binary is read so", differs(client.results()[0].rows, [("seven",)])
    client.ask("DROP TABLE both")


def flows(client: Postgres) -> Iterator[tuple[str, str | None]]:
    yield "an empty one", differs(kinds(client, parse("", "") + bind("", "") + describe(b"P") + execute() + SYNC), "12nIZ")
    yield "a statement is described", differs(kinds(client, parse("s", "SELECT a FROM t WHERE a > $1") + describe(b"S", "s") + SYNC),
                                              "1tTZ")
    yield "and run twice", differs(kinds(client, (bind("", "s", (b"0",)) + execute()) * 2 + SYNC), "2DDC2DDCZ")
    yield "in parts", differs(kinds(client, bind("p", "s", (b"0",)) + execute("p", 1) + execute("p", 1) + execute("p", 1) + SYNC),
                              "2DsDCCZ")
    yield "a portal ends with its transaction", differs(kinds(client, execute("p") + SYNC), "EZ")
    kinds(client, parse("", "BEGIN") + bind("", "") + execute() + SYNC)
    seen = kinds(client, bind("p", "s", (b"0",)) + execute("p", 1) + SYNC), kinds(client, execute("p") + SYNC)
    client.ask("COMMIT")
    yield "and stays within one", differs(seen, ("2DsZ", "DCZ"))
    yield "of a name that is there", differs(code_after(client, parse("s", "SELECT 1") + SYNC), "42P05")
    yield "closed", differs([kinds(client, message(b"C", b"S", string("s")) + SYNC), code_after(client, bind("", "s") + SYNC)],
                            ["3Z", "26000"])
    yield "two commands", differs(code_after(client, parse("", "SELECT 1; SELECT 2") + SYNC), "42601")
    yield "an error skips to Sync", differs(kinds(client, parse("", "SELEC") + bind("", "") + execute() + SYNC), "EZ")
    yield "a message that nobody knows", differs(code_after(client, message(b"F", b"xx") + SYNC), "08P01")
    yield "nothing is described of what gives no rows", differs(kinds(client,
                                                                      parse("", "DELETE FROM u") + bind("",
                                                                              "") + describe(b"P") + execute() + SYNC), "12nCZ")
    yield "rows of what changes", differs(client.execute("INSERT INTO t VALUES(30, 'r') RETURNING a, b").rows, [(30, "r")])
    yield "settings", differs([client.execute(sql).tag for sql in ("SET a = 1", "SHOW server_encoding", "BEGIN", "COMMIT")],
                              ["SET", "SHOW", "BEGIN", "COMMIT"])
    kinds(client, parse("c", "COMMIT") + SYNC)
    client.ask("BEGIN")
    code_of(lambda: client.ask("SELEC"))
    tags = [tag_after(client, bind("", "c") + execute() + SYNC)]
    client.ask("BEGIN")
    tags.append(tag_after(client, bind("", "c") + execute() + SYNC))
    yield "a commit of what failed", differs(tags, ["ROLLBACK", "COMMIT"])
    client.ask("DEALLOCATE c")
    yield "deallocated", differs(code_after(client, bind("", "c") + SYNC), "26000")
    kinds(client, parse("w", "SELECT * FROM u") + bind("", "w") + execute() + SYNC)
    client.ask("ALTER TABLE u ADD COLUMN more")
    client.ask("INSERT INTO u(more) VALUES(1)")
    yield "other columns than before", differs(code_after(client, bind("", "w") + execute() + SYNC), "0A000")


def ends(client: Postgres) -> Iterator[tuple[str, str | None]]:
    """Portals end with their transaction, and messages where they say."""
    values = parse("v", "VALUES(1),(2),(3)")
    for end in ("COMMIT", "ROLLBACK"):
        client.ask("BEGIN")
        seen = [kinds(client, values + bind("p", "v") + execute("p", 1) + SYNC), client.ask(end)[0].tag]
        yield f"a portal doesn't outlive {end}", differs([*seen, code_after(client, execute("p", 1) + SYNC)], ["12DsZ", end, "34000"])
        client.ask("BEGIN; DEALLOCATE v")
        client.send(values + bind("p", "v") + execute("p", 1) + parse("", end) + bind("", "") + execute())
        yield f"nor {end} that is executed", differs(code_after(client, execute("p", 1) + SYNC), "34000")
        client.ask("DEALLOCATE v")
    client.ask("BEGIN")
    kinds(client, values + bind("p", "v") + execute("p", 1) + SYNC)
    code_of(lambda: client.ask("SELEC"))
    yield "nor does it run in a transaction that failed", differs(code_after(client, execute("p", 1) + SYNC), "25P02")
    client.ask("ROLLBACK; DEALLOCATE v")
    kinds(client, parse("v", "SELECT 1") + bind("", "v") + SYNC)
    client.ask("BEGIN")
    kinds(client, parse("v2", "SELECT 1") + bind("", "v2") + SYNC)
    client.ask("SELECT 2")
    yield "nor a simple query, without a name", differs(code_after(client, execute() + SYNC), "34000")
    client.ask("ROLLBACK; DEALLOCATE ALL")
    for name, data in [("Parse", message(b"P", string(""), string("SELECT 1"), b"\0\0", b"more")),
                       ("Bind", message(b"B", string(""), string(""), b"\0\0\0\0\0\0", b"more")),
                       ("Describe", message(b"D", b"S", string(""), b"more")), ("Execute", message(b"E", string(""), bytes(4), b"more")),
                       ("Close", message(b"C", b"S", string(""), b"more")), ("Close of nothing", message(b"C", b"x", string("")))]:
        kinds(client, parse("", "SELECT 1") + SYNC)
        yield f"bytes behind the end of {name}", differs(code_after(client, data + SYNC), "08P01")
    for value in (b"a\0b", b"\xff", b"\xc3"):
        yield f"no text: {value!r}", differs(code_of(lambda: client.execute("SELECT $1", (value,))), "22021")
    yield "nor as a statement", differs(code_after(client, message(b"P", string(""), b"SELECT '\xff'\0\0\0") + SYNC), "22021")


def pipelined(client: Postgres) -> Iterator[tuple[str, str | None]]:
    """Several answers of which each has room, and all together haven't."""
    long = parse("", "WITH RECURSIVE c(x) AS (VALUES(1) UNION ALL SELECT x+1 FROM c WHERE x<700) SELECT printf('%01000d', x) FROM c")
    one = long + bind("", "") + execute() + SYNC
    wanted = "12" + "D" * 700 + "CZ"
    came = [kinds(client, one * 4)] + [kinds(client, b"") for _ in range(3)]
    yield "4 answers of 0.7 MB", differs([text[:2] + text[-2:] + str(len(text)) for text in came], [f"12CZ{len(wanted)}"] * 4)


def code_after(client: Postgres, data: bytes) -> str:
    client.send(data)
    return code_of(client.results)


def tag_after(client: Postgres, data: bytes) -> str:
    client.send(data)
    return client.results()[-1].tag


def insert(number: int) -> bytes:
    return parse("", f"INSERT INTO t VALUES({number}, 'x')") + bind("", "") + execute()


def several(client: Postgres) -> Iterator[tuple[str, str | None]]:
    """Up to the next Sync they are one transaction."""
    seen = [kinds(client, insert(40) + insert(41) + SYNC), kinds(client, insert(42) + insert(42) + insert(43) + SYNC), client.status]
    yield "they are one", differs([*seen, client.rows("SELECT a FROM t WHERE a >= 40")], ["12C12CZ", "12C12EZ", "I", [(40,), (41,)]])
    client.send(insert(44))
    client.send(message(b"H"))
    while client.receive()[0] != b"C":
        pass
    other = insert(44) + SYNC
    yield "over several messages", differs([kinds(client, other), client.rows("SELECT count(*) FROM t WHERE a = 44")], ["12EZ", [(0,)]])


def waiting(served: Served, client: Postgres) -> Iterator[tuple[str, str | None]]:
    """One that waits for a lock goes on where it stood."""
    from tests.sql.simple import later
    other = Postgres(served.postgres)
    client.ask("BEGIN IMMEDIATE")
    thread, came = later(lambda: kinds(other, insert(50) + SYNC))
    seen = list(came)
    client.ask("COMMIT")
    thread.join(30)
    yield "an extended query waits", differs([seen, came], [[], ["12CZ"]])
    other.close()


def passwords(built: Built, room: Path) -> Iterator[tuple[str, str | None]]:
    with Served(built, room / "secret", "secret") as served:
        right = Postgres(served.postgres, "secret").rows("SELECT 1")
        wrong = [code_of(lambda word=word: Postgres(served.postgres, word)) for word in ("", "Secret", "secret1", "x" * 500)]
        yield "a password", differs([right, wrong], [[(1,)], ["28P01"] * 4])


def tests(built: Built) -> Iterator[tuple[str, str | None]]:
    with tempfile.TemporaryDirectory() as folder:
        room = Path(folder)
        with Served(built, room / "extended") as served:
            client = Postgres(served.postgres)
            client.ask(START)
            yield from parameters(client)
            yield from beside(client)
            yield from flows(client)
            yield from several(client)
            yield from ends(client)
            yield from pipelined(client)
            yield from waiting(served, client)
        yield from passwords(built, room)
