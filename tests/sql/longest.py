"""Statements of which one call of SQLite's takes long, and how long the guest's longest turn is meanwhile (SHOW longest_turn)."""
from __future__ import annotations

from collections.abc import Iterator

from tests.postgres import Error, Postgres

MOST = 200  # milliseconds of the guest's time
SETUP = ["CREATE TABLE v(a)", "CREATE TABLE w(a INTEGER PRIMARY KEY, b TEXT)", "CREATE TABLE j(b)",
         "WITH RECURSIVE n(x) AS (VALUES(1) UNION ALL SELECT x + 1 FROM n WHERE x < 20000) "
         "INSERT INTO w SELECT x, hex(x * 7919 % 20011) FROM n",
         "WITH RECURSIVE n(x) AS (VALUES(1) UNION ALL SELECT x + 1 FROM n WHERE x < 44000) INSERT INTO j SELECT json_group_array(x) FROM n"]
# What each comes to: a value, None where nothing is asked, or a SQLSTATE.
LONG = {
    "VALUES of 20,000 rows": ("INSERT INTO v VALUES" + ",".join(f"({i})" for i in range(20000)), "53200"),
    "VALUES of 5,000 rows": ("INSERT INTO v VALUES" + ",".join(f"({i})" for i in range(5000)), None),
    "IN of 30,000": (f"SELECT count(*) FROM v WHERE a IN ({','.join(map(str, range(30000)))})", "53200"),
    "IN of 10,000": (f"SELECT count(*) FROM v WHERE a IN ({','.join(map(str, range(10000)))})", 5000),
    "a sum of 900": ("SELECT " + "+".join(["1"] * 900), 900),
    "450 queries in one": (" UNION ALL ".join(["SELECT 1"] * 450), 1),
    "256 KB in quotes": (f"SELECT length('{'e' * 250_000}')", 250_000),
    "an index over 20,000 rows": ("CREATE INDEX sorted ON w(b)", None),
    "20,000 rows sorted": ("SELECT a FROM w ORDER BY b || '', a LIMIT 1", 1031),
    "40 rows of 120 KB sorted": ("SELECT length(b) FROM (SELECT hex(zeroblob(60000)) || a AS b FROM w LIMIT 40) ORDER BY b LIMIT 1",
                                 120_001),
    "20,000 rows in groups": ("SELECT count(*) FROM (SELECT b FROM w GROUP BY b || '')", 20_000),
    "20,000 distinct rows": ("SELECT count(DISTINCT b || '') FROM w", 20_000),
    "JSON of 250 KB": ("SELECT length(json(b)) FROM j", 252_895),
    "its elements": ("SELECT count(*) FROM j, json_each(j.b)", 44_000),
    "its last": ("SELECT json_extract(b, '$[43999]') FROM j", 44_000),
    "hex of 125 KB": ("SELECT length(hex(zeroblob(125000)))", 250_000),
    "printf of 200 KB": ("SELECT length(printf('%.*c', 200000, 'x'))", 200_000),
    "upper of 250 KB": ("SELECT length(upper(hex(zeroblob(125000))))", 250_000),
    "a regular expression": ("SELECT hex(zeroblob(100000)) ~ '^(0|00|0*1)*$'", 1),
    "an array of 60,000": ("SELECT count(*) FROM unnest((SELECT array_agg(1) FROM generate_series(1, 60000))) x", 60_000),
}


def came(client: Postgres, sql: str) -> object:
    try:
        rows = client.rows(sql)
        return rows[0][0] if rows else None
    except Error as error:
        return error.code


def turns(port: int) -> Iterator[tuple[str, int, str | None]]:
    """Each statement, the longest turn meanwhile, and what is wrong."""
    client, other = Postgres(port, timeout=600), Postgres(port, timeout=600)
    client.ask("SET statement_timeout = 0")
    for sql in SETUP:
        client.ask(sql)
    for name, (sql, wanted) in LONG.items():
        other.rows("SHOW longest_turn")
        answer = came(client, sql)
        took = int(other.rows("SHOW longest_turn")[0][0].removesuffix("ms"))
        yield name, took, None if answer == wanted and took < MOST else f"{answer}, not {wanted}, the longest turn {took} ms"
    whole = other.rows("PRAGMA integrity_check")
    yield "integrity_check", 0, None if whole == [("ok",)] else str(whole)
    client.close()
    other.close()
