"""Random statements, for one database beside another."""
from __future__ import annotations

import random

SETUP = ("DROP TABLE IF EXISTS t; DROP TABLE IF EXISTS u; CREATE TABLE t(id INTEGER PRIMARY KEY, a, b, c);"
         "CREATE TABLE u(id INTEGER PRIMARY KEY, a, b, c)")


class Statements:
    """A source of them, always the same for a seed."""

    def __init__(self, seed: int) -> None:
        self.rng = random.Random(seed)

    def number(self) -> str:
        rng = self.rng
        return rng.choice([str(rng.randint(-50, 50)), str(rng.randint(-2**62, 2**62)), repr(rng.uniform(-1000, 1000)),
                           f"{rng.uniform(-9, 9):.3f}e{rng.randint(-12, 12)}", "NULL", f"'{rng.randint(0, 99)}abc'"])

    def value(self, depth: int = 0) -> str:
        rng = self.rng
        if depth > 2 or rng.random() < 0.3:
            return rng.choice(["a", "b", "c", self.number(), self.number()])
        one, two, three, four = (self.value(depth + 1) for _ in range(4))
        return rng.choice([
            f"({one} + {two})", f"({one} * {two})", f"({one} - {two})", f"({one} / {two})", f"({one} % {rng.randint(1, 99)})",
            f"round({one}, {rng.randint(0, 5)})", f"abs(coalesce(1.0 * {one}, 0))", f"length({one})", f"coalesce({one}, {two})",
            f"CASE WHEN {one} > {two} THEN {three} ELSE {four} END",
            f"printf('%.{rng.randint(1, 10)}f|%e|%d|%s', {one}, {two}, {three}, {four})",
            f"CAST({one} AS {rng.choice(['INTEGER', 'REAL', 'TEXT'])})", f"substr({one}, {rng.randint(-3, 3)}, {rng.randint(0, 5)})",
            f"upper({one}) || {two}", f"max({one}, {two})", f"({one} BETWEEN {two} AND {three})", f"typeof({one})", f"hex({one})",
            f"({one} & 255 | {rng.randint(0, 9)})", f"date('2026-01-01', '+' || {rng.randint(0, 9999)} || ' days')",
            f"julianday('20{rng.randint(10, 99)}-0{rng.randint(1, 9)}-1{rng.randint(0, 9)} 12:34:56')", f"instr({one}, {two})",
            f"quote({one})", f"json_extract('{{\"k\":[1,{rng.uniform(0, 1):.6f}]}}', '$.k[1]')"])

    def statement(self) -> str:
        rng, table, kind = self.rng, self.rng.choice("tu"), self.rng.random()
        insert = f"INSERT INTO {table}(a, b, c) VALUES({self.number()}, {self.number()}, {self.number()})"
        if kind < 0.3:
            return insert
        if kind < 0.36:
            return f"UPDATE {table} SET {rng.choice('abc')} = {self.value()} WHERE id % {rng.randint(2, 7)} = 0"
        if kind < 0.4:
            return f"DELETE FROM {table} WHERE id % {rng.randint(5, 20)} = 1"
        if kind < 0.43:
            return f"BEGIN; UPDATE {table} SET a = {self.value()}; {insert}; {rng.choice(['COMMIT', 'ROLLBACK'])}"
        if kind < 0.46:
            return rng.choice(["CREATE INDEX IF NOT EXISTS i1 ON t(a)", "DROP INDEX IF EXISTS i1",
                               "CREATE INDEX IF NOT EXISTS i2 ON u(b, c)",
                               "ANALYZE", "VACUUM", "REINDEX"])
        if kind < 0.75:
            return f"SELECT {self.value()}, {self.value()} FROM {table} WHERE {self.value()} > {self.value()} ORDER BY id LIMIT 20"
        if kind < 0.85:
            return "SELECT count(*), sum(t.id), min(t.a), max(u.b) FROM t JOIN u ON t.id % 5 = u.id % 7"
        if kind < 0.92:
            return (f"SELECT id % 4 AS g, count(*), total(CAST(a AS REAL)), avg(b), group_concat(id) FROM {table} GROUP BY g "
                    f"HAVING count(*) > {rng.randint(0, 3)} ORDER BY g")
        if kind < 0.96:
            return (f"SELECT id, row_number() OVER (PARTITION BY id % 3 ORDER BY a, id), sum(id) OVER (ORDER BY id ROWS 3 PRECEDING) "
                    f"FROM {table} ORDER BY id LIMIT 15")
        return (f"WITH RECURSIVE c(x, y) AS (VALUES(1, {rng.randint(1, 9)}.5) UNION ALL SELECT x + 1, y * 1.1 FROM c WHERE x < 20) "
                "SELECT sum(x), avg(y), max(y) FROM c")
