#!/usr/bin/env python3
"""Copies with random options of random rows, and what PostgreSQL makes of them:

    tests/sql/copies.py PORT COUNT SEED >tests/sql/copies.json    asks a PostgreSQL 15 at a port of this machine
    tests/sql/copies.py PORT COUNT SEED --beside OTHER            asks it and the guest's parts at another port, and prints what differs

A case is a list: options, and then the rows that came in, or what went out; and what came of it: the first two characters of an SQLSTATE,
or all rows of the table, or the bytes that went out."""
from __future__ import annotations

import json
import random
import sys
from pathlib import Path
from typing import Any

sys.path.insert(0, str(Path(__file__).resolve().parents[2]))
from tests.postgres import Error, Postgres

PIECES = ["a", "b", "x", "N", ",", "|", "\t", ";", '"', "'", "\\", "\\N", "\\.", "n", "\n", "\n", "1", "7", "0", "", "%", ".", "-", "é",
          " ", "\\t", "\\x4", "\\101", '""', "\\\\"]
VALUES = [None, "", "a", "x,y", "t\tu", "n\nm", 'q"r', "\\N", "\\.",
          "NULL", "back\\slash", "it's", "|", "ü", " ", "\r", "\b\v\f", "%", "-", "N"]
NULLS = ["", "NULL", "\\N", "x", "a,b", '"', "N", "-"]
SETUP = "DROP TABLE IF EXISTS t; CREATE TABLE t(a text, b text, c text)"
Case = list[Any]


def quoted(text: str | None) -> str:
    return "NULL" if text is None else "'" + text.replace("'", "''") + "'"


def options(rng: random.Random, is_out: bool) -> str:
    """Options as a copy has them in parentheses, or none."""
    is_csv, found = rng.random() < 0.55, []
    if is_csv or rng.random() < 0.3:
        found.append("FORMAT csv" if is_csv else "FORMAT text")
    if rng.random() < 0.4:
        found.append(f"DELIMITER {quoted(rng.choice([',', '|', chr(9), ';', ':', chr(34), chr(39), 'a', 'N']))}")
    if rng.random() < 0.4:
        found.append(f"NULL {quoted(rng.choice(NULLS))}")
    if rng.random() < 0.3:
        found.append(rng.choice(["HEADER", "HEADER true", "HEADER off", "HEADER 1", *([] if is_out else ["HEADER match"])]))
    if is_csv and rng.random() < 0.3:
        found.append(f"QUOTE {quoted(rng.choice([chr(34), chr(39), '|', '%']))}")
    if is_csv and rng.random() < 0.3:
        found.append(f"ESCAPE {quoted(rng.choice([chr(92), chr(34), '%']))}")
    if is_csv and rng.random() < 0.3:
        found.append(rng.choice(["FORCE_QUOTE *", "FORCE_QUOTE (a)", "FORCE_QUOTE (b, c)"] if is_out else
                                ["FORCE_NOT_NULL (a)", "FORCE_NULL (b)", "FORCE_NULL (a,b,c), FORCE_NOT_NULL (c)"]))
    rng.shuffle(found)
    return f" WITH ({', '.join(found)})" if found else ""


def rows(rng: random.Random, is_csv: bool) -> str:
    """Bytes that are rows, or nearly."""
    mark, found = "," if is_csv else "\t", []
    for _ in range(rng.randrange(1, 4)):
        fields = ["".join(rng.choice(PIECES) for _ in range(rng.choice([0, 1, 1, 2, 4]))) for _ in range(rng.choice([3, 3, 3, 3, 3, 2, 4]))]
        if is_csv:
            fields = ['"' + field.replace('"', '""') + '"' if rng.random() < 0.4 else field for field in fields]
        found.append(mark.join(fields))
    head = f"a{mark}b{mark}c\n" if rng.random() < 0.2 else ""
    return head + "\n".join(found) + rng.choice(["\n", "\n", "", "\n\\.\n", "\n\\.\nrest,of,it\n"])


def made(rng: random.Random) -> Case:
    """What is asked in a case."""
    is_out = rng.random() < 0.4
    told = options(rng, is_out)
    return [told, [rng.choice(VALUES) for _ in range(3)] if is_out else rows(rng, "csv" in told)]


def came_of(client: Postgres, told: str, what: str | list[str | None]) -> Any:
    """What comes of it."""
    client.ask("DELETE FROM t")
    try:
        if isinstance(what, list):
            client.ask(f"INSERT INTO t VALUES({', '.join(map(quoted, what))})")
            return client.copy_out("COPY t TO STDOUT" + told).decode()
        data = what.encode()
        client.copy_in("COPY t FROM STDIN" + told, data[:5], data[5:])
        return sorted(client.rows("SELECT a, b, c FROM t"), key=str)
    except Error as error:
        return error.code[:2]


def listed(value: Any) -> Any:
    """As JSON has it."""
    return json.loads(json.dumps(value))


def main() -> int:
    port, count, seed = map(int, sys.argv[1:4])
    rng, client, differing = random.Random(seed), Postgres(port), 0
    other = Postgres(int(sys.argv[5])) if len(sys.argv) > 5 else None
    for one in filter(None, (client, other)):
        one.ask(SETUP)
    for number in range(count):
        told, what = made(rng)
        came = listed(came_of(client, told, what))
        if other is None:
            print(("[" if number == 0 else ",") + json.dumps([told, what, came]))
        elif (seen := listed(came_of(other, told, what))) != came:
            differing += 1
            print(f"{told} {what!r}: {seen!r}, not {came!r}")
    print(f"{count} cases, {differing} differ" if other else "]")
    return 0


if __name__ == "__main__":
    sys.exit(main())
