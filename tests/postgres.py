"""A client of PostgreSQL's protocol, version 3.0 (https://www.postgresql.org/docs/15/protocol.html), as psql and drivers speak it: simple
and extended queries, and SCRAM-SHA-256 (RFC 5802, RFC 7677)."""
from __future__ import annotations

import base64
import dataclasses
import hashlib
import hmac
import os
import socket
import struct
from typing import Any

INT8, TEXT, FLOAT8, BYTEA = 20, 25, 701, 17


class Error(Exception):
    """What the server refused, with its SQLSTATE."""

    def __init__(self, fields: dict[str, str]) -> None:
        super().__init__(f"{fields['C']} {fields['M']}")
        self.code, self.why = fields["C"], fields["M"]


class Gone(Exception):
    """The connection ended before the answer came."""


@dataclasses.dataclass
class Result:
    """What came of one statement."""

    columns: list[str] = dataclasses.field(default_factory=list)
    types: list[int] = dataclasses.field(default_factory=list)
    rows: list[tuple[Any, ...]] = dataclasses.field(default_factory=list)
    tag: str = ""


def string(text: str) -> bytes:
    return text.encode() + b"\0"


def message(kind: bytes, *parts: bytes) -> bytes:
    body = b"".join(parts)
    return kind + struct.pack(">I", len(body) + 4) + body


def value_of(kind: int, data: bytes | None, is_binary: bool = False) -> Any:
    """A value as Python has it."""
    if data is None:
        return None
    if is_binary and kind in (INT8, FLOAT8):
        return struct.unpack(">q" if kind == INT8 else ">d", data)[0]
    if is_binary and kind == BYTEA:
        return data
    return {INT8: int, FLOAT8: float, BYTEA: lambda text: bytes.fromhex(text[2:])}.get(kind, str)(data.decode())


def fields_of(body: bytes) -> dict[str, str]:
    return {part[:1].decode(): part[1:].decode(errors="replace") for part in body.split(b"\0") if part}


class Postgres:
    """A connection."""

    def __init__(self, port: int, password: str | None = None, timeout: float = 60, user: str = "me", address: str = "127.0.0.1",
                 program: str = "", database: str = "db") -> None:
        self.socket = socket.create_connection((address, port), timeout)
        self.came, self.status, self.warnings = b"", "", []
        self.copied = bytearray()  # the rows of the copy that was asked last
        self.parameters: dict[str, str] = {}
        self.key = (0, 0)
        named = {"user": user, "database": database, **({"application_name": program} if program else {})}
        parameters = b"".join(string(name) + string(value) for name, value in named.items()) + b"\0"
        self.send(struct.pack(">II", 8 + len(parameters), 196608) + parameters)
        self.log_in(password or "")

    def send(self, data: bytes) -> None:
        try:
            self.socket.sendall(data)
        except OSError as error:
            raise Gone(str(error)) from error

    def receive(self) -> tuple[bytes, bytes]:
        """The next message: its kind and its body."""
        while len(self.came) < 5 or len(self.came) < 1 + struct.unpack_from(">I", self.came, 1)[0]:
            try:
                data = self.socket.recv(1 << 16)
            except OSError as error:
                raise Gone(str(error)) from error
            if not data:
                raise Gone("closed")
            self.came += data
        end = 1 + struct.unpack_from(">I", self.came, 1)[0]
        kind, body, self.came = self.came[:1], self.came[5:end], self.came[end:]
        return kind, body

    def close(self) -> None:
        try:
            self.socket.sendall(message(b"X"))
        except OSError:
            pass
        self.socket.close()

    def vanish(self) -> None:
        """Ends without a word."""
        self.socket.close()

    # The beginning.

    def log_in(self, password: str) -> None:
        while True:
            kind, body = self.receive()
            if kind == b"E":
                raise Error(fields_of(body))
            if kind == b"R" and struct.unpack_from(">I", body)[0] == 10:
                self.prove(password)
            elif kind == b"S":
                name, value, _ = body.split(b"\0")
                self.parameters[name.decode()] = value.decode()
            elif kind == b"K":
                self.key = struct.unpack(">II", body)
            elif kind == b"Z":
                self.status = body.decode()
                return

    def prove(self, password: str) -> None:
        """The client's side of SCRAM."""
        nonce = base64.b64encode(os.urandom(18)).decode()
        bare = f"n=,r={nonce}"
        first = f"n,,{bare}".encode()
        self.send(message(b"p", string("SCRAM-SHA-256"), struct.pack(">I", len(first)), first))
        server_first = self.authentication(11).decode()
        said = dict(part.split("=", 1) for part in server_first.split(","))
        if not said["r"].startswith(nonce):
            raise Gone("the server's nonce isn't the client's, gone on")
        salted = hashlib.pbkdf2_hmac("sha256", password.encode(), base64.b64decode(said["s"]), int(said["i"]))
        client_key = hmac.digest(salted, b"Client Key", "sha256")
        last = f"c=biws,r={said['r']}"
        auth = f"{bare},{server_first},{last}".encode()
        signature = hmac.digest(hashlib.sha256(client_key).digest(), auth, "sha256")
        proof = base64.b64encode(bytes(a ^ b for a, b in zip(client_key, signature))).decode()
        self.send(message(b"p", f"{last},p={proof}".encode()))
        wanted = hmac.digest(hmac.digest(salted, b"Server Key", "sha256"), auth, "sha256")
        if self.authentication(12) != b"v=" + base64.b64encode(wanted):
            raise Gone("the server doesn't know the password")

    def authentication(self, wanted: int) -> bytes:
        kind, body = self.receive()
        if kind == b"E":
            raise Error(fields_of(body))
        if kind != b"R" or struct.unpack_from(">I", body)[0] != wanted:
            raise Gone(f"{kind!r} {body!r}")
        return body[4:]

    # Simple queries.

    def ask(self, sql: str) -> list[Result]:
        """What comes of each statement of a query."""
        self.send(message(b"Q", string(sql)))
        return self.results()

    def rows(self, sql: str) -> list[tuple[Any, ...]]:
        return self.ask(sql)[-1].rows

    def results(self, binary: list[bool] | None = None) -> list[Result]:
        """All that comes until the server is ready."""
        results, now, refused = [], Result(), None
        while True:
            kind, body = self.receive()
            if kind == b"T":
                now.columns, now.types = columns_of(body)
            elif kind == b"D":
                now.rows.append(row_of(body, now.types, binary))
            elif kind == b"d":
                self.copied += body
            elif kind in (b"C", b"I", b"s"):
                now.tag = body[:-1].decode() if kind == b"C" else kind.decode()
                results.append(now)
                now = Result()
            elif kind == b"E":
                refused = Error(fields_of(body))
            elif kind == b"N":
                self.warnings.append(fields_of(body)["C"])
            elif kind == b"Z":
                self.status = body.decode()
                if refused:
                    raise refused
                return results

    # Copies.

    def copy_in(self, sql: str, *pieces: bytes, failing: str | None = None) -> Result:
        """Rows as bytes, in as many messages. `failing` says why the client gives up in the end."""
        self.send(message(b"Q", string(sql)))
        kind, body = self.receive()
        if kind != b"G":
            self.came = message(kind, body) + self.came
            return self.results()[-1]
        self.send(b"".join(message(b"d", piece) for piece in pieces) + (message(b"c") if failing is None else message(b"f", string(failing))))
        return self.results()[-1]

    def copy_out(self, sql: str) -> bytes:
        """The rows of a table or a query as bytes."""
        self.send(message(b"Q", string(sql)))
        self.copied = bytearray()
        self.results()
        return bytes(self.copied)

    # Extended queries.

    def execute(self, sql: str, values: tuple[bytes | None, ...] = (), types: tuple[int, ...] = (), is_binary: bool = False,
                most: int = 0) -> Result:
        """One statement with values as bytes, described before it is executed."""
        self.send(parse("", sql, types) + bind("", "", values, is_binary, is_binary) + message(b"D", b"P", string(""))
                  + message(b"E", string(""), struct.pack(">I", most)) + message(b"S"))
        return self.results([is_binary] * 1000)[0]


def parse(name: str, sql: str, types: tuple[int, ...] = ()) -> bytes:
    return message(b"P", string(name), string(sql), struct.pack(f">H{len(types)}I", len(types), *types))


def bind(portal: str, name: str, values: tuple[bytes | None, ...] = (), in_binary: bool = False, out_binary: bool = False) -> bytes:
    told = b"".join(struct.pack(">i", -1) if value is None else struct.pack(">I", len(value)) + value for value in values)
    return message(b"B", string(portal), string(name), struct.pack(">HH", 1, in_binary), struct.pack(">H", len(values)), told,
                   struct.pack(">HH", 1, out_binary))


def columns_of(body: bytes) -> tuple[list[str], list[int]]:
    names, types, at = [], [], 2
    for _ in range(struct.unpack_from(">H", body)[0]):
        end = body.index(b"\0", at)
        names.append(body[at:end].decode())
        types.append(struct.unpack_from(">I", body, end + 7)[0])
        at = end + 19
    return names, types


def row_of(body: bytes, types: list[int], binary: list[bool] | None) -> tuple[Any, ...]:
    values, at = [], 2
    for place in range(struct.unpack_from(">H", body)[0]):
        [length] = struct.unpack_from(">i", body, at)
        data = None if length < 0 else body[at + 4:at + 4 + length]
        at += 4 + max(length, 0)
        kind = types[place] if place < len(types) else TEXT
        values.append(value_of(kind, data, bool(binary) and binary[place]))
    return tuple(values)
