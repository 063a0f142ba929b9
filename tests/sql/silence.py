"""A client of the database that begins a transaction and then is silent for good, with no system that would say so: the guest's TCP has to
find out. It is client 2 of a pair that runs here; client 1 is this machine, as for `tools/serve`."""
from __future__ import annotations

import random
import struct
import threading
import types
from pathlib import Path

from guests.lib.frames import ACK, GUEST_IP, PSH, SYN, TCP, arp_request, client_ip, from_client, ipv4, payload, tcp, tcp_data
from tests.postgres import message, string
from tools.live.hosts import Program
from tools.live.loop import Clock, Loop
from tools.live.network import Slirp

CLIENT, PORT, FIRST = 2, 40002, 1_000_000
SAID = [struct.pack(">II", 17, 196608) + b"user\0me\0\0", message(b"Q", string("BEGIN; UPDATE account SET balance = 0"))]


class Silent:
    """The client. It begins when `may_begin` is set, and sets `is_silent` once its transaction holds the lock."""

    def __init__(self) -> None:
        self.client, self.may_begin, self.is_silent = CLIENT, threading.Event(), threading.Event()
        self.next, self.expected, self.left = FIRST, 0, list(SAID)
        self.to_send = [arp_request(CLIENT), self.segment(SYN, options=struct.pack(">BBH", 2, 4, 1460))]
        self.next += 1

    def segment(self, flags: int, data: bytes = b"", options: bytes = b"") -> bytes:
        part = tcp(client_ip(CLIENT), GUEST_IP, PORT, 5432, self.next, self.expected, flags, 65535, data, options)
        return from_client(CLIENT, ipv4(client_ip(CLIENT), GUEST_IP, TCP, part))

    def watch(self) -> tuple[list, float]:
        return [], 0.05

    def frames(self, _: object) -> list[tuple[int, bytes]]:
        if not self.may_begin.is_set():
            return []
        frames, self.to_send = self.to_send, []
        return [(CLIENT, frame) for frame in frames]

    def put(self, frame: bytes) -> None:
        segment = payload(frame, TCP)
        if segment is None or self.is_silent.is_set():
            return
        number, data = struct.unpack_from(">I", segment, 4)[0], tcp_data(segment)
        end = number + len(data) + bool(segment[13] & SYN)
        if end == number or self.expected not in (0, number):
            return
        self.expected = end
        self.to_send.append(self.segment(ACK))
        if segment[13] & SYN or data.endswith(b"Z\0\0\0\5I"):
            self.to_send.append(self.segment(ACK | PSH, self.left[0]))
            self.next += len(self.left.pop(0))
        elif data.endswith(b"Z\0\0\0\5T"):
            self.is_silent.set()


class Screen:
    """In the place of the screen."""

    requests, connections = 0, {}

    def watch(self) -> list:
        return []

    def keys(self, _: object) -> str:
        return ""

    def tell(self, _: object) -> None:
        pass

    count = tell

    def show(self, *_: object) -> None:
        pass


class Pair:
    """A pair whose client 1 is a port of this machine, and client 2 the silent one."""

    def __init__(self, program: str, script: Path, port: int, rate: int, epoch: float) -> None:
        fields = script.read_text().split(" ", 4)
        fields[3] = "2"
        plan = types.SimpleNamespace(steps_per_ms=rate, epoch=epoch / 1000, link=0.0, detect=0.1, alone=False, lose_in=0, lose_out=0,
                                     seconds=None, fail_every=None)
        self.program, self.silent = Program(program), Silent()
        networks = [Slirp([(port, 5432, False)], "10.0.0.1"), self.silent]
        self.loop = Loop(plan, self.program, " ".join(fields).strip(), networks, Screen(), random.Random(1), Clock())
        self.thread = threading.Thread(target=self.loop.run, daemon=True)

    def __enter__(self) -> Pair:
        self.thread.start()
        return self

    def __exit__(self, *_: object) -> None:
        self.loop.end()
        self.thread.join(60)
        self.program.close()
