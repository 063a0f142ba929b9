"""Client 1 of the web server guest, which loads its pages over one TCP connection for as long as it likes, slowly, so that whatever befalls
the hosts befalls them in the middle of a download. A page must come whole, the number of /count must rise, no frame may come twice, and
nothing that the server has acknowledged may be forgotten."""
import struct
import threading
import time

from guests.lib.frames import (ACK, ARP, EVERYONE, GUEST_IP, GUEST_MAC, PSH, REPLY, RST, SYN, TCP, arp, client_ip, client_mac, from_client,
                               ipv4, is_whole, kind, payload, tcp, tcp_data)
from host.started import Hub
from tests.served import big

CLIENT, PORT, FIRST = 1, 40002, 1000
WINDOW, MSS = 8760, struct.pack(">BBH", 2, 4, 1460)
PAUSE, AGAIN = 0.015, 0.1  # seconds before what came is acknowledged; after which what isn't answered is sent again


class Connection:
    """The client's end. `received` has what came in its turn; `wrong` is what can't be of a server that never fails."""

    def __init__(self) -> None:
        self.number, self.question = FIRST, b""  # of the next byte that the server lacks, and what of the question that is
        self.expected: int | None = None  # the number of the server's next byte
        self.received, self.wrong = bytearray(), ""
        self.owes_since: float | None = None
        self.sent_at = -AGAIN

    def frame(self, flags: int, data: bytes = b"", options: bytes = b"") -> bytes:
        segment = tcp(client_ip(CLIENT), GUEST_IP, PORT, 80, self.number, self.expected or 0, flags, WINDOW, data, options)
        return from_client(CLIENT, ipv4(client_ip(CLIENT), GUEST_IP, TCP, segment))

    def due(self, now: float) -> bytes | None:
        """The frame that is to be sent now."""
        owes = self.owes_since is not None and now - self.owes_since >= PAUSE
        if not owes and now - self.sent_at < AGAIN:
            return None
        self.owes_since, self.sent_at = None, now
        if self.expected is None:
            return self.frame(SYN, options=MSS)
        return self.frame(ACK | (PSH if self.question else 0), self.question)

    def ask(self, path: str) -> None:
        self.question = f"GET {path} HTTP/1.1\r\nHost: 10.0.0.1\r\nConnection: keep-alive\r\n\r\n".encode()
        self.received.clear()
        self.sent_at = -AGAIN

    def take(self, frame: bytes, now: float) -> None:
        segment = payload(frame, TCP)
        if segment is None or segment[2:4] != PORT.to_bytes(2, "big"):
            return
        if not is_whole(frame, TCP):
            self.wrong = "a frame with a wrong checksum"
        number, acknowledged = struct.unpack_from(">II", segment, 4)
        if segment[13] & RST:
            self.wrong = "the connection was reset"
        elif segment[13] & SYN:
            if self.expected is None:
                self.expected, self.number, self.sent_at = number + 1, acknowledged, -AGAIN
        elif self.expected is not None:
            self.acknowledge(acknowledged)
            self.put(number, tcp_data(segment), now)

    def acknowledge(self, acknowledged: int) -> None:
        if acknowledged < self.number:
            self.wrong = f"the server acknowledges {acknowledged}, and had acknowledged {self.number}"
        self.question, self.number = self.question[acknowledged - self.number:], acknowledged

    def put(self, number: int, data: bytes, now: float) -> None:
        if not data:
            return
        if number <= self.expected < number + len(data):
            self.received += data[self.expected - number:]
            self.expected = number + len(data)
        if self.owes_since is None:
            self.owes_since = now

    @property
    def body(self) -> bytes | None:
        """The answer's body, once it is whole."""
        head, found, body = bytes(self.received).partition(b"\r\n\r\n")
        fields = dict(line.split(b": ", 1) for line in head.split(b"\r\n")[1:] if b": " in line)
        return body if found and len(body) >= int(fields.get(b"Content-Length", -1)) >= 0 else None


class Visitor(threading.Thread):
    """Asks for /big and /count in turn. `numbers` has what /count answered, and `loaded` how many downloads ended whole."""

    def __init__(self, *hosts: object) -> None:
        super().__init__(daemon=True)
        self.hub, self.connection, self.is_over = Hub(*hosts), Connection(), False
        self.frames, self.count, self.numbers, self.loaded, self.bad = set(), 0, [], 0, ""

    def run(self) -> None:
        pages, wanted = ["/big", "/count"], big()
        self.connection.ask(pages[0])
        while not self.is_over:
            if frame := self.connection.due(time.monotonic()):
                self.hub.send(frame)
            for frame in self.hub.came(0.003):
                self.take(frame)
            if self.connection.expected is not None and (body := self.connection.body) is not None:
                self.came(pages[0], body, wanted)
                pages.reverse()
                self.connection.ask(pages[0])

    def take(self, frame: bytes) -> None:
        if kind(frame) == ARP and frame[:6] in (EVERYONE, client_mac(CLIENT)) and frame[38:42] == client_ip(CLIENT):
            self.hub.send(arp(REPLY, GUEST_MAC, client_mac(CLIENT), client_ip(CLIENT), GUEST_MAC, GUEST_IP))
        elif frame[:6] == client_mac(CLIENT):
            self.frames.add(hash(frame))
            self.count += 1
            self.connection.take(frame, time.monotonic())

    def came(self, page: str, body: bytes, wanted: bytes) -> None:
        if page == "/count":
            self.numbers.append(int(body))
        elif body == wanted:
            self.loaded += 1
        else:
            self.bad = f"{page} is other than it is: {body[:80]!r}"

    @property
    def progress(self) -> int:
        """Something that grows while the server answers."""
        return self.connection.expected or 0

    def wait(self, more: int, patience: float = 30.0) -> None:
        """Waits until so many times a KiB more came. Raises TimeoutError."""
        wanted, end = self.progress + (more << 10), time.monotonic() + patience
        while self.progress < wanted and not self.wrong():
            if time.monotonic() > end:
                raise TimeoutError(f"the download stands at {len(self.connection.received)} bytes, with {self.connection.question!r} asked")
            time.sleep(0.002)

    def end(self) -> None:
        self.is_over = True
        self.join(5)

    def wrong(self) -> str | None:
        falls = [(a, b) for a, b in zip(self.numbers, self.numbers[1:]) if a >= b]
        if falls or self.count > len(self.frames):
            return f"numbers that don't rise: {falls[:3]}, {self.count - len(self.frames)} frames twice"
        return self.connection.wrong or self.bad or None

    def told(self) -> str:
        return f"{self.loaded} downloads of /big on one connection, {len(self.numbers)} of /count"
