"""The control socket: a JSON object a line, and an answer a line for each, in order. And the port for Prometheus."""
import json
import os
import select
import socket

from host import metrics
from host.files import Place
from host.guarded import guarded
from host.tasks import refusal
from host.verbs import Verbs

MOST_CLIENTS = 32
MOST_LINE = 1 << 16  # bytes
MOST_UNSENT = 1 << 20
PATIENCE = 5.0  # seconds, for a scrape


class Client:
    def __init__(self, line, now):
        line.setblocking(False)
        self.line, self.begun = line, now
        self.came, self.unsent = bytearray(), bytearray()
        self.waits = self.is_ending = False  # for an answer; for its last answer to go out

    def fileno(self):
        return self.line.fileno()

    def read(self):
        """Whether there was more; False at the end, or where it went wrong."""
        try:
            data = self.line.recv(MOST_LINE)
        except BlockingIOError:
            return True
        except OSError:
            return False
        self.came += data
        return bool(data)

    def is_gone(self) -> bool:
        """Whether it has closed the line, so that it reads no answer: who has only ended what he says still does."""
        ends = select.poll()
        ends.register(self.line, 0)
        return bool(ends.poll(0))

    def write(self, data=b""):
        """Whether it still takes what is sent."""
        self.unsent += data
        try:
            while self.unsent:
                del self.unsent[:self.line.send(self.unsent[:MOST_LINE])]
        except BlockingIOError:
            return len(self.unsent) < MOST_UNSENT
        except OSError:
            return False
        return not self.is_ending


class Server:
    """What both have in common: a socket that listens, and at most so many clients, of whom the oldest makes room."""

    def __init__(self, host, listener):
        self.host, self.listener, self.clients = host, listener, []
        self.late = []  # clients whose lines came while an answer was awaited: they are served with the next turn
        if listener:
            listener.listen(16)
            listener.setblocking(False)

    def watched(self, reading, writing):
        """Adds what a wait is to look at."""
        reading.append(self.listener)
        reading += [client for client in self.clients if self.hears(client)]
        writing += [client for client in self.clients if client.unsent]

    def hears(self, client: Client) -> bool:
        return not client.waits and not client.is_ending

    def due(self, now):
        return None

    def turn(self, readable, writable, now):
        if self.listener in readable:
            try:
                self.clients.append(Client(self.listener.accept()[0], now))
            except OSError:
                pass
            if len(self.clients) > MOST_CLIENTS:
                self.drop(next((client for client in self.clients if not client.waits), self.clients[0]))
        for client in list(self.clients):
            if client in writable and not client.write():
                self.drop(client)
            elif client in readable and not client.waits:
                is_open = client.read()
                self.serve(client, is_open)

    def drop(self, client):
        client.line.close()
        if client in self.clients:
            self.clients.remove(client)

    def close(self):
        for one in [*self.clients, self.listener]:
            if one:
                one.close() if one is self.listener else one.line.close()


class Control(Server):
    """Raises OSError where the socket can't be had."""

    def __init__(self, host, path):
        self.verbs = Verbs(host)
        os.makedirs(os.path.dirname(os.path.abspath(path)), exist_ok=True)
        listener = socket.socket(socket.AF_UNIX)
        self.place = Place(path, listener, "the control socket")
        super().__init__(host, listener)

    def did(self, sentence, **more):
        return self.verbs.did(sentence, **more)

    def hears(self, client: Client) -> bool:
        """A client is heard again once what it has asked is answered."""
        return super().hears(client) and b"\n" not in client.came

    def serve(self, client: Client, is_open: bool) -> None:
        """One request of a client, so that many take no long turn of the loop."""
        line, newline, rest = client.came.partition(b"\n")
        if client.waits:
            return
        if len(line) > MOST_LINE:
            self.answered(client, refusal("Malformed", f"a line of more than {MOST_LINE} bytes"))
            self.drop(client)
        elif newline and client.is_gone():
            self.drop(client)  # who asked was told that no answer came, and may have done something else since
        elif newline:
            client.came, client.waits = rest, True
            self.verbs.do(bytes(line), lambda answer: self.answered(client, answer), client.is_gone)
        elif not is_open:
            self.drop(client)

    def answered(self, client, answer):
        client.waits = False
        if client in self.clients and not client.write(json.dumps(answer).encode() + b"\n"):
            self.drop(client)
        elif client in self.clients and client.came:
            self.late.append(client)

    def due(self, now):
        return now if self.late else None

    def turn(self, readable, writable, now):
        late, self.late = self.late, []
        for client in late:
            if client in self.clients:
                self.serve(client, True)
        super().turn(readable, writable, now)

    def close(self):
        super().close()
        self.place.leave()


class Scrapes(Server):
    """`GET /metrics` over HTTP/1.0."""

    def __init__(self, host, address):
        listener = None
        if address:
            listener = socket.socket(socket.AF_INET6 if ":" in address[0] else socket.AF_INET)
            listener.setsockopt(socket.SOL_SOCKET, socket.SO_REUSEADDR, 1)
            try:
                listener.bind(address)
            except OSError as error:
                raise OSError(None, f"metrics can't be had at {address[0]}:{address[1]}: {error.strerror}") from None
        super().__init__(host, listener)

    def due(self, now):
        return min((client.begun + PATIENCE for client in self.clients), default=None)

    def turn(self, readable, writable, now):
        super().turn(readable, writable, now)
        for client in list(self.clients):
            if now - client.begun > PATIENCE:
                self.drop(client)

    def serve(self, client, is_open):
        if b"\r\n\r\n" in client.came or b"\n\n" in client.came:
            words = client.came.split(b"\n", 1)[0].split()
            is_found = len(words) >= 2 and words[0] == b"GET" and words[1] in (b"/metrics", b"/")
            status, body = self.scraped() if is_found else ("404 Not Found", "GET /metrics is all there is\n")
            head = f"HTTP/1.0 {status}\r\nContent-Type: text/plain; version=0.0.4\r\nContent-Length: {len(body.encode())}\r\n"
            client.is_ending = True
            if not client.write(f"{head}Connection: close\r\n\r\n{body}".encode()):
                self.drop(client)
        elif not is_open or len(client.came) > 8192:
            self.drop(client)

    def scraped(self) -> tuple[str, str]:
        """The status and the body of an answer with the metrics."""
        return guarded(self.host.log, "a scrape of the metrics", lambda: ("200 OK", metrics.text(self.host)),
                       lambda why: ("500 Internal Server Error", why + "\n"))
