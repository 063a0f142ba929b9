"""One connection of the link: TCP, or TLS 1.3 over it, without ever waiting."""
import socket
import ssl

from host import messages
from host.handshakes import IS_TLS, Papers

CHUNK = 1 << 18
SMALL = 1 << 14  # bytes: what came in one go, where it is fewer, was all that had come
WAITING = 256  # connections that the system keeps until they are let in, so that the peer's isn't turned away for strangers
MOST_UNSENT = 1 << 20  # bytes, after which nothing more is to be given to send
TLS_RECORDS = b"\x16", b"\x15"  # how they begin, and no message before two hosts have met: a handshake and an alert
ROOM = bytearray(CHUNK)  # where what comes is put first, whichever connection it comes over


class Closed(Exception):
    """The connection is over, and why."""


class Connection:
    """`papers` is None for a plain one."""

    def __init__(self, tcp: socket.socket, papers: Papers | None, now: float, is_server: bool) -> None:
        tcp.setblocking(False)
        self.address = "?", 0
        self.is_server, self.papers, self.begun = is_server, papers, now
        self.until, self.awaits, self.was_heard = now, "who it is", False  # what is to come next, and when at the latest
        self.socket = tcp
        self.is_tls = papers is not None
        self.is_open = not self.is_tls  # whether the handshake is done
        self.wants_write = False  # TLS must write before it can go on
        if self.is_tls:
            context = papers.server if is_server else papers.client
            self.socket = context.wrap_socket(tcp, server_side=is_server, do_handshake_on_connect=False,
                                              suppress_ragged_eofs=True)
        self.came, self.unsent = bytearray(), bytearray()
        self.most = messages.MOST_BEFORE
        self.heard_at = self.said_at = now

    def fileno(self):
        return self.socket.fileno()

    @property
    def place(self) -> str:
        """Where the other end is, as text."""
        return "{}:{}".format(*self.address)

    @property
    def is_proven(self) -> bool:
        """Whether the other end has shown the pinned certificate."""
        return self.is_tls and self.is_open

    @property
    def waits_to_write(self):
        return self.wants_write or bool(self.unsent)

    def has_room(self):
        return len(self.unsent) < MOST_UNSENT

    def met(self):
        """The two hosts have met: longer messages may come."""
        self.most = messages.MOST

    def handshake(self):
        """Goes on with it. Raises Closed."""
        self.wants_write = False
        try:
            self.socket.do_handshake()
        except ssl.SSLWantReadError:
            return
        except ssl.SSLWantWriteError:
            self.wants_write = True
            return
        except (ssl.SSLZeroReturnError, ssl.SSLEOFError, ConnectionError):
            raise Closed("it closed the connection in the handshake: it has ended just then, or 'plain' is set there, or something else has "
                         "that port") from None
        except (OSError, ValueError) as error:
            raise Closed(self.why(error) or f"the handshake failed: {reason(error)}") from None
        if why := self.papers.why_not(self.socket.getpeercert(binary_form=True)):
            raise Closed(why)
        self.is_open = True

    def why_silent(self, otherwise: str) -> str:
        """Why it may be that the other end has closed the connection."""
        if self.is_server or self.most != messages.MOST_BEFORE or self.came:
            return otherwise
        if not self.is_tls:
            return "it closed the connection without a word: it may speak TLS, and 'plain' is set here"
        return f"it closed the connection without a word: it may not take this host's certificate. {self.papers.to_copy()}"

    def why(self, error: Exception) -> str | None:
        """What an error says of a certificate, if it does."""
        return self.papers.why_failed(error) if self.is_tls and isinstance(error, ssl.SSLError) else None

    def send(self, data):
        """Sends what it can, and keeps the rest to be sent. Raises Closed."""
        if self.is_open and not self.unsent:
            data = data[self.sent(data):]
        if data:
            self.unsent += data
            if self.is_open:
                self.flush()

    def flush(self):
        """Sends what it can. Raises Closed."""
        self.wants_write, count = False, 1
        while self.unsent and count:
            with memoryview(self.unsent) as view, view[:CHUNK] as part:
                count = self.sent(part)
            del self.unsent[:count]

    def sent(self, data):
        """How many of these bytes are sent at once. Raises Closed."""
        try:
            return self.socket.send(data)
        except (ssl.SSLWantWriteError, ssl.SSLWantReadError, BlockingIOError):
            return 0
        except (OSError, ValueError) as error:
            raise Closed(reason(error)) from None

    def messages(self, now, pieces=1):
        """What came, in so many pieces or fewer. Raises Closed, and Malformed."""
        if not self.is_open:
            self.handshake()
            if not self.is_open:
                return []
            if self.unsent:
                self.flush()
        ended, budget = None, 4 * CHUNK
        try:
            while budget > 0:
                count = self.socket.recv_into(ROOM)
                if not count:
                    ended = self.why_silent("the other end closed it")
                    break
                self.came += ROOM[:count]
                budget -= count
                pieces -= 1
                if pieces <= 0 and count < SMALL and not self.has_more():
                    break  # there was no more; if there is by now, the next wait tells
        except (ssl.SSLWantReadError, BlockingIOError):
            pass
        except ssl.SSLWantWriteError:
            self.wants_write = True
        except ConnectionError as error:
            ended = self.why_silent(reason(error))
        except (OSError, ValueError) as error:
            ended = self.why(error) or reason(error)
        if not self.is_tls and self.most == messages.MOST_BEFORE and self.came[:1] in TLS_RECORDS:
            raise Closed(IS_TLS)
        found = messages.taken(self.came, self.most)
        if found:
            self.heard_at = now
        elif ended:
            raise Closed(ended)
        return found

    def rest(self) -> list[tuple[int, bytes, bytes]]:
        """The messages that came behind others, now that those are heard. Raises Malformed."""
        return messages.taken(self.came, self.most)

    def has_more(self):
        """Whether TLS keeps bytes that no poll would tell of."""
        return self.is_tls and self.is_open and self.socket.pending() > 0

    def close(self):
        try:
            self.socket.close()
        except OSError:
            pass


def reason(error):
    if isinstance(error, (ssl.SSLZeroReturnError, ssl.SSLEOFError)):
        return "the other end closed it"
    if isinstance(error, ssl.SSLError):
        return (error.reason or "TLS failed").lower().replace("_", " ")
    return getattr(error, "strerror", None) or str(error) or "it failed"


def dialled(address):
    """A TCP socket whose connection has begun."""
    family = socket.AF_INET6 if ":" in address[0] else socket.AF_INET
    tcp = socket.socket(family, socket.SOCK_STREAM)
    tcp.setblocking(False)
    tcp.setsockopt(socket.IPPROTO_TCP, socket.TCP_NODELAY, 1)
    try:
        tcp.connect(address)
    except BlockingIOError:
        pass
    except OSError:
        tcp.close()
        raise
    return tcp


def listening(address):
    family = socket.AF_INET6 if ":" in address[0] else socket.AF_INET
    tcp = socket.socket(family, socket.SOCK_STREAM)
    tcp.setsockopt(socket.SOL_SOCKET, socket.SO_REUSEADDR, 1)
    try:
        tcp.bind(address)
    except OSError as error:
        raise OSError(None, f"the link can't be awaited at {address[0]}:{address[1]}: {error.strerror}") from None
    tcp.listen(WAITING)
    tcp.setblocking(False)
    return tcp
