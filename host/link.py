"""The link to the peer: who has none dials, and who is live takes the one standby that comes. What two hosts say when they meet is in
meeting.py; here are the sockets, and what comes from strangers."""
import errno
import os
import random
import socket
import time
from typing import Any

from host import messages
from host.certificates import Certificates
from host.connection import Closed, Connection, dialled, listening
from host.logs import Log
from host.metrics import Counts
from host.settings import Settings
from host.troubles import Said, Trouble

MOST_STRANGERS = 128  # connections that haven't shown who they are, of the peer's address and of all others; the oldest makes room
MOST_CALLERS = 4  # connections of the peer that aren't attached: it has one, and each other one is of before
ACCEPTED_AT_ONCE = 16  # strangers that are let in in one turn of the loop
HEARD_AT_ONCE = 2  # strangers that are heard in one turn
PATIENCE = 5.0  # seconds, for a stranger to say who it is, and for the peer to say what comes next
AGAIN = 0.25  # seconds, until the peer is dialled again
RECENT = 10.0  # seconds, for which it is told why who came from the peer's address wasn't let in


class Link:
    """`meeting` is told what comes before an attachment, `attached` what comes in it; both raise Malformed where it is nonsense. A stranger
    is who came and hasn't shown who it is: strangers make room for each other alone. `callers` have shown the peer's certificate, or were
    offered an attachment where the link is plain; `call` is the connection by which this host calls the peer."""

    def __init__(self, settings: Settings, log: Log, counts: Counts) -> None:
        self.settings, self.log, self.counts = settings, log, counts
        self.certificates = Certificates(settings, log)
        self.listener = listening(settings.listen) if settings.listen else None
        self.strangers, self.callers, self.call, self.tcp, self.tcp_begun = [], [], None, None, 0.0
        self.connection, self.session = None, None  # the attached connection, and its session's name
        self.dial_at, self.heard_at = 0.0, None
        self.ping_every = settings.link_ms / 4  # seconds without another message
        self.connects_in = min(max(settings.link_ms / 2, AGAIN), PATIENCE)  # seconds, for a connection to the peer to come about
        self.meeting = self.attached = self.lost = None
        self.now = time.monotonic
        self.trouble = Trouble(log)  # with the peer, where this host dials it
        self.refused, self.refusal = Said(log, "refused"), (None, -RECENT)  # of who comes; of the peer's address the last, and when

    # What an attachment's ends use.

    @property
    def is_up(self) -> bool:
        return self.connection is not None

    def has(self, session: bytes) -> bool:
        return self.connection is not None and self.session == session

    def rename(self, session: bytes) -> None:
        """The attachment has another name from now on, at both ends."""
        self.session = session

    def has_room(self) -> bool:
        return self.connection is not None and self.connection.has_room()

    def send(self, message: bytes, now: float) -> None:
        """Sends a message over the attached connection, if there is one."""
        if self.connection is None:
            return
        self.connection.said_at = now
        try:
            self.connection.send(message)
        except Closed as closed:
            self.lose(str(closed))

    def attach(self, connection: Connection, session: bytes, now: float) -> None:
        """This connection is the attachment's from now on."""
        self.forget(connection)
        for other in (self.connection, self.call, self.tcp):
            if other is not None and other is not connection:
                other.close()
        self.call = self.tcp = None
        connection.met()
        self.connection, self.session, self.heard_at = connection, session, now
        connection.heard_at = connection.said_at = now
        self.counts.links += 1
        self.trouble.is_over("the link is up")
        self.refused.forget(connection.address[0])
        self.refusal = None, -RECENT

    def close(self) -> None:
        """The attached connection is over, by this host's will."""
        if self.connection is not None:
            try:
                self.connection.flush()
            except Closed:
                pass
            self.connection.close()
            self.meeting.parted(self.heard_at)
        self.connection, self.session = None, None
        self.dial_at = self.now() + AGAIN

    def lose(self, why: str) -> None:
        if self.connection is not None:
            self.close()
            self.log.warning(f"the link is gone: {why}")
            self.lost()

    # The loop's part.

    def due(self, now: float, dials: bool) -> float | None:
        """When there is something to do, if nothing comes before."""
        times = [one.until for one in self.unattached()]
        if self.connection is not None:
            if self.connection.has_more():
                return now
            quiet = self.settings.link_ms
            times += self.connection.heard_at + quiet, self.connection.said_at + self.ping_every
        elif dials and self.settings.peer and self.call is None:
            times.append(self.tcp_begun + self.connects_in if self.tcp else self.dial_at)
        return min(times, default=None)

    def peers(self) -> list[Connection]:
        """The connections of the peer that aren't attached."""
        return self.callers if self.call is None else [*self.callers, self.call]

    def unattached(self) -> list[Connection]:
        return [*self.strangers, *self.peers()]

    @property
    def is_dialling(self) -> bool:
        return self.tcp is not None or self.call is not None

    @property
    def is_meeting(self) -> bool:
        """Whether anybody is met, or dialled."""
        return bool(self.strangers or self.callers) or self.is_dialling

    def watched(self, reading: Any, writing: Any, is_patient: bool) -> None:
        """Adds the sockets that are looked at; for reading not the attached one, if it can wait."""
        if self.listener is not None:
            reading.append(self.listener)
        if self.tcp is not None:
            writing.append(self.tcp)
        for connection in (*self.unattached(), self.connection):
            if connection is not None:
                if not is_patient or connection is not self.connection:
                    reading.append(connection)
                if connection.waits_to_write:
                    writing.append(connection)

    def turn(self, reading: Any, writing: Any, now: float, dials: bool) -> None:
        if self.listener in reading:
            self.accept(now)
        if self.tcp is not None:
            self.go_on_dialling(writing, now)
        if self.connection is not None:
            self.hear(self.connection, reading, writing, now)
        if self.is_meeting:
            self.hear_unattached({*reading, *writing}, now)
        if dials and self.connection is None and not self.is_dialling and self.settings.peer and now >= self.dial_at:
            self.dial(now)

    def accept(self, now: float) -> None:
        for _ in range(ACCEPTED_AT_ONCE):
            try:
                tcp, address = self.listener.accept()
            except OSError:
                return
            tcp.setsockopt(socket.IPPROTO_TCP, socket.TCP_NODELAY, 1)
            connection = self.connection_of(tcp, address, now, is_server=True)
            if connection is not None:
                self.make_room([one for one in self.strangers if self.is_near(one) == self.is_near(connection)], MOST_STRANGERS)
                self.strangers.append(connection)

    def is_near(self, connection: Connection) -> bool:
        """Whether it comes from the peer's address, so that no other address can fill its places."""
        return connection.address[0] == self.settings.peer[0]

    def make_room(self, connections: list[Connection], most: int) -> None:
        """The oldest of these is dropped where there is no room for one more."""
        if len(connections) >= most:
            self.drop(min(connections, key=lambda one: one.begun), "it makes room for another one")

    def connection_of(self, tcp: socket.socket, address: tuple[Any, ...], now: float, is_server: bool) -> Connection | None:
        """None where the socket is of no use any more."""
        try:
            connection = Connection(tcp, self.certificates.current(), now, is_server)
        except (OSError, ValueError):
            tcp.close()
            return None
        connection.address, connection.until = address[:2], now + PATIENCE
        return connection

    def dial(self, now: float) -> None:
        try:
            self.tcp, self.tcp_begun = dialled(self.settings.peer), now
        except OSError as error:
            self.cannot_dial(error.errno, now)

    def wait_for_calls(self, now: float) -> None:
        """The peer calls by itself: it needn't be dialled."""
        self.dial_at = max(self.dial_at, now + 2 * AGAIN)

    def dial_soon(self, now: float) -> None:
        self.dial_at = min(self.dial_at, now)

    def cannot_dial(self, number: int, now: float) -> None:
        self.dial_at = now + AGAIN
        if number == errno.ECONNREFUSED:
            self.meeting.is_gone()
        why = "nothing answers there" if number == errno.ETIMEDOUT else os.strerror(number)
        self.trouble.is_so(f"the peer at {self.peer_place} can't be reached: {why}")

    @property
    def peer_place(self) -> str:
        return "{}:{}".format(*self.settings.peer)

    def go_on_dialling(self, writing: Any, now: float) -> None:
        wrong = errno.ETIMEDOUT if now - self.tcp_begun > self.connects_in else 0
        if self.tcp in writing:
            wrong = self.tcp.getsockopt(socket.SOL_SOCKET, socket.SO_ERROR)
        elif not wrong:
            return
        tcp, self.tcp = self.tcp, None
        if wrong:
            tcp.close()
            self.cannot_dial(wrong, now)
            return
        self.call = self.connection_of(tcp, self.settings.peer, now, is_server=False)
        if self.call is None:
            self.dial_at = now + AGAIN
        else:
            self.call.awaits = "an answer"
            self.hear_one(self.call, now, self.meeting.hello())

    def hear_unattached(self, came: set[Any], now: float) -> None:
        """The peer, if it is one of them; and a few strangers, so that many cost what is attached no time."""
        for connection in self.unattached():
            if now > connection.until:
                self.drop(connection, f"{connection.awaits} didn't come in time")
        for connection in list(self.peers()):
            if connection in came or connection.has_more():
                self.hear_one(connection, now)
        for connection in self.heard_now(came):
            self.hear_one(connection, now)

    def heard_now(self, came: set[Any]) -> list[Connection]:
        """Strangers of whom something came: those first who have begun to show who they are, and else by chance, so that none can make
        others wait."""
        ready = [one for one in self.strangers if one in came or one.has_more()]
        random.shuffle(ready)
        ready.sort(key=lambda one: not one.was_heard)
        return ready[:HEARD_AT_ONCE]

    def hear_one(self, connection: Connection, now: float, says: bytes = b"") -> None:
        """What comes over a connection that isn't attached, once what is to be said over it is said."""
        connection.was_heard = True
        try:
            if says:
                connection.send(says)
            elif connection.is_open:
                connection.flush()
            found = connection.messages(now)
            if connection.is_proven:
                self.knows(connection)
            while found:
                for kind, session, body in found:
                    if self.is_unattached(connection):
                        self.meeting.hear(connection, kind, session, body, now)
                    else:
                        self.take(connection, kind, session, body, now)
                found = connection.rest()
        except (Closed, messages.Malformed) as error:
            if self.is_unattached(connection):
                self.drop(connection, str(error))
            elif connection is self.connection:
                self.lose(str(error))

    def is_unattached(self, connection: Connection) -> bool:
        return connection is self.call or connection in self.callers or connection in self.strangers

    def knows(self, connection: Connection) -> None:
        """This connection is the peer's, as far as that can be known: no stranger makes it go."""
        if connection in self.strangers:
            self.make_room(self.callers, MOST_CALLERS)
            self.strangers.remove(connection)
            self.callers.append(connection)

    def awaits(self, connection: Connection, what: str, now: float) -> None:
        """This is to come next over a connection that isn't attached."""
        connection.awaits, connection.until = what, now + PATIENCE

    def forget(self, connection: Connection) -> None:
        """This connection is none that isn't attached, any more."""
        if connection is self.call:
            self.call = None
        for others in (self.strangers, self.callers):
            if connection in others:
                others.remove(connection)

    def take(self, connection: Connection, kind: int, session: bytes, body: bytes, now: float) -> None:
        """A message over a connection that isn't a stranger's any more."""
        if connection is not self.connection:
            return
        if session != self.session:
            self.counts.dropped_messages += 1
            self.log.seldom("session", "warning", "a message of another session was dropped")
        elif kind != messages.PING:
            self.attached(kind, body, now)
        elif body:
            self.meeting.compared(body, self.now())

    def hear(self, connection: Connection, reading: Any, writing: Any, now: float, pieces: int = 1) -> None:
        """Hears the attached connection, over which so many pieces may have come, each by itself."""
        try:
            if connection in writing:
                connection.flush()
            if connection in reading or connection in writing or connection.has_more():
                for kind, session, body in connection.messages(now, pieces):
                    self.heard_at = now
                    self.take(connection, kind, session, body, now)
            if connection is not self.connection:
                return
            if now - connection.heard_at > self.settings.link_ms:
                raise Closed(f"nothing came for {self.settings.link_ms * 1000:.0f} ms")
            if now - connection.said_at > self.ping_every:
                self.send(messages.message(messages.PING, self.session), now)
        except (Closed, messages.Malformed) as error:
            self.lose(str(error))

    def leave(self, connection: Connection) -> None:
        """A connection that isn't attached is over, and who asked for that has said why."""
        connection.close()
        self.forget(connection)
        self.meeting.offered.pop(connection, None)

    def hang_up(self, connection: Connection) -> None:
        """A call is over, and who asked for that has said why: the peer is called again."""
        self.leave(connection)
        self.dial_at = self.now() + AGAIN

    def drop(self, connection: Connection, why: str) -> None:
        """A connection that isn't attached is over."""
        self.leave(connection)
        if connection.is_server:
            self.counts.dropped_messages += 1
            self.told_off(connection, "warning", f"a connection from {connection.address[0]} was dropped: {why}")
        else:
            self.dial_at = self.now() + AGAIN
            self.trouble.is_so(f"the peer at {connection.place} can't be met: {why}")

    def refuse(self, connection: Connection, message: bytes, why: str, level: str = "info") -> None:
        """Who came is told why not, and its connection is over."""
        try:
            connection.send(message)
        except Closed:
            pass
        self.leave(connection)
        self.told_off(connection, level, f"{connection.address[0]} isn't attached: {why}")

    def told_off(self, connection: Connection, level: str, text: str) -> None:
        self.refused.say(level, text, connection.address[0])
        if level != "debug" and self.is_near(connection):
            self.refusal = text, self.now()

    @property
    def error(self) -> str | None:
        """Why there is no link, as far as this host knows."""
        if self.connection is not None:
            return None
        text, at = self.refusal
        return self.trouble.why or (text if self.now() - at < RECENT else None)

    def end(self) -> None:
        for one in [*self.unattached(), self.connection, self.tcp, self.listener]:
            if one is not None:
                one.close()
