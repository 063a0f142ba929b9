"""A TCP proxy that stands in a link's way: it stalls, closes, delays, and repeats connections."""
import collections
import random
import select
import socket
import threading
import time

CHUNK = 1 << 16


class Way:
    """One connection through the proxy: two sockets, and what is on its way in each direction."""

    def __init__(self, near, far):
        self.ends = (near, far)
        self.queues = (collections.deque(), collections.deque())  # what goes to each end: pairs of when, and bytes
        self.first = bytearray()  # what the one who dialled said first

    def close(self):
        for end in self.ends:
            end.close()


class Proxy(threading.Thread):
    """Passes connections at `listen` on to `target`. `is_cut`: all are closed, and none is taken. `is_stalled`: nothing passes. `delay`:
    seconds that a tenth of all pieces come late, and all behind them. `repeats`: what an ended connection said is said by a new one."""

    def __init__(self, listen, target):
        super().__init__(daemon=True)
        self.listener = socket.create_server(listen) if listen else None
        self.target, self.ways = target, []
        self.is_cut = self.is_stalled = self.is_over = False
        self.is_to_end = False  # what is connected now, once
        self.delay, self.repeats, self.rng = 0.0, False, random.Random(7)
        self.repeated, self.passed = 0, 0

    def run(self):
        while not self.is_over:
            if self.is_cut:
                self.close_all()
            if self.is_to_end:
                self.is_to_end = False
                for way in list(self.ways):
                    self.end(way)
            self.turn()
        self.close_all()
        self.listener.close()

    def turn(self):
        reading = {end: (way, place) for way in self.ways for place, end in enumerate(way.ends)} if not self.is_stalled else {}
        for one in select.select([self.listener, *reading], [], [], 0.001)[0]:
            if one is self.listener:
                self.accept()
            elif reading[one][0] in self.ways:
                self.read(*reading[one])
        if not self.is_stalled:
            for way in list(self.ways):
                self.write(way)

    def accept(self):
        near, _ = self.listener.accept()
        try:
            if self.is_cut:
                raise OSError
            far = socket.create_connection(self.target, timeout=1)
        except OSError:
            near.close()
            return
        for end in (near, far):
            end.setsockopt(socket.IPPROTO_TCP, socket.TCP_NODELAY, 1)
            end.settimeout(1)
        self.ways.append(Way(near, far))

    def read(self, way, place):
        try:
            data = way.ends[place].recv(CHUNK)
        except OSError:
            data = b""
        if not data:
            return self.end(way)
        if place == 0 and len(way.first) < 4096:
            way.first += data
        late = self.delay * (self.rng.random() < 0.1)
        queue = way.queues[1 - place]
        due = max(time.monotonic() + late, queue[-1][0] if queue else 0)
        queue.append((due, data))

    def write(self, way):
        now = time.monotonic()
        for end, queue in zip(way.ends, way.queues):
            try:
                while queue and queue[0][0] <= now:
                    data = queue.popleft()[1]
                    end.sendall(data)
                    self.passed += len(data)
            except OSError:
                return self.end(way)

    def end(self, way):
        way.close()
        if way in self.ways:
            self.ways.remove(way)
        if self.repeats and way.first:
            self.repeat(bytes(way.first))

    def repeat(self, said):
        """Says again what was said, as a connection of its own."""
        try:
            with socket.create_connection(self.target, timeout=1) as again:
                again.sendall(said)
                self.repeated += 1
                again.settimeout(0.05)
                again.recv(CHUNK)
        except OSError:
            pass

    def close_all(self):
        for way in list(self.ways):
            way.close()
        self.ways.clear()

    def stop(self):
        self.is_over = True
        self.join(5)


class Breaker(Proxy):
    """A proxy of a plain link that knows its messages: it breaks connections off at one of them, once. `place` is whose message it is: 0 is
    who dialled, 1 who was dialled."""

    def __init__(self, listen, target):
        super().__init__(listen, target)
        self.plan, self.came = None, {}

    def breaks(self, place, kind, how, is_it=lambda message: True):
        """From now on, at the first message of that kind for which `is_it` is so: `how` is 'before' it, 'behind' it, or 'without' it, and
        then the connection stays."""
        self.plan = place, kind, how, is_it

    @property
    def has_broken(self):
        return self.plan is None

    def read(self, way, place):
        try:
            data = way.ends[place].recv(CHUNK)
        except OSError:
            data = b""
        if not data:
            return self.end(way)
        came = self.came.setdefault((way, place), bytearray())
        came += data
        while way in self.ways and (message := first_message(came)):
            del came[:len(message)]
            self.take(way, place, message)

    def take(self, way, place, message):
        if self.plan is None or self.plan[:2] != (place, message[4]) or not self.plan[3](message):
            way.queues[1 - place].append((0, message))
            return
        how, self.plan = self.plan[2], None
        if how == "behind":
            way.queues[1 - place].append((0, message))
            self.write(way)
        if how != "without":
            self.end(way)

    def end(self, way):
        super().end(way)
        for place in (0, 1):
            self.came.pop((way, place), None)


def first_message(came):
    """The first message of these bytes, with its length before it, if it is whole."""
    length = int.from_bytes(came[:4], "big") + 4
    return bytes(came[:length]) if len(came) >= length > 4 else b""
