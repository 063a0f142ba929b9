"""The guest's network: a tap interface, packets of a Unix socket, or none. Frames to the guest are read by `frames`, those from it are
written by `put`. It carries nothing but while the host is live."""
import errno
import fcntl
import os
import socket
import struct

from host.files import Place
from host.interfaces import Interfaces

GUEST_MAC = bytes.fromhex("020000000001")
LEAST, MOST = 14, 1514  # bytes of a frame
ARP, EXPERIMENTAL = b"\x08\x06", b"\x88\xb5"
SET_TAP, GET_TAP = 0x400454CA, 0x800454D2
TAP, NO_HEAD = 2, 0x1000
GET_FLAGS, SET_FLAGS, IS_UP = 0x8913, 0x8914, 1
ADD_TO_BRIDGE = 0x89A2


class Unusable(Exception):
    """The network can't be had: a sentence that says why."""


def announcement(address):
    """A frame from the guest's address to all, by which bridges learn where it is: a gratuitous ARP, where its IPv4 address is known."""
    head = b"\xff" * 6 + GUEST_MAC
    if address is None:
        return head + EXPERIMENTAL + bytes(46)
    ip = socket.inet_aton(address)
    return head + ARP + struct.pack(">HHBBH", 1, 0x800, 6, 4, 1) + GUEST_MAC + ip + bytes(6) + ip + bytes(18)


class Quiet:
    """No network. `changes` can be read where something of it has changed, and is to be looked at; `wrong` is what then was wrong with it,
    as a sentence, and stays so."""
    changes = wrong = None

    def __init__(self):
        self.lost = 0

    def watched(self):
        """What a wait is to look at."""
        return []

    def look(self, may_mend: bool) -> str | None:
        """Looks at whether it is as it should be. Answers what was wrong, and is put right."""
        return None

    def up(self):
        pass

    def down(self):
        pass

    def frames(self, most):
        return []

    def put(self, frame):
        self.lost += 1

    def close(self):
        pass


class Tap(Quiet):
    """A tap interface, which is made where it isn't there, and put on a bridge where one is given. It is up while the host is live. `file`
    is None while it is gone."""

    def __init__(self, name: str, bridge: str | None) -> None:
        super().__init__()
        self.name, self.bridge, self.is_up, self.file = name, bridge, False, None
        try:
            self.interfaces = Interfaces()
        except OSError as error:
            raise Unusable(f"interfaces can't be watched: {error.strerror}") from None
        self.changes = self.interfaces.changes
        self.is_made_here = self.interfaces.find(name) is None
        self.control = socket.socket(socket.AF_INET, socket.SOCK_DGRAM)
        self.open()
        self.join()

    def open(self) -> None:
        """Raises Unusable."""
        try:
            self.file = os.open("/dev/net/tun", os.O_RDWR | os.O_NONBLOCK)
            fcntl.ioctl(self.file, SET_TAP, struct.pack("16sH22x", self.name.encode(), TAP | NO_HEAD))
        except OSError as error:
            self.leave()
            raise Unusable(f"the tap interface {self.name} can't be had ({error.strerror}): it takes root, and an interface that no other "
                           "program has") from None
        self.without_ipv6()

    def leave(self) -> None:
        if self.file is not None:
            os.close(self.file)
        self.file = None

    def without_ipv6(self):
        """The host itself has no address on the tap, and sends nothing on it."""
        try:
            with open(f"/proc/sys/net/ipv6/conf/{self.name}/disable_ipv6", "w") as switch:
                switch.write("1")
        except OSError:
            pass  # the machine has no IPv6, or doesn't let it be switched: its own frames then reach the guest

    def join(self) -> None:
        """Puts it on its bridge, if it has one. Raises Unusable."""
        if self.bridge is None or self.is_on_bridge():
            return
        tap = self.interfaces.find(self.name)
        try:
            fcntl.ioctl(self.control, ADD_TO_BRIDGE, struct.pack("16si20x", self.bridge.encode(), tap.index if tap else 0))
        except OSError as error:
            raise Unusable(f"the tap interface {self.name} can't be put on {self.bridge} ({error.strerror}): is {self.bridge} a bridge, "
                           "and the tap on no other one?") from None

    def is_on_bridge(self) -> bool:
        tap, bridge = self.interfaces.find(self.name), self.interfaces.find(self.bridge)
        return tap is not None and bridge is not None and tap.master == bridge.index

    # Whether it is as it should be.

    def look(self, may_mend: bool) -> str | None:
        self.interfaces.forget_changes()
        found, mended = self.found(), None
        if found is not None and may_mend:
            self.mend()
            if (left := self.found()) != found:
                found, mended = left, found
        self.wrong = found
        return mended

    def found(self) -> str | None:
        """What is wrong with the tap or with its bridge, if anything is."""
        tap = self.interfaces.find(self.name)
        if tap is None or not self.is_attached():
            return f"the tap interface {self.name} is gone"
        if self.bridge is not None:
            bridge = self.interfaces.find(self.bridge)
            if bridge is None:
                return f"the bridge {self.bridge} is gone"
            if tap.master != bridge.index:
                return f"the tap interface {self.name} isn't on the bridge {self.bridge}"
            if not bridge.is_up:
                return f"the bridge {self.bridge} is down"
        return f"the tap interface {self.name} is down" if self.is_up and not tap.is_up else None

    def is_attached(self) -> bool:
        """Whether `file` is the tap of that name."""
        try:
            name = fcntl.ioctl(self.file, GET_TAP, bytes(40))[:16]
        except (OSError, TypeError):
            return False
        return name.rstrip(b"\0") == self.name.encode()

    def mend(self) -> None:
        """Makes the tap anew, or takes the one that somebody else has made anew; has it on its bridge, and up. One that was there before
        this daemon isn't made anew: whoever made it knows where it belongs."""
        try:
            is_there = self.interfaces.find(self.name) is not None
            if not is_there or not self.is_attached():  # else it may be in another namespace, or have another name
                self.leave()
                if not is_there and not self.is_made_here:
                    return
                self.open()
            self.switch(self.is_up)
            self.join()
        except Unusable:
            pass  # what is wrong is found again

    def switch(self, is_up):
        request = struct.pack("16sH22x", self.name.encode(), 0)
        try:
            flags = struct.unpack_from("H", fcntl.ioctl(self.control, GET_FLAGS, request), 16)[0]
            flags = flags | IS_UP if is_up else flags & ~IS_UP
            fcntl.ioctl(self.control, SET_FLAGS, struct.pack("16sH22x", self.name.encode(), flags))
        except OSError:
            pass  # frames are lost then, as on any line that is down
        self.is_up = is_up

    def watched(self):
        return [self.file, self.changes] if self.is_up and self.file is not None else [self.changes]

    def up(self):
        self.frames(1 << 20)  # what lay there is of another time
        self.switch(True)

    def down(self):
        self.switch(False)

    def frames(self, most):
        came = []
        try:
            while self.file is not None and len(came) < most:
                came.append(os.read(self.file, 2048))
        except OSError as error:
            if error.errno == errno.EBADFD:
                self.leave()  # the interface was deleted
        return came

    def put(self, frame):
        try:
            os.write(self.file, frame)
        except (OSError, TypeError):
            self.lost += 1  # the interface is down, full or gone

    def close(self):
        self.leave()
        self.control.close()


class Packets(Quiet):
    """A Unix socket that listens (SOCK_SEQPACKET), each of whose packets is a frame. Who connects last is the network."""

    def __init__(self, path):
        super().__init__()
        self.is_up, self.line = False, None
        try:
            self.socket = socket.socket(socket.AF_UNIX, socket.SOCK_SEQPACKET)
            self.socket.setblocking(False)
            self.place = Place(path, self.socket, "the socket for frames")
            self.socket.listen(4)
        except OSError as error:
            raise Unusable(error.strerror) from None

    def watched(self):
        return [self.socket] + ([self.line] if self.line and self.is_up else [])

    def up(self):
        self.frames(1 << 20)  # what lay there is of another time
        self.is_up = True

    def down(self):
        self.is_up = False

    def accept(self):
        try:
            line = self.socket.accept()[0]
        except OSError:
            return
        self.hang_up()
        line.setblocking(False)
        line.setsockopt(socket.SOL_SOCKET, socket.SO_SNDBUF, 1 << 21)
        self.line = line

    def hang_up(self):
        if self.line:
            self.line.close()
        self.line = None

    def frames(self, most):
        self.accept()
        came = []
        try:
            while self.line and len(came) < most:
                frame = self.line.recv(2048)
                if not frame:
                    self.hang_up()
                came.append(frame)
        except BlockingIOError:
            pass
        except OSError:
            self.hang_up()
        return came

    def put(self, frame):
        try:
            self.line.send(frame)
        except (OSError, AttributeError):
            self.lost += 1  # nobody is there, or the buffer is full

    def close(self):
        self.hang_up()
        self.socket.close()
        self.place.leave()


def network(settings):
    """The network that the settings name. Raises Unusable."""
    if settings.network == "tap":
        return Tap(settings.tap, settings.bridge)
    if settings.network == "socket":
        return Packets(settings.frames)
    return Quiet()
