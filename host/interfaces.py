"""What the kernel says of network interfaces: rtnetlink(7)."""
import socket
import struct
from typing import NamedTuple

LINKS = 1  # RTMGRP_LINK, the group that is told of each change of an interface
NEW, GET, REQUEST = 16, 18, 1  # RTM_NEWLINK, RTM_GETLINK, NLM_F_REQUEST
NAME, MASTER = 3, 10  # IFLA_IFNAME, IFLA_MASTER
HEAD, ABOUT, ATTRIBUTE = struct.Struct("=IHHII"), struct.Struct("=BxHiII"), struct.Struct("=HH")
IS_UP = 1
PATIENCE = 1.0  # seconds, for the kernel's answer


class Interface(NamedTuple):
    """`master` is the index of the bridge that it is on, or None."""
    index: int
    is_up: bool
    master: int | None


class Interfaces:
    """Raises OSError. `changes` can be read once any interface has changed since `forget_changes`."""

    def __init__(self) -> None:
        self.changes, self.asked = (socket.socket(socket.AF_NETLINK, socket.SOCK_RAW, socket.NETLINK_ROUTE) for _ in range(2))
        self.changes.bind((0, LINKS))
        self.changes.setblocking(False)
        self.asked.settimeout(PATIENCE)
        self.count = 0  # of questions

    def forget_changes(self) -> None:
        while True:
            try:
                self.changes.recv(1 << 16)
            except BlockingIOError:
                return
            except OSError:
                continue  # there were more than it keeps

    def find(self, name: str) -> Interface | None:
        """The interface of that name, if there is one."""
        self.count += 1
        field = name.encode() + b"\0"
        body = ABOUT.pack(0, 0, 0, 0, 0) + ATTRIBUTE.pack(ATTRIBUTE.size + len(field), NAME) + field
        try:
            self.asked.send(HEAD.pack(HEAD.size + len(body), GET, REQUEST, self.count, 0) + body)
            while True:
                answer = self.asked.recv(1 << 16)
                if HEAD.unpack_from(answer)[3] == self.count:
                    return told(answer)
        except OSError:
            return None


def told(answer: bytes) -> Interface | None:
    """The interface of an answer; None where that is a refusal."""
    length, kind, *_ = HEAD.unpack_from(answer)
    if kind != NEW:
        return None
    _, _, index, flags, _ = ABOUT.unpack_from(answer, HEAD.size)
    at, master = HEAD.size + ABOUT.size, None
    while at + ATTRIBUTE.size <= length:
        size, name = ATTRIBUTE.unpack_from(answer, at)
        if name == MASTER:
            master = struct.unpack_from("=I", answer, at + ATTRIBUTE.size)[0]
        at += max(size + 3 & ~3, ATTRIBUTE.size)
    return Interface(index, bool(flags & IS_UP), master)
