"""The networks of clients. Each has `client`, its number; `watch()`, the file descriptors that it waits for, with the events of poll, and
how many seconds it can wait at most; `frames(ready)`, what came for the guest, given the events by descriptor; and `put(frame)`."""
import ctypes as c
import fcntl
import os
import select
import socket
import struct
import sys
import time

from tools.live.segments import Openings

ARP = b"\x08\x06"


def client_mac(client):
    return bytes([2, 0, 0, 0, 1, client])


# The calls and callbacks of libslirp.h, version 1 of its configuration.
SEND = c.CFUNCTYPE(c.c_ssize_t, c.c_void_p, c.c_size_t, c.c_void_p)
SAY = c.CFUNCTYPE(None, c.c_char_p, c.c_void_p)
CLOCK = c.CFUNCTYPE(c.c_int64, c.c_void_p)
NEW_TIMER = c.CFUNCTYPE(c.c_void_p, c.c_void_p, c.c_void_p, c.c_void_p)
FREE_TIMER = c.CFUNCTYPE(None, c.c_void_p, c.c_void_p)
SET_TIMER = c.CFUNCTYPE(None, c.c_void_p, c.c_int64, c.c_void_p)
DESCRIPTOR = c.CFUNCTYPE(None, c.c_int, c.c_void_p)
NOTIFY = c.CFUNCTYPE(None, c.c_void_p)
ADD = c.CFUNCTYPE(c.c_int, c.c_int, c.c_int, c.c_void_p)
EVENTS = c.CFUNCTYPE(c.c_int, c.c_int, c.c_void_p)
# Its bits for the events of poll.
BITS = {1: select.POLLIN, 2: select.POLLOUT, 4: select.POLLPRI, 8: select.POLLERR, 16: select.POLLHUP}


class Callbacks(c.Structure):
    _fields_ = [("send_packet", SEND), ("guest_error", SAY), ("clock_get_ns", CLOCK), ("timer_new", NEW_TIMER), ("timer_free", FREE_TIMER),
                ("timer_mod", SET_TIMER), ("register_poll_fd", DESCRIPTOR), ("unregister_poll_fd", DESCRIPTOR), ("notify", NOTIFY),
                ("init_completed", c.c_void_p), ("timer_new_opaque", c.c_void_p)]


class Config(c.Structure):
    _fields_ = [("version", c.c_uint32), ("restricted", c.c_int), ("in_enabled", c.c_bool), ("network", c.c_uint32), ("mask", c.c_uint32),
                ("host", c.c_uint32), ("in6_enabled", c.c_bool), ("prefix6", c.c_ubyte * 16), ("prefix6_length", c.c_uint8),
                ("host6", c.c_ubyte * 16), ("hostname", c.c_char_p), ("tftp_name", c.c_char_p), ("tftp_path", c.c_char_p),
                ("boot_file", c.c_char_p), ("dhcp", c.c_uint32), ("dns", c.c_uint32), ("dns6", c.c_ubyte * 16), ("search", c.c_void_p),
                ("domain", c.c_char_p), ("mtu", c.c_size_t), ("mru", c.c_size_t), ("disable_host_loopback", c.c_bool),
                ("enable_emu", c.c_bool)]


def address(text):
    """An IPv4 address as libslirp takes it, in the order of the network."""
    return c.c_uint32(int.from_bytes(socket.inet_aton(text), sys.byteorder))


class Slirp:
    """Client 1 as this machine: libslirp's network 10.0.0.0/24, with this machine at 10.0.0.2 and some of its ports forwarded to the guest.
    What libslirp calls the machine's hardware address is here client 1's."""

    MACHINE = bytes.fromhex("52550a000002")

    def __init__(self, forwards, guest):
        """`forwards` are triples of a port here, one of the guest, and whether they are UDP's."""
        self.client, self.came, self.asked, self.openings = 1, [], [], Openings()
        try:
            self.library = c.CDLL("libslirp.so.0")
        except OSError:
            sys.exit("there is no libslirp.so.0: apt-get install libslirp0 (on Debian), or join clients by --tap alone")
        config = Config(version=1, in_enabled=True, network=address("10.0.0.0"), mask=address("255.255.255.0"), host=address("10.0.0.2"),
                        dhcp=address("10.0.0.15"), dns=address("10.0.0.3"), mtu=1500, mru=1500)
        # Timers are for IPv6 alone, and the sockets are asked for before each wait. Both structures must live as long as the library uses
        # them.
        self.callbacks = Callbacks(SEND(self.send), SAY(lambda *_: None), CLOCK(lambda _: time.monotonic_ns()), NEW_TIMER(lambda *_: 1),
                                   FREE_TIMER(lambda *_: None), SET_TIMER(lambda *_: None), DESCRIPTOR(lambda *_: None),
                                   DESCRIPTOR(lambda *_: None), NOTIFY(lambda _: None), None, None)
        self.add, self.events = ADD(self.add_descriptor), EVENTS(self.events_of)
        self.library.slirp_new.restype = c.c_void_p
        self.slirp = c.c_void_p(self.library.slirp_new(c.byref(config), c.byref(self.callbacks), None))
        for here, there, is_udp in forwards:
            if self.library.slirp_add_hostfwd(self.slirp, int(is_udp), address("127.0.0.1"), here, address(guest), there) != 0:
                sys.exit(f"port {here} can't be had here, since another program has it or it is below 1024: give another one by --forward")

    def send(self, start, length, _):
        """For libslirp: a frame for the guest."""
        frame, mac = c.string_at(start, length), client_mac(1)
        is_arp = frame[12:14] == ARP
        self.came.append((1, frame[:6] + mac + (frame[12:].replace(self.MACHINE, mac) if is_arp else frame[12:])))
        return length

    def add_descriptor(self, descriptor, events, _):
        self.asked.append((descriptor, sum(bit for ours, bit in BITS.items() if events & ours)))
        return len(self.asked) - 1

    def events_of(self, place, _):
        events = self.ready.get(self.asked[place][0], 0)
        return sum(ours for ours, bit in BITS.items() if events & bit)

    def watch(self):
        self.asked, wait = [], c.c_uint32(1000)
        self.library.slirp_pollfds_fill(self.slirp, c.byref(wait), self.add, None)
        return self.asked, 0 if self.came else wait.value / 1000

    def frames(self, ready):
        self.ready = ready
        self.library.slirp_pollfds_poll(self.slirp, 0, self.events, None)
        came, self.came = self.came, []
        return came

    def put(self, frame):
        if frame[12:14] == ARP:
            frame = frame.replace(client_mac(1), self.MACHINE)
        frame = self.openings.passed(frame)
        self.library.slirp_input(self.slirp, frame, len(frame))


class Tap:
    """A client as the tap interface of that name, which is made where it isn't there, and gets the client's hardware address. For root."""

    SET_TAP, SET_ADDRESS, TAP, NO_HEAD, ETHERNET = 0x400454CA, 0x8924, 2, 0x1000, 1

    def __init__(self, client, name):
        self.client, self.name = client, name
        try:
            self.file = os.open("/dev/net/tun", os.O_RDWR | os.O_NONBLOCK)
            fcntl.ioctl(self.file, self.SET_TAP, struct.pack("16sH22x", name.encode(), self.TAP | self.NO_HEAD))
            with socket.socket(socket.AF_INET, socket.SOCK_DGRAM) as any_socket:
                fcntl.ioctl(any_socket, self.SET_ADDRESS, struct.pack("16sH6s16x", name.encode(), self.ETHERNET, client_mac(client)))
        except OSError as error:
            sys.exit(f"the tap interface {name} can't be joined ({error.strerror}): it takes root, and an interface that "
                     "nobody else has joined")

    def watch(self):
        return [(self.file, select.POLLIN)], 1

    def frames(self, ready):
        came = []
        while ready.get(self.file):
            try:
                came.append((self.client, os.read(self.file, 2048)))
            except BlockingIOError:
                break
            except OSError:
                break  # the interface is down
        return came

    def put(self, frame):
        try:
            os.write(self.file, frame)
        except OSError:
            pass  # lost, as on any line: the interface is down or full
