#!/usr/bin/env python3
"""Ethernet frames as bytes: what clients send to a guest, and what comes back. The guest is at 10.0.0.1, client c at 10.0.0.(c + 1).

    guests/lib/frames.py arp                        who has the guest's address: the hex of a `deliver` line
    guests/lib/frames.py udp 7 hello                a datagram to port 7
    guests/lib/frames.py ping 1 hello               an ICMP echo request, number 1
    guests/lib/frames.py type 88b5 00000064         a frame of another type, its bytes in hex
    guests/lib/frames.py told HEX                   what a frame says, in words

--client C is client C in place of client 1."""
import argparse
import struct
import sys

EVERYONE, NOBODY = b"\xff" * 6, bytes(6)
GUEST_MAC, GUEST_IP = bytes.fromhex("020000000001"), bytes([10, 0, 0, 1])
ARP, IPV4 = 0x0806, 0x0800
ICMP, TCP, UDP = 1, 6, 17
REQUEST, REPLY = 1, 2  # of ARP
ECHO_REPLY, ECHO_REQUEST = 0, 8  # of ICMP
FIN, SYN, RST, PSH, ACK = 1, 2, 4, 8, 16  # flags of TCP
PORT = 40001  # the client's


def client_mac(c):
    return bytes([2, 0, 0, 0, 1, c])


def client_ip(c):
    return bytes([10, 0, 0, c + 1])


def checksum(data):
    """The Internet checksum (RFC 1071). Over data that holds its own it is 0."""
    data += b"\0" * (len(data) % 2)
    total = sum(struct.unpack(f">{len(data) // 2}H", data))
    while total >> 16:
        total = (total & 0xFFFF) + (total >> 16)
    return ~total & 0xFFFF


def with_checksum(data, place, over=b""):
    """Data whose two bytes at a place, 0 so far, are the checksum of it and of what stands before it."""
    return data[:place] + struct.pack(">H", checksum(over + data)) + data[place + 2 :]


# Layer by layer.


def ethernet(to, source, kind, payload):
    return to + source + struct.pack(">H", kind) + payload


def arp(operation, to, mac, ip, target_mac, target_ip):
    """A frame of RFC 826."""
    head = struct.pack(">HHBBH", 1, IPV4, 6, 4, operation)
    return ethernet(to, mac, ARP, head + mac + ip + target_mac + target_ip)


def ipv4(source, target, protocol, payload, ttl=64, number=0):
    """A packet of RFC 791 that isn't to be cut into pieces."""
    head = struct.pack(">BBHHHBBH", 0x45, 0, 20 + len(payload), number, 0x4000, ttl, protocol, 0) + source + target
    return with_checksum(head, 10) + payload


def pseudo_header(source, target, protocol, length):
    return source + target + struct.pack(">BBH", 0, protocol, length)


def icmp_echo(kind, number, text, identifier=0x7069):
    """A message of RFC 792."""
    return with_checksum(struct.pack(">BBHHH", kind, 0, 0, identifier, number) + text, 2)


def udp(source, target, source_port, target_port, data):
    """A datagram of RFC 768, between these addresses."""
    datagram = struct.pack(">HHHH", source_port, target_port, 8 + len(data), 0) + data
    return with_checksum(datagram, 6, pseudo_header(source, target, UDP, len(datagram)))


def tcp(source, target, source_port, target_port, number, acknowledged, flags, window, data=b"", options=b""):
    """A segment of RFC 793, between these addresses."""
    words = (20 + len(options)) // 4
    head = struct.pack(">HHIIBBHHH", source_port, target_port, number, acknowledged, words << 4, flags, window, 0, 0)
    segment = head + options + data
    return with_checksum(segment, 16, pseudo_header(source, target, TCP, len(segment)))


# From a client to the guest.


def from_client(c, packet):
    return ethernet(GUEST_MAC, client_mac(c), IPV4, packet)


def arp_request(c):
    return arp(REQUEST, EVERYONE, client_mac(c), client_ip(c), NOBODY, GUEST_IP)


def ping(c, number, text):
    return from_client(c, ipv4(client_ip(c), GUEST_IP, ICMP, icmp_echo(ECHO_REQUEST, number, text)))


def datagram(c, port, data):
    return from_client(c, ipv4(client_ip(c), GUEST_IP, UDP, udp(client_ip(c), GUEST_IP, PORT, port, data)))


# What a frame holds.


def kind(frame):
    return struct.unpack_from(">H", frame, 12)[0]


def payload(frame, protocol):
    """What an IPv4 packet of this protocol holds, or None if the frame has none."""
    if kind(frame) != IPV4 or len(frame) < 34 or frame[23] != protocol:
        return None
    return frame[14 + (frame[14] & 15) * 4 : 14 + struct.unpack_from(">H", frame, 16)[0]]


def is_whole(frame, protocol):
    """Whether the checksums of an IPv4 packet of UDP or TCP are right."""
    part = payload(frame, protocol)
    return checksum(frame[14:34]) == 0 and checksum(pseudo_header(frame[26:30], frame[30:34], protocol, len(part)) + part) == 0


def tcp_data(segment):
    return segment[segment[12] >> 4 << 2 :]


def readable(data):
    """Data as text if it is some, else in hex; the front of it."""
    text = data[:40].decode("ascii", "replace")
    return repr(text) if text.isprintable() and text else data[:20].hex() or "nothing"


def told_tcp(segment):
    number, acknowledged = struct.unpack_from(">II", segment, 4)
    names = [name for flag, name in ((SYN, "SYN"), (FIN, "FIN"), (RST, "RST")) if segment[13] & flag]
    data = tcp_data(segment)
    first_line = data.split(b"\r\n")[0]
    return " ".join(["TCP", *names, f"{len(data)} bytes" if data else f"acknowledges {acknowledged}",
                     *([readable(first_line)] if data[:4] in (b"GET ", b"HTTP") else []), f"from number {number}"])


def told(frame):
    """What a frame says, in words."""
    if kind(frame) == ARP and len(frame) >= 42:
        target = ".".join(map(str, frame[38:42]))
        return f"ARP: who has {target}?" if frame[21] == REQUEST else f"ARP: {'.'.join(map(str, frame[28:32]))} is here"
    for protocol in (ICMP, UDP, TCP):
        if (part := payload(frame, protocol)) is not None:
            if protocol == TCP:
                return told_tcp(part)
            if protocol == UDP:
                return f"UDP to port {struct.unpack_from('>H', part, 2)[0]}: {readable(part[8:])}"
            name = {ECHO_REQUEST: "ping", ECHO_REPLY: "ping's answer"}.get(part[0], f"ICMP {part[0]}")
            return f"{name}: {readable(part[8:])}"
    return f"type {kind(frame):04x}: {readable(frame[14:])}"


def main():
    reader = argparse.ArgumentParser(description=__doc__, formatter_class=argparse.RawDescriptionHelpFormatter)
    reader.add_argument("--client", type=int, default=1)
    kinds = reader.add_subparsers(dest="kind", required=True)
    kinds.add_parser("arp")
    for name in ("udp", "ping"):
        one = kinds.add_parser(name)
        one.add_argument("number", type=int, help="the port, or the number")
        one.add_argument("text")
    other = kinds.add_parser("type")
    other.add_argument("type")
    other.add_argument("bytes")
    kinds.add_parser("told").add_argument("frame")
    asked = reader.parse_args()
    if asked.kind == "told":
        print(told(bytes.fromhex(asked.frame)))
        return
    frames = {
        "arp": lambda: arp_request(asked.client),
        "udp": lambda: datagram(asked.client, asked.number, asked.text.encode()),
        "ping": lambda: ping(asked.client, asked.number, asked.text.encode()),
        "type": lambda: ethernet(GUEST_MAC, client_mac(asked.client), int(asked.type, 16), bytes.fromhex(asked.bytes)),
    }
    print(frames[asked.kind]().hex())


if __name__ == "__main__":
    sys.exit(main())
