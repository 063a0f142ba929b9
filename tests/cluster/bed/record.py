"""The network's own record: each frame of the guest's that comes from a host over its wire, with the kernel's time.

    record.py FILE      in the switch's namespace; ends by SIGTERM, and then says how many frames the kernel dropped

A line of FILE is TIME HOST LENGTH HASH."""
import signal
import socket
import struct
import sys
import zlib

ALL, OUTGOING = 3, 4
SOL_PACKET, STATISTICS, TIMESTAMPS = 263, 6, 35
GUEST = bytes.fromhex("020000000001")
WIRES = {"ones": "one", "twos": "two"}


def main(path):
    tap = socket.socket(socket.AF_PACKET, socket.SOCK_RAW, socket.htons(ALL))
    tap.setsockopt(socket.SOL_SOCKET, 33, 64 << 20)  # SO_RCVBUFFORCE
    tap.setsockopt(socket.SOL_SOCKET, TIMESTAMPS, 1)
    tap.settimeout(0.2)
    going = [True]
    signal.signal(signal.SIGTERM, lambda *_: going.clear())
    print("ready", flush=True)
    with open(path, "w", encoding="ascii", buffering=1) as out:
        while going:
            try:
                frame, more, _, address = tap.recvmsg(2048, 64)
            except TimeoutError:
                continue
            host = WIRES.get(address[0])
            if host is None or address[2] == OUTGOING or frame[6:12] != GUEST:
                continue
            seconds, nanoseconds = struct.unpack("qq", more[0][2])
            print(f"{seconds}.{nanoseconds // 1000:06d} {host} {len(frame)} {zlib.crc32(frame):08x}", file=out)
    print(struct.unpack("II", tap.getsockopt(SOL_PACKET, STATISTICS, 8))[1], flush=True)


if __name__ == "__main__":
    main(sys.argv[1])
