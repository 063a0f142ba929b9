"""What `tools/serve` knows of TCP: where a segment stands in a frame, and how openings of connections are passed on to libslirp."""
import struct

from guests.lib.frames import SYN, TCP, checksum

IPV4 = b"\x08\x00"
# Kinds of options: the first two are a byte each, in the others the second byte says how long they are.
END, NO_OPERATION, SEGMENT_SIZE = 0, 1, 2


def head_of(frame):
    """The places in a frame at which the head of a TCP segment begins and ends, or None where there is no such segment."""
    if frame[12:14] != IPV4 or len(frame) < 34 or frame[23] != TCP:
        return None
    begin = 14 + 4 * (frame[14] & 15)
    if len(frame) < begin + 20:
        return None
    end = begin + 4 * (frame[begin + 12] >> 4)
    return (begin, end) if begin + 20 <= end <= len(frame) else None


def without_segment_size(frame):
    """The frame of a TCP segment with operations that do nothing in the place of the option that names a segment's most bytes."""
    begin, end = head_of(frame)
    options, at = bytearray(frame[begin + 20:end]), 0
    while at < len(options) and options[at] != END:
        length = 1 if options[at] == NO_OPERATION or at + 1 == len(options) else max(options[at + 1], 2)
        if options[at] == SEGMENT_SIZE:
            options[at:at + length] = bytes([NO_OPERATION]) * len(options[at:at + length])
        at += length
    # The checksum, by what changed (RFC 1624).
    [was] = struct.unpack_from(">H", frame, begin + 16)
    now = checksum(struct.pack(">HH", 0xFFFF ^ was, checksum(frame[begin + 20:end])) + options)
    return frame[:begin + 16] + struct.pack(">H", now) + frame[begin + 18:begin + 20] + bytes(options) + frame[end:]


class Openings:
    """The openings of connections (SYN) that libslirp was given. It empties a connection's buffers at each one that names a segment's most
    bytes, also at a repeated one, by when the client's question may lie there. So a repeated one is passed on without that."""

    def __init__(self):
        self.numbers = {}  # of the last opening, by the connection's two ends

    def passed(self, frame):
        """The frame as libslirp is to get it."""
        head = head_of(frame)
        if head is None or not frame[head[0] + 13] & SYN:
            return frame
        begin = head[0]
        ends, number = frame[26:34] + frame[begin:begin + 4], frame[begin + 4:begin + 8]
        if self.numbers.get(ends) == number:
            return without_segment_size(frame)
        self.numbers[ends] = number
        return frame
