"""What can be read from a checkpoint's text without a node: docs/CHECKPOINT.md has its table."""
import struct

PAGES_AT, RECORDS_AT = 524, 528
COUNT, PAGE = struct.Struct("<I"), struct.Struct("<IQ")
BLOCK, SECTOR = 64, 512
MOST_PAGE = PAGE.size + 64 * BLOCK  # bytes of a page's record
MOST_LOOKED_AT = 64  # records: of a longer text nothing is told


def count_at(text, place):
    return COUNT.unpack_from(text, place)[0]


def sectors_at(text):
    """Where the count of a text's sector records stands."""
    at = RECORDS_AT
    for _ in range(count_at(text, PAGES_AT)):
        at += PAGE.size + BLOCK * PAGE.unpack_from(text, at)[1].bit_count()
    return at


def pages_and_frames(text, total):
    """How many page records a text of version 2 has, by its first bytes, and how many frames: None where not all of its bytes are here, or
    that would take long to find."""
    pages = count_at(text, PAGES_AT)
    if len(text) < total or pages > MOST_LOOKED_AT:
        return pages, None
    at = sectors_at(text)
    return pages, count_at(text, at + COUNT.size + count_at(text, at) * (COUNT.size + SECTOR))
