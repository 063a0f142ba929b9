"""A guest for generated runs that goes over its memory for ever, and writes a word at each stride: into pages that are all zero before, and
every other time are so again."""
from oracle.sender import addi, i_type, jump, sw, upper

PAGES = 2600  # of its memory: more than a node looks at with two lines
STRIDES = 37, 300, 1100  # pages
BASE, END, STRIDE, VALUE, AT = 8, 9, 7, 6, 10
BLTU = 6 << 12 | 0x63  # its other fields, but for that offset
BACK_BY_8 = 0x7F << 25 | 0b11001 << 7


def rounds(pages, stride, change):
    """The words of a guest of so many pages, each of whose rounds begins with the instruction `change` of its value; `stride` is the one that
    sets the stride, in bytes. It lies in the first block of memory, of which it writes the last word."""
    back = END << 20 | AT << 15 | BLTU | BACK_BY_8
    words = [upper(0x17, BASE, 0), upper(0x37, END, pages), BASE << 20 | END << 15 | END << 7 | 0x33, stride, change, addi(AT, BASE, 0),
             sw(VALUE, 60, AT), STRIDE << 20 | AT << 15 | AT << 7 | 0x33, back, jump(-20)]
    return " ".join(f"{word:08x}" for word in words)


def words(stride):
    """Of one that goes on by so many pages, and writes 1 and 0 in turn."""
    xori = i_type(0x13, 4, VALUE, VALUE, 1)
    return rounds(PAGES, upper(0x37, STRIDE, stride), xori).encode()
