"""Tells from the checkpoints of a guest whether it can do nothing more: from its registers as they stand in the head of each text
(docs/CHECKPOINT.md), and from the steps between them."""
import math
import struct

# Of a text: the registers are x1 to x31, pc, and the control registers up to msip.
REGISTERS = slice(36, 352)
LOOKED_AT = struct.Struct("<28xQ248xQQ8xQ8xQQ")  # steps; pc, mstatus, mtvec, mepc, mcause
RECORDS, NONE = slice(524, 536), bytes(12)  # the counts of pages, sectors and frames, where there are none of the ones before
HEAD, LEAST = 524, 536  # bytes, up to the counts, and with them
INTERRUPTS_ON = 8  # mstatus' bit MIE
ALIKE = 20  # checkpoints
SEEN = 3  # times
INTERRUPT = 1 << 63
SPINS, TRAPS = "stands on one instruction with interrupts off", "traps over and over at one pc"


def told(found: dict) -> str:
    """What a watch has found, as a sentence."""
    return "the guest can do nothing more: it {what}; pc {pc}, mcause {mcause}, mepc {mepc}".format(**found)


def has_trapped(text: bytes) -> bool:
    """Whether the last trap of a guest, by the first bytes of a checkpoint's text in which nothing is written, was none of an interrupt:
    then its handler may return to it over and over, which one look doesn't tell."""
    mcause = LOOKED_AT.unpack_from(text)[5]
    return text[RECORDS] == NONE and 0 < mcause < INTERRUPT


class Watch:
    """Two guests are told. One whose registers, pc and all, are the same after numbers of steps that have no common divisor stands on one
    instruction, which jumps to itself or traps to itself; where interrupts are off as well, nothing makes it go on. So does one whose
    registers are the same after a single step. And one that is seen again and again at the pc of its last trap, and at the entry of its
    handler, while the trap stays the same: its handler returns to where it came from, and changes nothing. Both only where nothing is
    written or sent meanwhile."""

    def __init__(self):
        self.forget()

    def forget(self):
        self.registers, self.steps, self.divisor, self.alike = b"", 0, 0, 0
        self.trap, self.at_trap, self.at_entry = None, 0, 0
        self.found, self.holds = None, None  # what is told, and the registers, or the trap, that have to stay for it

    def begin_generation(self) -> None:
        """Checkpoints are of another generation from now on, and of the same guest: what was told of it isn't told again."""
        if self.found is None:
            self.forget()

    def see(self, text, number):
        """The first bytes of a checkpoint's text. Answers whether it tells from now on."""
        if len(text) < LEAST or number == 0:
            return False
        if text[RECORDS] != NONE and self.found is None:
            self.registers, self.trap = b"", None
            return False
        registers = text[REGISTERS]
        steps, pc, mstatus, mtvec, mepc, mcause = LOOKED_AT.unpack_from(text)
        if self.found is not None:
            if self.holds in (registers, (mcause, mepc)):
                return False
            self.forget()
        if text[RECORDS] != NONE:
            self.registers, self.trap = b"", None
            return False
        spins = self.spins(registers, steps, mstatus & INTERRUPTS_ON)
        loops = self.loops(pc, mtvec & ~3, (mcause, mepc))
        if not spins and not loops:
            return False
        what = TRAPS if loops or mepc == pc and 0 < mcause < INTERRUPT else SPINS
        self.found = {"what": what, "pc": f"0x{pc:x}", "mcause": f"0x{mcause:x}", "mepc": f"0x{mepc:x}"}
        self.holds = registers if spins else (mcause, mepc)
        return True

    def spins(self, registers, steps, is_interrupted):
        if registers != self.registers or is_interrupted:
            self.divisor = self.alike = 0
        elif steps > self.steps:
            self.divisor, self.alike = math.gcd(self.divisor, steps - self.steps), self.alike + 1 if steps > self.steps + 1 else ALIKE
        self.registers, self.steps = registers, steps
        return self.alike >= ALIKE and self.divisor == 1

    def loops(self, pc, entry, trap):
        if trap != self.trap:
            self.trap, self.at_trap, self.at_entry = trap, 0, 0
        self.at_trap += pc == trap[1]
        self.at_entry += pc == entry and trap[0] < INTERRUPT
        return self.at_trap >= SEEN and self.at_entry >= SEEN
