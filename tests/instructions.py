"""Words of instructions, in the standard's formats, and what guests of tests are written with."""

# Numbers of CSRs.
MSTATUS, MIE, MTVEC, MSCRATCH, MEPC, MCAUSE, MIP = 0x300, 0x304, 0x305, 0x340, 0x341, 0x342, 0x344
MRET, WFI, FENCE, ECALL, EBREAK = 0x30200073, 0x10500073, 0x0000000f, 0x00000073, 0x00100073


def immediate(opcode, funct3, rd, rs1, imm):
    return (imm & 0xfff) << 20 | rs1 << 15 | funct3 << 12 | rd << 7 | opcode


def addi(rd, rs1, imm):
    return immediate(0x13, 0, rd, rs1, imm)


def shift(funct3, rd, rs1, by):
    """SLLI where it is 1, SRLI where it is 5."""
    return immediate(0x13, funct3, rd, rs1, by)


def load(funct3, rd, rs1, offset):
    return immediate(0x03, funct3, rd, rs1, offset)


def op(funct3, rd, rs1, rs2, funct7=0, opcode=0x33):
    return funct7 << 25 | rs2 << 20 | rs1 << 15 | funct3 << 12 | rd << 7 | opcode


def store(funct3, rs1, rs2, offset):
    return (offset >> 5 & 0x7f) << 25 | rs2 << 20 | rs1 << 15 | funct3 << 12 | (offset & 31) << 7 | 0x23


def branch(funct3, rs1, rs2, words):
    """A branch over so many words."""
    offset = 4 * words & 0x1fff
    high, low = (offset >> 12) << 6 | offset >> 5 & 0x3f, offset & 0x1e | offset >> 11 & 1
    return high << 25 | rs2 << 20 | rs1 << 15 | funct3 << 12 | low << 7 | 0x63


def jump(rd, words):
    """JAL over so many words."""
    offset = 4 * words & 0x1fffff
    return (offset >> 20) << 31 | (offset >> 1 & 0x3ff) << 21 | (offset >> 11 & 1) << 20 | (offset >> 12 & 0xff) << 12 | rd << 7 | 0x6f


def jump_to(rd, rs1, offset):
    """JALR."""
    return immediate(0x67, 0, rd, rs1, offset)


def lui(rd, imm):
    return (imm & 0xfffff) << 12 | rd << 7 | 0x37


def auipc(rd, imm):
    return (imm & 0xfffff) << 12 | rd << 7 | 0x17


def csr(funct3, rd, number, rs1):
    """CSRRW where it is 1, CSRRS 2, CSRRSI 6, CSRRCI 7, of which the last two take five bits in the place of rs1."""
    return immediate(0x73, funct3, rd, rs1, number)
