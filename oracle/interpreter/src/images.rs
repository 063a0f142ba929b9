//! Images from a fixed sequence: words of any kind every fourth time, and else words that decode, behind a start that points registers at
//! memory, both devices and the timer, with rings whose numbers are of the sequence too.
//!
//! `interpreter images COUNT` boots so many, runs each for 1000 steps, and folds all that they leave into one number. The test `images` of
//! crates/machine_tests does the same.

use crate::hart::Machine;

const STEPS: u64 = 1000;
const PAGES: usize = 2;
const SECTORS: usize = 8;
const WORDS: usize = 256;

// Words that decode, as (mask, bits): each bit that the mask leaves out may be anything.
#[rustfmt::skip]
const ROWS: [(u32, u32); 94] = [
    (0x0000007f, 0x00000037), // LUI
    (0x0000007f, 0x00000017), // AUIPC
    (0x0000007f, 0x0000006f), // JAL
    (0x0000707f, 0x00000067), // JALR
    (0x0000707f, 0x00000063), // BEQ
    (0x0000707f, 0x00001063), // BNE
    (0x0000707f, 0x00004063), // BLT
    (0x0000707f, 0x00005063), // BGE
    (0x0000707f, 0x00006063), // BLTU
    (0x0000707f, 0x00007063), // BGEU
    (0x0000707f, 0x00000003), // LB
    (0x0000707f, 0x00001003), // LH
    (0x0000707f, 0x00002003), // LW
    (0x0000707f, 0x00003003), // LD
    (0x0000707f, 0x00004003), // LBU
    (0x0000707f, 0x00005003), // LHU
    (0x0000707f, 0x00006003), // LWU
    (0x0000707f, 0x00000023), // SB
    (0x0000707f, 0x00001023), // SH
    (0x0000707f, 0x00002023), // SW
    (0x0000707f, 0x00003023), // SD
    (0x0000707f, 0x00000013), // ADDI
    (0x0000707f, 0x00002013), // SLTI
    (0x0000707f, 0x00003013), // SLTIU
    (0x0000707f, 0x00004013), // XORI
    (0x0000707f, 0x00006013), // ORI
    (0x0000707f, 0x00007013), // ANDI
    (0xfc00707f, 0x00001013), // SLLI
    (0xfc00707f, 0x00005013), // SRLI
    (0xfc00707f, 0x40005013), // SRAI
    (0xfe00707f, 0x00000033), // ADD
    (0xfe00707f, 0x00001033), // SLL
    (0xfe00707f, 0x00002033), // SLT
    (0xfe00707f, 0x00003033), // SLTU
    (0xfe00707f, 0x00004033), // XOR
    (0xfe00707f, 0x00005033), // SRL
    (0xfe00707f, 0x00006033), // OR
    (0xfe00707f, 0x00007033), // AND
    (0xfe00707f, 0x40000033), // SUB
    (0xfe00707f, 0x40005033), // SRA
    (0xfe00707f, 0x02000033), // MUL
    (0xfe00707f, 0x02001033), // MULH
    (0xfe00707f, 0x02002033), // MULHSU
    (0xfe00707f, 0x02003033), // MULHU
    (0xfe00707f, 0x02004033), // DIV
    (0xfe00707f, 0x02005033), // DIVU
    (0xfe00707f, 0x02006033), // REM
    (0xfe00707f, 0x02007033), // REMU
    (0x0000707f, 0x0000001b), // ADDIW
    (0xfe00707f, 0x0000101b), // SLLIW
    (0xfe00707f, 0x0000501b), // SRLIW
    (0xfe00707f, 0x4000501b), // SRAIW
    (0xfe00707f, 0x0000003b), // ADDW
    (0xfe00707f, 0x0000103b), // SLLW
    (0xfe00707f, 0x0000503b), // SRLW
    (0xfe00707f, 0x4000003b), // SUBW
    (0xfe00707f, 0x4000503b), // SRAW
    (0xfe00707f, 0x0200003b), // MULW
    (0xfe00707f, 0x0200403b), // DIVW
    (0xfe00707f, 0x0200503b), // DIVUW
    (0xfe00707f, 0x0200603b), // REMW
    (0xfe00707f, 0x0200703b), // REMUW
    (0x0000707f, 0x0000000f), // FENCE
    (0xffffffff, 0x00000073), // ECALL
    (0xffffffff, 0x00100073), // EBREAK
    (0xffffffff, 0x30200073), // MRET
    (0xffffffff, 0x10500073), // WFI
    (0xfff0707f, 0x30001073), // CSRRW mstatus
    (0xfff0707f, 0x30002073), // CSRRS mstatus
    (0xfff0707f, 0x30007073), // CSRRCI mstatus
    (0xfff0707f, 0x30401073), // CSRRW mie
    (0xfff0707f, 0x30402073), // CSRRS mie
    (0xfff0707f, 0x30407073), // CSRRCI mie
    (0xfff0707f, 0x34001073), // CSRRW mscratch
    (0xfff0707f, 0x34002073), // CSRRS mscratch
    (0xfff0707f, 0x34007073), // CSRRCI mscratch
    (0xfff0707f, 0x34101073), // CSRRW mepc
    (0xfff0707f, 0x34102073), // CSRRS mepc
    (0xfff0707f, 0x34107073), // CSRRCI mepc
    (0xfff0707f, 0x34201073), // CSRRW mcause
    (0xfff0707f, 0x34202073), // CSRRS mcause
    (0xfff0707f, 0x34207073), // CSRRCI mcause
    (0xfff0707f, 0x34301073), // CSRRW mtval
    (0xfff0707f, 0x34302073), // CSRRS mtval
    (0xfff0707f, 0x34307073), // CSRRCI mtval
    (0xfff0707f, 0x34401073), // CSRRW mip
    (0xfff0707f, 0x34402073), // CSRRS mip
    (0xfff0707f, 0x34407073), // CSRRCI mip
    (0xffffffff, 0x0401a823), // SW x0, 0x50(x3): notify the disk
    (0xffffffff, 0x04612823), // SW x6, 0x50(x2): notify the card
    (0xffffffff, 0x0401a823), // SW x0, 0x50(x3): notify the disk
    (0xffffffff, 0x04612823), // SW x6, 0x50(x2): notify the card
    (0xffffffff, 0x0401a823), // SW x0, 0x50(x3): notify the disk
    (0xffffffff, 0x04612823), // SW x6, 0x50(x2): notify the card
];

// How each image begins whose words decode: the disk is set up with its rings at 0x80001000 and the card with its queue 1 at 0x80001400, as
// the beacon sets up its card. Then the trap handler is what follows, which points x1 at memory, x2 and x3 at both devices, and x4 and x5 at
// the timer, and enables each interrupt in mie.
#[rustfmt::skip]
const START: [u32; 55] = [
    0x100022b7, 0x00100313, 0x0662a823, 0x00300393, 0x0672a823, 0x0262a223, 0x0262a023, 0x00b00393,
    0x0672a823, 0x0702a403, 0x0202a823, 0x00400393, 0x0272ac23, 0x800013b7, 0x0872a023, 0x04038393,
    0x0872a823, 0x04038393, 0x0a72a023, 0x0462a223, 0x00f00393, 0x0672a823, 0x100012b7, 0x00100313,
    0x0662a823, 0x00300393, 0x0672a823, 0x0262a223, 0x0262a023, 0x00b00393, 0x0672a823, 0x0702a403,
    0x0262a823, 0x00400393, 0x0272ac23, 0x800013b7, 0x40038393, 0x0872a023, 0x04038393, 0x0872a823,
    0x04038393, 0x0a72a023, 0x0462a223, 0x00f00393, 0x0672a823, 0x00000397, 0x30539073, 0x00001097,
    0x10001137, 0x100021b7, 0x02004237, 0x0200c2b7, 0x00100313, 0xfff00413, 0x30441073,
];

// A linear congruence modulo 2^64, of which the upper half is taken.
struct Sequence(u64);

impl Sequence {
    fn next(&mut self) -> u32 {
        self.0 = self.0.wrapping_mul(6364136223846793005).wrapping_add(1442695040888963407);
        (self.0 >> 32) as u32
    }

    fn below(&mut self, end: u32) -> u32 {
        self.next() % end
    }

    // A word that decodes. Loads and stores go where the start points; other words write none of those registers.
    fn word(&mut self) -> u32 {
        let (mask, bits) = ROWS[self.below(ROWS.len() as u32) as usize];
        let word = self.next() & !mask | bits;
        if mask == u32::MAX {
            return word;
        }
        match word & 0x7f {
            0x23 => self.pointed(word),
            0x03 => self.pointed(word) | 0x800,
            0x63 => word,
            _ => word | 0x800,
        }
    }

    // The word with one of x1 to x5 as its rs1.
    fn pointed(&mut self, word: u32) -> u32 {
        word & !0xf8000 | (1 + self.below(5)) << 15
    }

    // Four descriptors and an available ring.
    fn rings(&mut self, image: &mut [u32], at: usize) {
        for i in 0..4 {
            image[at + 4 * i] = 0x8000_1800 + 16 * self.below(64);
            image[at + 4 * i + 2] = self.below(700);
            image[at + 4 * i + 3] = self.below(4) | self.below(4) << 16;
        }
        image[at + 16] = self.below(5) << 16;
        image[at + 17] = self.below(4) | self.below(4) << 16;
        image[at + 18] = self.below(4) | self.below(4) << 16;
    }

    // Heads of requests.
    fn heads(&mut self, image: &mut [u32], at: usize) {
        for i in 0..64 {
            image[at + 4 * i] = self.below(6);
            image[at + 4 * i + 2] = self.below(9);
        }
    }
}

fn image(index: u64) -> Vec<u32> {
    let mut sequence = Sequence(index);
    let mut image = vec![0; 1024 * PAGES];
    if index % 4 == 3 {
        for word in &mut image[..WORDS] {
            *word = sequence.next();
        }
        return image;
    }
    image[..START.len()].copy_from_slice(&START);
    for word in &mut image[START.len()..START.len() + WORDS] {
        *word = sequence.word();
    }
    sequence.rings(&mut image, 0x1000 / 4);
    sequence.rings(&mut image, 0x1400 / 4);
    sequence.heads(&mut image, 0x1800 / 4);
    image
}

// FNV-1a over words of 8 bytes.
pub struct Fold(pub u64);

impl Fold {
    pub fn add(&mut self, value: u64) {
        self.0 = (self.0 ^ value).wrapping_mul(0x100_0000_01b3);
    }

    fn bytes(&mut self, bytes: &[u8]) {
        for word in bytes.chunks_exact(8) {
            self.add(u64::from_le_bytes(word.try_into().expect("8 bytes")));
        }
    }
}

pub fn run(count: u64) -> u64 {
    let mut fold = Fold(0xcbf2_9ce4_8422_2325);
    for index in 0..count {
        let mut machine = Machine::boot(PAGES, SECTORS, &image(index));
        machine.run(STEPS);
        fold.add(machine.steps);
        fold.add(machine.pc);
        for value in machine.regs {
            fold.add(value);
        }
        fold.bytes(&machine.ram);
        fold.bytes(machine.disk.bytes().expect("the disk's"));
        machine.net.fold(&mut fold);
        machine.disk.fold(&mut fold);
    }
    fold.0
}
