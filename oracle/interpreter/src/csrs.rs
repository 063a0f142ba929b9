//! The control and status registers of machine mode, and traps.

/// The machine software, timer and external interrupts, as bits of mip and mie.
pub const SOFTWARE: u64 = 1 << 3;
pub const TIMER: u64 = 1 << 7;
pub const EXTERNAL: u64 = 1 << 11;

const MIE: u64 = 1 << 3;
const MPIE: u64 = 1 << 7;
const MPP: u64 = 3 << 11;
const MISA: u64 = 0x8000_0000_0000_1100;

#[derive(Clone)]
pub struct Csrs {
    mstatus: u64,
    mie: u64,
    mtvec: u64,
    mscratch: u64,
    pub mepc: u64,
    pub mcause: u64,
    pub mtval: u64,
}

impl Csrs {
    pub fn boot() -> Csrs {
        Csrs {
            mstatus: MPP,
            mie: 0,
            mtvec: 0,
            mscratch: 0,
            mepc: 0,
            mcause: 0,
            mtval: 0,
        }
    }

    /// Registers of these values, in the order of their numbers.
    pub fn restore(values: [u64; 7]) -> Csrs {
        let [mstatus, mie, mtvec, mscratch, mepc, mcause, mtval] = values;
        Csrs {
            mstatus,
            mie,
            mtvec,
            mscratch,
            mepc,
            mcause,
            mtval,
        }
    }

    /// The value of a register, where there is one of that number. `mip` is what is pending.
    pub fn read(&self, number: u32, mip: u64) -> Option<u64> {
        Some(match number {
            0x300 => self.mstatus,
            0x301 => MISA,
            0x304 => self.mie,
            0x305 => self.mtvec,
            0x340 => self.mscratch,
            0x341 => self.mepc,
            0x342 => self.mcause,
            0x343 => self.mtval,
            0x344 => mip,
            0xf11..=0xf15 => 0,
            _ => return None,
        })
    }

    /// Writes a register, where there is one of that number that may be written.
    pub fn write(&mut self, number: u32, value: u64) -> Option<()> {
        match number {
            0x300 => self.mstatus = MPP | value & (MIE | MPIE),
            0x301 | 0x344 => {}
            0x304 => self.mie = value & (SOFTWARE | TIMER | EXTERNAL),
            0x305 => self.mtvec = value & !2,
            0x340 => self.mscratch = value,
            0x341 => self.mepc = value & !3,
            0x342 => self.mcause = value,
            0x343 => self.mtval = value,
            _ => return None,
        }
        Some(())
    }

    /// The registers that hold a value, in the order of their numbers.
    pub fn values(&self) -> [u64; 7] {
        [
            self.mstatus,
            self.mie,
            self.mtvec,
            self.mscratch,
            self.mepc,
            self.mcause,
            self.mtval,
        ]
    }

    /// Whether interrupts are on at all.
    #[inline]
    pub fn are_on(&self) -> bool {
        self.mstatus & MIE != 0
    }

    /// The interrupt that is due, of those that are pending.
    #[inline]
    pub fn due(&self, mip: u64) -> Option<u64> {
        let both = self.mie & mip;
        if both == 0 {
            return None;
        }
        [11, 3, 7].into_iter().find(|bit| both >> bit & 1 == 1)
    }

    /// Enters a trap at `pc`, and answers the pc of its handler.
    pub fn enter(&mut self, pc: u64, cause: u64, value: u64) -> u64 {
        let is_on = self.mstatus & MIE != 0;
        self.mstatus = MPP | if is_on { MPIE } else { 0 };
        self.mepc = pc;
        self.mcause = cause;
        self.mtval = value;
        let base = self.mtvec & !3;
        if self.mtvec & 1 == 1 && cause >> 63 == 1 {
            base.wrapping_add(4 * (cause & 0x3f))
        } else {
            base
        }
    }

    /// Returns from a trap, and answers the pc.
    pub fn leave(&mut self) -> u64 {
        let was_on = self.mstatus & MPIE != 0;
        self.mstatus = MPP | MPIE | if was_on { MIE } else { 0 };
        self.mepc
    }
}
