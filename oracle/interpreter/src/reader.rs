//! Reads the text of a checkpoint that comes piece by piece, by the table of docs/CHECKPOINT.md, and keeps it.

use crate::checkpoints::{BLOCK, PAGE, SECTOR};
use crate::head::{self, Head};

/// The first number of a text of version 1, "RMC1", and of version 2, "RMC2".
const MAGICS: [u64; 2] = [0x3143_4d52, 0x3243_4d52];
const MOST_OLD_PAGES: u64 = 4096;
const MOST_FRAMES: u64 = 256;
const NUMBER: usize = 4;

/// What the next unit of a text is.
#[derive(Clone, Copy)]
enum Stage {
    /// The number at that place of the head.
    Head(usize),
    PageCount,
    Page,
    Mask,
    Block,
    SectorCount,
    Sector,
    SectorBytes,
    FrameCount,
    Length,
    Frame(usize),
    Whole,
}

pub struct Reader {
    shape: [u64; 2],
    text: Vec<u8>,
    /// Where the next unit begins.
    at: usize,
    stage: Stage,
    head: Head,
    /// How many records are still to come, the least index that the next may have, and the blocks that its page still has.
    records: u64,
    least: u64,
    blocks: u32,
    /// The offset of the unit that broke its rule.
    malformed: Option<usize>,
}

impl Reader {
    pub fn new(shape: [u64; 2]) -> Reader {
        Reader {
            shape,
            text: Vec::new(),
            at: 0,
            stage: Stage::Head(0),
            head: [0; head::NUMBERS],
            records: 0,
            least: 0,
            blocks: 0,
            malformed: None,
        }
    }

    pub fn is_whole(&self) -> bool {
        matches!(self.stage, Stage::Whole)
    }

    pub fn head(&self) -> &Head {
        &self.head
    }

    pub fn is_old(&self) -> bool {
        self.head[0] == MAGICS[0]
    }

    pub fn generation(&self) -> u64 {
        self.head[NUMBER - 1]
    }

    pub fn number(&self) -> u64 {
        self.head[NUMBER]
    }

    /// Takes the bytes of a piece up to the end of the checkpoint. Answers how many those are, or the offset of the unit that broke its
    /// rule.
    pub fn feed(&mut self, piece: &[u8]) -> Result<usize, usize> {
        let before = self.text.len();
        if self.malformed.is_none() && !self.is_whole() {
            self.text.extend_from_slice(piece);
            while !self.is_whole() && self.text.len() - self.at >= self.width() {
                let end = self.at + self.width();
                if !self.take_unit(end) {
                    self.malformed = Some(self.at);
                    break;
                }
                self.at = end;
            }
        }
        if let Some(offset) = self.malformed {
            return Err(offset);
        }
        if self.is_whole() {
            self.text.truncate(self.at);
        }
        Ok(self.text.len() - before)
    }

    fn width(&self) -> usize {
        match self.stage {
            Stage::Head(place) => head::width(place),
            Stage::Mask => 8,
            Stage::Block => BLOCK,
            Stage::SectorBytes => SECTOR,
            Stage::Frame(length) => length,
            _ => 4,
        }
    }

    /// Takes the unit that ends there, and goes on to the next. Answers whether it is as its rule says.
    fn take_unit(&mut self, end: usize) -> bool {
        let unit = &self.text[self.at..end];
        match self.stage {
            Stage::Head(place) => {
                let number = head::number(unit);
                return self.take_head(place, number);
            }
            Stage::Block => {
                let is_good = unit != [0; BLOCK];
                self.blocks -= 1;
                if self.blocks == 0 {
                    self.next_record(Stage::Page, Stage::SectorCount);
                }
                return is_good;
            }
            Stage::SectorBytes => {
                let is_good = self.number() > 0 || unit != [0; SECTOR];
                let after = if self.is_old() {
                    Stage::Whole
                } else {
                    Stage::FrameCount
                };
                self.next_record(Stage::Sector, after);
                return is_good;
            }
            Stage::Frame(_) => {
                self.next_record(Stage::Length, Stage::Whole);
                return true;
            }
            _ => {}
        }
        let number = head::number(unit);
        self.take_number(number)
    }

    fn take_head(&mut self, place: usize, number: u64) -> bool {
        let before = if place > 0 { self.head[place - 1] } else { 0 };
        self.head[place] = number;
        self.stage = if place + 1 == head::NUMBERS {
            Stage::PageCount
        } else {
            Stage::Head(place + 1)
        };
        match place {
            0 => MAGICS.contains(&number),
            1 if self.is_old() => number == self.shape[0] && number <= MOST_OLD_PAGES,
            _ => head::is_good(place, number, before, self.shape),
        }
    }

    fn take_number(&mut self, number: u64) -> bool {
        match self.stage {
            Stage::PageCount => self.begin(number, Stage::Page, Stage::SectorCount, self.shape[0]),
            Stage::Page => {
                self.stage = Stage::Mask;
                self.rise(number, self.shape[0])
            }
            Stage::Mask => {
                self.stage = Stage::Block;
                self.blocks = number.count_ones();
                number != 0
            }
            Stage::SectorCount => {
                let after = if self.is_old() {
                    Stage::Whole
                } else {
                    Stage::FrameCount
                };
                self.begin(number, Stage::Sector, after, self.shape[1])
            }
            Stage::Sector => {
                self.stage = Stage::SectorBytes;
                self.rise(number, self.shape[1])
            }
            Stage::FrameCount => {
                let most = if self.number() == 0 { 0 } else { MOST_FRAMES };
                self.begin(number, Stage::Length, Stage::Whole, most)
            }
            _ => {
                self.stage = Stage::Frame(number as usize);
                (14..=1514).contains(&number)
            }
        }
    }

    /// So many records come, at most so many, and then what is after them.
    fn begin(&mut self, count: u64, record: Stage, after: Stage, most: u64) -> bool {
        self.records = count + 1;
        self.least = 0;
        self.next_record(record, after);
        count <= most
    }

    fn next_record(&mut self, record: Stage, after: Stage) {
        self.records -= 1;
        self.stage = if self.records > 0 { record } else { after };
    }

    /// The next index, which is above those before it and below the end.
    fn rise(&mut self, index: u64, end: u64) -> bool {
        let is_good = self.least <= index && index < end;
        self.least = index + 1;
        is_good
    }

    /// Changes memory and disk by the records of the whole checkpoint. Answers its frames.
    pub fn apply(&self, ram: &mut [u8], disk: &mut [u8]) -> Vec<Vec<u8>> {
        let mut rest = &self.text[head::BYTES..];
        let mut take = |count: usize| {
            let (bytes, after) = rest.split_at(count);
            rest = after;
            bytes
        };
        for _ in 0..head::number(take(4)) {
            let page = head::number(take(4)) as usize * PAGE;
            let mask = head::number(take(8));
            for block in (0..BLOCK).filter(|block| mask >> block & 1 == 1) {
                let place = page + block * BLOCK;
                for (byte, change) in ram[place..place + BLOCK].iter_mut().zip(take(BLOCK)) {
                    *byte ^= change;
                }
            }
        }
        for _ in 0..head::number(take(4)) {
            let place = head::number(take(4)) as usize * SECTOR;
            disk[place..place + SECTOR].copy_from_slice(take(SECTOR));
        }
        let count = if self.is_old() {
            0
        } else {
            head::number(take(4))
        };
        (0..count)
            .map(|_| {
                let length = head::number(take(4)) as usize;
                take(length).to_vec()
            })
            .collect()
    }
}
