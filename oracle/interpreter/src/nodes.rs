//! `remus node` in plain Rust: one host of a pair, written from the tables of docs/NODES.md. A cut compares all memory with what it was,
//! and which pages were written isn't kept: the line of `show` ends before their number.

use crate::checkpoints::{cut_page, encode, Delta, PAGE, SECTOR};
use crate::guests;
use crate::hart::Machine;
use crate::head;
use crate::reader::Reader;
use std::collections::VecDeque;
use std::fmt::Write;

const MOST_PENDING: usize = 4;
const STEP_FRAMES: usize = 192;
const END: u64 = 1 << 62;
const STEPS: usize = 5;
/// Bytes of a line that bytes follow, without its newline, at most.
const LONGEST_HEAD: usize = 32;
/// Bytes of a count of records, and of an index.
const COUNT: usize = 4;

/// What a line is answered, without its newline; `None` where it is bad.
type Answer = Option<Result<String, &'static str>>;

const BAD_FRAME: &str = "refused 2 BadFrame";
const BEHIND: &str = "refused 5 Behind";
const NOT_PAIRED: &str = "refused 6 NotPaired";
const ALREADY_PAIRED: &str = "refused 7 AlreadyPaired";
const NO_IMAGE: &str = "refused 8 NoImage";
const STALE: &str = "refused 9 Stale";
const GAP: &str = "refused 10 Gap";
const CUT_NEEDED: &str = "refused 13 CutNeeded";
const EXHAUSTED: &str = "refused 14 Exhausted";
const OLD_VERSION: &str = "refused 15 OldVersion";

#[derive(Clone, Copy, PartialEq)]
enum Mode {
    Alone,
    /// Its standby has not acknowledged the full checkpoint.
    Filling,
    Paired,
}

/// A checkpoint that wasn't acknowledged.
struct Pending {
    number: u64,
    text: Vec<u8>,
    frames: Vec<Vec<u8>>,
}

pub struct Primary {
    machine: Machine,
    /// What memory was at the last cut.
    originals: Vec<u8>,
    generation: u64,
    mode: Mode,
    /// The number of the next checkpoint.
    next: u64,
    pending: VecDeque<Pending>,
}

pub struct Standby {
    shape: [u64; 2],
    generation: u64,
    /// The machine of the last committed checkpoint, and that one's number.
    image: Option<(Machine, u64)>,
    reader: Reader,
}

pub enum Node {
    Nothing,
    Primary(Box<Primary>),
    Standby(Box<Standby>),
}

impl Node {
    /// What a line, with the bytes that follow it, prints, without its last newline; `None`: nothing.
    pub fn answer(&mut self, line: &[u8]) -> Option<Vec<u8>> {
        if line.is_empty() || line[0] == b'#' {
            return None;
        }
        Some(match self.answer_in_bytes(line) {
            None => b"bad".to_vec(),
            Some(answer) => answer.unwrap_or_else(|refusal| refusal.as_bytes().to_vec()),
        })
    }

    fn answer_in_bytes(&mut self, line: &[u8]) -> Option<Result<Vec<u8>, &'static str>> {
        let told = |answer: Result<String, _>| answer.map(String::into_bytes);
        if let Some(piece) = followed(line) {
            return self
                .standby_does(|standby| standby.take(piece))
                .map(told);
        }
        let line = std::str::from_utf8(line).ok()?;
        if let Some(rest) = line.strip_prefix("rawtext ") {
            let [number, from, count] = numbers(rest)?;
            return self.primary_does(|primary| primary.raw_text(number, from, count));
        }
        self.obey(line).map(told)
    }

    fn obey(&mut self, line: &str) -> Answer {
        let (word, rest) = match line.split_once(' ') {
            Some((word, rest)) => (word, Some(rest)),
            None => (line, None),
        };
        match (word, rest) {
            ("boot", Some(rest)) => self.boot(rest),
            ("standby", Some(rest)) => self.stand_by(rest),
            ("arrive", Some(rest)) => {
                let frame = bytes(rest)?;
                self.primary_does(|primary| primary.arrive(&frame))
            }
            ("step", Some(rest)) => {
                let count = number(rest).filter(|count| *count > 0)?;
                self.primary_does(|primary| primary.step(count))
            }
            ("cut", None) => self.primary_does(Primary::cut),
            ("text", Some(rest)) => {
                let [number, from, count] = numbers(rest)?;
                self.primary_does(|primary| primary.text(number, from, count))
            }
            ("ack", Some(rest)) => {
                let [generation, number] = numbers(rest)?;
                self.primary_does(|primary| primary.acknowledge(generation, number))
            }
            ("alone", None) => self.primary_does(Primary::be_alone),
            ("protect", None) => self.primary_does(Primary::protect),
            ("piece", Some(rest)) => {
                let piece = bytes(rest)?;
                self.standby_does(|standby| standby.take(&piece))
            }
            ("commit", None) => self.standby_does(Standby::commit),
            ("restart", None) => self.standby_does(Standby::restart),
            ("golive", None) => Some(self.go_live()),
            ("show", None) => Some(Ok(self.show())),
            ("sector", Some(rest)) => Some(Ok(self.sector(number(rest)?)?)),
            _ => None,
        }
    }

    fn boot(&mut self, rest: &str) -> Answer {
        let words: Vec<&str> = rest.split(' ').collect();
        let [pages, sectors, clients, guest @ ..] = &words[..] else {
            return None;
        };
        let shape = shape(pages, sectors)?;
        within(number(clients)?, 1, 16)?;
        let words = guests::words(guest, shape[0])?;
        if !matches!(self, Node::Nothing) {
            return Some(Err(ALREADY_PAIRED));
        }
        let machine = Machine::boot(shape[0] as usize, shape[1] as usize, &words);
        *self = Primary::alone(machine, 1);
        Some(Ok("booted".into()))
    }

    fn stand_by(&mut self, rest: &str) -> Answer {
        let words: Vec<&str> = rest.split(' ').collect();
        let [pages, sectors, generation] = words[..] else {
            return None;
        };
        let shape = shape(pages, sectors)?;
        let generation = within(number(generation)?, 1, END - 1)?;
        if !matches!(self, Node::Nothing) {
            return Some(Err(ALREADY_PAIRED));
        }
        *self = Node::Standby(Box::new(Standby {
            shape,
            generation,
            image: None,
            reader: Reader::new(shape),
        }));
        Some(Ok(format!("waiting {generation}")))
    }

    /// A line of a primary.
    fn primary_does<T>(
        &mut self,
        act: impl FnOnce(&mut Primary) -> Result<T, &'static str>,
    ) -> Option<Result<T, &'static str>> {
        Some(match self {
            Node::Nothing => Err(NO_IMAGE),
            Node::Standby(_) => Err(NOT_PAIRED),
            Node::Primary(primary) => act(primary),
        })
    }

    /// A line of a standby.
    fn standby_does(
        &mut self,
        act: impl FnOnce(&mut Standby) -> Result<String, &'static str>,
    ) -> Answer {
        Some(match self {
            Node::Nothing => Err(NO_IMAGE),
            Node::Standby(standby) => act(standby),
            Node::Primary(_) => Err(ALREADY_PAIRED),
        })
    }

    fn go_live(&mut self) -> Result<String, &'static str> {
        let standby = match self {
            Node::Nothing => return Err(NO_IMAGE),
            Node::Primary(_) => return Err(ALREADY_PAIRED),
            Node::Standby(standby) => standby,
        };
        let generation = standby.generation + 1;
        if standby.image.is_none() {
            return Err(NO_IMAGE);
        }
        if generation >= END {
            return Err(EXHAUSTED);
        }
        let (machine, _) = standby.image.take().expect("it has an image");
        let steps = machine.steps;
        *self = Primary::alone(machine, generation);
        Ok(format!("live {generation} steps {steps}"))
    }

    /// The guest that an operator sees.
    fn shown(&self) -> Option<&Machine> {
        match self {
            Node::Nothing => None,
            Node::Primary(primary) => Some(&primary.machine),
            Node::Standby(standby) => standby.image.as_ref().map(|(machine, _)| machine),
        }
    }

    fn show(&self) -> String {
        let (mode, generation, pending) = match self {
            Node::Nothing => ("empty", 0, 0),
            Node::Standby(standby) if standby.image.is_none() => ("empty", standby.generation, 0),
            Node::Standby(standby) => ("standby", standby.generation, 0),
            Node::Primary(primary) => {
                let mode = match primary.mode {
                    Mode::Alone => "alone",
                    Mode::Filling => "filling",
                    Mode::Paired => "paired",
                };
                (mode, primary.generation, primary.pending.len())
            }
        };
        let steps = self.shown().map_or(0, |machine| machine.steps);
        format!("mode {mode} generation {generation} pending {pending} steps {steps}")
    }

    /// `None`: there is no guest, or its disk doesn't have the sector.
    fn sector(&self, sector: u64) -> Option<String> {
        let disk = self.shown()?.disk.bytes()?;
        let place = usize::try_from(sector).ok()?;
        let bytes = disk.chunks_exact(SECTOR).nth(place)?;
        let mut answer = format!("sector {sector} ");
        put_hex(&mut answer, bytes);
        Some(answer)
    }
}

impl Primary {
    fn alone(machine: Machine, generation: u64) -> Node {
        Node::Primary(Box::new(Primary {
            machine,
            originals: Vec::new(),
            generation,
            mode: Mode::Alone,
            next: 1,
            pending: VecDeque::new(),
        }))
    }

    fn arrive(&mut self, frame: &[u8]) -> Result<String, &'static str> {
        if !(14..=1514).contains(&frame.len()) {
            return Err(BAD_FRAME);
        }
        self.machine.net.arrive(&mut self.machine.ram, frame);
        Ok("arrived".into())
    }

    fn step(&mut self, count: u64) -> Result<String, &'static str> {
        let machine = &mut self.machine;
        for _ in 0..count {
            if machine.sent.len() > STEP_FRAMES {
                if self.mode == Mode::Alone {
                    break;
                }
                return Err(CUT_NEEDED);
            }
            machine.run(1);
        }
        let frames = match self.mode {
            Mode::Alone => std::mem::take(&mut machine.sent),
            _ => Vec::new(),
        };
        let (steps, waiting) = (machine.steps, machine.sent.len());
        Ok(with_frames(format!("steps {steps} outbox {waiting}"), &frames))
    }

    fn need_standby(&self) -> Result<(), &'static str> {
        match self.mode {
            Mode::Alone => Err(NOT_PAIRED),
            _ => Ok(()),
        }
    }

    fn cut(&mut self) -> Result<String, &'static str> {
        self.need_standby()?;
        if self.pending.len() >= MOST_PENDING {
            return Err(BEHIND);
        }
        if self.next >= END {
            return Err(EXHAUSTED);
        }
        let mut delta = self.delta(self.next);
        for page in 0..self.originals.len() / PAGE {
            let range = page * PAGE..(page + 1) * PAGE;
            if self.originals[range.clone()] != self.machine.ram[range.clone()] {
                cut_page(&mut delta, page, &self.originals, &self.machine.ram);
                self.originals[range.clone()].copy_from_slice(&self.machine.ram[range]);
            }
        }
        let disk = &mut self.machine.disk;
        for sector in disk.take_written() {
            let place = sector as usize * SECTOR;
            let bytes = &disk.bytes().expect("the disk's")[place..place + SECTOR];
            delta
                .sectors
                .push((sector, bytes.try_into().expect("a sector")));
        }
        delta.frames = std::mem::take(&mut self.machine.sent);
        let number = self.next;
        let bytes = self.hold(number, delta);
        Ok(format!("cut {} {number} {bytes}", self.generation))
    }

    /// A checkpoint of that number, without records and frames.
    fn delta(&self, number: u64) -> Delta {
        let sectors = self.machine.disk.bytes().expect("the disk's").len() / SECTOR;
        let pages = self.machine.ram.len() / PAGE;
        let mut head = head::head([pages as u64, sectors as u64], number);
        head[STEPS - 2] = self.generation;
        self.machine.fill(&mut head);
        Delta::new(head)
    }

    /// The checkpoint is pending. Answers how many bytes its text has.
    fn hold(&mut self, number: u64, mut delta: Delta) -> usize {
        let text = encode(&delta);
        let bytes = text.len();
        self.pending.push_back(Pending {
            number,
            text,
            frames: std::mem::take(&mut delta.frames),
        });
        self.next = number + 1;
        bytes
    }

    fn text(&self, number: u64, from: u64, count: u64) -> Result<String, &'static str> {
        let part = self.part(number, from, count)?;
        let mut answer = String::with_capacity(5 + 2 * part.len());
        answer.push_str("text ");
        put_hex(&mut answer, part);
        Ok(answer)
    }

    fn raw_text(&self, number: u64, from: u64, count: u64) -> Result<Vec<u8>, &'static str> {
        let part = self.part(number, from, count)?;
        Ok([format!("rawtext {}\n", part.len()).as_bytes(), part].concat())
    }

    /// Bytes of a pending checkpoint's text.
    fn part(&self, number: u64, from: u64, count: u64) -> Result<&[u8], &'static str> {
        self.need_standby()?;
        let mut found = self
            .pending
            .iter()
            .filter(|pending| pending.number == number);
        let text = &found.next().ok_or(GAP)?.text;
        let start = text.len().min(from as usize);
        let end = text.len().min(start.saturating_add(count as usize));
        Ok(&text[start..end])
    }

    fn acknowledge(&mut self, generation: u64, number: u64) -> Result<String, &'static str> {
        self.need_standby()?;
        if generation != self.generation {
            return Err(STALE);
        }
        if number >= self.next {
            return Err(GAP);
        }
        let mut frames = Vec::new();
        while self
            .pending
            .front()
            .is_some_and(|first| first.number <= number)
        {
            frames.extend(
                self.pending
                    .pop_front()
                    .map_or(Vec::new(), |first| first.frames),
            );
        }
        self.mode = Mode::Paired;
        Ok(with_frames(format!("acked {generation} {number}"), &frames))
    }

    fn be_alone(&mut self) -> Result<String, &'static str> {
        self.need_standby()?;
        let pending = std::mem::take(&mut self.pending);
        let mut frames: Vec<_> = pending
            .into_iter()
            .flat_map(|pending| pending.frames)
            .collect();
        frames.append(&mut self.machine.sent);
        self.mode = Mode::Alone;
        self.originals = Vec::new();
        Ok(with_frames(format!("alone {}", self.generation), &frames))
    }

    fn protect(&mut self) -> Result<String, &'static str> {
        if self.mode != Mode::Alone {
            return Err(ALREADY_PAIRED);
        }
        if self.generation + 1 >= END {
            return Err(EXHAUSTED);
        }
        self.generation += 1;
        self.mode = Mode::Filling;
        self.originals.clone_from(&self.machine.ram);
        self.machine.disk.take_written();
        let mut full = self.delta(0);
        let zeros = vec![0; PAGE];
        for (page, bytes) in self.machine.ram.chunks_exact(PAGE).enumerate() {
            if bytes != zeros {
                full.add_page(page, &zeros, bytes);
            }
        }
        let disk = self.machine.disk.bytes().expect("the disk's");
        for (sector, bytes) in disk.chunks_exact(SECTOR).enumerate() {
            if bytes != &zeros[..SECTOR] {
                let bytes = bytes.try_into().expect("a sector");
                full.sectors.push((sector as u32, bytes));
            }
        }
        let most = most_bytes(self.machine.ram.len() / PAGE, full.sectors.len());
        self.hold(0, full);
        Ok(format!("protecting {} {most}", self.generation))
    }
}

/// How long the text of a full checkpoint of so many pages is at most, with so many sector records: as if no block of memory were all zero.
fn most_bytes(pages: usize, sectors: usize) -> usize {
    let [page_record, sector_record] = [COUNT + 8 + PAGE, COUNT + SECTOR];
    head::BYTES + COUNT + page_record * pages + COUNT + sector_record * sectors + COUNT
}

impl Standby {
    fn take(&mut self, piece: &[u8]) -> Result<String, &'static str> {
        Ok(match self.reader.feed(piece) {
            Err(offset) => format!("refused 11 Malformed {offset}"),
            Ok(taken) if self.reader.is_whole() && taken == piece.len() => {
                let reader = &self.reader;
                format!("whole {} {}", reader.generation(), reader.number())
            }
            Ok(taken) => format!("taken {taken}"),
        })
    }

    fn commit(&mut self) -> Result<String, &'static str> {
        if !self.reader.is_whole() {
            return Err(NO_IMAGE);
        }
        // Whatever comes of it, the next piece begins another text.
        let reader = std::mem::replace(&mut self.reader, Reader::new(self.shape));
        if reader.generation() != self.generation {
            return Err(STALE);
        }
        let next = self.image.as_ref().map_or(0, |(_, number)| number + 1);
        if reader.number() > next {
            return Err(GAP);
        }
        if reader.number() < next {
            return Ok(format!("again {} {}", self.generation, next - 1));
        }
        if reader.is_old() && next > 0 {
            return Err(OLD_VERSION);
        }
        let (mut ram, mut disk) = match self.image.take() {
            Some((machine, _)) => machine.into_parts(),
            None => {
                let [pages, sectors] = self.shape.map(|count| count as usize);
                (vec![0; PAGE * pages], vec![0; SECTOR * sectors])
            }
        };
        reader.apply(&mut ram, &mut disk);
        self.image = Some((Machine::restore(reader.head(), ram, disk), next));
        Ok(format!("committed {} {next}", self.generation))
    }

    fn restart(&mut self) -> Result<String, &'static str> {
        self.reader = Reader::new(self.shape);
        Ok("restarted".into())
    }
}

/// How many bytes follow a line, behind its newline.
pub fn following(line: &[u8]) -> u64 {
    if line.len() > LONGEST_HEAD {
        return 0;
    }
    let count = line
        .strip_prefix(b"rawpiece ")
        .and_then(|digits| std::str::from_utf8(digits).ok())
        .and_then(number);
    count.unwrap_or(0)
}

/// The bytes that follow a line, where there are as many as it says, and at least one.
fn followed(line: &[u8]) -> Option<&[u8]> {
    let end = line.iter().position(|byte| *byte == b'\n')?;
    let bytes = &line[end + 1..];
    (!bytes.is_empty() && following(&line[..end]) == bytes.len() as u64).then_some(bytes)
}

fn with_frames(mut answer: String, frames: &[Vec<u8>]) -> String {
    write!(answer, " frames {}", frames.len()).expect("a string");
    for frame in frames {
        answer.push_str("\nframe ");
        put_hex(&mut answer, frame);
    }
    answer
}

fn within(value: u64, least: u64, most: u64) -> Option<u64> {
    (least..=most).contains(&value).then_some(value)
}

fn shape(pages: &str, sectors: &str) -> Option<[u64; 2]> {
    Some([
        within(number(pages)?, 1, 16384)?,
        within(number(sectors)?, 1, 32768)?,
    ])
}

/// A number of a line: decimal digits, below 2^64.
pub fn number(text: &str) -> Option<u64> {
    let is_number = !text.is_empty() && text.bytes().all(|byte| byte.is_ascii_digit());
    text.parse().ok().filter(|_| is_number)
}

fn numbers<const N: usize>(text: &str) -> Option<[u64; N]> {
    let numbers: Option<Vec<u64>> = text.split(' ').map(number).collect();
    numbers?.try_into().ok()
}

/// The bytes of lower-case hex, one at least.
fn bytes(text: &str) -> Option<Vec<u8>> {
    if text.is_empty() || text.len() % 2 == 1 {
        return None;
    }
    let digit = |byte: u8| match byte {
        b'0'..=b'9' => Some(byte - b'0'),
        b'a'..=b'f' => Some(byte - b'a' + 10),
        _ => None,
    };
    let pairs = text.as_bytes().chunks_exact(2);
    pairs
        .map(|pair| Some(digit(pair[0])? << 4 | digit(pair[1])?))
        .collect()
}

fn put_hex(answer: &mut String, bytes: &[u8]) {
    const DIGITS: &[u8; 16] = b"0123456789abcdef";
    answer.reserve(2 * bytes.len());
    for byte in bytes {
        answer.push(char::from(DIGITS[usize::from(byte >> 4)]));
        answer.push(char::from(DIGITS[usize::from(byte & 15)]));
    }
}
