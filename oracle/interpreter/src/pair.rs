//! Plays a script of `remus sim`, with plain lists in the place of the pair: a checkpoint is a whole copy of the machine, and of the
//! history only the length is kept. Written from the tables of docs/PROTOCOL.md.

use crate::hart::Machine;
use crate::pairs::Pairs;
use std::collections::VecDeque;

const CLIENT_MAC: [u8; 5] = [2, 0, 0, 0, 1];
const INBOX_FRAMES: usize = 64;
const BOX_FRAMES: usize = 256;
const MOST_PENDING: usize = 4;
const STEP_FRAMES: usize = 192;

#[derive(Clone, Copy, PartialEq)]
enum Mode {
    Paired,
    /// A new backup waits for the full checkpoint.
    Filling,
    Stopped,
    Alone,
}

type Answer = Result<String, &'static str>;

const FULL: &str = "refused 1 Full";
const BAD_FRAME: &str = "refused 2 BadFrame";
const NO_CLIENT: &str = "refused 3 NoClient";
const STOPPED: &str = "refused 4 Stopped";
const BEHIND: &str = "refused 5 Behind";
const NOT_PAIRED: &str = "refused 6 NotPaired";
const ALREADY_PAIRED: &str = "refused 7 AlreadyPaired";
const NO_IMAGE: &str = "refused 8 NoImage";
const STALE: &str = "refused 9 Stale";
const GAP: &str = "refused 10 Gap";
const CUT_NEEDED: &str = "refused 13 CutNeeded";

/// What an epoch adds to the history when it is committed.
#[derive(Default)]
struct Epoch {
    steps: u64,
    arrivals: u64,
}

/// A checkpoint that wasn't acknowledged.
struct Pending {
    number: u64,
    frames: Vec<Vec<u8>>,
    /// What its commit brings; none where it was committed.
    rest: Option<(Epoch, Machine)>,
}

/// The generation and the number of a checkpoint, on a line.
type Message = (u64, u64);

pub struct Pair {
    live: Machine,
    /// None where there is no backup, or where it waits for the full checkpoint.
    image: Option<Machine>,
    /// The image before, whose memory the next one takes.
    spare: Option<Machine>,
    mode: Mode,
    generation: u64,
    /// The number of the next checkpoint that is cut, and of the next that is committed.
    to_cut: u64,
    to_commit: u64,
    running: Epoch,
    pending: VecDeque<Pending>,
    packets: Vec<Message>,
    answers: Vec<Message>,
    inboxes: Vec<VecDeque<(u64, Vec<u8>)>>,
    boxes: Vec<VecDeque<Vec<u8>>>,
    delivered: u64,
    /// How many entries the history has.
    entries: u64,
    /// Whether frames are held until their checkpoint is acknowledged.
    is_gated: bool,
    /// The pairs of instructions that were run, where they are counted.
    pub counted: Option<Pairs>,
}

impl Pair {
    pub fn boot(pages: usize, sectors: usize, clients: u64, words: &[u32]) -> Pair {
        let live = Machine::boot(pages, sectors, words);
        Pair {
            image: Some(live.clone()),
            spare: None,
            live,
            mode: Mode::Paired,
            generation: 1,
            to_cut: 1,
            to_commit: 1,
            running: Epoch::default(),
            pending: VecDeque::new(),
            packets: Vec::new(),
            answers: Vec::new(),
            inboxes: vec![VecDeque::new(); clients as usize],
            boxes: vec![VecDeque::new(); clients as usize],
            delivered: 0,
            entries: 0,
            is_gated: true,
            counted: None,
        }
    }

    /// The same pair without its gate: what the guest sends lands at once, as no pair may. Tests that look for lost answers find some.
    pub fn without_gate(self) -> Pair {
        Pair {
            is_gated: false,
            ..self
        }
    }

    /// What a line prints. `None`: it isn't known here.
    pub fn obey(&mut self, line: &str) -> Option<String> {
        let words: Vec<&str> = line.split(' ').collect();
        let number = |i: usize| words.get(i)?.parse::<u64>().ok();
        let answer = match (words[0], words.get(1).copied()) {
            ("step", _) => self.step(number(1)?),
            ("cut", None) => self.cut(),
            ("send", None) => self.send(),
            ("backup", _) => self.backup(number(1)?),
            ("ack", _) => self.acknowledge(number(1)?),
            ("deliver", _) => self.deliver(number(1)?, bytes(words.get(2)?)?),
            ("admit", _) => self.admit(number(1)?),
            ("take", _) => self.take(number(1)?),
            ("losein", _) => self.lose_in(number(1)?, number(2)?),
            ("loseout", _) => self.lose_out(number(1)?, number(2)?),
            ("fail", Some("primary")) => self.fail_primary(),
            ("fail", Some("backup")) => self.fail_backup(),
            ("golive", None) => self.go_live(),
            ("protect", None) => self.protect(),
            ("show", None) => Ok(self.show()),
            ("sector", _) => Ok(self.sector(number(1)?)?),
            _ => return None,
        };
        Some(answer.unwrap_or_else(str::to_string))
    }

    fn index(&self, client: u64) -> Result<usize, &'static str> {
        let is_there = (1..=self.boxes.len() as u64).contains(&client);
        is_there.then(|| client as usize - 1).ok_or(NO_CLIENT)
    }

    fn need_live(&self) -> Result<(), &'static str> {
        if self.mode == Mode::Stopped {
            return Err(STOPPED);
        }
        Ok(())
    }

    fn need_pair(&self) -> Result<(), &'static str> {
        if self.mode == Mode::Alone {
            return Err(NOT_PAIRED);
        }
        Ok(())
    }

    fn step(&mut self, count: u64) -> Answer {
        self.need_live()?;
        for _ in 0..count {
            if self.live.sent.len() > STEP_FRAMES {
                return Err(CUT_NEEDED);
            }
            if let Some(pairs) = &mut self.counted {
                pairs.look(&self.live);
            }
            self.live.run(1);
            if self.mode == Mode::Alone {
                self.entries += 1;
                if !self.live.sent.is_empty() {
                    let frames = std::mem::take(&mut self.live.sent);
                    self.land(frames);
                }
            } else {
                self.running.steps += 1;
                if !self.is_gated && !self.live.sent.is_empty() {
                    let frames = std::mem::take(&mut self.live.sent);
                    self.land(frames);
                }
            }
        }
        Ok(format!("steps {}", self.live.steps))
    }

    fn cut(&mut self) -> Answer {
        self.need_live()?;
        self.need_pair()?;
        if self.pending.len() >= MOST_PENDING {
            return Err(BEHIND);
        }
        let number = self.to_cut;
        self.to_cut += 1;
        self.seal(number);
        Ok(format!("cut {} {number}", self.generation))
    }

    /// Ends the running epoch: its checkpoint is pending under that number.
    fn seal(&mut self, number: u64) {
        let frames = std::mem::take(&mut self.live.sent);
        let epoch = std::mem::take(&mut self.running);
        let machine = match self.spare.take() {
            Some(mut machine) => {
                machine.copy_from(&self.live);
                machine
            }
            None => self.live.clone(),
        };
        self.pending.push_back(Pending {
            number,
            frames,
            rest: Some((epoch, machine)),
        });
    }

    fn send(&mut self) -> Answer {
        self.need_live()?;
        self.need_pair()?;
        let numbers = self
            .pending
            .iter()
            .map(|pending| (self.generation, pending.number));
        self.packets.extend(numbers);
        Ok(format!("sent {}", self.pending.len()))
    }

    fn backup(&mut self, packet: u64) -> Answer {
        self.need_pair()?;
        let Some((generation, number)) = message(&self.packets, packet) else {
            return Ok("lost".into());
        };
        if generation != self.generation {
            return Err(STALE);
        }
        if number > self.to_commit {
            return Err(GAP);
        }
        let word = if number == self.to_commit {
            self.commit();
            "committed"
        } else {
            "again"
        };
        let last = self.to_commit - 1;
        self.answers.push((self.generation, last));
        Ok(format!("{word} {} {last}", self.generation))
    }

    fn commit(&mut self) {
        let wanted = self.to_commit;
        let mut waiting = self
            .pending
            .iter_mut()
            .filter(|pending| pending.number == wanted);
        let (epoch, machine) = waiting
            .next()
            .and_then(|pending| pending.rest.take())
            .expect("what isn't committed is pending");
        self.entries += epoch.steps + epoch.arrivals;
        self.spare = self.image.replace(machine).or(self.spare.take());
        self.to_commit += 1;
        if self.mode == Mode::Filling {
            self.mode = Mode::Paired;
        }
    }

    fn acknowledge(&mut self, answer: u64) -> Answer {
        self.need_live()?;
        self.need_pair()?;
        let Some((generation, number)) = message(&self.answers, answer) else {
            return Ok("lost".into());
        };
        if generation != self.generation {
            return Err(STALE);
        }
        let mut landed = 0;
        while self
            .pending
            .front()
            .is_some_and(|first| first.number <= number)
        {
            let frames = self.pending.pop_front().map(|first| first.frames);
            landed += self.land(frames.unwrap_or_default());
        }
        Ok(format!("acked {generation} {number} landed {landed}"))
    }

    /// Puts frames into the boxes of their clients. Answers how often.
    fn land(&mut self, frames: Vec<Vec<u8>>) -> u64 {
        let mut landed = 0;
        for frame in frames {
            for client in targets(&frame, self.boxes.len()) {
                // A frame for a full box is dropped, which is an entry too.
                self.entries += 1;
                if self.boxes[client].len() < BOX_FRAMES {
                    self.boxes[client].push_back(frame.clone());
                    landed += 1;
                }
            }
        }
        landed
    }

    fn deliver(&mut self, client: u64, frame: Vec<u8>) -> Answer {
        let client = self.index(client)?;
        if !(14..=1514).contains(&frame.len()) {
            return Err(BAD_FRAME);
        }
        self.entries += 1;
        if self.inboxes[client].len() >= INBOX_FRAMES {
            return Err(FULL);
        }
        self.delivered += 1;
        self.inboxes[client].push_back((self.delivered, frame));
        Ok(format!("delivered {}", self.delivered))
    }

    fn admit(&mut self, client: u64) -> Answer {
        let client = self.index(client)?;
        self.need_live()?;
        let Some((number, frame)) = self.inboxes[client].pop_front() else {
            return Ok("empty".into());
        };
        self.live.net.arrive(&mut self.live.ram, &frame);
        if self.mode == Mode::Alone {
            self.entries += 1;
        } else {
            self.running.arrivals += 1;
        }
        Ok(format!("admitted {number}"))
    }

    fn take(&mut self, client: u64) -> Answer {
        let client = self.index(client)?;
        self.entries += 1;
        Ok(match self.boxes[client].pop_front() {
            Some(frame) => format!("frame {}", hex(&frame)),
            None => "none".into(),
        })
    }

    fn lose_in(&mut self, client: u64, place: u64) -> Answer {
        let client = self.index(client)?;
        let dropped = remove(&mut self.inboxes[client], place);
        Ok(self.dropped(dropped))
    }

    fn lose_out(&mut self, client: u64, place: u64) -> Answer {
        let client = self.index(client)?;
        let dropped = remove(&mut self.boxes[client], place);
        Ok(self.dropped(dropped))
    }

    fn dropped(&mut self, is_dropped: bool) -> String {
        self.entries += u64::from(is_dropped);
        if is_dropped { "dropped" } else { "empty" }.into()
    }

    fn fail_primary(&mut self) -> Answer {
        self.need_live()?;
        if self.mode != Mode::Paired {
            return Err(NO_IMAGE);
        }
        self.mode = Mode::Stopped;
        Ok("stopped primary".into())
    }

    fn fail_backup(&mut self) -> Answer {
        self.need_live()?;
        self.need_pair()?;
        let running = std::mem::take(&mut self.running);
        self.entries += running.steps + running.arrivals;
        let mut frames = Vec::new();
        for pending in std::mem::take(&mut self.pending) {
            if let Some((epoch, _)) = pending.rest {
                self.entries += epoch.steps + epoch.arrivals;
            }
            frames.extend(pending.frames);
        }
        frames.append(&mut self.live.sent);
        let landed = self.land(frames);
        self.be_alone();
        Ok(format!("alone {} landed {landed}", self.generation))
    }

    fn go_live(&mut self) -> Answer {
        match self.mode {
            Mode::Alone => return Err(NOT_PAIRED),
            Mode::Paired | Mode::Filling => return Err(ALREADY_PAIRED),
            Mode::Stopped => {}
        }
        // What was taken in by an epoch that isn't committed is dropped; then what committed ones sent and hasn't landed does.
        let mut dropped = self.running.arrivals;
        let mut owed = Vec::new();
        for pending in std::mem::take(&mut self.pending) {
            match pending.rest {
                Some((epoch, _)) => dropped += epoch.arrivals,
                None => owed.extend(pending.frames),
            }
        }
        self.entries += dropped;
        self.land(owed);
        let image = self.image.take().expect("a stopped pair has an image");
        self.spare = Some(std::mem::replace(&mut self.live, image));
        self.generation += 1;
        self.be_alone();
        Ok(format!(
            "live {} steps {}",
            self.generation, self.live.steps
        ))
    }

    fn be_alone(&mut self) {
        self.mode = Mode::Alone;
        self.image = None;
        self.pending.clear();
        self.running = Epoch::default();
    }

    fn protect(&mut self) -> Answer {
        self.need_live()?;
        if self.mode != Mode::Alone {
            return Err(ALREADY_PAIRED);
        }
        self.mode = Mode::Filling;
        self.generation += 1;
        self.to_commit = 0;
        self.to_cut = 1;
        self.seal(0);
        Ok(format!("protecting {}", self.generation))
    }

    /// The guest that an operator sees.
    fn shown(&self) -> &Machine {
        match &self.image {
            Some(image) if self.mode == Mode::Stopped => image,
            _ => &self.live,
        }
    }

    fn show(&self) -> String {
        let mode = match self.mode {
            Mode::Paired | Mode::Filling => "paired",
            Mode::Stopped => "stopped",
            Mode::Alone => "alone",
        };
        format!(
            "mode {mode} generation {} pending {} steps {} entries {}",
            self.generation,
            self.pending.len(),
            self.shown().steps,
            self.entries
        )
    }

    /// `None`: the disk doesn't have it.
    fn sector(&self, sector: u64) -> Option<String> {
        let disk = self.shown().disk.bytes()?;
        let bytes = disk.chunks_exact(512).nth(sector as usize)?;
        Some(format!("sector {sector} {}", hex(bytes)))
    }
}

fn message(line: &[Message], place: u64) -> Option<Message> {
    line.get(place as usize).copied()
}

/// Removes what stands at a place. Answers whether there was something.
fn remove<T>(queue: &mut VecDeque<T>, place: u64) -> bool {
    queue.remove(place as usize).is_some()
}

/// The clients to whom a frame goes: the one of its destination, or all of them by broadcast.
fn targets(frame: &[u8], clients: usize) -> std::ops::Range<usize> {
    if frame[..6] == [0xff; 6] {
        return 0..clients;
    }
    let last = usize::from(frame[5]);
    if frame[..5] == CLIENT_MAC && (1..=clients).contains(&last) {
        last - 1..last
    } else {
        0..0
    }
}

fn bytes(digits: &str) -> Option<Vec<u8>> {
    let pairs =
        (0..digits.len() / 2).map(|i| u8::from_str_radix(digits.get(2 * i..2 * i + 2)?, 16).ok());
    pairs.collect()
}

fn hex(bytes: &[u8]) -> String {
    const DIGITS: &[u8; 16] = b"0123456789abcdef";
    let digits = bytes.iter().flat_map(|byte| {
        [
            DIGITS[usize::from(byte >> 4)],
            DIGITS[usize::from(byte & 15)],
        ]
    });
    digits.map(char::from).collect()
}
