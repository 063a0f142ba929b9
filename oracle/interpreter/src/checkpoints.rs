//! Epochs of a checkpoint in plain Rust: pages change, and those that were written are compared with what they were, XORed, encoded,
//! decoded and applied to a second memory. The bytes are those of docs/CHECKPOINT.md, of a guest at boot.

use crate::hart::Machine;
use crate::head::{self, Head};
use std::collections::VecDeque;

pub const PAGE: usize = 4096;
pub const BLOCK: usize = 64;
pub const SECTOR: usize = 512;
const PAGES: usize = 16384;
/// How many commits' frames a backup keeps.
const KEPT: usize = 4;

type Block = [u8; BLOCK];

struct Memory {
    bytes: Vec<u8>,
    originals: Vec<u8>,
    written: Vec<bool>,
}

/// The head, the page records, their blocks, the sector records, and the frames.
pub struct Delta {
    pub head: Head,
    pub pages: Vec<(u32, u64)>,
    pub blocks: Vec<Block>,
    pub sectors: Vec<(u32, [u8; SECTOR])>,
    pub frames: Vec<Vec<u8>>,
}

impl Delta {
    /// A checkpoint without records and frames.
    pub fn new(head: Head) -> Delta {
        Delta {
            head,
            pages: Vec::new(),
            blocks: Vec::new(),
            sectors: Vec::new(),
            frames: Vec::new(),
        }
    }

    /// Adds what differs of a page.
    pub fn add_page(&mut self, page: usize, old: &[u8], new: &[u8]) {
        let mut mask = 0;
        for (i, (old, new)) in old
            .chunks_exact(BLOCK)
            .zip(new.chunks_exact(BLOCK))
            .enumerate()
        {
            if old != new {
                mask |= 1u64 << i;
                let mut block: Block = new.try_into().expect("a block");
                xor_into(&mut block, old.try_into().expect("a block"));
                self.blocks.push(block);
            }
        }
        if mask != 0 {
            self.pages.push((page as u32, mask));
        }
    }
}

/// Runs so many epochs, in each of which so many blocks of so many pages change. Answers how many bytes their checkpoints had.
pub fn run(pages: usize, blocks: usize, rounds: u64) -> u64 {
    let mut live = Memory::new();
    let mut image = vec![0; PAGES * PAGE];
    let (mut bytes, shape) = (0, [PAGES as u64, 1]);
    for number in 1..=rounds {
        live.change(pages, blocks);
        let text = encode(&live.cut(head::head(shape, number)));
        live.settle();
        bytes += text.len() as u64;
        apply(
            &mut image,
            &decode(&text, shape).expect("what was encoded is read back"),
        );
    }
    assert!(image == live.bytes, "the image is the memory");
    bytes
}

/// Runs so many rounds of a guest, of so many steps each, and the first as epochs. Answers how many bytes their checkpoints had.
pub fn send(machine: &mut Machine, sectors: u64, steps: u64, rounds: u64, cuts: u64) -> u64 {
    let shape = [(machine.ram.len() / PAGE) as u64, sectors];
    let (mut originals, mut image) = (machine.ram.clone(), machine.ram.clone());
    let (mut kept, mut bytes) = (VecDeque::new(), 0);
    for number in 1..=rounds {
        machine.run(steps);
        if number <= cuts {
            let text = encode(&cut_sent(machine, &originals, head::head(shape, number)));
            originals.copy_from_slice(&machine.ram);
            bytes += text.len() as u64;
            let delta = decode(&text, shape).expect("what was encoded is read back");
            apply(&mut image, &delta);
            if kept.len() == KEPT {
                kept.pop_front();
            }
            kept.push_back(delta.frames);
        }
        machine.sent.clear();
    }
    assert!(
        cuts < rounds || image == machine.ram,
        "the image is the memory"
    );
    bytes
}

/// What changed of a guest's memory, and the frames that it sent.
fn cut_sent(machine: &Machine, originals: &[u8], head: Head) -> Delta {
    let mut delta = Delta::new(head);
    for page in 0..machine.ram.len() / PAGE {
        cut_page(&mut delta, page, originals, &machine.ram);
    }
    delta.frames = machine.sent.clone();
    delta
}

/// Encodes and reads a checkpoint of that many pages and sectors so many times. Answers how many bytes its texts had.
pub fn copy(text: &[u8], shape: [u64; 2], rounds: u64) -> u64 {
    let mut delta = decode(text, shape).expect("a checkpoint");
    let mut bytes = 0;
    for _ in 0..rounds {
        let text = std::hint::black_box(encode(&delta));
        bytes += text.len() as u64;
        delta = decode(&text, shape).expect("what was encoded is read back");
    }
    bytes
}

impl Memory {
    fn new() -> Memory {
        Memory {
            bytes: vec![0; PAGES * PAGE],
            originals: vec![0; PAGES * PAGE],
            written: vec![false; PAGES],
        }
    }

    fn change(&mut self, pages: usize, blocks: usize) {
        for page in 0..pages {
            for block in 0..blocks {
                xor_into(
                    &mut self.bytes[page * PAGE + block * BLOCK..][..BLOCK],
                    &std::hint::black_box([1; BLOCK]),
                );
                self.written[page] = true;
            }
        }
    }

    fn cut(&self, head: Head) -> Delta {
        let mut delta = Delta::new(head);
        for page in 0..PAGES {
            if self.written[page] {
                cut_page(&mut delta, page, &self.originals, &self.bytes);
            }
        }
        delta
    }

    fn settle(&mut self) {
        for page in 0..PAGES {
            if std::mem::take(&mut self.written[page]) {
                let range = page * PAGE..(page + 1) * PAGE;
                self.originals[range.clone()].copy_from_slice(&self.bytes[range]);
            }
        }
    }
}

/// Adds what changed of a page.
pub fn cut_page(delta: &mut Delta, page: usize, originals: &[u8], bytes: &[u8]) {
    let range = page * PAGE..(page + 1) * PAGE;
    delta.add_page(page, &originals[range.clone()], &bytes[range]);
}

fn xor_into(bytes: &mut [u8], change: &Block) {
    for (byte, change) in bytes.iter_mut().zip(change) {
        *byte ^= change;
    }
}

pub fn encode(delta: &Delta) -> Vec<u8> {
    let mut text = Vec::with_capacity(
        head::BYTES
            + 12
            + 12 * delta.pages.len()
            + BLOCK * delta.blocks.len()
            + (4 + SECTOR) * delta.sectors.len()
            + delta
                .frames
                .iter()
                .map(|frame| 4 + frame.len())
                .sum::<usize>(),
    );
    head::put(&mut text, &delta.head);
    text.extend_from_slice(&(delta.pages.len() as u32).to_le_bytes());
    let mut blocks = delta.blocks.iter();
    for (page, mask) in &delta.pages {
        text.extend_from_slice(&page.to_le_bytes());
        text.extend_from_slice(&mask.to_le_bytes());
        for block in blocks.by_ref().take(mask.count_ones() as usize) {
            text.extend_from_slice(block);
        }
    }
    text.extend_from_slice(&(delta.sectors.len() as u32).to_le_bytes());
    for (sector, bytes) in &delta.sectors {
        text.extend_from_slice(&sector.to_le_bytes());
        text.extend_from_slice(bytes);
    }
    text.extend_from_slice(&(delta.frames.len() as u32).to_le_bytes());
    for frame in &delta.frames {
        text.extend_from_slice(&(frame.len() as u32).to_le_bytes());
        text.extend_from_slice(frame);
    }
    text
}

fn decode(text: &[u8], shape: [u64; 2]) -> Option<Delta> {
    let (head, rest) = head::split(text, shape)?;
    let mut delta = Delta::new(head);
    let (count, mut rest) = rest.split_first_chunk::<4>()?;
    let mut from = 0;
    for _ in 0..u32::from_le_bytes(*count) {
        let (page, after) = rest.split_first_chunk::<4>()?;
        let (mask, mut after) = after.split_first_chunk::<8>()?;
        let (page, mask) = (u32::from_le_bytes(*page), u64::from_le_bytes(*mask));
        if page < from || page as usize >= PAGES || mask == 0 {
            return None;
        }
        from = page + 1;
        delta.pages.push((page, mask));
        for _ in 0..mask.count_ones() {
            let (block, next) = after.split_first_chunk::<BLOCK>()?;
            if block.iter().all(|byte| *byte == 0) {
                return None;
            }
            delta.blocks.push(*block);
            after = next;
        }
        rest = after;
    }
    let (sectors, rest) = rest.split_first_chunk::<4>()?;
    let (count, mut rest) = rest.split_first_chunk::<4>()?;
    if *sectors != [0; 4] || u32::from_le_bytes(*count) > 256 {
        return None;
    }
    for _ in 0..u32::from_le_bytes(*count) {
        let (length, after) = rest.split_first_chunk::<4>()?;
        let length = u32::from_le_bytes(*length) as usize;
        if !(14..=1514).contains(&length) {
            return None;
        }
        let (frame, after) = after.split_at_checked(length)?;
        delta.frames.push(frame.to_vec());
        rest = after;
    }
    rest.is_empty().then_some(delta)
}

fn apply(image: &mut [u8], delta: &Delta) {
    let mut blocks = delta.blocks.iter();
    for (page, mask) in &delta.pages {
        for i in (0..BLOCK).filter(|i| mask >> i & 1 == 1) {
            let start = *page as usize * PAGE + i * BLOCK;
            xor_into(
                &mut image[start..start + BLOCK],
                blocks.next().expect("a block for each bit"),
            );
        }
    }
}
