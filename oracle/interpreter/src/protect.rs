//! What a node does in plain Rust where it gets a new backup: an empty machine is made, all memory and the disk are compared with zeros,
//! and what isn't zero is copied and encoded. The bytes are those of a full checkpoint of docs/CHECKPOINT.md, of a guest at boot.

use crate::checkpoints::{encode, Delta, BLOCK, PAGE, SECTOR};
use crate::hart::Machine;
use crate::head::head;
use std::hint::black_box;

/// How the zeros of an empty machine come to be.
#[derive(Clone, Copy)]
pub enum Zeros {
    /// The allocator is asked for zeros, and the system makes each page when it is first touched.
    Asked,
    /// They are written.
    Written,
    /// No empty machine is made.
    Unmade,
}

/// Protects the machine so many times. Answers how many bytes one checkpoint had.
pub fn run(machine: &Machine, zeros: Zeros, rounds: u64) -> usize {
    let disk = machine.disk.bytes().expect("the second device is the disk");
    let mut bytes = encode(&cut(&machine.ram, disk)).len();
    for _ in 0..rounds {
        let backup = black_box(empty(machine.ram.len(), disk.len(), zeros));
        let text = black_box(encode(&cut(&machine.ram, disk)));
        bytes = text.len();
        drop((backup, text));
    }
    bytes
}

/// An empty machine: its memory, what that was at the last settle, and its disk.
fn empty(memory: usize, disk: usize, zeros: Zeros) -> [Vec<u8>; 3] {
    [memory, memory, disk].map(|count| match zeros {
        Zeros::Unmade => Vec::new(),
        Zeros::Asked => vec![0; count],
        Zeros::Written => {
            let mut bytes = black_box(Vec::with_capacity(count));
            bytes.resize(count, 0);
            bytes
        }
    })
}

/// All that isn't zero.
fn cut(ram: &[u8], disk: &[u8]) -> Delta {
    let shape = [ram.len() / PAGE, disk.len() / SECTOR].map(|count| count as u64);
    let mut delta = Delta::new(head(shape, 0));
    for (i, page) in ram.chunks_exact(PAGE).enumerate() {
        if page != [0; PAGE] {
            let mut mask = 0;
            for (i, block) in page.chunks_exact(BLOCK).enumerate() {
                if block != [0; BLOCK] {
                    mask |= 1u64 << i;
                    delta.blocks.push(block.try_into().expect("a block"));
                }
            }
            delta.pages.push((i as u32, mask));
        }
    }
    for (i, sector) in disk.chunks_exact(SECTOR).enumerate() {
        if sector != [0; SECTOR] {
            let sector = sector.try_into().expect("a sector");
            delta.sectors.push((i as u32, sector));
        }
    }
    delta
}
