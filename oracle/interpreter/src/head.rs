//! The head of a checkpoint in plain Rust: its numbers, how many bytes each takes and what it may be. The rules are those of
//! docs/CHECKPOINT.md, "Units".

pub const NUMBERS: usize = 80;
/// The bytes of the head, before the count of the page records.
pub const BYTES: usize = 524;
pub type Head = [u64; NUMBERS];

/// "RMC2", little end first.
const MAGIC: u64 = 0x3243_4d52;
const MOST: u64 = (1 << 62) - 1;
const MSTATUS: usize = 38;

/// What a number may be.
#[derive(Clone, Copy)]
enum Rule {
    Any,
    /// That number of the shape: pages, or sectors.
    Shape(usize),
    Within(u64, u64),
    /// These bits are set, of those that are named first.
    Masked(u64, u64),
    QueueSize,
    /// 0 or 1, and 0 where the queue has no size.
    Ready,
}

const fn rows() -> [(usize, Rule); NUMBERS] {
    let mut rows = [(8, Rule::Any); NUMBERS];
    rows[0] = (4, Rule::Within(MAGIC, MAGIC));
    rows[1] = (4, Rule::Shape(0));
    rows[2] = (4, Rule::Shape(1));
    rows[3] = (8, Rule::Within(1, MOST));
    rows[4] = (8, Rule::Within(0, MOST));
    // pc, mstatus, mie, mtvec, mepc, and msip
    rows[37] = (8, Rule::Masked(3, 0));
    rows[MSTATUS] = (8, Rule::Masked(!0x88, 0x1800));
    rows[39] = (8, Rule::Masked(!0x888, 0));
    rows[40] = (8, Rule::Masked(2, 0));
    rows[42] = (8, Rule::Masked(3, 0));
    rows[45] = (4, Rule::Within(0, 1));
    // the network card with its two queues, and the disk with its one
    let rows = queue(queue(device(rows, 47), 53), 60);
    queue(device(rows, 67), 73)
}

const fn device(mut rows: [(usize, Rule); NUMBERS], at: usize) -> [(usize, Rule); NUMBERS] {
    rows[at] = (4, Rule::Masked(!0xcf, 0));
    rows[at + 1] = (4, Rule::Any);
    rows[at + 2] = (4, Rule::Any);
    rows[at + 4] = (4, Rule::Any);
    rows[at + 5] = (4, Rule::Within(0, 3));
    rows
}

const fn queue(mut rows: [(usize, Rule); NUMBERS], at: usize) -> [(usize, Rule); NUMBERS] {
    rows[at] = (4, Rule::QueueSize);
    rows[at + 1] = (4, Rule::Ready);
    rows[at + 5] = (2, Rule::Any);
    rows[at + 6] = (2, Rule::Any);
    rows
}

static ROWS: [(usize, Rule); NUMBERS] = rows();

/// The head of a checkpoint of generation 1, of a guest at boot.
pub fn head(shape: [u64; 2], number: u64) -> Head {
    let mut head = [0; NUMBERS];
    head[..5].copy_from_slice(&[MAGIC, shape[0], shape[1], 1, number]);
    head[MSTATUS] = 0x1800;
    head
}

/// Puts a head at the end of a text.
pub fn put(text: &mut Vec<u8>, head: &Head) {
    for ((width, _), n) in ROWS.iter().zip(head) {
        text.extend_from_slice(&n.to_le_bytes()[..*width]);
    }
}

/// How many bytes the number at a place of the head takes.
pub fn width(place: usize) -> usize {
    ROWS[place].0
}

/// The number of 2, 4 or 8 bytes.
pub fn number(bytes: &[u8]) -> u64 {
    match bytes.len() {
        2 => u64::from(u16::from_le_bytes(bytes.try_into().expect("2 bytes"))),
        4 => u64::from(u32::from_le_bytes(bytes.try_into().expect("4 bytes"))),
        _ => u64::from_le_bytes(bytes.try_into().expect("8 bytes")),
    }
}

/// Whether a number may stand at that place of the head of such a machine, after the number before it.
pub fn is_good(place: usize, n: u64, before: u64, shape: [u64; 2]) -> bool {
    match ROWS[place].1 {
        Rule::Any => true,
        Rule::Shape(which) => n == shape[which],
        Rule::Within(least, most) => least <= n && n <= most,
        Rule::Masked(bits, set) => n & bits == set,
        Rule::QueueSize => n == 0 || n.is_power_of_two() && n <= 64,
        Rule::Ready => n == 0 || n == 1 && before > 0,
    }
}

/// The head that a text begins with, and the rest; `None` where a number breaks its rule.
pub fn split(text: &[u8], shape: [u64; 2]) -> Option<(Head, &[u8])> {
    let (mut rest, mut head, mut before) = (text, [0; NUMBERS], 0);
    for (place, found) in head.iter_mut().enumerate() {
        let (bytes, after) = rest.split_at_checked(width(place))?;
        let n = number(bytes);
        if !is_good(place, n, before, shape) {
            return None;
        }
        *found = n;
        before = n;
        rest = after;
    }
    Some((head, rest))
}
