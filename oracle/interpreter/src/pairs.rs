//! Which instructions follow each other most often, of all words that a guest runs, and in which rows.

use crate::hart::{Machine, RAM_BASE};
use std::collections::HashMap;

/// How often words stood behind each other in a page and ran so, of all steps that were shown. Where pairs overlap, as three loads do, each
/// counts.
#[derive(Default)]
pub struct Pairs {
    counts: HashMap<(u32, u32), u64>,
    /// How often each row of words was run, one behind the other in a page, up to a jump or the page's end.
    rows: HashMap<Vec<u32>, u64>,
    /// The row that is being run.
    row: Vec<u32>,
    before: Option<(u64, u32)>,
    steps: u64,
}

impl Pairs {
    /// A machine is about to make a step.
    pub fn look(&mut self, machine: &Machine) {
        let at = machine.pc.wrapping_sub(RAM_BASE) as usize;
        let here = machine.ram.get(at..at.wrapping_add(4)).map(|bytes| {
            (machine.pc, u32::from_le_bytes(bytes.try_into().expect("4 bytes")))
        });
        match (self.before, here) {
            (Some((from, first)), Some((pc, second))) if pc == from + 4 && pc % 4096 != 0 => {
                *self.counts.entry((first, second)).or_default() += 1;
            }
            _ => self.end_row(),
        }
        self.row.extend(here.map(|(_, word)| word));
        self.before = here;
        self.steps += 1;
    }

    /// The row that was run ends here.
    fn end_row(&mut self) {
        let row = std::mem::take(&mut self.row);
        if !row.is_empty() {
            *self.rows.entry(row).or_default() += 1;
        }
    }

    /// Prints the rows, the most frequent first: how often each was run, and its instructions, each but the first with a slash and which of its
    /// operands is the register that the one in front of it writes.
    pub fn print_rows(mut self) {
        self.end_row();
        let mut told: HashMap<String, u64> = HashMap::new();
        for (row, count) in &self.rows {
            let mut names = vec![name_of(row[0]).to_string()];
            names.extend(row.windows(2).map(|two| format!("{}/{}", name_of(two[1]), read_of(two[0], two[1]))));
            *told.entry(names.join(" ")).or_default() += count;
        }
        let mut told: Vec<_> = told.into_iter().collect();
        told.sort_by(|(row, count), (other, times)| times.cmp(count).then(row.cmp(other)));
        for (row, count) in told {
            println!("{count} {row}");
        }
    }

    /// Prints so many of them, the most frequent first: how many of a thousand steps begin one, what they are, and which operand of the
    /// second is the register that the first writes.
    pub fn print(&self, most: usize) {
        let mut rows: HashMap<(&str, &str, &str), u64> = HashMap::new();
        for ((first, second), count) in &self.counts {
            let pair = (name_of(*first), name_of(*second), read_of(*first, *second));
            *rows.entry(pair).or_default() += count;
        }
        let mut rows: Vec<_> = rows.into_iter().collect();
        rows.sort_by_key(|(pair, count)| (std::cmp::Reverse(*count), *pair));
        for ((first, second, read), count) in rows.into_iter().take(most) {
            println!("{:6.1} {first} {second} {read}", count as f64 * 1e3 / self.steps as f64);
        }
    }
}

/// The pairs of so many steps.
pub fn of(machine: &mut Machine, steps: u64) -> Pairs {
    let mut pairs = Pairs::default();
    for _ in 0..steps {
        pairs.look(machine);
        machine.run(1);
    }
    pairs
}

/// Which operand of a word is the register that another word in front of it writes.
fn read_of(first: u32, second: u32) -> &'static str {
    let rd = first >> 7 & 31;
    let writes = !matches!(first & 0x7f, 0x63 | 0x23 | 0x0f | 0x73) && rd != 0;
    let reads_first = !matches!(second & 0x7f, 0x37 | 0x17 | 0x6f | 0x0f | 0x73) && second >> 15 & 31 == rd;
    let reads_second = matches!(second & 0x7f, 0x63 | 0x23 | 0x33 | 0x3b) && second >> 20 & 31 == rd;
    match (writes && reads_first, writes && reads_second) {
        (true, true) => "both",
        (true, false) => "first",
        (false, true) => "second",
        (false, false) => "-",
    }
}

/// The instruction of a word, as the standard names it.
fn name_of(word: u32) -> &'static str {
    let funct3 = (word >> 12 & 7) as usize;
    let funct7 = word >> 25;
    match word & 0x7f {
        0x37 => "lui",
        0x17 => "auipc",
        0x6f => "jal",
        0x67 => "jalr",
        0x63 => ["beq", "bne", "none", "none", "blt", "bge", "bltu", "bgeu"][funct3],
        0x03 => ["lb", "lh", "lw", "ld", "lbu", "lhu", "lwu", "none"][funct3],
        0x23 => ["sb", "sh", "sw", "sd", "none", "none", "none", "none"][funct3],
        0x13 if funct3 == 5 && funct7 >> 1 != 0 => "srai",
        0x13 => ["addi", "slli", "slti", "sltiu", "xori", "srli", "ori", "andi"][funct3],
        0x1b if funct3 == 5 && funct7 != 0 => "sraiw",
        0x1b => ["addiw", "slliw", "none", "none", "none", "srliw", "none", "none"][funct3],
        0x33 if funct7 == 1 => ["mul", "mulh", "mulhsu", "mulhu", "div", "divu", "rem", "remu"][funct3],
        0x33 if funct7 != 0 => ["sub", "none", "none", "none", "none", "sra", "none", "none"][funct3],
        0x33 => ["add", "sll", "slt", "sltu", "xor", "srl", "or", "and"][funct3],
        0x3b if funct7 == 1 => ["mulw", "none", "none", "none", "divw", "divuw", "remw", "remuw"][funct3],
        0x3b if funct7 != 0 => ["subw", "none", "none", "none", "none", "sraw", "none", "none"][funct3],
        0x3b => ["addw", "sllw", "none", "none", "none", "srlw", "none", "none"][funct3],
        0x0f => "fence",
        _ => "system",
    }
}
