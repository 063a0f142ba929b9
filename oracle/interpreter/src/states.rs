//! What a guest holds after runs of random lengths.
//!
//! The program of tests/waits prints the same of the proved machine.

use crate::hart::Machine;

/// Makes so many runs, and prints a line after each: the count of steps, the pc, x1 to x31, and the CSRs mstatus, mie, mtvec, mscratch,
/// mepc, mcause and mtval.
pub fn print(machine: &mut Machine, runs: u64, seed: u64) {
    let mut random = seed;
    for _ in 0..runs {
        random = after(random);
        machine.run(length_of(random));
        println!("{}", line(machine));
    }
}

fn line(machine: &Machine) -> String {
    let front = [machine.steps, machine.pc];
    let numbers = front.iter().chain(&machine.regs[1..]);
    let csrs = machine.csrs.values();
    let words: Vec<String> = numbers.chain(&csrs).map(u64::to_string).collect();
    words.join(" ")
}

/// The number after this one in a sequence of random ones, by three shifts.
fn after(random: u64) -> u64 {
    let first = random ^ random << 13;
    let second = first ^ first >> 7;
    second ^ second << 17
}

/// The length of a run by a random number: below 65,536, and each number of bits as often as any other.
fn length_of(random: u64) -> u64 {
    random >> 48 >> (random % 16)
}
