//! An interpreter of the machine's rules in plain Rust, with no proofs: to measure the proved one against, and to compare
//! what guests do.
//!
//! `interpreter run WORDS STEPS` runs the words of a file for so many steps, and prints its registers and the speed.
//! `interpreter until WORDS MOST` runs until the guest jumps to itself, and says after how many steps that is.
//! `interpreter pairs WORDS STEPS COUNT` prints the COUNT pairs of instructions that follow each other most often in so many steps.
//! `interpreter pairs SCRIPT COUNT` prints those of all steps of a script.
//! `interpreter rows WORDS STEPS` prints how often each row of instructions was run in so many steps, up to a jump or a page's end.
//! `interpreter rows SCRIPT` prints those of all steps of a script.
//! `interpreter sim SCRIPT` plays a script of `remus sim`.
//! `interpreter live [without-gate]` answers each line of a script on standard input as it comes, as `remus live` does; `without-gate`:
//! what the guest sends is on its way at once, so that a failure loses what was told to clients.
//! `interpreter node` is `remus node`, whose lines and answers docs/NODES.md has.
//! `interpreter copy BYTES TIMES` copies so many bytes in memory so often.
//! `interpreter frames FILE PAGES SECTORS ROUNDS` encodes and reads the checkpoint of a file, of such a machine, again and again, and prints
//! the bytes of all texts.
//! `interpreter checkpoints PAGES BLOCKS ROUNDS` runs epochs in which so many blocks of so many pages change, and prints their bytes.
//! `interpreter sending IMAGE PAGES SECTORS STEPS ROUNDS CUTS` runs the guest of a file for rounds of so many steps, the first CUTS of them
//! as epochs, and prints the bytes of these.
//! `interpreter images COUNT` runs images from a fixed sequence, 1000 steps each, and prints one number of all that they leave.
//! `interpreter protect PAGES SECTORS WORDS STEPS ZEROS ROUNDS` runs words for so many steps, makes an empty backup and a full checkpoint so
//! many times, and prints the checkpoint's bytes; ZEROS is `asked` or `written`, which is how the backup's zeros come to be, or `unmade`,
//! where no empty backup is made.
//! `interpreter threads WORDS PAGES CLIENTS STEPS CALLS` runs a pair in threads, whose clients make so many calls each while epochs of so many
//! steps run, and prints the nanoseconds that the calls took in all.
//! `interpreter states WORDS RUNS SEED` makes so many runs of random length of a guest, and prints what it holds after each.

mod checkpoints;
mod csrs;
mod guests;
mod hart;
mod head;
mod images;
mod lines;
mod nodes;
mod pair;
mod pairs;
mod protect;
mod reader;
mod states;
mod threads;
mod virtio;

use hart::{Machine, RAM_BASE};
use pair::Pair;
use pairs::Pairs;
use protect::Zeros;
use std::io::{BufRead, Write};
use std::time::Instant;

const PAGES: usize = 64;
const SECTORS: usize = 4096;
/// JAL x0, 0.
const SELF_LOOP: u32 = 0x0000_006f;

fn main() {
    let words: Vec<String> = std::env::args().collect();
    let words: Vec<&str> = words.iter().map(String::as_str).collect();
    match words[1..] {
        ["run", file, steps] => run(file, parsed(steps, "a number of steps")),
        ["until", file, most] => until(file, parsed(most, "a number of steps")),
        ["sim", file] => {
            play(file, None, |answer| println!("{answer}"));
        }
        ["live"] => live(true),
        ["live", "without-gate"] => live(false),
        ["node"] => {
            if lines::play().is_err() {
                std::process::exit(1);
            }
        }
        ["copy", bytes, times] => copy(
            parsed(bytes, "a number of bytes"),
            parsed(times, "a number of times"),
        ),
        ["checkpoints", pages, blocks, rounds] => println!(
            "{}",
            checkpoints::run(
                parsed(pages, "a number of pages"),
                parsed(blocks, "a number of blocks"),
                parsed(rounds, "a number of rounds"),
            )
        ),
        ["threads", file, pages, clients, steps, calls] => {
            let number = |text: &str| parsed::<u64>(text, "a number");
            threads::run(
                number(pages) as usize,
                &words_of(&read(file)),
                number(clients) as usize,
                number(steps),
                number(calls),
            )
        }
        ["frames", file, pages, sectors, rounds] => println!(
            "{}",
            checkpoints::copy(
                &bytes_of(file),
                [pages, sectors].map(|count| parsed(count, "a size")),
                parsed(rounds, "a number of rounds"),
            )
        ),
        ["sending", file, pages, sectors, steps, rounds, cuts] => {
            let number = |text: &str| parsed::<u64>(text, "a number");
            let image = bytes_of(file);
            let words: Vec<u32> = image
                .chunks(4)
                .map(|bytes| {
                    bytes
                        .iter()
                        .rev()
                        .fold(0, |word, byte| word << 8 | u32::from(*byte))
                })
                .collect();
            let mut machine =
                Machine::boot(number(pages) as usize, number(sectors) as usize, &words);
            let bytes = checkpoints::send(
                &mut machine,
                number(sectors),
                number(steps),
                number(rounds),
                number(cuts),
            );
            println!("{bytes}");
        }
        ["states", file, runs, seed] => states::print(
            &mut Machine::boot(PAGES, SECTORS, &words_of(&read(file))),
            parsed(runs, "a number of runs"),
            parsed(seed, "a number"),
        ),
        ["pairs", file, steps, count] => {
            pairs_of(file, steps).print(parsed(count, "a number of pairs"))
        }
        ["pairs", script, count] => {
            let count = parsed(count, "a number of pairs");
            if let Some(pairs) = play(script, Some(Pairs::default()), |_| {}) {
                pairs.print(count);
            }
        }
        ["rows", file, steps] => pairs_of(file, steps).print_rows(),
        ["rows", script] => {
            if let Some(pairs) = play(script, Some(Pairs::default()), |_| {}) {
                pairs.print_rows();
            }
        }
        ["images", count] => {
            println!("{:016x}", images::run(parsed(count, "a number of images")))
        }
        ["protect", pages, sectors, file, steps, zeros, rounds] => {
            let number = |text: &str| parsed::<u64>(text, "a number");
            let (pages, sectors) = (number(pages) as usize, number(sectors) as usize);
            let mut machine = Machine::boot(pages, sectors, &words_of(&read(file)));
            machine.run(number(steps));
            let zeros = match zeros {
                "asked" => Zeros::Asked,
                "written" => Zeros::Written,
                "unmade" => Zeros::Unmade,
                _ => fail("ZEROS is asked, written or unmade"),
            };
            println!("{}", protect::run(&machine, zeros, number(rounds)));
        }
        _ => {
            eprintln!(
                "usage: interpreter run WORDS STEPS | until WORDS MOST | sim SCRIPT | live [without-gate] | node | copy BYTES TIMES\n\
                 | checkpoints PAGES BLOCKS ROUNDS | frames FILE ROUNDS | images COUNT\n\
                 | protect PAGES SECTORS WORDS STEPS ZEROS ROUNDS | states WORDS RUNS SEED"
            );
            std::process::exit(2);
        }
    }
}

/// Says what is wrong, and ends.
fn fail(text: &str) -> ! {
    eprintln!("interpreter: {text}");
    std::process::exit(1)
}

fn parsed<T: std::str::FromStr>(text: &str, what: &str) -> T {
    text.parse()
        .unwrap_or_else(|_| fail(&format!("{text} is not {what}")))
}

fn bytes_of(file: &str) -> Vec<u8> {
    std::fs::read(file).unwrap_or_else(|error| fail(&format!("cannot read {file}: {error}")))
}

fn read(file: &str) -> String {
    String::from_utf8(bytes_of(file)).unwrap_or_else(|_| fail(&format!("{file} is no text")))
}

fn words_of(text: &str) -> Vec<u32> {
    let words = text.split_whitespace();
    words
        .map(|word| {
            u32::from_str_radix(word, 16)
                .unwrap_or_else(|_| fail(&format!("{word} is not a word of eight hex digits")))
        })
        .collect()
}

fn run(file: &str, steps: u64) {
    let mut machine = Machine::boot(PAGES, SECTORS, &words_of(&read(file)));
    let start = Instant::now();
    machine.run(steps);
    let seconds = start.elapsed().as_secs_f64();
    show(&machine);
    println!(
        "{:.3} s, {:.1} million steps a second",
        seconds,
        steps as f64 / seconds / 1e6
    );
}

fn until(file: &str, most: u64) {
    let mut machine = Machine::boot(PAGES, SECTORS, &words_of(&read(file)));
    while machine.steps < most {
        let at = machine.pc.wrapping_sub(RAM_BASE) as usize;
        if machine.ram.get(at..at + 4) == Some(&SELF_LOOP.to_le_bytes()) {
            break;
        }
        machine.run(1);
    }
    show(&machine);
}

fn show(machine: &Machine) {
    println!("steps {} pc {:016x}", machine.steps, machine.pc);
    for (number, value) in machine.regs.iter().enumerate() {
        let end = if number % 4 == 3 { '\n' } else { ' ' };
        print!("x{number:<2} {value:016x}{end}");
    }
    let csrs = &machine.csrs;
    println!(
        "mepc {:016x} mcause {:016x} mtval {:016x}",
        csrs.mepc, csrs.mcause, csrs.mtval
    );
    println!("sent {} frames", machine.sent.len());
}

/// The pairs of so many steps of the words of a file.
fn pairs_of(file: &str, steps: &str) -> Pairs {
    let mut machine = Machine::boot(PAGES, SECTORS, &words_of(&read(file)));
    pairs::of(&mut machine, parsed(steps, "a number of steps"))
}

/// Plays a script, and says each answer. Where pairs of instructions are to be counted, it gives those of all steps.
fn play(file: &str, counted: Option<Pairs>, say: impl Fn(&str)) -> Option<Pairs> {
    let text = read(file);
    let mut lines = text
        .lines()
        .filter(|line| !line.is_empty() && !line.starts_with('#'));
    let first = lines.next()?;
    let mut pair = boot(first).unwrap_or_else(|| refuse(first));
    pair.counted = counted;
    say("booted");
    for line in lines {
        say(&pair.obey(line).unwrap_or_else(|| refuse(line)));
    }
    pair.counted
}

/// Ends the program for a line that isn't known here.
fn refuse(line: &str) -> ! {
    eprintln!("interpreter: bad line: {line:.60}");
    std::process::exit(1)
}

fn live(is_gated: bool) {
    if answer_lines(is_gated).is_err() {
        std::process::exit(1);
    }
}

fn answer_lines(is_gated: bool) -> std::io::Result<()> {
    let (mut input, mut output) = (std::io::stdin().lock(), std::io::stdout().lock());
    let (mut pair, mut line) = (None, String::new());
    while input.read_line(&mut line)? > 0 {
        let told = line.trim_end_matches('\n');
        if !told.is_empty() && !told.starts_with('#') {
            let answer = match &mut pair {
                None => boot(told).map(|started| {
                    pair = Some(if is_gated {
                        started
                    } else {
                        started.without_gate()
                    });
                    "booted".into()
                }),
                Some(pair) => pair.obey(told),
            };
            writeln!(output, "{}", answer.as_deref().unwrap_or("bad"))?;
        }
        line.clear();
    }
    Ok(())
}

fn boot(line: &str) -> Option<Pair> {
    let fields: Vec<&str> = line.split(' ').collect();
    let ["boot", pages, sectors, clients, guest @ ..] = &fields[..] else {
        return None;
    };
    let [pages, sectors, clients] =
        [pages, sectors, clients].map(|number| number.parse::<u64>().ok());
    Some(Pair::boot(
        pages? as usize,
        sectors? as usize,
        clients?,
        &guests::words(guest, pages?)?,
    ))
}

fn copy(bytes: usize, times: u64) {
    let source = vec![0x5a; bytes];
    let mut target = vec![0; bytes];
    let start = Instant::now();
    for _ in 0..times {
        target.copy_from_slice(std::hint::black_box(&source));
        std::hint::black_box(&target);
    }
    let seconds = start.elapsed().as_secs_f64();
    println!("{:.1} MB/s", bytes as f64 * times as f64 / seconds / 1e6);
}
