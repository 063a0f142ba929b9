//! A pair in threads, in plain Rust: one mutex round inboxes, boxes, sealed epochs and the history. Its clients call while its guest runs,
//! as those of bench/threads/many.rattle do. It makes no checkpoints: who passes an epoch on commits it and lands its frames.

use crate::hart::Machine;
use std::collections::VecDeque;
use std::sync::atomic::{AtomicBool, Ordering};
use std::sync::mpsc::{sync_channel, Receiver, SyncSender};
use std::sync::{Arc, Mutex};
use std::thread;
use std::time::{Duration, Instant};

const INBOX_FRAMES: usize = 64;
const BOX_FRAMES: usize = 256;
const HANDED_OUT: usize = 4;
const MOST_PENDING: usize = 4;

/// An entry of the history. Its frame's bytes stand in a list of their own, one after another, and its length here.
#[allow(dead_code)]
enum Entry {
    Ran(u64),
    Arrive(u64),
    Delivered(u64, usize, u64),
    Refused(u64, usize),
    Land(u64),
    Took(u64, Option<usize>),
}

struct Epoch {
    arrived: Vec<u64>,
    steps: u64,
    frames: Vec<Vec<u8>>,
}

struct Book {
    next: u64,
    inboxes: Vec<VecDeque<(u64, Vec<u8>)>>,
    boxes: Vec<VecDeque<Vec<u8>>>,
    pending: VecDeque<Epoch>,
    entries: Vec<Entry>,
    bytes: Vec<u8>,
}

impl Book {
    fn deliver(&mut self, client: usize, frame: Vec<u8>) -> Option<u64> {
        let number = client as u64 + 1;
        self.bytes.extend_from_slice(&frame);
        if self.inboxes[client].len() >= INBOX_FRAMES {
            self.entries.push(Entry::Refused(number, frame.len()));
            return None;
        }
        self.next += 1;
        self.entries
            .push(Entry::Delivered(number, frame.len(), self.next));
        self.inboxes[client].push_back((self.next, frame));
        Some(self.next)
    }

    fn take(&mut self, client: usize) -> Option<Vec<u8>> {
        let frame = self.boxes[client].pop_front();
        if let Some(frame) = &frame {
            self.bytes.extend_from_slice(frame);
        }
        let length = frame.as_ref().map(Vec::len);
        self.entries.push(Entry::Took(client as u64 + 1, length));
        frame
    }

    /// An epoch is sealed. Answers the frames that are handed out, or nothing where too many are pending.
    fn submit(&mut self, epoch: &mut Option<Epoch>) -> Option<Vec<(u64, Vec<u8>)>> {
        if self.pending.len() >= MOST_PENDING {
            return None;
        }
        self.pending.extend(epoch.take());
        let mut out = Vec::new();
        for inbox in &mut self.inboxes {
            let count = inbox.len().min(HANDED_OUT);
            out.extend(inbox.drain(..count));
        }
        Some(out)
    }

    /// The first sealed epoch enters the history.
    fn commit(&mut self) {
        if let Some(epoch) = self.pending.front_mut() {
            let arrived = std::mem::take(&mut epoch.arrived);
            self.entries.extend(arrived.into_iter().map(Entry::Arrive));
            self.entries.push(Entry::Ran(epoch.steps));
        }
    }

    /// Its frames land.
    fn land(&mut self) {
        let frames = self.pending.pop_front().map(|epoch| epoch.frames);
        for frame in frames.unwrap_or_default() {
            let client = usize::from(frame[5]).wrapping_sub(1);
            if client < self.boxes.len() {
                self.entries.push(Entry::Land(client as u64 + 1));
                if self.boxes[client].len() < BOX_FRAMES {
                    self.boxes[client].push_back(frame);
                }
            }
        }
    }
}

/// Runs epochs of so many steps until the end, and tells of each. Answers how many.
fn run_epochs(
    mut machine: Machine,
    book: &Mutex<Book>,
    steps: u64,
    end: &AtomicBool,
    told: SyncSender<()>,
) -> u64 {
    let (mut held, mut epochs) = (Vec::<(u64, Vec<u8>)>::new(), 0);
    while !end.load(Ordering::SeqCst) {
        let mut arrived = Vec::new();
        for (number, frame) in held {
            machine.net.arrive(&mut machine.ram, &frame);
            arrived.push(number);
        }
        machine.run(steps);
        let frames = std::mem::take(&mut machine.sent);
        let mut epoch = Some(Epoch {
            arrived,
            steps,
            frames,
        });
        held = loop {
            if let Some(next) = book.lock().expect("no panic").submit(&mut epoch) {
                break next;
            }
            thread::sleep(Duration::from_micros(50));
        };
        epochs += 1;
        told.send(()).expect("somebody passes epochs on");
    }
    epochs
}

fn pass_all(book: &Mutex<Book>, told: Receiver<()>) {
    for () in told {
        book.lock().expect("no panic").commit();
        book.lock().expect("no panic").land();
    }
}

/// So many calls of a client, delivers and takes in turn. Answers how many frames it took.
fn call(book: &Mutex<Book>, client: usize, calls: u64) -> u64 {
    let mut frame = [0; 38];
    frame[..14].copy_from_slice(&[
        2,
        0,
        0,
        0,
        0,
        1,
        2,
        0,
        0,
        0,
        1,
        client as u8 + 1,
        0x88,
        0xb5,
    ]);
    let mut taken = 0;
    for _ in 0..calls / 2 {
        let bytes = frame.to_vec();
        book.lock().expect("no panic").deliver(client, bytes);
        taken += u64::from(book.lock().expect("no panic").take(client).is_some());
    }
    taken
}

/// Each of so many clients makes so many calls, in a thread of its own, while epochs of so many steps run. Prints the nanoseconds that they
/// took in all, how many frames they took, the epochs, and the entries stored.
pub fn run(pages: usize, words: &[u32], clients: usize, steps: u64, calls: u64) {
    let machine = Machine::boot(pages, 1, words);
    let book = Arc::new(Mutex::new(Book {
        next: 0,
        inboxes: vec![VecDeque::with_capacity(INBOX_FRAMES); clients],
        boxes: vec![VecDeque::with_capacity(BOX_FRAMES); clients],
        pending: VecDeque::new(),
        entries: Vec::new(),
        bytes: Vec::new(),
    }));
    let end = AtomicBool::new(false);
    let (told, submitted) = sync_channel(8);
    let (time, taken, epochs) = thread::scope(|scope| {
        let runner = scope.spawn(|| run_epochs(machine, &book, steps, &end, told));
        scope.spawn(|| pass_all(&book, submitted));
        let began = Instant::now();
        let talks: Vec<_> = (0..clients)
            .map(|client| {
                let book = &book;
                scope.spawn(move || call(book, client, calls))
            })
            .collect();
        let taken: u64 = talks
            .into_iter()
            .map(|talk| talk.join().expect("no panic"))
            .sum();
        let time = began.elapsed().as_nanos();
        end.store(true, Ordering::SeqCst);
        (time, taken, runner.join().expect("no panic"))
    });
    let entries = book.lock().expect("no panic").entries.len();
    println!("{time} {taken} {epochs} {entries}");
}
