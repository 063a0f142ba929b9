//! Reads lines on standard input, and prints what each is answered before the next is read.

use crate::nodes::{following, Node};
use std::io::{self, BufRead, Write};

/// The bytes of a line, at most.
const MOST: usize = 268_435_456;

/// Plays a node until the input ends.
pub fn play() -> io::Result<()> {
    let (mut input, mut output) = (io::stdin().lock(), io::stdout().lock());
    let (mut node, mut line) = (Node::Nothing, Vec::new());
    while next(&mut input, &mut line)? {
        let answer = if line.len() > MOST {
            Some(b"bad".to_vec())
        } else {
            node.answer(&line)
        };
        if let Some(mut answer) = answer {
            answer.push(b'\n');
            output.write_all(&answer)?;
            output.flush()?;
        }
    }
    Ok(())
}

/// Reads the next line, with the bytes that follow it, of a longer one one byte more than there may be. Answers whether there was one.
fn next(input: &mut impl BufRead, line: &mut Vec<u8>) -> io::Result<bool> {
    line.clear();
    let mut is_there = false;
    loop {
        let came = input.fill_buf()?;
        if came.is_empty() {
            return Ok(is_there);
        }
        is_there = true;
        let end = came.iter().position(|byte| *byte == b'\n');
        let part = &came[..end.unwrap_or(came.len())];
        keep(line, part);
        let used = part.len() + usize::from(end.is_some());
        input.consume(used);
        if end.is_some() {
            let count = following(line);
            if count > 0 {
                line.push(b'\n');
                follow(input, line, count)?;
            }
            return Ok(true);
        }
    }
}

/// Reads the bytes that follow a line, so many or as many as come.
fn follow(input: &mut impl BufRead, line: &mut Vec<u8>, count: u64) -> io::Result<()> {
    let mut left = count;
    while left > 0 {
        let came = input.fill_buf()?;
        if came.is_empty() {
            return Ok(());
        }
        let part = came.len().min(usize::try_from(left).unwrap_or(usize::MAX));
        keep(line, &came[..part]);
        input.consume(part);
        left -= part as u64;
    }
    Ok(())
}

/// Adds bytes to a line, up to one more than it may have.
fn keep(line: &mut Vec<u8>, bytes: &[u8]) {
    let room = MOST + 1 - line.len();
    line.extend_from_slice(&bytes[..bytes.len().min(room)]);
}
