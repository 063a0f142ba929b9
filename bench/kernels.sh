#!/usr/bin/env bash
# How many bytes a second the kernels `mask` and `xor_into` of page_lanes take over two pages in cache, and what part that is of plain
# Rust built for the same processor. A small program over the proved library, and the same in Rust, go over the pages COUNT times
# (3000000 if left out) three times each, in turn, and the best time counts, of the processor and not of the clock.
set -eu
cd "$(dirname "$0")/.."
count=${1:-3000000}
work=$(mktemp -d)
trap 'rm -rf "$work"' EXIT
mkdir -p "$work/crates/kernels/src"
cp -r crates/page_lanes "$work/crates/"
printf 'page_lanes:\nkernels: page_lanes anyhow\n' >"$work/crates.txt"

cat >"$work/crates/kernels/src/main.rt" <<END
//! Goes over two pages with one kernel: \`mask\` where there is an argument, and else \`xor_into\`.
#![tactic(auto)]

use page_lanes::{PAGE_SIZE, Page, mask, xor_into};
use std::env;

fn masks(a: &mut Page, b: &Page) -> u64 {
    let mut all: u64 = 0;
    for i in 0..$count {
        let at: usize = i % PAGE_SIZE;
        a[at] = a[at].wrapping_add(1);
        all = all.wrapping_add(mask(a, b));
    }
    all
}

fn xors(a: &mut Page, b: &Page) {
    for _ in 0..$count {
        xor_into(&mut a[..], &b[..]);
    }
}

fn main(rt: HostRuntime) -> anyhow::Result<()> {
    let words: Vec<String> = env::args(&rt)?.collect(rt.alloc())?;
    let mut a = [1; PAGE_SIZE];
    let b = [3; PAGE_SIZE];
    if words.len() > 1 {
        let all = masks(&mut a, &b);
        println!(rt; "{all}")?;
    } else {
        xors(&mut a, &b);
        let first = a[0];
        println!(rt; "{first}")?;
    }
    Ok(())
}
END

cat >"$work/plain.rs" <<END
use std::hint::black_box;

#[inline(never)]
fn mask(a: &[u8; 4096], b: &[u8; 4096]) -> u64 {
    let mut mask = 0;
    for (i, (x, y)) in a.chunks_exact(64).zip(b.chunks_exact(64)).enumerate() {
        mask |= u64::from(x != y) << i;
    }
    mask
}

#[inline(never)]
fn xor_into(into: &mut [u8], from: &[u8]) {
    for (x, y) in into.iter_mut().zip(from) {
        *x ^= *y;
    }
}

fn main() {
    let mut a = [1u8; 4096];
    let b = [3u8; 4096];
    if std::env::args().len() > 1 {
        let mut all: u64 = 0;
        for i in 0..$count {
            let at: usize = i % 4096;
            a[at] = a[at].wrapping_add(1);
            all = all.wrapping_add(mask(black_box(&a), black_box(&b)));
        }
        println!("{all}");
    } else {
        for _ in 0..$count {
            xor_into(black_box(&mut a), black_box(&b));
        }
        println!("{}", a[0]);
    }
}
END

# Built before the clock starts, for the processor that the proved program is built for.
proved=$work/crates/kernels/out/kernels
plain=$work/plain
(cd "$work/crates/kernels" && rt run -- mask) >"$work/log" 2>&1 || { tail "$work/log" >&2; exit 1; }
cpu=$(sed -n 's/.* cpu=\([^ ]*\) .*/\1/p' "$work/log" | tail -n 1)
rustc --edition 2024 -C opt-level=3 -C "target-cpu=$cpu" -o "$plain" "$work/plain.rs"

# The seconds of processor time that a command takes, its output aside.
seconds() {
    local TIMEFORMAT=%U
    { time "$@" >/dev/null; } 2>&1
}

# The smaller of two numbers.
least() { awk -v a="$1" -v b="$2" 'BEGIN { print (a < b) ? a : b }'; }

for kernel in mask xor_into; do
    words=()
    [ "$kernel" != mask ] || words=(mask)
    [ "$("$proved" "${words[@]}")" = "$("$plain" "${words[@]}")" ] || { echo "$kernel: the two answers differ" >&2; exit 1; }
    ours=1e9 theirs=1e9
    for _ in 1 2 3; do
        ours=$(least "$ours" "$(seconds "$proved" "${words[@]}")")
        theirs=$(least "$theirs" "$(seconds "$plain" "${words[@]}")")
    done
    awk -v name="$kernel" -v cpu="$cpu" -v bytes=$((4096 * count)) -v ours="$ours" -v theirs="$theirs" 'BEGIN {
        printf "%-8s %6.1f GB a second, plain Rust for %s %6.1f, ratio %.2f\n", name, bytes / ours / 1e9, cpu, bytes / theirs / 1e9, theirs / ours }'
done
