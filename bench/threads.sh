#!/usr/bin/env bash
# What a pair in threads takes (bench/threads, over crates/hypervisor), beside something else of the same run. Each line ends in a ratio.
# `threads.sh [PART..]` does all parts, or those named, in some four minutes once all is built:
# guest: steps of the loops of bench/loops.sh in `Runner::run`, of a pace that lets all by and of one that is asked before each step, beside
#   those of `remus sim`; the best of seven turns, of the processor's time.
# calls: a client's calls while epochs of 10^6 steps run that write one page or 4096, and are passed on, beside its calls while the runner
#   is idle; at median and at 99.9 percent. The middle ratio of five turns.
# members: what each member's calls take with 4096 pages written an epoch, beside one page, by hand and with nobody else at the lock; and
#   what a client's take needs while they are made, beside while the guest runs. The middle ratio of three turns.
# clients: calls of 16 clients at once while epochs of 10^6 steps run, beside those of a pair in plain Rust with one mutex (`interpreter
#   threads`). The guest is never twice in the same state: of one that waits an epoch takes no time here, and some 15 ms in plain Rust, so
#   that the runners would call unequally often. The middle ratio of nine turns.
# memory: the most memory after 100,000 epochs beside that after 10,000. The steps of all of them are one stored entry of the history.
# REMUS names another program in the place of the repository's own.
set -eu
cd "$(dirname "$0")/.."
remus=${REMUS:-crates/remus/out/remus}
interpreter=oracle/interpreter/target/release/interpreter
folder=$(mktemp -d)
trap 'rm -rf "$folder"' EXIT
# Built before the clock starts.
[ -n "${REMUS:-}" ] || ./remus sim /dev/null
bench=$(bench/threads/build.sh)
(cd oracle/interpreter && cargo build --release --quiet)

# The bytes of words in hex.
image() { python3 -c 'import sys; sys.stdout.buffer.write(b"".join(int(w, 16).to_bytes(4, "little") for w in sys.stdin.read().split()))'; }

# The guest that writes into so many pages (bench/threads/pages.s).
page_writer() {
    printf '%s %08x %s' '00001517 00000693' $(($1 << 12 | 0x5b7)) \
        '00a585b3 00001737 00168693 00050613 00d63023 00e60633 feb66ce3 fedff06f' | image
}

# The middle of the numbers that are read, one a line.
middle() { sort -g | awk '{ all[NR] = $1 } END { print all[int((NR + 1) / 2)] }'; }

# The smaller of two numbers.
least() { awk -v a="$1" -v b="$2" 'BEGIN { print (a < b) ? a : b }'; }

# The seconds of processor time that a command takes, its output aside.
seconds() {
    local TIMEFORMAT=%U
    { time "$@" >/dev/null; } 2>&1
}

guest() {
    local count=200000000
    for loop in arithmetic memory branches sha256; do
        local words=bench/loops/$loop.words sim=1e9 run=1e9 paced=1e9
        { printf 'boot 64 1 1 words ' && cat "$words" && printf 'step %s\n' "$count"; } >"$folder/script"
        image <"$words" >"$folder/image"
        for _ in 1 2 3 4 5 6 7; do
            sim=$(least "$sim" "$(seconds "$remus" sim "$folder/script")")
            run=$(least "$run" "$(seconds "$bench" run "$folder/image" 64 1 "$count")")
            paced=$(least "$paced" "$(seconds "$bench" paced "$folder/image" 64 1 "$count")")
        done
        awk -v name="$loop" -v n="$count" -v sim="$sim" -v run="$run" -v paced="$paced" 'BEGIN {
            printf "guest, %s: %.0f million steps a second, sim %.0f, ratio %.3f\n", name, n / run / 1e6, n / sim / 1e6, sim / run
            printf "guest, %s, asked before each step: %.0f million, ratio %.3f\n", name, n / paced / 1e6, sim / paced }'
    done
}

# Of two kinds of calls of the program's lines, the second beside the first: the middle ratios of all turns, at median, and at 99.9 percent
# where there were a thousand calls.
beside() {
    local what=$1 first=$2 second=$3
    for column in 3 4; do
        local at=median few=50
        [ "$column" = 3 ] || { at='99.9 percent' && few=1000; }
        awk -v first="$first" -v second="$second" -v column="$column" -v few="$few" '
            $1 == first { a = $2 < few ? 0 : $column } $1 == second && a > 0 && $2 >= few { print a, $column, $column / a }' \
            "$folder/turns" >"$folder/ratios"
        # Too few calls tell nothing.
        [ -s "$folder/ratios" ] || continue
        printf '%s, %s: %s ns, beside %s, ratio %.2f\n' "$what" "$at" "$(awk '{ print $2 }' "$folder/ratios" | middle)" \
            "$(awk '{ print $1 }' "$folder/ratios" | middle)" "$(awk '{ print $3 }' "$folder/ratios" | middle)"
    done
}

calls() {
    for pages in 1 4096; do
        page_writer "$pages" >"$folder/pages$pages"
        for _ in 1 2 3 4 5; do "$bench" calls "$folder/pages$pages" 4100 1 1000000 40000 10; done >"$folder/turns"
        cp "$folder/turns" "$folder/calls$pages"
        for call in deliver take; do
            beside "$call, $pages of 4100 pages written an epoch, beside an idle runner" "idle_$call" "busy_$call"
        done
    done
    sed 's/^/many_/' "$folder/calls4096" | paste -d '\n' "$folder/calls1" - >"$folder/turns"
    for call in deliver take; do
        beside "$call, 4096 pages written an epoch, beside 1" "busy_$call" "many_busy_$call"
    done
}

members() {
    for pages in 1 4096; do
        page_writer "$pages" >"$folder/pages$pages"
        for _ in 1 2 3; do "$bench" hands "$folder/pages$pages" 4100 1 100000 60 0; done >"$folder/hands$pages"
    done
    sed 's/^/many_/' "$folder/hands4096" | paste -d '\n' "$folder/hands1" - >"$folder/turns"
    for call in submit next commit acked; do beside "$call, 4096 pages written, beside 1" "$call" "many_$call"; done
    # The first seven lines of a turn are the members' calls, the other seven the client's meanwhile.
    for _ in 1 2 3; do "$bench" hands "$folder/pages4096" 4100 1 1000000 60 1 | tail -n 7; done >"$folder/turns"
    for call in prepare submit feed commit; do
        beside "a client's take during $call of 4096 pages, beside while the guest runs" run "$call"
    done
}

clients() {
    local words=bench/threads/busy.words
    image <"$words" >"$folder/image"
    for _ in 1 2 3 4 5 6 7 8 9; do
        "$interpreter" threads "$words" 36 16 1000000 100000 | awk '{ printf "%s ", $1 }'
        "$bench" many "$folder/image" 36 16 1000000 100000 | awk '{ print $1 }'
    done | awk '{ print 16 * 100000 / $2 * 1e3, 16 * 100000 / $1 * 1e3, $1 / $2 }' >"$folder/ratios"
    printf '16 clients: %.2f million calls a second, plain Rust %.2f, ratio %.2f\n' "$(awk '{ print $1 }' "$folder/ratios" | middle)" \
        "$(awk '{ print $2 }' "$folder/ratios" | middle)" "$(awk '{ print $3 }' "$folder/ratios" | middle)"
}

# The most memory that a command takes, in bytes, and after it what it prints. It is read from the system until the command ends, since what
# the system tells after the end has the memory of the process that started the command in it.
most_memory() {
    python3 -c 'import re, subprocess, sys
process, most = subprocess.Popen(sys.argv[1:], stdout=subprocess.PIPE, text=True), 0
while found := re.search(r"VmHWM:\s*(\d+) kB", open(f"/proc/{process.pid}/status").read()):
    most = int(found[1])
text = process.communicate()[0]
print(most * 1024, text.strip())
sys.exit(process.returncode)' "$@"
}

memory() {
    page_writer 1 >"$folder/image"
    { most_memory "$bench" epochs "$folder/image" 16 1 100 10000 && most_memory "$bench" epochs "$folder/image" 16 1 100 100000; } |
        awk '{ bytes[NR] = $1 } END {
            printf "memory: %.2f MB after 10,000 epochs, %.2f MB after 100,000, ratio %.2f\n", bytes[1] / 1e6, bytes[2] / 1e6, bytes[2] / bytes[1] }'
}

[ $# -gt 0 ] || set -- guest calls members clients memory
for part in "$@"; do "$part"; done
