#!/usr/bin/env bash
# How many guest steps a second `remus sim` does in five tight loops (bench/loops/*.s) and in two guests in C that begin again and again:
# guests/sha256.c, and guests/deflate.c, which deflates a text and inflates it. Beside it, what part that is of what the interpreter in plain
# Rust does (oracle/interpreter). Each runs COUNT steps (50000000 if left out) nine times, in turn, and the best time counts, of the
# processor and not of the clock. Where valgrind is there, it also counts the processor's instructions that a step takes in either, which
# other work beside doesn't change. A second number says how many steps a line of the script asks for, where it isn't all of them at
# once: hosts ask for those of a millisecond. REMUS names another program to measure in the place of the repository's own, and LOOPS some of the
# loops. It needs no cross compiler: guests/build.sh writes the words.
set -eu
cd "$(dirname "$0")/.."
count=${1:-50000000}
a_line=${2:-$count}
program=${REMUS:-crates/remus/out/remus}
interpreter=oracle/interpreter/target/release/interpreter
script=$(mktemp)
trap 'rm -f "$script"' EXIT
# Built before the clock starts.
[ -n "${REMUS:-}" ] || ./remus sim /dev/null
(cd oracle/interpreter && cargo build --release --quiet)

# The seconds of processor time that a command takes, its output aside.
seconds() {
    local TIMEFORMAT=%U
    { time "$@" >/dev/null; } 2>&1
}

# How many instructions a command takes.
instructions() {
    valgrind --tool=callgrind --callgrind-out-file=/dev/null "$@" 2>&1 >/dev/null | sed -n 's/.*Collected : //p'
}

# The script of so many steps of these words.
script_of() {
    printf 'boot 64 1 1 words ' && cat "$1"
    awk -v left="$2" -v most="$a_line" 'BEGIN { for (; left > 0; left -= most) print "step", (left < most ? left : most) }'
}

# The instructions that a step takes both programs, from runs of one million and of four: deflate begins again after three.
counted() {
    command -v valgrind >/dev/null || return 0
    local proved=() plain=()
    for steps in 1000000 4000000; do
        script_of "$1" "$steps" >"$script"
        proved+=("$(instructions "$program" sim "$script")")
        plain+=("$(instructions "$interpreter" run "$1" "$steps")")
    done
    awk -v a="${proved[0]}" -v b="${proved[1]}" -v c="${plain[0]}" -v d="${plain[1]}" \
        'BEGIN { printf ", %.1f and %.1f instructions a step", (b - a) / 3e6, (d - c) / 3e6 }'
}

# The smaller of two numbers.
least() { awk -v a="$1" -v b="$2" 'BEGIN { print (a < b) ? a : b }'; }

for loop in ${LOOPS:-arithmetic memory branches sha256 memcpy memset deflate}; do
    words=bench/loops/$loop.words
    script_of "$words" "$count" >"$script"
    proved=1e9 plain=1e9
    for _ in 1 2 3 4 5 6 7 8 9; do
        proved=$(least "$proved" "$(seconds "$program" sim "$script")")
        plain=$(least "$plain" "$(seconds "$interpreter" run "$words" "$count")")
    done
    awk -v name="$loop" -v n="$count" -v proved="$proved" -v plain="$plain" -v counted="$(counted "$words")" 'BEGIN {
        printf "%-10s %6.1f million steps a second, plain Rust %6.1f, ratio %.2f%s\n",
            name, n / proved / 1e6, n / plain / 1e6, plain / proved, counted }'
done
