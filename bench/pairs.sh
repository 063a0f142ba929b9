#!/usr/bin/env bash
# Which instructions stand behind each other and run so most often, in the loops and guests of bench/loops.sh and in scripts: how many of a
# thousand steps begin such a pair, what it is, and which operand of the second is the register that the first writes; the COUNT most
# frequent of each (12 if left out), in STEPS steps of each loop (3000000), and at the end those that are the most frequent in all of them
# together. It says which pairs are worth a kind of their own (src/kind.rt of rv64_core has those that have one). Where pairs overlap, as
# three loads do, each counts. LOOPS names some of the loops, SCRIPTS scripts, examples/server.sim if left out: a session that
# `tools/serve --record` kept is one.
set -eu
cd "$(dirname "$0")/.."
count=${1:-12} steps=${2:-3000000}
(cd oracle/interpreter && cargo build --release --quiet)
all=$(mktemp)
trap 'rm -f "$all"' EXIT
interpreter=oracle/interpreter/target/release/interpreter

# Prints the first of these pairs under a name, and keeps all.
show() {
    echo "$1"
    head -n "$count" <<<"$2"
    cat <<<"$2" >>"$all"
}

for loop in ${LOOPS-arithmetic memory branches sha256 memcpy memset deflate}; do
    show "$loop" "$("$interpreter" pairs "bench/loops/$loop.words" "$steps" 1000)"
done
for script in ${SCRIPTS-examples/server.sim}; do
    show "$script" "$("$interpreter" pairs "$script" 1000)"
done
echo "together"
awk '{ sums[$2 " " $3 " " $4] += $1 } END { for (pair in sums) printf "%6.1f %s\n", sums[pair], pair }' "$all" |
    sort -k1,1nr -k2 | head -n "$((2 * count))"
