#!/usr/bin/env bash
# How many guest steps a second `remus sim` does, and the most memory that it takes: COUNT steps (20000000 if left out)
# of a loop of arithmetic on a machine of 2 pages, in one epoch. An idle guest's steps are counted and not made, so they tell nothing.
set -eu
cd "$(dirname "$0")/.."
count=${1:-20000000}
script=$(mktemp)
trap 'rm -f "$script"' EXIT
{ printf 'boot 2 1 1 words ' && cat bench/loops/arithmetic.words && printf 'step %s\n' "$count"; } >"$script"
# Built before the clock starts.
./remus sim /dev/null

start=$EPOCHREALTIME
crates/remus/out/remus sim "$script" &
process=$!
memory=0
while now=$(sed -n 's/^VmHWM:[[:space:]]*//p' "/proc/$process/status" 2>/dev/null) && [ -n "$now" ]; do
    memory=$now
    sleep 0.02
done
wait "$process"
end=$EPOCHREALTIME
awk -v n="$count" -v from="$start" -v to="$end" -v memory="$memory" \
    'BEGIN { s = to - from; printf "%.2f s, %.1f million steps a second, at most %s of memory\n", s, n / s / 1e6, memory }'
