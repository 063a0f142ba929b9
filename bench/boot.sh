#!/usr/bin/env bash
# How long a boot of the largest machine takes, with 64 MiB of memory and 16 MiB of disk at each of both nodes, beside the time
# that writing 160 MiB of zeros into memory takes (dd into a new file in /dev/shm): the least of TIMES (9 if left out) runs of each, in turn.
# Both take the memory from the system and give it back: a program's end and the file's removal are in the time.
# REMUS names another program to measure in the place of the repository's own.
set -eu
cd "$(dirname "$0")/.."
times=${1:-9}
program=${REMUS:-crates/remus/out/remus}
script=$(mktemp)
target=$(mktemp -p /dev/shm)
trap 'rm -f "$script" "$target"' EXIT
printf 'boot 16384 32768 16 idle\n' >"$script"
# Built before the clock starts.
[ -n "${REMUS:-}" ] || ./remus sim /dev/null

for ((i = 0; i < times; i++)); do
    start=$EPOCHREALTIME
    "$program" sim "$script" >/dev/null
    middle=$EPOCHREALTIME
    dd if=/dev/zero of="$target" bs=16M count=10 status=none
    rm "$target"
    echo "$start $middle $EPOCHREALTIME"
done | awk '{ boot = $2 - $1; filling = $3 - $2
    if (NR == 1 || boot < a) a = boot
    if (NR == 1 || filling < b) b = filling }
    END { printf "boot %.3f s, filling %.3f s, ratio %.2f\n", a, b, a / b }'
