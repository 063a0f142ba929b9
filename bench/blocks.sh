#!/usr/bin/env bash
# How many bytes a second a guest writes to the disk and reads from it in requests of 8 KiB, through `remus sim`, and what part that is
# of copying as many bytes in memory (oracle/interpreter). guests/stream.c writes 64 MiB and then reads 64 MiB; the script is played RUNS
# times (20 if left out), three times over, and the best time counts, of the processor and not of the clock. REMUS names another
# program to measure in the place of the repository's own.
set -eu
cd "$(dirname "$0")/.."
runs=${1:-20}
program=${REMUS:-crates/remus/out/remus}
interpreter=oracle/interpreter/target/release/interpreter
# The steps until the guest is done (`interpreter until`), and its requests.
steps=581939
requests=16384
script=$(mktemp)
printed=$(mktemp)
trap 'rm -f "$script" "$printed"' EXIT
# Built before the clock starts.
[ -n "${REMUS:-}" ] || ./remus sim /dev/null
(cd oracle/interpreter && cargo build --release --quiet)

{
    printf 'boot 32 4096 1 words '
    cat guests/words/stream.words
    printf 'step %s\nsector 4095\n' "$steps"
} >"$script"

play() {
    for _ in $(seq "$runs"); do
        "$program" sim "$script" >"$printed"
    done
}

# The seconds of processor time that a command takes, its output aside.
seconds() {
    local TIMEFORMAT='%U %S'
    { time "$@" >/dev/null; } 2>&1 | awk '{ print $1 + $2 }'
}

# The smaller of two numbers.
least() { awk -v a="$1" -v b="$2" 'BEGIN { print (a < b) ? a : b }'; }

proved=1e9 plain=1e9
for _ in 1 2 3; do
    proved=$(least "$proved" "$(seconds play)")
    plain=$(least "$plain" "$(seconds "$interpreter" copy 8192 $((runs * requests)))")
done
# Byte i of each request is i modulo 251, so the last sector of 16 begins at 7680 = 150 modulo 251.
case $(tail -n 1 "$printed") in
"sector 4095 96979899"*) ;;
*)
    echo "the guest did not write the disk: $(tail -n 1 "$printed")" >&2
    exit 1
    ;;
esac
awk -v bytes=$((8192 * requests * runs)) -v proved="$proved" -v plain="$plain" 'BEGIN {
    printf "%.0f MB a second, copying alone %.0f, ratio %.2f\n", bytes / proved / 1e6, bytes / plain / 1e6, plain / proved
}'
