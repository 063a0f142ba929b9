#!/usr/bin/env bash
# What a checkpoint costs: one epoch (change, cut, encode, read, stage and commit) in which 1, 64 or 16384 pages of 16384 change, one block
# of each or all 64, beside the same in plain Rust (oracle/interpreter); an epoch of one block in machines of other sizes, beside that of the
# smallest; an epoch's text of one block and so many frames, encoded and read, beside plain Rust; an epoch of a guest that sends so many
# frames, with its steps and without them, beside plain Rust; and how many bytes a second `remus check-stream` reads of files of 100 MB and
# more. Processor time, the best of three, or the middle ratio of nine turns where frames are; a run of no epochs, which only boots, is
# taken off in the first two. REMUS names another program to measure in the place of the repository's own.
set -eu
cd "$(dirname "$0")/.."
epochs=$(tests/epochs/build.sh)
program=${REMUS:-crates/remus/out/remus}
interpreter=oracle/interpreter/target/release/interpreter
folder=$(mktemp -d)
trap 'rm -rf "$folder"' EXIT
# The C library keeps what both give back to it, as it does of the program (crates/remus/src/main.rt): else an epoch of 64 whole pages takes
# twice as long, since the system gives out and takes back its lists each time.
export GLIBC_TUNABLES=glibc.malloc.mmap_threshold=33546240:glibc.malloc.trim_threshold=67092480
# Built before the clock starts.
[ -n "${REMUS:-}" ] || ./remus sim /dev/null
(cd oracle/interpreter && cargo build --release --quiet)

# The seconds of processor time that a command takes, the user's and the system's, its output aside.
once() {
    local TIMEFORMAT='%U %S'
    { time "$@" >/dev/null; } 2>&1
}

# The least seconds of processor time that a command takes in three runs.
seconds() {
    for _ in 1 2 3; do
        once "$@"
    done | awk '{ s = $1 + $2; if (NR == 1 || s < least) least = s } END { print least }'
}

for blocks in 1 64; do
    for pages in 1 64 16384; do
        rounds=$((20000000 / (pages * (blocks + 40) + 100) + 20))
        proved=$("$epochs" measure "$pages" "$blocks" "$rounds")
        plain=$("$interpreter" checkpoints "$pages" "$blocks" "$rounds")
        [ "$proved" = "$plain" ] || {
            echo "$pages pages, $blocks blocks: $proved bytes, and $plain in plain Rust" >&2
            exit 1
        }
        awk -v pages="$pages" -v blocks="$blocks" -v rounds="$rounds" -v bytes="$proved" \
            -v proved="$(seconds "$epochs" measure "$pages" "$blocks" "$rounds")" -v boot="$(seconds "$epochs" measure "$pages" "$blocks" 0)" \
            -v plain="$(seconds "$interpreter" checkpoints "$pages" "$blocks" "$rounds")" \
            -v start="$(seconds "$interpreter" checkpoints "$pages" "$blocks" 0)" 'BEGIN {
            a = (proved - boot) / rounds
            b = (plain - start) / rounds
            printf "%5d pages, %2d blocks each, %8d bytes: %9.1f us an epoch, plain Rust %9.1f us, ratio %.2f\n",
                pages, blocks, bytes / rounds, a * 1e6, b * 1e6, a / b
        }'
    done
done

# An epoch in which one block changes, in machines of so many pages and sectors, beside the smallest: each turn measures all three, and
# the middle ratio of nine turns counts, since the processor's own speed changes from turn to turn.
rounds=100000
for _ in 1 2 3 4 5 6 7 8 9; do
    for size in "16 64" "16384 64" "16 32768"; do
        read -r pages sectors <<<"$size"
        echo "$size $(once "$epochs" flat "$pages" "$sectors" "$rounds") $(once "$epochs" flat "$pages" "$sectors" 0)"
    done
done | awk -v rounds="$rounds" '{ here = ($3 + $4 - $5 - $6) / rounds * 1e6 }
    NR % 3 == 1 { small = here; next }
    { printf "%d %d %.2f %.3f\n", $1, $2, here, here / small }' | sort -k1,1n -k4,4n | awk '{ count[$1]++; line[$1, count[$1]] = $0 }
    END { for (pages in count) { split(line[pages, 5], part, " ")
        printf "one block, %5d pages and %5d sectors: %9.1f us an epoch, %.2f times that with 16 and 64\n", part[1], part[2], part[3], part[4] } }'

# What both programs take for a command line, nine times in turn: the seconds of the proved one, user's and system's, and plain Rust's.
turns() {
    for _ in 1 2 3 4 5 6 7 8 9; do
        echo "$(once "$epochs" "$@") $(once "$interpreter" "$@")"
    done
}

# Of turns of so many rounds, each less what the same rounds take without epochs where two more pairs of numbers say that, the middle ratio.
middle() {
    awk -v rounds="$1" '{
        a = ($1 + $2 - $5 - $6) / rounds
        b = ($3 + $4 - $7 - $8) / rounds
        printf "%9.2f us, plain Rust %9.2f us, ratio %.2f\n", a * 1e6, b * 1e6, a / b
    }' | sort -g -k 8 | sed -n 5p
}

# Both programs print the same.
agree() {
    local proved plain
    proved=$("$epochs" "$@")
    plain=$("$interpreter" "$@")
    [ "$proved" = "$plain" ] || {
        echo "$*: $proved bytes, and $plain in plain Rust" >&2
        exit 1
    }
}

# Streams of whole pages, of as many as there can be and of fewer, of one block a page, of sectors, of the beacon's checkpoint again and
# again, and of 256 long frames each; and guests that send frames.
python3 bench/streams.py "$folder"
python3 bench/senders.py "$folder"
for frames in 0x64 1x64 16x64 256x64 1x1514 16x1514 256x1514; do
    rounds=$((400000000 / (${frames%x*} * ${frames#*x} + 1000)))
    words=(frames "$folder/$frames" 2 1 "$rounds")
    agree "${words[@]}"
    printf 'frames %8s, encoded and read: %s\n' "$frames" "$(turns "${words[@]}" | middle "$rounds")"
done
for frames in 0x64 1x64 16x64 256x64 1x1514 16x1514 256x1514; do
    rounds=$((2000000000 / (${frames%x*} * (${frames#*x} + 1000) + 10000)))
    words=(sending "$folder/$frames.image" 1 1 "$(cat "$folder/$frames.steps")" "$rounds")
    agree "${words[@]}" "$rounds"
    turns "${words[@]}" "$rounds" >"$folder/with"
    printf 'frames %8s, an epoch with the steps that send them: %s\n' "$frames" "$(middle "$rounds" <"$folder/with")"
    turns "${words[@]}" 0 >"$folder/without"
    printf 'frames %8s, an epoch without the steps: %s\n' "$frames" "$(paste -d ' ' "$folder/with" "$folder/without" | middle "$rounds")"
done
for stream in largest:16384:32768 pages:4096:32768 blocks:4096:32768 sectors:4096:32768 beacons:2:1 frames:2:1; do
    IFS=: read -r name pages sectors <<<"$stream"
    file=$folder/$name
    awk -v name="$name" -v bytes="$(stat -c %s "$file")" -v s="$(seconds "$program" check-stream "$file" --pages "$pages" --sectors "$sectors")" \
        'BEGIN { printf "check-stream, %-8s %4d MB: %4d MB a second\n", name, bytes / 1e6, bytes / s / 1e6 }'
done
