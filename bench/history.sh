#!/usr/bin/env bash
# What a frame costs that the history keeps: the most memory that `remus live` has taken once an idle guest got COUNT frames (100000 if
# left out) from a client, each delivered, admitted and followed by a step, beside a run of the same lines with no frame. Frames of 14
# and of 1514 bytes; of the first also with every 64 committed, so that all entries stand in the history. REMUS names another program to
# measure in the place of the repository's own.
set -eu
cd "$(dirname "$0")/.."
count=${1:-100000}
program=${REMUS:-crates/remus/out/remus}
folder=$(mktemp -d)
trap 'rm -rf "$folder"' EXIT
# Built before the first run.
[ -n "${REMUS:-}" ] || ./remus sim /dev/null

# The lines of a run with frames of so many bytes, or with none (0), and a cut and commit every so many frames (0: never).
lines() {
    awk -v count="$count" -v bytes="$1" -v every="$2" 'BEGIN {
        frame = sprintf("%0" 2 * bytes "d", 0)
        print "boot 2 1 1 idle"
        for (k = 1; k <= count; k++) {
            if (bytes > 0) print "deliver 1 " frame
            print "admit 1\nstep 1"
            if (every > 0 && k % every == 0) print "cut\nsend\nbackup " k / every - 1 "\nack " k / every - 1
        }
        print "show"
    }'
}

# The most memory that the program has taken, in KB, once it has answered the last line of such a run.
memory() {
    rm -f "$folder/done"
    # Else the last line of the run before could be taken for this one's.
    : >"$folder/printed"
    { lines "$@" && while [ ! -e "$folder/done" ]; do sleep 0.01; done; } | "$program" live >"$folder/printed" &
    local process=$!
    until tail -n 1 "$folder/printed" | grep -q '^mode '; do
        kill -0 "$process" || exit 1
        sleep 0.1
    done
    sed -n 's/^VmHWM:[[:space:]]*\([0-9]*\) kB/\1/p' "/proc/$process/status"
    touch "$folder/done"
    wait "$process"
}

for kind in "14 0" "14 64" "1514 0"; do
    read -r bytes every <<<"$kind"
    with=$(memory "$bytes" "$every")
    without=$(memory 0 "$every")
    awk -v count="$count" -v bytes="$bytes" -v every="$every" -v with="$with" -v without="$without" 'BEGIN {
        each = (with - without) * 1024 / count
        printf "%d frames of %d bytes%s: %.1f MB, without them %.1f MB; ",
            count, bytes, every ? ", committed" : "", with * 1024 / 1e6, without * 1024 / 1e6
        # What is kept has the bytes of each frame at least.
        if (each < bytes) print "too noisy"
        else printf "%.0f bytes a frame, %.2f times its own\n", each, each / bytes
    }'
done
