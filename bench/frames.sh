#!/usr/bin/env bash
# How many frames of 1514 bytes a second go from a guest to its clients through `remus sim`: guests/flood.c sends 64 a notify to
# three clients in turn, and each of EPOCHS epochs (200 if left out) of three notifies is cut, sent, committed and
# acknowledged, and its frames are taken and printed. REMUS names another program to measure in the place of the repository's own.
set -eu
cd "$(dirname "$0")/.."
epochs=${1:-200}
program=${REMUS:-crates/remus/out/remus}
# The steps in which the guest notifies three times: one round of its loop.
round=33
frames=192
script=$(mktemp)
printed=$(mktemp)
trap 'rm -f "$script" "$printed"' EXIT
# Built before the clock starts.
[ -n "${REMUS:-}" ] || ./remus sim /dev/null

# The first epoch is the guest's set-up, and ends when the outbox is full; nobody takes its frames before the clients do theirs.
awk -v words="$(cat guests/words/flood.words)" -v epochs="$epochs" -v round="$round" 'BEGIN {
    print "boot 2 1 3 words " words
    for (epoch = 0; epoch <= epochs; epoch++) {
        print "step " (epoch == 0 ? 30000 : round)
        print "cut\nsend\nbackup " epoch "\nack " epoch
        for (place = 0; place < 64; place++)
            print "take 1\ntake 2\ntake 3"
    }
}' >"$script"

TIMEFORMAT=%U
seconds=$({ time "$program" sim "$script" >"$printed"; } 2>&1)
landed=$(grep -c "^acked 1 [0-9]* landed $frames\$" "$printed")
taken=$(grep -c '^frame ' "$printed")
awk -v epochs="$epochs" -v landed="$landed" -v taken="$taken" -v seconds="$seconds" -v frames="$frames" 'BEGIN {
    if (landed < epochs || taken < frames * epochs) {
        print "the guest did not send " frames " frames in each epoch" >"/dev/stderr"
        exit 1
    }
    printf "%d frames in %.2f s: %.0f a second, %.1f MB a second\n", taken, seconds, taken / seconds, 1514 * taken / seconds / 1e6
}'
