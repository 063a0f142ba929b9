#!/usr/bin/env bash
# `soak.sh [SECONDS [SEED [LOG]]]`: a pair in threads for so long (600), with 16 clients that talk at random, a line that loses frames,
# packets and acknowledgements that get lost, come twice or late, and nodes that fail one after another, each followed by a new backup. What
# every member was answered is written down (into LOG, if one is named), and bench/soak.py accepts it or not: it says what it asks.
set -eu
cd "$(dirname "$0")/.."
folder=$(mktemp -d)
trap 'rm -rf "$folder"' EXIT
log=${3:-$folder/log}
bench=$(bench/threads/build.sh)
python3 -c 'import sys; sys.stdout.buffer.write(b"".join(int(w, 16).to_bytes(4, "little") for w in sys.stdin.read().split()))' \
    <bench/threads/count.words >"$folder/image"
"$bench" soak "$folder/image" 36 16 $((1000 * ${1:-600})) "${2:-1}" >"$log"
bench/soak.py "$log"
