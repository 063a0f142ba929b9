#!/usr/bin/env bash
# Whether the checkpoints of fifty guests have the bytes that tests/checkpoint_hashes.txt has the hashes of. It says nothing where they
# do, and else prints what differs. With --write it writes that file anew.
set -eu
cd "$(dirname "$0")/.."
kept=tests/checkpoint_hashes.txt
epochs=$(tests/epochs/build.sh)
case ${1:-} in
"") python3 tests/checkpoint_hashes.py "$epochs" | diff "$kept" - ;;
--write) python3 tests/checkpoint_hashes.py "$epochs" >"$kept" ;;
*)
    echo "usage: $0 [--write]" >&2
    exit 2
    ;;
esac
