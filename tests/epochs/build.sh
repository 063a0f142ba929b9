#!/usr/bin/env bash
# Proves and builds tests/epochs over the repository's crates, and prints the program's path. The crate stands in no crates.txt, since it
# is no part of the product, and its sources have endings of their own, since the gate takes every .rt and .antt file for a crate's. It is
# built in a folder of its own, out/build, which has the crates and what is proved of them as hard links.
set -eu
here=$(dirname "$(readlink -f "$0")")
root=$(readlink -f "$here/../..")
program=$here/out/epochs
build=$here/out/build
if [ ! -x "$program" ] || [ -n "$(find "$root"/crates/*/src "$here" -newer "$program" -not -path "$here/out*" -print -quit)" ]; then
    trap 'rm -rf "$build"' EXIT
    rm -rf "$build"
    mkdir -p "$build/crates/epochs/src" "$build/crates/epochs/proofs/back_up"
    cp -al "$root"/crates/* "$build/crates/"
    cp "$here/main.rattle" "$build/crates/epochs/src/main.rt"
    cp "$here/back_up.answers" "$build/crates/epochs/proofs/back_up/Answers.antt"
    {
        cat "$root/crates.txt"
        echo 'epochs: backup_image checkpoint_stream epoch_cuts epoch_snapshot guest_machine guest_rules'
    } >"$build/crates.txt"
    # The smallest epoch, to build it.
    if ! (cd "$build/crates/epochs" && rt run -- measure 1 1 1) >"$build/log" 2>&1; then
        tail -n 20 "$build/log" >&2
        exit 1
    fi
    mv "$build/crates/epochs/out/epochs" "$program"
fi
echo "$program"
