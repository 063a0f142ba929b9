#!/usr/bin/env bash
# Proves and builds tests/history over the repository's crates, and prints the program's path. The crate stands in no crates.txt, since it
# is no part of the product, and its sources have endings of their own, since the gate takes every .rt and .antt file for a crate's. It is
# built in a folder of its own, out/build, which has the crates and what is proved of them as hard links.
set -eu
here=$(dirname "$(readlink -f "$0")")
root=$(readlink -f "$here/../..")
program=$here/out/history
build=$here/out/build
if [ ! -x "$program" ] || [ -n "$(find "$root"/crates/*/src "$here" -newer "$program" -not -path "$here/out*" -print -quit)" ]; then
    trap 'rm -rf "$build"' EXIT
    rm -rf "$build"
    mkdir -p "$build/crates/history/src"
    cp -al "$root"/crates/* "$build/crates/"
    cp "$here/main.rattle" "$build/crates/history/src/main.rt"
    {
        cat "$root/crates.txt"
        echo 'history: guest_kit memory_wanted pair_core'
    } >"$build/crates.txt"
    # An empty script, to build it.
    if ! (cd "$build/crates/history" && rt run -- /dev/null) >"$build/log" 2>&1; then
        tail -n 20 "$build/log" >&2
        exit 1
    fi
    mv "$build/crates/history/out/history" "$program"
fi
echo "$program"
