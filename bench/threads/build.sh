#!/usr/bin/env bash
# Proves and builds bench/threads over the repository's crates, and prints the program's path. The crate stands in no crates.txt, since it
# is no part of the product, and its sources have endings of their own, since the gate takes every .rt and .antt file for a crate's. It is
# built in a folder of its own, out/build, which has the crates and what is proved of them as hard links. Where that fails the folder stays,
# so that the next time goes on from what was proved. RT_JOBS is how many checks run at once; without it, two.
set -eu
here=$(dirname "$(readlink -f "$0")")
root=$(readlink -f "$here/../..")
program=$here/out/thread_bench
build=$here/out/build
if [ ! -x "$program" ] || [ -n "$(find "$root"/crates/*/src "$here" -newer "$program" -not -path "$here/out*" -print -quit)" ]; then
    for crate in "$root"/crates/*; do
        there=$build/crates/$(basename "$crate")
        mkdir -p "$there"
        for part in src specs proofs; do
            rm -rf "${there:?}/$part"
            [ ! -d "$crate/$part" ] || cp -al "$crate/$part" "$there/"
        done
        [ -d "$there/out" ] || [ ! -d "$crate/out" ] || cp -al "$crate/out" "$there/"
    done
    own=$build/crates/thread_bench
    rm -rf "$own/src" "$own/proofs"
    mkdir -p "$own/src" "$own/proofs/play"
    for source in "$here"/*.rattle; do
        cp "$source" "$own/src/$(basename "$source" .rattle).rt"
    done
    cp "$here/play.invariants" "$own/proofs/play/Invariants.antt"
    cp "$root/HANDLES" "$build/"
    {
        cat "$root/crates.txt"
        echo 'thread_bench: checkpoint_stream guest_machine hypervisor memory_wanted pair_book crossbeam_channel rand_core rand_pcg'
    } >"$build/crates.txt"
    # A run of no steps, to build it.
    if ! (cd "$own" && rt run --jobs "${RT_JOBS:-2}" -- run /dev/null 1 1 0) >"$build/log" 2>&1; then
        tail -n 20 "$build/log" >&2
        exit 1
    fi
    mv "$own/out/thread_bench" "$program"
    rm -rf "$build"
fi
echo "$program"
