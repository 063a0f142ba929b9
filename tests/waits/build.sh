#!/usr/bin/env bash
# Proves and builds tests/waits over the repository's crates, and prints the program's path, as tests/epochs/build.sh does.
set -eu
here=$(dirname "$(readlink -f "$0")")
root=$(readlink -f "$here/../..")
program=$here/out/waits
build=$here/out/build
if [ ! -x "$program" ] || [ -n "$(find "$root"/crates/*/src "$here/main.rattle" -newer "$program" -print -quit)" ]; then
    trap 'rm -rf "$build"' EXIT
    rm -rf "$build"
    mkdir -p "$build/crates/waits/src"
    cp -al "$root"/crates/* "$build/crates/"
    cp "$here/main.rattle" "$build/crates/waits/src/main.rt"
    { cat "$root/crates.txt" && echo 'waits: guest_machine'; } >"$build/crates.txt"
    # An empty guest, to build it.
    if ! (cd "$build/crates/waits" && rt run -- /dev/null 1 1) >"$build/log" 2>&1; then
        tail -n 20 "$build/log" >&2
        exit 1
    fi
    mv "$build/crates/waits/out/waits" "$program"
fi
echo "$program"
