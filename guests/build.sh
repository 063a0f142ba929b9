#!/usr/bin/env bash
# Compiles every guest of this folder but server/, and says which words/NAME.words differ from what comes out. With --write it writes
# these files anew: one line of words, eight hex digits each, for a boot line. It needs a cross compiler, which nothing else here does:
# on Debian, apt-get install gcc-riscv64-unknown-elf. The committed words are those of gcc 12.2.0 and binutils 2.40.
set -eu
cd "$(dirname "$0")"
case ${1:-} in
"" | --write) write=${1:-} ;;
*)
    echo "usage: $0 [--write]" >&2
    exit 2
    ;;
esac
target=$(mktemp -d)
trap 'rm -rf "$target"' EXIT
differ=0

# keep FILE: takes what stands in $target/words for that file.
keep() {
    if cmp -s "$target/words" "$1"; then
        echo "$1: $(wc -w <"$1") words"
    elif [ -n "$write" ]; then
        cp "$target/words" "$1"
        echo "$1: written, $(wc -w <"$1") words"
    else
        echo "$1: differs"
        differ=1
    fi
}

# compile NAME ARGUMENT..: the guest of NAME.c. The committed words of these are without the loop in which a trap stays, since what they
# answer after so many steps is written down in tests and examples.
compile() {
    local name=$1
    shift
    ./make --words --plain-start "$@" ${LISTING:+--listing "$LISTING/$name.list"} "$name.c" >"$target/words"
    keep "words/$name.words"
}

# Those on two pages have their zeroed memory in the second; sha256's answer stands at its start. memory writes far beyond these.
for name in sort crc32 sha256 division flood memory; do
    compile $name --pages 2 --data 0x80001000
done
for name in account tally disk counter stream; do
    compile $name
done
compile caller --pages 3
compile deflate --pages 16 --data 0x80001000
compile ping lib/interrupts.s

# Compiled as a guest of one's own is.
for name in shout astray bursts; do
    ./make --words ${LISTING:+--listing "$LISTING/$name.list"} "$name.c" >"$target/words"
    keep "words/$name.words"
done

# The loops of bench/loops.sh are assembled as they stand.
for source in ../bench/loops/*.s; do
    name=$(basename "$source" .s)
    riscv64-unknown-elf-as -march=rv64im_zicsr -mabi=lp64 -mno-relax -o "$target/$name.o" "$source"
    riscv64-unknown-elf-ld -Ttext 0x80000000 -e 0x80000000 -o "$target/$name.elf" "$target/$name.o"
    riscv64-unknown-elf-objcopy -O binary -j .text "$target/$name.elf" "$target/$name.bin"
    od -An -v -tx4 -w4 --endian=little "$target/$name.bin" | tr -d ' ' | paste -sd' ' >"$target/words"
    keep "../bench/loops/$name.words"
done

# Two guests that begin again are loops too: the jump behind the call of main, which stays where it is, leads back to the start.
for name in sha256 deflate; do
    sed 's/ 0000006f / ff1ff06f /' "words/$name.words" >"$target/words"
    keep "../bench/loops/$name.words"
done
exit "$differ"
