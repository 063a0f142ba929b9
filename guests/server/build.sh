#!/usr/bin/env bash
# Fetches Debian's source package of lwIP, builds it with the sources beside this script, and says whether the images of ../words have the
# words that come out: server.words, to which a thousand steps are a millisecond, and server_50000.words. With --write it writes them
# there. `build.sh STEPS` prints the words of a server to which so many steps are one. `build.sh --service FILE [STEPS]` prints the boot
# line of a guest whose service is that C file's, such as shout.c, by a thousand steps a millisecond if none are named. Nothing of lwIP is
# kept here. It needs, on Debian: apt-get install gcc-riscv64-unknown-elf dpkg-dev patch xz-utils. The committed words are those of gcc
# 12.2.0 and binutils 2.40.
#
# The source package comes through apt, from where this machine has its packages from. SOURCES names a folder that has its files already.
# LISTING names a folder for the programs as they were linked, and their listings.
set -eu
here=$(dirname "$(readlink -f "$0")")
. "$here/../lib/debian.sh"

usage="usage: $0 [--write | STEPS | --service FILE [STEPS]]"
service=
case $#:${1:-} in
*:--help | *:-h)
    sed -n '2,/^$/{/^#/!q;s/^# \{0,1\}//p}' "$0"
    exit
    ;;
2:--service | 3:--service)
    service=$(readlink -f "$2") steps=${3:-1000}
    [ -r "$service" ] && [ ! -d "$service" ] || { echo "$0: cannot read $2" >&2; exit 1; }
    ;;
0: | 1:--write) steps=1000 ;;
*) steps=$* ;;
esac
case $steps in
*[!0-9]* | 0* | "")
    echo "$usage" >&2
    exit 2
    ;;
esac
# shellcheck disable=SC2046
needs riscv64-unknown-elf-gcc gcc-riscv64-unknown-elf patch patch xz xz-utils $([ -n "${SOURCES:-}" ] || echo dpkg-source dpkg-dev)
room=$(mktemp -d)
trap 'rm -rf "$room"' EXIT
fetch "$lwip_package"
unpack_lwip
cp -r "$here" "$room/server"
cp -r "$here/../lib" "$room/lib"
cd "$room"
sources="server/server.c server/files.c server/disk.c server/network.c server/reopen.c server/libc/libc.c"
applications="apps/http/httpd apps/http/fs"
if [ -n "$service" ]; then
    cp "$service" own.c
    sources="own.c server/service.c server/network.c server/reopen.c server/libc/libc.c"
    applications=
fi
for name in $lwip_core $applications; do
    sources="$sources lwip/src/$name.c"
done

# compile NAME STEPS: NAME.words, of a server to which so many steps are a millisecond. The paths are the same in every folder, so that the
# words are; lwIP's files warn of nothing under -Wall alone.
compile() {
    # shellcheck disable=SC2086
    riscv64-unknown-elf-gcc -march=rv64im_zicsr -mabi=lp64 -mcmodel=medany -mno-relax -mstrict-align -O2 -std=c11 -Wall \
        -ffreestanding -nostdlib -static -fno-builtin -fno-tree-loop-distribute-patterns -fno-pic -fno-asynchronous-unwind-tables \
        -ffunction-sections -fdata-sections -Wl,--gc-sections -Wl,--build-id=none -Wl,--no-warn-rwx-segments \
        -Wl,--defsym=pages=1024,--defsym=stack_bytes=16384 -T lib/guest.ld ${service:+-Wa,--defsym,traps_stay=1} \
        -DSTEPS_A_MILLISECOND="$2" -Iserver -Iserver/libc -Ilwip/src/include -o "$1.elf" lib/start.s $sources
    riscv64-unknown-elf-objcopy -O binary -j .image "$1.elf" "$1.bin"
    od -An -v -tx4 -w4 --endian=little "$1.bin" | tr -d ' ' | paste -sd' ' >"$1.words"
    if [ -n "${LISTING:-}" ]; then
        cp "$1.elf" "$LISTING"
        riscv64-unknown-elf-objdump -d "$1.elf" >"$LISTING/$1.list"
    fi
}

differ=0
# keep NAME: takes the words that were compiled for ../words.
keep() {
    if [ "$write" = --write ]; then
        cp "$1.words" "$here/../words/$1.words"
        echo "words/$1.words: written, $(wc -w <"$1.words") words"
    elif cmp -s "$1.words" "$here/../words/$1.words"; then
        echo "words/$1.words: $(wc -w <"$1.words") words"
    else
        echo "words/$1.words: differs"
        differ=1
    fi
}

write=${1:-}
case $write in
"" | --write)
    compile server 1000
    compile server_50000 50000
    keep server
    keep server_50000
    ;;
--service)
    compile server "$steps"
    echo "boot 1024 8 1 words $(cat server.words)"
    ;;
*)
    compile server "$steps"
    cat server.words
    ;;
esac
exit "$differ"
