#!/usr/bin/env bash
# Fetches Debian's source packages of SQLite and lwIP, builds them with the sources beside this script and those of ../server, and prints
# the boot line of a guest: SQLite at 10.0.0.1, over PostgreSQL's protocol on port 5432 and over HTTP on port 80:
#
#   PASSWORD=secret guests/sql/build.sh >sql.sim
#   guests/sql/build.sh STEPS >sql.sim     so many of the guest's steps are a millisecond to it (50000)
#
# It takes about a minute. Nothing of SQLite or lwIP is kept here, and nothing of either is changed but by Debian's own patches. What is
# told by variables:
#
#   PASSWORD        what clients must know, in ASCII; without it anyone who reaches the guest may read and write
#   DATE            the day on which the guest begins, in UTC (2026-01-01): the machine knows how long it runs, not which day it is
#   TIMEOUTS        what statement_timeout, lock_timeout and idle_in_transaction_session_timeout are where a client sets nothing, in
#                   milliseconds (20000 10000 60000)
#   CLIENTS         how many clients the boot line has (1)
#   COUNTER         where it is 1, port 7 counts over UDP, for tests of what clients without a connection see
#   SOURCES         a folder that has the source packages' files already
#   ELF             a file that gets the program as it was linked
#   AMALGAMATION    a folder that gets sqlite3.c and sqlite3.h, which are SQLite in one file, and `options`, what the compiler was told
set -eu
case $#${1:-} in
0) ;;
1-h | 1--help)
    sed -n '2,/^set -eu/{/^set -eu/d; s/^# \{0,1\}//; p}' "$0"
    exit
    ;;
1 | 10* | 1*[!0-9]* | [!1]*)
    echo "$0: takes STEPS, a number of steps a millisecond, and nothing else; --help says more" >&2
    exit 2
    ;;
esac
here=$(dirname "$(readlink -f "$0")")
steps=${1:-50000} pages=8192 sectors=32768
version=3.40.1 revision=2+deb12u2

# The packages that it stands on, by a command or a file of each.
missing=
needs() { [ -n "$(command -v "$1" || true)" ] || [ -e "$1" ] || missing="$missing $2"; }
needs riscv64-unknown-elf-gcc gcc-riscv64-unknown-elf
needs /usr/lib/picolibc/riscv64-unknown-elf picolibc-riscv64-unknown-elf
needs gcc gcc
needs make make
needs patch patch
needs tclsh tcl
needs xz xz-utils
needs python3 python3
[ -n "${SOURCES:-}" ] || needs dpkg-source dpkg-dev
if [ -n "$missing" ]; then
    echo "$0: not installed: apt-get install$missing" >&2
    exit 1
fi

room=$(mktemp -d)
trap 'rm -rf "$room"' EXIT
. "$here/../lib/debian.sh"
fetch "$lwip_package" "sqlite3=$version-$revision"
unpack_lwip
known "sqlite3_$version.orig.tar.xz" aaa776260ab4dc976db34aa7891819484c8676b5b2783123ebc6301e2ca5d655
known "sqlite3_$version-$revision.debian.tar.xz" 0843bc12e4364076477935ce313a6d0796fd899a989ff18ebb6545540e10e4ca
unpack sqlite "sqlite3_$version.orig.tar.xz" "sqlite3_$version-$revision.debian.tar.xz"

# SQLite in one file, by its own Makefile.
mkdir "$room/one"
(cd "$room/one" && ../sqlite/configure --disable-tcl --disable-readline && make sqlite3.c) >"$room/one/said" 2>&1 || {
    cat "$room/one/said" >&2
    exit 1
}

# What SQLite is told of this system (https://sqlite.org/compile.html): a file system and memory of ours, nothing loaded, one thread for a
# connection, as each of ours has turns of its own, and pages that all of them share, few for each; and what clients of PostgreSQL expect:
# foreign keys hold, and "a" is never a string.
options="-DSQLITE_OS_OTHER=1 -DSQLITE_THREADSAFE=2 -DSQLITE_ENABLE_MEMORY_MANAGEMENT -DSQLITE_OMIT_LOAD_EXTENSION -DSQLITE_TEMP_STORE=3
    -DSQLITE_DEFAULT_MEMSTATUS=0
    -DSQLITE_ENABLE_MEMSYS5 -DSQLITE_ZERO_MALLOC -DSQLITE_OMIT_LOCALTIME -DSQLITE_DQS=0 -DSQLITE_OMIT_DEPRECATED
    -DSQLITE_OMIT_SHARED_CACHE -DSQLITE_USE_ALLOCA -DSQLITE_MAX_MMAP_SIZE=0
    -DSQLITE_DEFAULT_CACHE_SIZE=-256 -DSQLITE_DEFAULT_LOOKASIDE=1200,27
    -DSQLITE_DEFAULT_FOREIGN_KEYS=1 -DNDEBUG"
if [ -n "${AMALGAMATION:-}" ]; then
    mkdir -p "$AMALGAMATION"
    cp "$room/one/sqlite3.c" "$room/one/sqlite3.h" "$AMALGAMATION"
    echo "$options" | tr -s ' \n' ' ' >"$AMALGAMATION/options"
fi

# The password as SCRAM keeps it, and the day.
export PASSWORD=${PASSWORD:-}
python3 "$here/secret.py" >"$room/secret.c"
[ -n "$PASSWORD" ] || echo "$0: there is no PASSWORD: anyone who reaches this guest may read and write its database" >&2
began=$(($(date -u -d "${DATE:-2026-01-01}" +%s) * 1000 + 210866760000000))

cp -r "$here" "$room/sql"
cp -r "$here/../server" "$here/../lib" "$room"
cd "$room"
sources="secret.c server/server.c server/disk.c server/network.c server/reopen.c
    sql/sqlite_begin.s one/sqlite3.c sql/sqlite_end.s sql/handler.s"
for name in guest log vfs locks database text settings stacks turns patterns functions digest password scram statement lexer dialect \
    session work query rows messages parameters types trigger extended copy_words copy_rows copy postgres request table page door cksum \
    pages dump whole http connections \
    ticks tokens escapes casts translate arrays sets expressions declarations catalog catalog_queries postgres_sql; do
    sources="$sources sql/$name.c"
done
read -r statement lock idle <<<"${TIMEOUTS:-20000 10000 60000}"
options="$options -DMOST_STATEMENT=$statement -DMOST_LOCK=$lock -DMOST_IDLE=$idle"
if [ "${COUNTER:-}" = 1 ]; then
    options="$options -DCOUNTER"
    lwip_core="$lwip_core core/udp"
    sources="$sources sql/counter.c"
fi
for name in $lwip_core; do
    sources="$sources lwip/src/$name.c"
done
sources="$sources sql/libraries_begin.s sql/memory.c"

# shellcheck disable=SC2086
riscv64-unknown-elf-gcc --specs=picolibc.specs -march=rv64im -misa-spec=2.2 -mabi=lp64 -mcmodel=medany -mno-relax -mstrict-align -O2 \
    -std=gnu11 -nostartfiles -static -fno-pic -fno-asynchronous-unwind-tables -ffunction-sections -fdata-sections -Wl,--gc-sections \
    -Wl,--no-relax -Wl,--build-id=none -Wl,--no-warn-rwx-segments -Wl,--defsym=pages="$pages",--defsym=stack_bytes=524288 \
    -T lib/guest.ld -DSTEPS_A_MILLISECOND="$steps" -DBEGAN="${began}LL" $options -Isql -Iserver -Ilwip/src/include -Ione \
    -o sql.elf lib/start.s sql/switch.s $sources
riscv64-unknown-elf-objcopy -O binary -j .image sql.elf sql.bin
[ -z "${ELF:-}" ] || cp sql.elf "$ELF"
echo "boot $pages $sectors ${CLIENTS:-1} words $(od -An -v -tx4 -w4 --endian=little sql.bin | tr -d ' ' | paste -sd' ')"
echo "$(($(stat -c %s sql.bin) / 4)) words" >&2
