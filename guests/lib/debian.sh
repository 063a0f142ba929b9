# Debian's source packages, for the builds of guests that stand on one; to be sourced. `room` names the folder that the packages' files and
# trees go to. Nothing of them is kept in this repository, and nothing of them is changed but by Debian's own patches.
# shellcheck shell=bash

# needs COMMAND PACKAGE..: ends where one of these commands isn't there, and says of which packages they are.
needs() {
    local missing=
    while [ $# -gt 0 ]; do
        [ -n "$(command -v "$1" || true)" ] || missing="$missing $2"
        shift 2
    done
    [ -z "$missing" ] || { echo "$0: not installed: apt-get install$missing" >&2; exit 1; }
}

# fetch NAME=VERSION..: the files of source packages, from the folder that SOURCES names, or else through apt, from where this machine has
# its packages from. apt's lists of sources are made for this, from those of packages.
fetch() {
    local list apt package
    if [ -n "${SOURCES:-}" ]; then
        for package in "$@"; do
            cp "$SOURCES/${package%%=*}"_* "$room"
        done
        return
    fi
    mkdir -p "$room/apt/parts" "$room/apt/lists/partial"
    for list in /etc/apt/sources.list /etc/apt/sources.list.d/*.list; do
        [ ! -e "$list" ] || sed 's/^deb /deb-src /' "$list" >"$room/apt/parts/$(basename "$list" .list).list"
    done
    for list in /etc/apt/sources.list.d/*.sources; do
        [ ! -e "$list" ] || sed 's/^Types:.*/Types: deb-src/' "$list" >"$room/apt/parts/$(basename "$list")"
    done
    apt="apt-get -q -o APT::Sandbox::User=root -o Dir::Etc::SourceList=/dev/null -o Dir::Etc::SourceParts=$room/apt/parts
        -o Dir::State::Lists=$room/apt/lists"
    # A place that has no sources spoils nothing.
    $apt update >"$room/apt/said" 2>&1 || true
    (cd "$room" && $apt source --download-only "$@") >>"$room/apt/said" 2>&1 || {
        cat "$room/apt/said" >&2
        echo "$0: apt doesn't have the sources of $*; SOURCES=FOLDER names a folder that has them" >&2
        exit 1
    }
}

# known FILE SHA256: whether a file is the one that was built from when this was written.
known() { (cd "$room" && echo "$2  $1" | sha256sum --check --quiet >&2); }

# unpack FOLDER ORIGINAL DEBIAN: the tree of a source package, with Debian's patches.
unpack() {
    local name
    mkdir "$room/$1"
    tar -xf "$room/$2" -C "$room/$1" --strip-components=1
    tar -xf "$room/$3" -C "$room/$1"
    while read -r name; do
        [ -z "$name" ] || patch -s -d "$room/$1" -p1 <"$room/$1/debian/patches/$name" >&2
    done <"$room/$1/debian/patches/series"
}

# lwIP, as the guests here have it.
lwip_version=2.1.3+dfsg1
lwip_package=lwip=$lwip_version-2

unpack_lwip() {
    known "lwip_$lwip_version.orig.tar.xz" 0a8276d09fc4e97bbba2f953d74af2388fc2195ea156be9d7589e297a68fde24
    known "lwip_$lwip_version-2.debian.tar.xz" c5a48413d362cc757032cdd58f528f75eb64ee781ca46ca24f010b49b0e62a90
    unpack lwip "lwip_$lwip_version.orig.tar.xz" "lwip_$lwip_version-2.debian.tar.xz"
}

# The sources of its TCP/IP stack, below lwip/src.
lwip_core="core/init core/def core/inet_chksum core/ip core/mem core/memp core/netif core/pbuf core/tcp core/tcp_in core/tcp_out core/timeouts
    core/ipv4/etharp core/ipv4/icmp core/ipv4/ip4 core/ipv4/ip4_addr netif/ethernet"
