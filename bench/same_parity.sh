#!/bin/sh
# Syncs one set of files by this program and by the real snapraid, each with six disks and six levels, and compares the six parity
# files of the two byte for byte. The real tool is told to take files in the order of their paths, as this program does.
# Each syncs twice: first all files, and then what became of them, where some were deleted, some added and some written anew. None is
# moved: where inodes are no help, the real tool lays a moved file out anew, while this program knows it by size and stamp.
# Usage: bench/same_parity.sh [program], crates/snapraid/out/snapraid where nothing is given. Ends with 1 where a level differs.
set -eu
top=$(cd "$(dirname "$0")/.." && pwd)
program=${1:-$top/crates/snapraid/out/snapraid}
real=$(command -v snapraid) || {
    echo "the real snapraid is not installed" >&2
    exit 2
}
room=$(mktemp -d)
trap 'rm -rf "$room"' EXIT
levels="parity 2-parity 3-parity 4-parity 5-parity 6-parity"

# A file of so many bytes, which begin at another place of the same random bytes for each.
head -c 4000000 /dev/urandom >"$room/random"
add() {
    mkdir -p "$(dirname "$1")"
    tail -c +"$(($2 % 65536 + 1))" "$room/random" | head -c "$2" >"$1"
}

# Files of no block, of a part of one, of one and of several, other sizes on each disk.
fill() {
    for disk in 1 2 3 4 5 6; do
        rm -rf "$room/d$disk"
        for number in 01 02 03 04 05 06 07 08 09 10 11 12 13 14 15 16 17 18 19 20; do
            add "$room/d$disk/part$((1${number} % 4))/file$number" "$((1${number} * 7919 * disk % 900001))"
        done
        add "$room/d$disk/one" 1
        add "$room/d$disk/whole" 262144
        add "$room/d$disk/more" 262145
        add "$room/d$disk/empty" 0
    done
}

change() {
    for disk in 1 2 3 4 5 6; do
        rm "$room/d$disk/part1/file0"* "$room/d$disk/one"
        add "$room/d$disk/more" $((disk * 100003))
        add "$room/d$disk/new" $((disk * 300007))
    done
}

configure() {
    for level in $levels; do
        echo "$level $room/$1.$level"
    done
    for copy in 1 2 3 4 5 6 7; do
        echo "content $room/$1.content$copy"
    done
    for disk in 1 2 3 4 5 6; do
        echo "data d$disk $room/d$disk/"
    done
    echo "blocksize $2"
}

run() {
    if ! "$@" >"$room/log" 2>&1; then
        cat "$room/log" >&2
        exit 1
    fi
}

failed=0
compare() {
    for level in $levels; do
        if cmp -s "$room/this.$level" "$room/real.$level"; then
            echo "$1: $level: $(stat -c %s "$room/this.$level") bytes, the same"
        else
            echo "$1: $level: DIFFERS"
            failed=1
        fi
    done
}

sync_both() {
    run "$program" -c "$room/this.conf" sync
    run "$real" --test-skip-device --test-force-order-alpha -c "$room/real.conf" sync
    compare "$1"
}

for kib in 256 1; do
    rm -f "$room"/*parity "$room"/*.content*
    configure this "$kib" >"$room/this.conf"
    configure real "$kib" >"$room/real.conf"
    fill
    sync_both "blocks of $kib KiB, first sync"
    change
    sync_both "blocks of $kib KiB, after changes"
done
exit "$failed"
