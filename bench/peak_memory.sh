#!/bin/sh
# The most memory that each command has at once, in KiB, beside the bytes of the folder and those that it writes.
# usage: peak_memory.sh PROGRAM
set -eu
program=$1
time=/usr/bin/time
if [ ! -x "$time" ]; then
    echo "the command $time is not there"
    exit 0
fi
room=$(mktemp -d)
trap 'rm -rf "$room"' EXIT
cd "$room"
mkdir here
cd here

# kibibytes FILE..: how many the files have.
kibibytes() { cat -- "$@" 2> /dev/null | wc -c | awk '{ print int($1 / 1024) }'; }

# row NAME WRITTEN WORD..: runs the program; WRITTEN says by a pattern which files it writes.
row() {
    name=$1
    written=$2
    shift 2
    folder=$(kibibytes *)
    "$time" -o ../peak -f %M "$program" "$@" > /dev/null
    out=0
    [ -z "$written" ] || out=$(kibibytes $written)
    peak=$(tail -n 1 ../peak)
    printf '%-44s %8s %8s %8s   %s\n' "$name" "$folder" "$out" "$peak" "$((peak - folder - out))"
}

printf '%-44s %8s %8s %8s   %s\n' "" folder writes peak "peak beyond both"
head -c 67108864 /dev/urandom > data
row "create, 100 slices of 64 KiB" "set.*par2" create -s65536 -c100 set.par2 data
rm .par2undo
row "verify" "" verify set.par2
dd if=/dev/zero of=data bs=65536 seek=10 count=1 conv=notrunc status=none
row "verify, one slice lost" "" verify set.par2 || true
row "repair, one slice lost" "data" repair set.par2
row "undo of the repair" "" undo
row "redo of the repair" "data" redo
rm -f -- * .par2undo
head -c 262144 /dev/urandom > data
row "create, 4000 slices of 64 over 256 KiB" "set.*par2" create -s64 -c4000 set.par2 data
rm -f -- * .par2undo
head -c 4096 /dev/urandom > data
row "create, 60,000 slices of 64 over 4 KiB" "set.*par2" create -s64 -c60000 set.par2 data
