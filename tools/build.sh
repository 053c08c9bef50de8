#!/bin/sh
# Proves a program's libraries and builds it, unless it is already built from the same sources. Prints the program's path
# as the last line.
# usage: build.sh [CPU [PROGRAM]]     CPU is a level of x86-64 that the toolchain knows: x86-64-v2 (as it is without the
#                                  word) or x86-64-v3, whose program is beside the default one. PROGRAM is one of
#                                  crates.txt, without the word par2
set -eu
cd "$(dirname "$0")/.."
cpu=${1:-x86-64-v2}
name=${2:-par2}
program=crates/$name/out/$name
[ "$cpu" = x86-64-v2 ] || program=$program-$cpu
built_from=$program.sources
sources=$(sh tools/sources.sh)

if [ -x "$program" ] && [ -f "$built_from" ] && [ "$(cat "$built_from")" = "$sources" ]; then
    echo "It is built from these sources:"
    echo "$program"
    exit 0
fi
echo "Proving $name and the libraries below it, and building it for $cpu. After \`make test\` it takes seconds. There is a"
echo "line for each crate."
python3 tools/prove.py "$name" "$cpu" "$program"
echo "$sources" > "$built_from"
echo "It is built:"
echo "$program"
