#!/bin/sh
# How the time of create, verify and repair grows with the set, beside par2cmdline on one thread (-t1 -T1): slices of 4 KiB
# in one file, recovery slices for a tenth of them, and a repair of as many lost slices, up to the largest set that there
# can be. The sets take turns, so that a machine whose speed changes meanwhile is as fast for each. A line has the least
# milliseconds of some runs of ours, the more of them the shorter they are, and, up to 4,096 slices, of three of
# par2cmdline's; of 8,192 it runs once, and of more not at all: then `-` is in place of its time. After each `x` is how many
# times ours takes what it took for half of the slices and recovery slices. With QUICK=1 there are 4,096 slices at most.
# usage: growth.sh PROGRAM [TABLE]     TABLE is a file that gets the numbers too
set -eu
program=$1
table=${2:-/dev/null}
. "$(dirname "$0")/timing.sh"
size=4096
top=$room
trap 'rm -rf "$top"' EXIT

# The sets: slices, recovery slices, and how often our program runs and par2cmdline.
scenes="512,51,25,3 1024,102,25,3 2048,205,15,3 4096,410,15,3"
[ -n "${QUICK:-}" ] || scenes="$scenes 8192,819,9,1 16384,1638,7,0 32768,3277,5,0"

# prepared SLICES COUNT: a folder for the set in the room, with its file and what is left of it.
prepared() {
    mkdir -p "$top/$1/here"
    head -c $(($1 * size)) /dev/urandom > "$top/$1/whole"
    python3 - "$top/$1" "$1" "$2" $size << 'END'
import sys

room, slices, count, size = sys.argv[1], *map(int, sys.argv[2:])
with open(f"{room}/whole", "rb") as file:
    data = bytearray(file.read())
for k in range(count):
    at = size * (k * slices // count)
    data[at : at + size] = bytes(size)
with open(f"{room}/lost", "wb") as file:
    file.write(data)
END
}

# fresh: no set, no history, and nothing that a repair has put aside.
fresh() { rm -f set.*par2 .par2undo data.*; }

# theirs COUNT: each command of par2cmdline over a set with COUNT recovery slices.
theirs() {
    fresh
    timed create.theirs 0 par2create -q -q -t1 -T1 "-s$size" "-c$1" set.par2 data
    timed verify.theirs 0 par2verify -q -q -t1 -T1 set.par2
    cp "$room/lost" data
    timed repair.theirs 0 par2repair -q -q -t1 -T1 set.par2
    cmp data "$room/whole"
}

# ours COUNT: the same of our program.
ours() {
    fresh
    timed create.ours 0 "$program" create "-s$size" "-c$1" set.par2 data
    rm -f .par2undo
    timed verify.ours 0 "$program" verify set.par2
    cp "$room/lost" data
    timed repair.ours 0 "$program" repair set.par2
    cmp data "$room/whole"
}

# turn ROUND SLICES COUNT OURS THEIRS: what runs of this set in this round.
turn() {
    [ "$1" -le "$4" ] || return 0
    room=$top/$2
    cd "$room/here"
    cp ../whole data
    [ "$1" -gt "$5" ] || theirs "$3"
    cp ../whole data
    ours "$3"
    rm -f ./* .par2undo
}

# least_or_none NAME: the least time, or `-` where there was no run.
least_or_none() { if [ -f "$room/$1" ]; then least "$1"; else echo -; fi; }

# grown COMMAND: how many times what it took for the set before; that is kept for the next one.
grown() {
    now=$(least "$1.ours")
    awk "BEGIN { printf \"%.2f\", $now / $(cat "$top/$1.before" 2> /dev/null || echo "$now") }"
    echo "$now" > "$top/$1.before"
}

# printed SLICES COUNT: the line of this set.
printed() {
    room=$top/$1
    line="$1	$2"
    said=$(printf '%7s %6s' "$1" "$2")
    for command in create verify repair; do
        own=$(least "$command.ours")
        peer=$(least_or_none "$command.theirs")
        line="$line	$own	$peer"
        said="$said $(printf '%9s %9s x%s' "$own" "$peer" "$(grown "$command")")"
    done
    echo "$said"
    echo "$line" >> "$table"
}

# each COMMAND..: the command with the words of each set in turn.
each() {
    for scene in $scenes; do
        "$@" $(echo "$scene" | tr , ' ')
    done
}

each prepared
for round in $(seq 25); do
    each turn "$round"
done
printf '%7s %6s %25s %25s %25s\n' slices recov. "create: ours, theirs" "verify: ours, theirs" "repair: ours, theirs"
each printed
