#!/bin/sh
# Verifies of intact files, and repairs of many lost slices, beside another program of ours, as one that was built before a
# change: the two take turns over the same folder, and a line has the least milliseconds of some rounds of each, and their
# ratio. They are those of the clock, or of the processor while it ran the program itself, where the line says so.
# usage: against_before.sh PROGRAM BEFORE
#     SCENES names those to run, of the functions below; all of them without the word. SHARE, a power of 2, divides the number of
#     slices, to try the scenes
set -eu
program=$(realpath "$1")
before=$(realpath "$2")
. "$(dirname "$0")/timing.sh"
share=${SHARE:-1}
rounds=3

# line NAME [user]: what the two took.
line() {
    ours=$(least "ours${2:+.$2}")
    earlier=$(least "before${2:+.$2}")
    ratio=$(awk "BEGIN { printf \"%.2f\", $ours / ($earlier > 0 ? $earlier : 1) }")
    printf '%-94s %7s ms  %7s ms  %s\n' "$1${2:+ (processor)}" "$ours" "$earlier" "$ratio"
    rm "$room"/ours* "$room"/before*
}

# protected SIZE SLICES COUNT: a file of SLICES slices, and a set of it with COUNT recovery slices that ours made.
protected() {
    rm -rf "$room/kept"
    find . -mindepth 1 -delete
    head -c $(($1 * $2 / share)) /dev/urandom > data
    cp data "$room/whole"
    "$program" create "-s$1" "-c$(($3 / share))" set.par2 data > "$room/said"
    rm .par2undo
}

# lost SIZE FIRST STEP COUNT: the file as it was, but for COUNT slices: each STEP-th one from number FIRST on.
lost() {
    cp "$room/whole" data
    overwrite "$1" "$2" "$3" $(($2 + $3 * ($4 / share - 1)))
    keep
}

# gone FIRST: the volume whose first exponent this is goes.
gone() { rm "set.vol$(printf %05d $((($1 + 1) / share - 1)))+"*; }

# repaired PROGRAM NAME: repairs the folder that was kept.
repaired() {
    restore
    timed "$2" 0 "$1" repair set.par2
    cmp data "$room/whole"
}

# repair NAME [user]
repair() {
    for round in $(seq "$rounds"); do
        repaired "$before" before
        repaired "$program" ours
    done
    line "repair: $1" "${2:-}"
}

# verify NAME STATUS [user]
verify() {
    for round in $(seq "$rounds"); do
        timed before "$2" "$before" verify set.par2
        timed ours "$2" "$program" verify set.par2
    done
    line "verify: $1" "${3:-}"
}

intact() {
    rounds=31
    protected 65536 1024 100
    verify "an intact file of 64 MiB, slices of 64 KiB" 0
    rm -f data set.*par2
    for file in $(seq -w 200); do
        head -c $((327680 / share)) /dev/urandom > "data$file"
    done
    "$program" create -s16384 -c200 set.par2 data* > "$room/said"
    rm .par2undo
    verify "200 intact files of 320 KiB, slices of 16 KiB" 0
}

few() {
    rounds=7
    protected 65536 1024 100
    lost 65536 0 20 50
    repair "50 of 1,024 slices of 64 KiB lost"
    protected 4096 4096 400
    lost 4096 0 13 300
    repair "300 of 4,096 slices of 4 KiB lost"
}

many() {
    protected 4096 32768 3277
    lost 4096 0 10 3277
    repair "3,277 of 32,768 slices of 4 KiB lost"
    restore
    lost 4096 0 32 1000
    rounds=5
    repair "1,000 of 32,768 slices of 4 KiB lost"
    restore
    gone 511
    keep
    repair "the same, a volume of 512 gone from the middle"
}

half() {
    protected 1024 16384 8300
    lost 1024 1 2 8192
    repair "8,192 of 16,384 slices of 1 KiB lost, 8,300 recovery slices" user
}

hole() {
    protected 512 32768 8000
    gone 1023
    lost 512 0 16 2000
    repair "2,000 of 32,768 slices of 512 bytes lost, a volume of 1,024 of 8,000 gone" user
    restore
    lost 512 0 5 6000
    rounds=1
    verify "the same with 6,000 lost" 1 user
}

printf '%-94s %7s     %7s     %s\n' "" ours before ratio
for scene in ${SCENES:-intact few many half hole}; do
    mkdir "$room/here"
    cd "$room/here"
    rounds=3
    "$scene"
    cd "$room"
    rm -rf here kept whole
done
