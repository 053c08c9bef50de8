#!/bin/sh
# Whole commands over 3,000 and over 30,000 files of 1 KiB, with 200 recovery slices: the milliseconds of each, the
# least of three runs, and how they grow beside n log n. A growth of 1.00 is as n log n, and more is faster. A repair
# gives back 100 files.
# usage: many_files.sh PROGRAM
set -eu
program=$1
. "$(dirname "$0")/timing.sh"
rounds=3

# removed COUNT: a hundred of the files, evenly.
removed() {
    rm -- $(ls data* | awk -v "step=$(($1 / 100))" 'NR % step == 0')
}

# scene COUNT: the three commands over COUNT files.
scene() {
    mkdir "$room/here"
    cd "$room/here"
    head -c $(($1 * 1024)) /dev/urandom | split -b 1024 -a 5 -d - data
    for round in $(seq "$rounds"); do
        rm -f set.*par2 .par2undo
        timed "create.$1" 0 "$program" create -s1024 -c200 set.par2 data*
        timed "verify.$1" 0 "$program" verify set.par2
        removed "$1"
        timed "repair.$1" 0 "$program" repair set.par2
    done
    cd "$room"
    rm -rf here
}

scene 3000
scene 30000
printf '%-10s %12s %12s   %s\n' "" "3,000 files" "30,000 files" "beside n log n"
for command in create verify repair; do
    few=$(least "$command.3000")
    many=$(least "$command.30000")
    printf '%-10s %9s ms %9s ms   %s\n' "$command" "$few" "$many" \
        "$(awk "BEGIN { printf \"%.2f\", $many / ($few + 1) / (10 * log(30000) / log(3000)) }")"
done
