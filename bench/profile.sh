#!/bin/sh
# Where the time of whole commands goes, by the symbols of the program: the share of each part in percent. It says so and
# does nothing where the command perf is not there.
# usage: profile.sh PROGRAM
set -eu
program=$1
if ! command -v perf > /dev/null; then
    echo "the command perf is not there"
    exit 0
fi
. "$(dirname "$0")/timing.sh"
mkdir "$room/here"
cd "$room/here"

# parts: the percents that perf reports by symbol, added up by part. What the kernel does is reading, writing and fresh
# memory. Digests are those of files, slices and packets, and the fingerprints of folders.
parts() {
    perf report -i "$room/samples" --stdio -F overhead,dso,symbol 2> /dev/null | awk '
        !/^ *[0-9.]+%/ { next }
        { share = $1; sub(/%/, "", share); part = "other" }
        /\[k\]|\[kernel/ { part = "system" }
        /memmove|memcpy|memset/ { part = "copies" }
        /par2_slices::(search|rolling|filter|wanted|windows|matching|intact)/ { part = "search" }
        /md5::|par2_md5_lanes|par2_files::walk/ { part = "digests" }
        /par2_gf16|par2_solve|par2_matrix/ { part = "field" }
        { sum[part] += share }
        END {
            count = split("system copies digests search field other", names, " ")
            for (k = 1; k <= count; k++) printf " %8.1f", sum[names[k]]
            print ""
        }'
}

# row NAME WORD..: runs the program, which ends with status 0 or 1.
row() {
    name=$1
    shift
    status=0
    perf record -q -e cpu-clock -F 2000 -o "$room/samples" "$program" "$@" > "$room/said" 2>&1 || status=$?
    if [ "$status" -gt 1 ]; then
        cat "$room/said"
        exit 1
    fi
    printf '%-44s' "$name"
    parts
}

printf '%-44s %8s %8s %8s %8s %8s %8s\n' "" system copies digests search field other
head -c 67108864 /dev/urandom > data
row "create, 100 slices of 64 KiB of 64 MiB" create -s65536 -c100 set.par2 data
row "verify" verify set.par2
rm -f .par2undo
cp data "$room/whole"
for slice in $(seq 0 20 999); do
    dd if=/dev/zero of=data bs=65536 seek="$slice" count=1 conv=notrunc status=none
done
row "repair, 50 of 1,024 slices lost" repair set.par2
rm -f .par2undo data.1
{
    printf 'x'
    cat "$room/whole"
} > data
row "repair, one byte inserted at the front" repair set.par2
row "undo of it" undo
row "redo of it" redo
cd "$room"
rm -rf here whole
mkdir here
cd here
for file in $(seq -w 200); do
    head -c 327680 /dev/urandom > "data$file"
done
row "create, 200 slices of 16 KiB of 200 files" create -s16384 -c200 set.par2 data*
rm -f .par2undo
for file in $(seq -w 1 2 200); do
    dd if=/dev/zero of="data$file" bs=16384 seek=3 count=1 conv=notrunc status=none
done
row "repair, 100 of the 200 files damaged" repair set.par2
