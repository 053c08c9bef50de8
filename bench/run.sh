#!/bin/sh
# Figures of the kernels (bench/kernels.sh), and of whole commands beside par2cmdline, where it is installed. The latter
# become docs/ratios.txt and docs/growth.txt, their pictures, and the tables and sentences of the pages (bench/page.py). Run
# it on a quiet machine: it takes an hour. TABLES=1 leaves out the kernels. QUICK=1 leaves out the sets of thousands of
# recovery slices and writes nothing. BEFORE=PROGRAM has verifies and repairs measured beside another program of ours, as
# one that was built before a change.
# usage: run.sh [CPU]     CPU as in tools/build.sh
set -eu
before=${BEFORE:+$(realpath "$BEFORE")}
cd "$(dirname "$0")/.."
cpu=${1:-x86-64-v2}

folder=$(mktemp -d -p "${TMPDIR:-/var/tmp}")
trap 'rm -rf "$folder"' EXIT
top=$PWD

# built PROGRAM: the path of a program, which is built where it isn't yet.
built() {
    sh tools/build.sh "$cpu" "$1" > "$folder/built" || {
        cat "$folder/built" >&2
        return 1
    }
    tail -n 1 "$folder/built"
}

program=$top/$(built par2)
[ -n "${TABLES:-}" ] || sh bench/kernels.sh "$program" "$top/$(built benchmarks)"
if [ -n "$before" ]; then
    echo "== verifies, and repairs of many lost slices, beside $before"
    sh bench/against_before.sh "$program" "$before"
fi
echo "== whole commands beside par2cmdline on one thread (-t1 -T1)"
if ! command -v par2create > /dev/null 2>&1 || ! command -v par2verify > /dev/null 2>&1; then
    echo "par2cmdline is not installed"
    exit 0
fi

sh bench/against_par2cmdline.sh "$program" "$folder/ratios"
touch "$folder/wide"
if [ "$cpu" = x86-64-v2 ] && grep -q -w avx2 /proc/cpuinfo; then
    echo "== those that digests and the search bound, for x86-64-v3"
    wide=$top/$(cpu=x86-64-v3 built par2)
    SCENES="one short many shifted" sh bench/against_par2cmdline.sh "$wide" "$folder/wide"
fi
echo "== how the time grows with the set, in ms; a repair is of as many lost slices as there are recovery slices"
sh bench/growth.sh "$program" "$folder/growth"
[ -z "${QUICK:-}" ] || exit 0

machine=$(sed -n 's/^model name[^:]*: //p' /proc/cpuinfo | head -n 1 | tr -d ,)
commit=$(git describe --always --dirty=" with changes" 2> /dev/null || cat VERSION)

# table NAME COLUMNS: what comes in becomes a table of docs/ that says when, where and of which commit it is.
table() {
    {
        echo "# $(date -u +%F), $machine, $cpu, commit $commit, $(par2verify -V 2>&1 | head -n 1)"
        echo "# $2"
        cat
    } > "$folder/table"
    mv "$folder/table" "docs/$1.txt"
}
# The scenes of a command are beside each other.
awk -F '\t' -v OFS='\t' '
    FILENAME == ARGV[1] { wide[$4] = $1; next }
    { print $0, $4 in wide ? wide[$4] : "-" }' "$folder/wide" "$folder/ratios" |
    LC_ALL=C sort -s -t "$(printf '\t')" -k 4.1,4.1 |
    table ratios "$(printf 'ratio\tours (ms)\ttheirs (ms)\tscene\twhat bounds it\tratio for x86-64-v3')"
table growth "$(printf 'slices\trecovery slices\tcreate: ours\ttheirs\tverify: ours\ttheirs\trepair: ours\ttheirs (ms)')" \
    < "$folder/growth"
sh tools/pictures.sh
python3 bench/page.py --write
