#!/bin/sh
# Figures of the kernels, each beside a plain copy, the digest or the field's sums alone in the same run, and of what whole
# commands take: where their time goes, memory, waits for the disk, many files.
# usage: kernels.sh PROGRAM BENCHMARKS
set -eu
program=$(realpath "$1")
benchmarks=$(realpath "$2")
cd "$(dirname "$0")/.."
rounds=7
folder=$(mktemp -d -p "${TMPDIR:-/var/tmp}")
trap 'rm -rf "$folder"' EXIT

echo "== the field: sums of products, tables"
"$benchmarks" field 2000
echo "== elimination: 150 and 300 columns, 4 KiB of data each"
"$benchmarks" matrix 300
echo "== slices: checksums and the search"
"$benchmarks" slices
echo "== packets: scanning 64 MiB"
"$benchmarks" packets
echo "== recovery: 100 slices of 64 KiB over 1,024, and 300 lost slices of 4 KiB among 4,096"
"$benchmarks" recovery

echo "== where the time of whole commands goes, in percent"
sh bench/profile.sh "$program"

echo "== memory of whole commands: KiB of the folder's files, of what is written, and the most at once"
sh bench/peak_memory.sh "$program"

echo "== waiting for the disk: whole commands beside the same without their waits"
python3 bench/waits.py "$program"

echo "== many files: how the time of whole commands grows"
sh bench/many_files.sh "$program"

echo "== folders: many names, fingerprint"
"$benchmarks" folder

echo "== a file of 256 MiB: the store keeps its bytes, cat keeps nothing; whole processes, the least of $rounds rounds"
cd "$folder"
head -c 268435456 /dev/urandom > file
# Writes the file out to its disk and takes it out of the page cache.
drop() {
    dd of=file oflag=nocache conv=notrunc,fdatasync count=0 status=none
}
cached() { cat file > /dev/null; }
store() { "$benchmarks" read file > /dev/null; }
forget() { cat file > /dev/null; }
pipe() { cat file | wc -c > /dev/null; }
copy() { cat file > copy; }

# Adds the milliseconds of a command to the list of its times, after what comes first.
take() {
    first=$1
    command=$2
    "$first"
    start=$(date +%s%N)
    "$command"
    echo $((($(date +%s%N) - start) / 1000000)) >> "$first.$command"
}
for round in $(seq "$rounds"); do
    for first in drop cached; do
        for command in store forget; do
            take "$first" "$command"
        done
    done
    take cached pipe
    take cached copy
    rm copy
done
least() { sort -n "$1" | head -n 1; }
compare() {
    ours=$(least "$1")
    theirs=$(least "$2")
    echo "$3: $ours ms, $4: $theirs ms, ratio $(awk "BEGIN { printf \"%.2f\", $ours / $theirs }")"
}
compare drop.store drop.forget "from disk, store" "cat FILE > /dev/null"
compare cached.store cached.forget "from the cache, store" "cat FILE > /dev/null"
compare cached.store cached.pipe "from the cache, store" "cat FILE | wc -c"
compare cached.store cached.copy "from the cache, store" "cat FILE > COPY"
