#!/bin/sh
# Whole commands beside par2cmdline on one thread (-t1 -T1), over the same folders: the two take turns, and a line has the
# least time of three runs of each, or of 15 short ones, in milliseconds, and their ratio. Par2cmdline runs once where it
# takes minutes, and not at all where one more such run would say nothing new: `-` is in place of its time. Both programs
# must end as is said for the scene. With QUICK=1 the scenes of thousands of recovery slices are left out, which take
# twenty minutes.
# usage: against_par2cmdline.sh PROGRAM [TABLE]
#     TABLE is a file that gets a line for each scene too: ratio, ours, theirs, scene, what bounds it. SCENES names those to
#     run, of the functions below; all of them without the word
set -eu
program=$1
table=${2:-}
. "$(dirname "$0")/timing.sh"

# line NAME: what the two took. What bounds the scene is in `bound`.
line() {
    ours=$(least ours)
    theirs=-
    ratio=-
    if [ -f "$room/theirs" ]; then
        theirs=$(least theirs)
        ratio=$(awk "BEGIN { it = $ours / $theirs; printf it < 0.095 ? \"%.1g\" : \"%.2f\", it }")
    fi
    printf '%-72s %6s ms  %6s ms  %s\n' "$1" "$ours" "$theirs" "$ratio"
    [ -z "$table" ] || printf '%s\t%s\t%s\t%s\t%s\n' "$ratio" "$ours" "$theirs" "$1" "$bound" >> "$table"
    rm -f "$room/ours" "$room/theirs"
}

# verify NAME STATUS THEIRS: verifies `set.par2` in the present folder. Par2cmdline ends with the status THEIRS. A verify
# is short, so other work of the machine may be in its way from the beginning to the end: there are five times as many.
verify() {
    for round in $(seq "$((5 * rounds))"); do
        timed ours "$2" "$program" verify set.par2
        timed theirs "$3" par2verify -q -q -t1 -T1 set.par2
    done
    line "verify: $1"
}

# repair NAME FILE..: repairs the folder that was kept, by `set.par2` and further files; then takes our repair back and
# does it again.
repair() {
    name=$1
    shift
    for round in $(seq "$rounds"); do
        if [ "$round" -le "$their_rounds" ]; then
            restore
            timed theirs 0 par2repair -q -q -t1 -T1 set.par2 "$@"
        fi
        restore
        timed ours 0 "$program" repair set.par2 "$@"
        timed undo 0 "$program" undo
        timed redo 0 "$program" redo
    done
    repaired=$(least ours)
    line "repair: $name"
    for back in undo redo; do
        own=$(least "$back")
        printf '%-72s %6s ms             %s of the repair\n' "  its $back" "$own" \
            "$(awk "BEGIN { printf \"%.2f\", $own / $repaired }")"
        rm "$room/$back"
    done
}

# create NAME SIZE COUNT FILE..: creates sets of these files in the present folder.
create() {
    name=$1
    size=$2
    count=$3
    shift 3
    for round in $(seq "$rounds"); do
        rm -f set.*par2 .par2undo
        if [ "$round" -le "$their_rounds" ]; then
            timed theirs 0 par2create -q -q -t1 -T1 "-s$size" "-c$count" set.par2 "$@"
            rm -f set.*par2
        fi
        timed ours 0 "$program" create "-s$size" "-c$count" set.par2 "$@"
    done
    line "create: $name"
}

# made SIZE COUNT FILE: a set of this file, made by our program, is in the present folder, and the file is not.
made() {
    "$program" create "-s$1" "-c$2" set.par2 "$3" > "$room/said"
    rm -f .par2undo "$3"
}

# lost NAME: verifies the set whose one file is gone, and whose recovery slices are too few. That takes some milliseconds.
lost() {
    rm -f .par2undo
    verify "$1" 2 2
}

# thinned KEPT: of the recovery slices in the present folder those stay whose exponent `e` fulfils this condition of
# python.
thinned() {
    python3 - "$1" <<'END'
import glob, os, sys

def packets(data):
    at = 0
    while at < len(data):
        length = int.from_bytes(data[at + 8 : at + 16], "little")
        yield data[at : at + length]
        at += length

def stays(packet):
    e = int.from_bytes(packet[64:68], "little")
    return packet[48:64] != b"PAR 2.0\0RecvSlic" or eval(sys.argv[1], {"e": e})

for path in glob.glob("set.vol*.par2"):
    with open(path, "rb") as volume:
        left = [it for it in packets(volume.read()) if stays(it)]
    with open(path, "wb") as volume:
        volume.write(b"".join(left))
END
}

# insert FILE: a byte at the front of a file.
insert() {
    {
        printf 'x'
        cat "$1"
    } > "$room/longer"
    mv "$room/longer" "$1"
}

# A large file in few large slices: intact, damaged, renamed, and moved by a byte.
one() {
    head -c 67108864 /dev/urandom > data
    bound="recovery slices, MD5"
    create "64 MiB in one file, 100 slices of 64 KiB" 65536 100 data
    bound="MD5 in lanes, reading"
    verify "an intact file of 64 MiB, slices of 64 KiB" 0 0
    cp data "$room/whole"
    overwrite 65536 0 20 999
    bound="the search's rolling CRC"
    verify "the same with 50 slices overwritten" 1 1
    keep
    bound="MD5 of the folder, for the journal"
    repair "50 of 1,024 slices lost" data
    # What a scene's repairs have put aside is no part of the next one's folder.
    rm -f data*
    cp "$room/whole" moved
    keep
    repair "a file of 64 MiB renamed" moved
    rm -f moved data*
    cp "$room/whole" data
    insert data
    bound="the search's rolling CRC"
    verify "the same with one byte inserted at the front" 1 1
    keep
    bound="MD5 of the folder, for the journal"
    repair "one byte inserted at the front of 64 MiB" data
}

middle() {
    head -c 67108864 /dev/urandom > data
    rounds=1
    bound="recovery slices, MD5"
    create "64 MiB in one file, 410 slices of 16 KiB" 16384 410 data
}

small() {
    head -c 16777216 /dev/urandom > data
    bound="recovery slices, MD5"
    create "16 MiB in one file, 400 slices of 4 KiB" 4096 400 data
    overwrite 4096 0 13 3890
    keep
    bound="MD5 of the folder, syndromes"
    repair "300 of 4,096 slices lost" data
    rm -f data*
    bound="MD5 of packets, reading"
    lost "the file of 4,096 slices is gone, 400 recovery slices"
}

# A file in very many short slices: damaged, moved by a byte, and gone.
short() {
    head -c 8388608 /dev/urandom > data
    "$program" create -s512 -c50 set.par2 data > "$room/said"
    cp data "$room/whole"
    overwrite 512 100 600 14500
    rm -f .par2undo
    bound="the search's rolling CRC"
    verify "8 MiB in slices of 512, 25 lost" 1 1
    cp "$room/whole" data
    insert data
    keep
    rounds=15
    their_rounds=15
    bound="MD5 of the folder, for the journal; the search"
    repair "8 MiB in slices of 512, a byte inserted" data
    rounds=3
    rm -f data*
    bound="MD5 of one long packet, reading"
    lost "the file of 16,384 slices of 512 bytes is gone, 50 recovery slices"
}

# Exponents in many short runs.
runs() {
    head -c 131072 /dev/urandom > data
    made 4 256 data
    keep
    thinned "e % 2 == 0"
    bound="MD5 of one long packet, reading"
    lost "the file of 32,768 slices is gone, each second of 256 exponents"
    restore
    thinned "e % 3 != 2"
    lost "the same with pairs of exponents"
}

many() {
    for file in $(seq -w 200); do
        head -c 327680 /dev/urandom > "data$file"
    done
    bound="recovery slices, MD5"
    create "200 files of 320 KiB, 200 slices of 16 KiB" 16384 200 data*
    bound="MD5 in lanes, reading"
    verify "200 intact files of 320 KiB, slices of 16 KiB" 0 0
    for file in $(seq -w 1 2 200); do
        dd if=/dev/zero of="data$file" bs=16384 seek=3 count=1 conv=notrunc status=none
    done
    rm -f .par2undo
    bound="the search's rolling CRC"
    verify "200 files of 320 KiB, 100 damaged" 1 1
    keep
    bound="MD5 of the folder after each change"
    repair "100 of 200 files damaged" data*
}

# As many changes as the journal digests a folder after.
shifted() {
    for file in $(seq -w 200); do
        head -c 327680 /dev/urandom > "data$file"
    done
    "$program" create -s16384 -c210 set.par2 data* > "$room/said"
    for file in data*; do
        insert "$file"
    done
    keep
    rounds=1
    bound="MD5 of the folder after each change"
    repair "200 files of 320 KiB, a byte inserted in each" data*
}

# Volumes of par2cmdline, which have other packets between the recovery packets.
foreign() {
    head -c 67108864 /dev/urandom > data
    par2create -q -q -t1 -T1 -s65536 -c512 set.par2 data
    bound="MD5 in lanes, reading"
    verify "an intact file of 64 MiB, 512 recovery slices by par2cmdline" 0 0
}

zeros() {
    head -c 8388608 /dev/zero > data
    bound="recovery slices, MD5"
    create "8 MiB of zeros, 100 slices of 512" 512 100 data
    bound="MD5 in lanes"
    verify "8 MiB of zeros, slices of 512" 0 0
}

# The same window many times, and no other.
repeated() {
    head -c 65536 /dev/urandom > slice
    for copy in $(seq 1000); do
        cat slice
    done > data
    rm slice
    "$program" create -s65536 -c10 set.par2 data > "$room/said"
    insert data
    bound="reading; the search's rolling CRC until the slice is found"
    verify "a slice of 64 KiB a thousand times, a byte inserted" 1 1
}

little() {
    head -c 4194304 /dev/zero > data
    bound="MD5 of one message"
    create "4 MiB of zeros, 20 slices of 4 KiB" 4096 20 data
}

# As many slices as a set can have, and a tenth of them as recovery slices.
large() {
    head -c 134217728 /dev/urandom > data
    cp data "$room/whole"
    their_rounds=1
    bound="the transform, MD5"
    create "128 MiB in one file, 3,277 slices of 4 KiB" 4096 3277 data
    rm -f .par2undo data
    bound="MD5 of packets, reading"
    lost "the file of 32,768 slices is gone, 3,277 recovery slices"
    keep
    rm set.vol01023+*
    lost "the same with a volume in the middle gone too"
    restore
    cp "$room/whole" data
    overwrite 4096 0 32 31999
    keep
    bound="MD5 of the folder, syndromes"
    repair "1,000 of 32,768 slices lost" data
    restore
    mv set.vol00511+00512.par2 "$room/recovery"
    keep
    their_rounds=0
    bound="the equations of 512 holes, MD5 of the folder"
    repair "the same, a volume of 512 gone from the middle" data
    mv "$room/recovery" set.vol00511+00512.par2
    rm -f data*
    cp "$room/whole" data
    overwrite 4096 0 10 32767
    keep
    bound="MD5 of the folder, syndromes, the error locator"
    repair "3,277 of 32,768 slices lost" data
}

# Half of very many slices.
half() {
    head -c 16777216 /dev/urandom > data
    "$program" create -s1024 -c8300 set.par2 data > "$room/said"
    overwrite 1024 0 2 16383
    keep
    their_rounds=0
    bound="syndromes, the error locator"
    repair "8,192 of 16,384 slices of 1 KiB lost" data
}

# Recovery slices with a volume missing between the first ones.
holes() {
    head -c 16777216 /dev/urandom > data
    cp data "$room/whole"
    "$program" create -s512 -c8000 set.par2 data > "$room/said"
    rm -f .par2undo set.vol01023+*
    overwrite 512 0 5 29999
    bound="the equations of 1,024 holes"
    verify "6,000 of 32,768 slices of 512 lost, a volume of 1,024 gone" 1 1
    cp "$room/whole" data
    overwrite 512 0 16 31999
    keep
    their_rounds=1
    bound="the equations of 1,024 holes"
    repair "2,000 of 32,768 slices of 512 lost, a volume of 1,024 gone" data
}

scenes="one middle small short runs many shifted foreign zeros repeated little"
[ -n "${QUICK:-}" ] || scenes="$scenes large half holes"
printf '%-72s %6s     %6s     %s\n' "" ours theirs ratio
for scene in ${SCENES:-$scenes}; do
    mkdir "$room/here"
    cd "$room/here"
    rounds=3
    their_rounds=3
    "$scene"
    cd "$room"
    rm -rf here kept whole
done
