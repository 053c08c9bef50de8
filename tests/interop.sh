#!/bin/sh
# Exchanges sets with par2cmdline, if it is installed. Small folders of many kinds are protected by one program, and
# verified, damaged in each way and repaired by the other. Each file must then be as it was.
set -eu
cd "$(dirname "$0")/.."
ours=$PWD/crates/par2/out/par2
tests=$PWD/tests
if ! command -v par2create > /dev/null 2>&1 || ! command -v par2repair > /dev/null 2>&1; then
    echo "sets are not exchanged: par2cmdline is not installed"
    exit 0
fi
room=$(mktemp -d)
trap 'rm -rf "$room"' EXIT
exchanged=0
compared=0
rebuilt=0
refused=0
LC_ALL=C.UTF-8
export LC_ALL

# text SEED LENGTH: this many letters, determined by the seed.
text() {
    awk -v seed="$1" -v count="$2" 'BEGIN {
        state = seed * 7919 + 17
        for (i = 0; i < count; i++) {
            state = (state * 69069 + 12345) % 4294967296
            printf "%c", 97 + int(state / 65536) % 26
        }
    }'
}

# fail WORD..: says what was tried and what it printed, and ends.
fail() {
    echo "$*: not as it must be"
    cat "$room/said"
    ls -l "$room/here"
    exit 1
}

# protect WHO SIZE COUNT FIRST: creates the set `set.par2` over all files of the folder.
protect() {
    if [ "$1" = ours ]; then
        "$ours" create "-s$2" "-c$3" "-f$4" set.par2 * > "$room/said" 2>&1 || fail "our create"
        rm .par2undo
    else
        par2create -q -q -t1 "-s$2" "-c$3" "-f$4" set.par2 * > "$room/said" 2>&1 || fail "their create"
    fi
}

# verify WHO STATUS: as far as both programs agree on a status, 0 is complete and 1 repairable.
verify() {
    status=0
    if [ "$1" = ours ]; then
        "$ours" verify set.par2 * > "$room/said" 2>&1 || status=$?
    else
        par2verify -q -q -t1 set.par2 * > "$room/said" 2>&1 || status=$?
    fi
    [ "$status" -eq "$2" ] || fail "verify by $1, status $status and not $2"
}

# repair WHO: what the set protects must then be as it was.
repair() {
    if [ "$1" = ours ]; then
        "$ours" repair set.par2 * > "$room/said" 2>&1 || fail "our repair"
    else
        par2repair -q -q -t1 set.par2 * > "$room/said" 2>&1 || fail "their repair"
    fi
    for file in "$room/whole"/*; do
        cmp -s "$file" "${file##*/}" || fail "repair by $1: ${file##*/}"
    done
}

# The first file of the folder that is no par file.
first() {
    for file in *; do
        case $file in *.par2) ;; *) echo "$file" && break ;; esac
    done
}

# damage KIND SIZE: damages the first file, or a par file; SIZE is that of a slice.
damage() {
    file=$(first)
    case $1 in
    cut) truncate -s -1 "$file" ;;
    shifted) { printf 'x'; cat "$file"; } > "$room/new" && mv "$room/new" "$file" ;;
    overwritten) printf '#' | dd of="$file" bs=1 conv=notrunc status=none ;;
    renamed) mv "$file" "moved away" ;;
    joined) cat "$file" "$file" > "joined files" && rm "$file" ;;
    removed) rm "$file" ;;
    parfile) printf 'no set' | dd of="$(ls set.vol* | head -n 1)" bs=1 seek=100 conv=notrunc status=none ;;
    volume) mv "$(ls set.vol* | head -n 1)" "another name.par2" ;;
    gap) rm "$file" set.vol*63+* && dd if=/dev/zero of=bulk bs="$2" count=70 conv=notrunc status=none ;;
    index) for volume in set.vol*; do cp "$volume" set.par2 && rm "$volume" && break; done ;;
    esac
}

# exchange NAME SIZE COUNT FIRST: the files of `whole` are protected by each program and repaired by the other.
exchange() {
    for maker in ours theirs; do
        other=theirs
        [ "$maker" = ours ] || other=ours
        rm -rf "$room/here"
        cp -R "$room/whole" "$room/here"
        cd "$room/here"
        protect "$maker" "$2" "$3" "$4"
        verify "$other" 0
        rm -rf "$room/made"
        cp -R "$room/here" "$room/made"
        for kind in $kinds; do
            rm -rf "$room/here"
            cp -R "$room/made" "$room/here"
            cd "$room/here"
            damage "$kind" "$2"
            repair "$other"
            exchanged=$((exchanged + 1))
        done
    done
}

# compare SIZE COUNT FIRST: the files of `whole` are protected by each program, and the recovery packets are the same.
compare() {
    for maker in ours theirs; do
        rm -rf "$room/here" "$room/by $maker"
        cp -R "$room/whole" "$room/here"
        cd "$room/here"
        protect "$maker" "$1" "$2" "$3"
        mv "$room/here" "$room/by $maker"
    done
    cd "$room"
    python3 "$tests/equal_recovery.py" "by ours" "by theirs" > said || fail "recovery slices"
    compared=$((compared + $(cat said)))
}

# large SIZE SLICES COUNT FIRST: a small file and a large one, of this many slices in all: compared, and exchanged.
large() {
    fresh
    file aa "$2" "$(($1 * 40 - 5))"
    file bulk "$3" "$(($1 * ($2 - 40) - 3))"
    compare "$1" "$3" "$4"
    exchange "$2 slices" "$1" "$3" "$4"
}

# protect_by WHO SIZE RUN..: creates the set with the recovery slices of several runs of exponents, each FIRST+COUNT.
protect_by() {
    who=$1
    size=$2
    shift 2
    rm -rf "$room/here"
    cp -R "$room/whole" "$room/here"
    for run in "$@"; do
        rm -rf "$room/part"
        cp -R "$room/whole" "$room/part"
        cd "$room/part"
        protect "$who" "$size" "${run#*+}" "${run%+*}"
        mv set.* "$room/here"
    done
    cd "$room/here"
}

# lose SIZE FIRST STEP COUNT: overwrites COUNT slices of `bulk` with zeros, every STEP-th one from number FIRST on.
lose() {
    python3 - "$@" <<'END'
import sys

size, first, step, count = map(int, sys.argv[1:])
with open("bulk", "r+b") as file:
    for slice in range(first, first + step * count, step):
        file.seek(size * slice)
        file.write(bytes(size))
END
}

# lossy WHO SLICES LOST RUN..: a folder whose one file has this many slices and has lost those that LOST says, as `lose`
# reads it, and the set that one program made of it by these runs.
lossy() {
    maker=$1
    slices=$2
    lost=$3
    shift 3
    fresh
    file bulk "$slices" "$((16 * slices - 3))"
    protect_by "$maker" 16 "$@"
    lose 16 $lost
}

# rebuild_alone SLICES LOST RUN..: we repair the sets of both programs, of which the first exponents don't determine the
# lost slices. Par2cmdline counts recovery slices alone, and has no way to these.
rebuild_alone() {
    for maker in ours theirs; do
        lossy "$maker" "$@"
        verify ours 1
        repair ours
        rebuilt=$((rebuilt + 1))
    done
}

# rebuild SLICES LOST RUN..: we repair the sets of both programs, and par2cmdline repairs ours.
rebuild() {
    rebuild_alone "$@"
    lossy ours "$@"
    verify theirs 1
    repair theirs
    rebuilt=$((rebuilt + 1))
}

# refuse RANK SLICES LOST RUN..: our set doesn't determine the lost slices, and that is what a verify and a repair say.
refuse() {
    rank=$1
    shift
    lossy ours "$@"
    verify ours 2
    grep -qx "result: not repairable, lost ${lost##* }, rank $rank" "$room/said" || fail "verify: rank $rank"
    status=0
    "$ours" repair set.par2 > "$room/said" 2>&1 || status=$?
    [ "$status" -eq 2 ] || fail "our repair, status $status"
    grep -qx "par2: not repairable, lost ${lost##* }, rank $rank" "$room/said" || fail "repair: rank $rank"
    refused=$((refused + 1))
}

# file NAME SEED LENGTH: puts a file into `whole`.
file() { text "$2" "$3" > "$room/whole/$1"; }

fresh() {
    cd "$room"
    rm -rf whole
    mkdir whole
}

kinds="cut shifted overwritten renamed joined removed parfile volume index"
for length in 63 64 65 127 128 129 640; do
    fresh
    file data "$length" "$length"
    file other 7 200
    exchange "a file of $length bytes" 64 12 0
done
fresh
file "with blanks in it" 1 300
file "Grüße.txt" 2 150
file "数え" 3 90
exchange "names" 32 12 0
fresh
file aa 5 256
cp "$room/whole/aa" "$room/whole/bb"
exchange "equal files" 32 10 0
fresh
for number in $(seq 10 49); do
    file "file$number" "$number" "$((number * 3))"
done
exchange "40 files" 16 20 0
fresh
file many 4 4000
kinds="overwritten removed index"
exchange "300 recovery slices" 16 300 0
exchange "first exponents above 0" 64 70 1000
exchange "one slice" 4000 1 0
exchange "a high first exponent" 40 100 30000
kinds="overwritten removed"
large 64 600 60 0
large 32 1500 150 7
large 16 3000 45 20000
# 110 lost slices, for which two runs of exponents are kept.
kinds="overwritten removed gap"
large 16 5000 500 0
# Half of the recovery slices are used, of one run of exponents, or of two with a hole as of a volume between them.
rebuild 600 "1 3 150" 0+300
rebuild 1000 "0 1 800" 7+1600
rebuild 5000 "2 12 400" 0+127 255+673
rebuild 1700 "1 2 800" 0+511 767+1089
# The polynomial whose roots are the constants of these lost slices has no power of 94, or of 234: with that exponent
# missing, as many as are lost don't determine them, but one more does.
rebuild_alone 800 "135 1 600" 5+94 100+1106
refuse 599 800 "135 1 600" 5+94 100+506
rebuild_alone 1800 "175 2 800" 0+234 235+1366
refuse 799 1800 "175 2 800" 0+234 235+566
# The power of 21,845 takes two values alone, so an exponent that is so far from others says little more than they do.
rebuild_alone 600 "0 2 2" 0+1 21845+3
refuse 1 600 "0 2 2" 0+1 21845+1
rebuild_alone 1300 "0 3 400" 0+200 21845+600
refuse 399 1300 "0 3 400" 0+200 21845+200
rebuild_alone 2450 "0 3 800" 0+400 21845+1200
refuse 794 2450 "0 3 800" 0+400 21845+400
cd "$room"
echo "sets exchanged with par2cmdline: $exchanged folders, each repaired by the other program"
echo "recovery slices compared with par2cmdline's: $compared, byte for byte"
echo "sets that have lost many slices: $rebuilt repaired, $refused without enough recovery slices"
