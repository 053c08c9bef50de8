#!/bin/sh
# Runs the programs with names and words that are not UTF-8, a full disk, and a journal deleted by hand. Memory is
# refused for a file, too. The gate can't run a program there. Prints a line for each run, and ends with status 1 at
# the first with another result.
set -eu
cd "$(dirname "$0")/.."
top=$PWD
show() { echo disk show | "$top/crates/run_rows/out/run_rows"; }
par2() { "$top/crates/par2/out/par2" "$@"; }
room=$(mktemp -d)
trap 'rm -rf "$room"' EXIT

# The files, and the sum of the one that can be read.
files() {
    (cd "$here" && ls -l && cksum small)
}

# answer NAME STATUS OUTPUT ERROR COMMAND..: runs a command in the folder `here`.
answer() {
    name=$1
    wanted=$2
    printf '%b' "$3" > "$room/output"
    printf '%b' "$4" > "$room/error"
    shift 4
    status=0
    (cd "$here" && "$@") > "$room/out" 2> "$room/err" || status=$?
    if [ "$status" -ne "$wanted" ]; then
        echo "row $name: status $status, and not $wanted"
        exit 1
    fi
    cmp "$room/output" "$room/out"
    cmp "$room/error" "$room/err"
    echo "row $name: as it must be"
}

# row NAME STATUS OUTPUT ERROR COMMAND..: the same where the files stay as they are. The journal, and what a failing
# write leaves under a name of the history, are no files.
row() {
    files > "$room/before"
    answer "$@"
    files > "$room/after"
    cmp "$room/before" "$room/after"
}

# 1 GiB of addresses: enough for the program, and too little for the file below.
bounded() {
    ulimit -v 1048576
    "$@"
}

# The program by a user whom the modes of files bind: where this one is the superuser, by nobody.
bound_by_modes() {
    if [ "$(id -u)" -ne 0 ]; then
        par2 "$@"
    else
        cp "$top/crates/par2/out/par2" "$room/program"
        chmod 755 "$room" "$here" "$room/program"
        setpriv --reuid=65534 --regid=65534 --clear-groups "$room/program" "$@"
    fi
}

# Files of 2 KiB at most, and a write past that fails.
short_of_room() {
    trap '' XFSZ
    ulimit -f 4
    "$@"
}

here=$room/names
mkdir "$here"
printf 'abcdefgh' > "$here/small"
printf 'latin' > "$here/$(printf 'caf\351')"
row "a name that isn't UTF-8, listed" 0 '  names: Store\n  no journal\n' '' show
row "a name that isn't UTF-8, a create" 6 '' 'par2: a file could not be read or written\n' \
    par2 create -s4 -c0 t.par2 small
row "a name that isn't UTF-8, an undo" 6 '' 'par2: a file could not be read or written\n' par2 undo
row "a name that isn't UTF-8, a verify" 6 '' 'par2: a file could not be read or written\n' par2 verify t.par2

here=$room/unreadable
mkdir "$here"
printf 'abcdefgh' > "$here/small"
row "files that can be read, a verify of a base that isn't there" 3 '' 'par2: no such file: t.par2\n' \
    bound_by_modes verify t.par2
printf 'hidden' > "$here/other"
chmod 000 "$here/other"
row "a file that can't be read, a verify" 6 '' 'par2: a file could not be read or written\n' \
    bound_by_modes verify t.par2

here=$room/memory
mkdir "$here"
printf 'abcdefgh' > "$here/small"
truncate -s 1T "$here/large"
row "a file without memory for it, read" 0 '  file large: Memory\n  file small: 8\n  no journal\n' '' \
    bounded show
row "a file without memory for it, a create" 8 '' 'par2: out of memory\n' bounded par2 create -s4 -c0 t.par2 small
row "a file without memory for it, an undo" 8 '' 'par2: out of memory\n' bounded par2 undo

# A length that 21 bits don't hold, and one that 32 don't, where memory has room for it.
here=$room/large
mkdir "$here"
printf 'abcdefgh' > "$here/small"
truncate -s 2097157 "$here/large"
row "a file of more than 2 MiB, read" 0 '  file large: 2097157\n  file small: 8\n  no journal\n' '' show
if [ "$(awk '/^MemAvailable:/ { print $2 }' /proc/meminfo)" -gt 12582912 ]; then
    truncate -s 4294967301 "$here/large"
    row "a file of more than 4 GiB, read" 0 '  file large: 4294967301\n  file small: 8\n  no journal\n' '' \
        show
else
    echo "row a file of more than 4 GiB, read: left out, since there is no memory for it"
fi

here=$room/room
mkdir "$here"
head -c 4000 /dev/zero > "$here/small"
row "no room for the index, before" 0 '  file small: 4000\n  no journal\n' '' show
row "no room for the index, a create" 6 '' 'par2: a file could not be read or written\n' \
    short_of_room par2 create -s4 -c0 t.par2 small
row "no room for the index, a create is halfway" 0 '  file small: 4000\n  journal: 89\n' '' show
row "no room for the index, the next run" 9 '' 'par2: nothing to undo\n' par2 undo
row "no room for the index, the create is taken back" 0 '  file small: 4000\n  journal: 57\n' '' show
answer "room for the index, a create" 0 'write t.par2\ndone: 1\n' '' par2 create -s4 -c0 t.par2 small
row "no room for the journal, an undo" 6 '' 'par2: a file could not be read or written\n' short_of_room par2 undo
row "no room for the journal, afterwards" 0 '  file small: 4000\n  file t.par2: 20384\n  journal: 73\n' '' show
answer "room for the journal, an undo" 0 'remove t.par2\ndone: 1\n' '' par2 undo
answer "room for the index, a redo" 0 'write t.par2\ndone: 1\n' '' par2 redo

printf 'no journal' > "$here/.par2undo"
row "a journal that is none, an undo" 9 '' 'par2: the journal is not valid\n' par2 undo
row "a journal that is none, afterwards" 0 '  file small: 4000\n  file t.par2: 20384\n  journal: 10\n' '' show
rm "$here/.par2undo"
row "a journal that was deleted, an undo" 9 '' 'par2: nothing to undo\n' par2 undo
row "a journal that was deleted, afterwards" 0 '  file small: 4000\n  file t.par2: 20384\n  no journal\n' '' show

# Words that aren't UTF-8, and an error output that takes nothing.
unspoken() {
    "$@" 2> /dev/full
}
latin=$(printf 'caf\351')
usage='par2: usage: par2 create -sN -cN [-fN] [--overwrite] BASE.par2 FILE.. | verify BASE [FILE..] | repair [-p] BASE [FILE..] | purge BASE | undo | redo\n'
for words in "$latin" "verify $latin" "create -s4 -c0 u.par2 small $latin" "undo $latin"; do
    # shellcheck disable=SC2086
    row "a word that isn't UTF-8, as one of $(echo "$words" | wc -w)" 3 '' "$usage" par2 $words
    # shellcheck disable=SC2086
    row "the same with the error output full" 6 '' '' unspoken par2 $words
done
row "a refusal with the error output full" 6 '' '' unspoken par2 verify none.par2

# The output takes nothing: it is full, or closed. What a command did stays, and the next command shows it.
full() {
    "$@" > /dev/full
}
closed() {
    "$@" >&-
}
# stays OUTPUT COMMAND..: the command and what it left, once with an output that is full and once with one that is closed.
stays() {
    left=$1
    shift
    for output in full closed; do
        rm -rf "$here"
        cp -R "$room/begun" "$here"
        answer "$1 with the output $output" 6 '' '' $output par2 "$@"
        answer "$1 with the output $output, what it left" 0 "$left" '' show
    done
}
here=$room/unprinted
begun() {
    mkdir "$room/begun"
    printf 'abcdefgh' > "$room/begun/a"
    (cd "$room/begun" && for words in "$@"; do
        # shellcheck disable=SC2086
        par2 $words > /dev/null
    done)
}
begun
stays '  file a: 8\n  file t.par2: 420\n  file t.vol00000+00001.par2: 492\n  journal: 96\n' create -s4 -c1 t.par2 a
rm -r "$room/begun"
begun 'create -s4 -c1 t.par2 a'
stays '  file a: 8\n  file t.par2: 420\n  file t.vol00000+00001.par2: 492\n  journal: 96\n' verify t.par2
stays '  file a: 8\n  journal: 1024\n' undo
stays '  file a: 8\n  journal: 1063\n' purge t.par2
printf 'abcdef' > "$room/begun/a"
stays '  file a: 8\n  file a.1: 6\n  file t.par2: 420\n  file t.vol00000+00001.par2: 492\n  journal: 75\n' repair t.par2
rm -r "$room/begun"
begun 'create -s4 -c1 t.par2 a' undo
stays '  file a: 8\n  file t.par2: 420\n  file t.vol00000+00001.par2: 492\n  journal: 96\n' redo

# The greatest slice: a file of 2^30 bytes as one slice, with a recovery slice of as many.
here=$room/slice
mkdir "$here"
if [ "$(awk '/^MemAvailable:/ { print $2 }' /proc/meminfo)" -gt 6291456 ] \
    && [ "$(df -Pk "$room" | awk 'NR == 2 { print $4 }')" -gt 2097152 ]; then
    truncate -s 1073741824 "$here/a"
    answer "a slice of 2^30 bytes, a create" 0 'write t.par2\nwrite t.vol00000+00001.par2\ndone: 2\n' '' \
        par2 create -s1073741824 -c1 t.par2 a
    [ "$(wc -c < "$here/t.vol00000+00001.par2")" -eq 1073742292 ]
else
    echo "row a slice of 2^30 bytes: left out, since there is no memory or no disk for it"
fi
rm -r "$here"
