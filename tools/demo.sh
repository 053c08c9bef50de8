#!/bin/sh
# Protects a real file in a fresh folder, damages it, verifies and repairs it, undoes and redoes the repair, purges, and
# goes back to the first folder; and shows each command with what it prints.
# usage: demo.sh PROGRAM
set -eu
program=$1
room=$(mktemp -d)
trap 'rm -rf "$room"' EXIT
mkdir "$room/here"
cd "$room/here"

# A file of some 200 KiB: the numbers from 1 on, a line each.
awk 'BEGIN { for (i = 1; i <= 33333; i++) print i }' > numbers.txt

# show STATUS WORD..: runs the program with these words, which has to end with this status.
show() {
    wanted=$1
    shift
    echo "\$ par2 $*"
    status=0
    "$program" "$@" 2>&1 || status=$?
    echo "(status $status)"
    echo
    [ "$status" -eq "$wanted" ]
}

# lose PLACE: overwrites bytes of the file at this place.
lose() {
    printf 'lost' | dd of=numbers.txt bs=1 seek="$1" conv=notrunc status=none
}

show 0 create -s4096 -c10 numbers.par2 numbers.txt
ls -lA
echo
show 0 verify numbers.par2
cp numbers.txt ../whole.txt
echo "Two slices of the file are overwritten: the recovery slices can give them back."
lose 100000
lose 150000
cp numbers.txt ../damaged.txt
show 1 verify numbers.par2
echo "A repair puts the damaged file aside and writes the file again. Each byte is as it was."
show 0 repair numbers.par2
cmp ../whole.txt numbers.txt
cmp ../damaged.txt numbers.txt.1
ls -lA
echo
show 0 verify numbers.par2
echo "The history is kept in .par2undo, so a later run takes the repair back, and another one does it again."
show 0 undo
cmp ../damaged.txt numbers.txt
show 0 redo
cmp ../whole.txt numbers.txt
echo "The file is removed: ten recovery slices can't give back 47 slices. A file of another name that holds it can."
show 0 undo
mv numbers.txt ../lost.txt
show 2 verify numbers.par2
show 2 repair numbers.par2
cp ../whole.txt copy-of-numbers
show 1 verify numbers.par2 copy-of-numbers
show 0 repair -p numbers.par2 copy-of-numbers
cmp ../whole.txt numbers.txt
ls -lA
echo
echo "With -p the volumes, which are no more needed, are gone too. All of that is taken back by one undo."
show 0 undo
ls -lA
echo
rm copy-of-numbers
cp ../damaged.txt numbers.txt
if command -v par2verify > /dev/null 2>&1; then
    peer() {
        echo "\$ $*    (par2cmdline, the peer)"
        "$@"
        echo
    }
    echo "The file is damaged as before, and the peer rebuilds it from our recovery slices."
    peer par2repair -q numbers.par2
    cmp ../whole.txt numbers.txt
    show 0 verify numbers.par2
    echo "The other way round: the peer's volumes of three files, of which one is then cut, one renamed, one removed."
    mkdir ../peer
    cd ../peer
    for file in one two three; do
        awk -v name="$file" 'BEGIN { for (i = 1; i <= 5000; i++) print name, i }' > "$file"
    done
    peer par2create -q -q -s4096 -c30 set.par2 one two three
    mkdir ../kept
    cp one two three ../kept
    head -c 30000 ../kept/one > one
    mv two other
    rm three
    show 1 verify set.par2 other
    show 0 repair set.par2 other
    for file in one two three; do
        cmp "../kept/$file" "$file"
    done
    show 0 purge set.par2
    ls -lA
else
    echo "par2cmdline is not installed, so its verify and repair are left out."
fi
