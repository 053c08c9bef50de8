#!/bin/sh
# Stops a run at its first call that changes, syncs or opens the folder, then at its second, and so on. It ends by
# SIGKILL before the call, after it or in the middle of a write, or the call fails. What undos and redos then lead to
# is what they lead to from the folder before the run, or from the folder after it, and nothing else is left over.
set -eu
cd "$(dirname "$0")/.."
par2=$PWD/crates/par2/out/par2
room=$(mktemp -d)
trap 'rm -rf "$room"' EXIT
sh tests/preload/build.sh stop_calls "$room/stop.so"

# More calls than any of these runs makes.
most=1000

# The folder that each run finds.
mkdir "$room/found"
printf 'abcdefgh' > "$room/found/aa"
printf 'ijklmnopqrst' > "$room/found/bb"

# before WORD..: a run in that folder, which is not stopped.
before() {
    (cd "$room/found" && "$par2" "$@") > "$room/said"
}

# step WORD..: a run in the folder `here`: what it prints, its status, and the files after it.
step() {
    status=0
    (cd "$room/here" && "$par2" "$@") 2>&1 || status=$?
    echo "status $status"
    (cd "$room/here" && find . -type f ! -name '.par2undo*' -exec cksum {} +) | LC_ALL=C sort -k 3
}

# walk FILE: undoes and redoes what can be, all of it, and creates one more set; the steps go to the file.
walk() {
    {
        for way in undo redo; do
            status=0
            while [ "$status" -eq 0 ]; do
                step "$way"
            done
        done
        step create -s4 -c1 last.par2 bb
    } > "$1"
    if [ -e "$room/here/.par2undo.tmp" ]; then
        echo "a file of the journal is left over" >> "$1"
    fi
}

# here: a fresh copy of the folder that each run finds.
here() {
    rm -rf "$room/here"
    cp -R "$room/found" "$room/here"
}

# run NUMBER HOW WORD..: a run in such a copy, stopped at the call of that number, if there is one: then a byte goes to
# `reached`. Its output goes to `told`.
run() {
    number=$1
    how=$2
    shift 2
    here
    status=0
    (cd "$room/here" && STOPPED=$number HOW=$how LD_PRELOAD=$room/stop.so "$par2" "$@") \
        > "$room/told" 2>&1 9> "$room/reached" || status=$?
}

# A run that was stopped is reported as such, if it isn't killed.
is_told() {
    if [ "$status" -ne 6 ] || ! grep -qx 'par2: a file could not be read or written' "$room/told"; then
        echo "a failing call: status $status"
        cat "$room/told"
        exit 1
    fi
}

# stop_each NAME WORD..: stops a run at each call, in each way.
stop_each() {
    name=$1
    shift
    here
    walk "$room/walk.before"
    here
    (cd "$room/here" && "$par2" "$@") > /dev/null 2>&1 || true
    walk "$room/walk.after"
    stops=0
    for how in before behind middle EIO ENOSPC; do
        for number in $(seq "$most"); do
            run "$number" "$how" "$@" 2> /dev/null
            [ -s "$room/reached" ] || break
            case $how in E*) is_told ;; esac
            walk "$room/walk"
            if ! cmp -s "$room/walk" "$room/walk.before" && ! cmp -s "$room/walk" "$room/walk.after"; then
                echo "$name, stopped $how call $number: what follows is neither that from before nor that from after"
                diff "$room/walk.before" "$room/walk" || true
                exit 1
            fi
            stops=$((stops + 1))
        done
    done
    if [ -s "$room/reached" ] || [ "$stops" -eq 0 ]; then
        echo "stops of $name: they came to no end, or there was none"
        exit 1
    fi
    echo "stops of $name: $stops, each as if it had not begun or was done"
}

stop_each "a first create" create -s4 -c3 t.par2 aa bb
before create -s4 -c3 t.par2 aa bb
stop_each "a create that overwrites" create -s4 -c2 --overwrite t.par2 aa bb
# Another hand changes the files: what it finds is the begin of a new history.
printf 'abcdxfgh' > "$room/found/aa"
rm "$room/found/.par2undo"
stop_each "a repair" repair t.par2
stop_each "a repair that purges" repair -p t.par2
mv "$room/found/bb" "$room/found/cc"
mv "$room/found/aa" "$room/found/bb"
printf 'abcdefgh' > "$room/found/aa"
stop_each "a repair by a match" repair t.par2 cc
before repair t.par2 cc
stop_each "an undo of a repair" undo
stop_each "a purge" purge t.par2
before purge t.par2
stop_each "an undo of a purge" undo
before undo
stop_each "a redo of a purge" redo
# A run that finds a stopped command takes it back first: it is stopped too. This redo is stopped after its first
# removal.
for number in $(seq "$most"); do
    run "$number" before redo 2> /dev/null
    [ -e "$room/here/t.par2" ] || break
done
if [ ! -s "$room/reached" ] || [ ! -e "$room/here/t.vol00001+00002.par2" ]; then
    echo "the redo was not stopped among its changes"
    exit 1
fi
rm -rf "$room/found"
mv "$room/here" "$room/found"
stop_each "an undo that takes a stopped redo back" undo
