#!/bin/sh
# Installs the program by make under two names and as a Debian package, runs it, and removes it. Each is below a folder of
# its own; the package is left out where there is no dpkg. Tries the completions in a bash, and in a zsh and a fish where
# these are there. Ends with status 1 at the first fault.
set -eu
cd "$(dirname "$0")/.."
room=$(mktemp -d)
trap 'rm -rf "$room"' EXIT
version=$(cat VERSION)

# fail WORD..: says what is not as it must be, and ends.
fail() {
    echo "installed: $*" >&2
    exit 1
}

# answers PROGRAM WORD..: the program ends with status 0 in the present folder, or its output is shown.
answers() {
    "$@" > "$room/said" 2>&1 || {
        cat "$room/said"
        fail "$*"
    }
}

# works PROGRAM: a file is protected, damaged, repaired, and that undone and redone.
works() {
    rm -rf "$room/here"
    mkdir "$room/here"
    (
        cd "$room/here"
        printf 'the first of two files\n' > one
        printf 'the second of two files\n' > two
        cp one ../whole
        answers "$1" create -s8 -c4 set.par2 one two
        answers "$1" verify set.par2
        printf 'THE' | dd of=one conv=notrunc status=none
        answers "$1" repair set.par2
        cmp one ../whole
        answers "$1" undo
        ! cmp -s one ../whole || fail "$1 undo"
        answers "$1" redo
        cmp one ../whole
    )
}

# page FILE NAME: the page is of that name and version.
page() {
    text=$(case $1 in *.gz) gzip -dc "$1" ;; *) cat "$1" ;; esac)
    capitals=$(echo "$2" | tr '[:lower:]' '[:upper:]')
    case $text in ".TH $capitals 1 "*"\"$2 $version\" "*) ;; *) fail "$1: its first line" ;; esac
    case $text in *"\\fB$2 create\\fR"*) ;; *) fail "$1: no command $2 create" ;; esac
    if command -v groff > /dev/null 2>&1; then
        warned=$(echo "$text" | groff -man -Tutf8 -ww -z 2>&1)
        [ -z "$warned" ] || fail "$1: $warned"
    fi
}

# completed FILE NAME WORD..: the lines that bash completes the last word to, sorted, in the folder `tab`.
completed() {
    (
        cd "$room/tab"
        bash --norc --noprofile -c '
            source "$1"
            program=$2
            shift 2
            COMP_WORDS=("$program" "$@") COMP_CWORD=$#
            at=$(complete -p "$program" | sed "s/.* -F \([^ ]*\) .*/\1/")
            "$at" "$program" "${!#}"
            printf "%s\n" "${COMPREPLY[@]}" | LC_ALL=C sort' bash "$@"
    )
}

# completes FILE NAME WANTED WORD..: the completion is WANTED, its words joined by blanks.
completes() {
    file=$1
    name=$2
    wanted=$3
    shift 3
    found=$(completed "$file" "$name" "$@" | paste -sd ' ')
    [ "$found" = "$wanted" ] || fail "$file: $name $*: '$found', and not '$wanted'"
}

# bash_completes FILE NAME
bash_completes() {
    completes "$1" "$2" "create purge redo repair undo verify" ""
    completes "$1" "$2" "redo repair" re
    completes "$1" "$2" "--overwrite -c -f -s" create -
    completes "$1" "$2" "--overwrite" create --
    completes "$1" "$2" "-p" repair -
    completes "$1" "$2" "" verify -
    completes "$1" "$2" "other.par2 set.par2" verify ""
    completes "$1" "$2" "set.par2" create -s8 -c4 s
    completes "$1" "$2" "a photo.jpg notes other.par2 set.par2" create -s8 set.par2 ""
    completes "$1" "$2" "a photo.jpg" repair -p set.par2 a
    completes "$1" "$2" "" purge set.par2 ""
    completes "$1" "$2" "" undo ""
}

# typed FILE NAME: the same by a bash that has a terminal, and the key for it.
typed() {
    (cd "$room/tab" && python3 - "$1" "$2") << 'END' || fail "$1: nothing is completed at a terminal"
import os, pty, select, sys, time
file, name = sys.argv[1:]
child, terminal = pty.fork()
if not child:
    os.environ.update(PS1="> ", TERM="dumb", HISTFILE="")
    os.execvp("bash", ["bash", "--norc", "--noprofile", "-i"])
os.write(terminal, f"{name}() {{ echo \"<$1|$2|$3>\"; }}; source '{file}'\n{name} ver\to\ta\t\n".encode())
said, end = "", time.time() + 20
while "<verify|other.par2|a photo.jpg>" not in said and time.time() < end:
    if select.select([terminal], [], [], 0.5)[0]:
        said += os.read(terminal, 4096).decode(errors="replace")
os.write(terminal, b"\nexit\n")
if "<verify|other.par2|a photo.jpg>" not in said:
    sys.exit(said)
END
}

# other_shells FOLDER NAME: a zsh and a fish read their files.
other_shells() {
    zsh=$(find "$1" -name "_$2")
    fish=$(find "$1" -name "$2.fish")
    if command -v zsh > /dev/null 2>&1; then
        zsh -n "$zsh" || fail "$zsh"
    fi
    if command -v fish > /dev/null 2>&1; then
        found=$(cd "$room/tab" && HOME=$room fish --no-config -c "source '$fish'; complete -C '$2 re'" | cut -f 1 | sort | paste -sd ' ')
        [ "$found" = "redo repair" ] || fail "$fish: '$found'"
        found=$(cd "$room/tab" && HOME=$room fish --no-config -c "source '$fish'; complete -C '$2 purge s'" | cut -f 1 | paste -sd ' ')
        [ "$found" = set.par2 ] || fail "$fish: '$found'"
    fi
}

# empty FOLDER: no file is left below it, but for those in which dpkg keeps its lists.
empty() {
    left=$(find "$1" -path "$1/var" -prune -o ! -type d -print)
    [ -z "$left" ] || fail "after it was removed there is $left"
}

mkdir "$room/tab"
touch "$room/tab/set.par2" "$room/tab/other.par2" "$room/tab/notes" "$room/tab/a photo.jpg"
for name in par2 par2undo; do
    root=$room/$name
    make -s install CPU=x86-64-v2 PREFIX=/usr/local DESTDIR="$root" NAME=$name > "$room/said"
    works "$root/usr/local/bin/$name"
    page "$root/usr/local/share/man/man1/$name.1" $name
    bash_completes "$root/usr/local/share/bash-completion/completions/$name" $name
    typed "$root/usr/local/share/bash-completion/completions/$name" $name
    other_shells "$root" $name
    make -s uninstall PREFIX=/usr/local DESTDIR="$root" NAME=$name > "$room/said"
    empty "$root"
done
echo "installed, run, completed and removed: par2, par2undo"

if ! command -v dpkg > /dev/null 2>&1; then
    echo "no package is built: dpkg is not there"
    exit 0
fi
sh tools/package.sh x86-64-v2 > "$room/said"
package=$PWD/$(tail -n 1 "$room/said")
root=$room/root
mkdir -p "$root/var/lib/dpkg/info" "$root/var/lib/dpkg/updates" "$root/var/lib/dpkg/triggers"
touch "$root/var/lib/dpkg/status" "$root/var/lib/dpkg/available"
# dpkg over a root of its own, which has no C library in its list, and no superuser needs to write it.
manage() {
    as=
    [ "$(id -u)" -eq 0 ] || as=fakeroot
    $as dpkg --root="$root" --force-not-root,depends,bad-path --log="$room/log" "$@" > "$room/said" 2>&1 || {
        cat "$room/said"
        fail "dpkg $*"
    }
}
if [ "$(id -u)" -ne 0 ] && ! command -v fakeroot > /dev/null 2>&1; then
    echo "the package is built, and not installed: that takes the superuser, or fakeroot"
    exit 0
fi
manage --install "$package"
manage --listfiles par2undo
grep -qx /usr/bin/par2undo "$room/said" || fail "the package has no program"
works "$root/usr/bin/par2undo"
page "$root/usr/share/man/man1/par2undo.1.gz" par2undo
bash_completes "$root/usr/share/bash-completion/completions/par2undo" par2undo
gzip -dc "$root/usr/share/doc/par2undo/changelog.gz" | grep -q "^par2undo ($version) " || fail "its changelog"
grep -q "^License: Expat" "$root/usr/share/doc/par2undo/copyright" || fail "its copyright"
manage --remove par2undo
manage --purge par2undo
empty "$root"
echo "installed as a package, run and removed: par2undo $version"
