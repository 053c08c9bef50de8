#!/bin/sh
# Builds the program, and puts it, its man page and its completions in their places; or removes them.
# usage: install.sh [CPU]       CPU as in tools/build.sh; without it, what the machine's processor has
#        install --remove
# The environment says where: PREFIX, below DESTDIR if that is there, and NAME, that of the program and its page, par2
# without it. ZSH_FUNCTIONS is the folder for zsh's completion, if it isn't PREFIX/share/zsh/site-functions.
set -eu
cd "$(dirname "$0")/.."
name=${NAME:-par2}
case $name in
[!a-zA-Z0-9]* | *[!a-zA-Z0-9._+-]*)
    echo "NAME=$name: a program's name begins with a letter or digit, and goes on with letters, digits and . _ + -" >&2
    exit 1
    ;;
esac
top=${DESTDIR:-}${PREFIX:?PREFIX says below which folder}
program=$top/bin/$name
page=$top/share/man/man1/$name.1
bash=$top/share/bash-completion/completions/$name
zsh=${DESTDIR:-}${ZSH_FUNCTIONS:-$PREFIX/share/zsh/site-functions}/_$name
fish=$top/share/fish/vendor_completions.d/$name.fish

if [ "${1:-}" = --remove ]; then
    for file in "$program" "$page" "$bash" "$zsh" "$fish"; do
        [ ! -e "$file" ] || rm -v -- "$file"
    done
    exit 0
fi

cpu=${1:-}
if [ -z "$cpu" ]; then
    cpu=$(sh tools/processor.sh)
    echo "This machine's processor is $cpu, or more: CPU=x86-64-v2 builds for all that have SSE 4.2."
fi
room=$(mktemp -d)
trap 'rm -rf "$room"' EXIT
sh tools/build.sh "$cpu" | tee "$room/built"
built=$(tail -n 1 "$room/built")

# put MODE FROM TO
put() {
    install -D -m "$1" "$2" "$3"
    echo "installed $3"
}

# named FROM TO: a completion, in which the line that names the program names it so.
named() {
    sed "/^#compdef\\|^complete -F\\|^set -l program/s/ par2\$/ $name/" "completions/$1" > "$room/completion"
    put 644 "$room/completion" "$2"
}

# (tee hides the status of a build)
[ -x "$built" ]
put 755 "$built" "$program"
sh tools/page.sh "$name" > "$room/page"
put 644 "$room/page" "$page"
named par2.bash "$bash"
named par2.zsh "$zsh"
named par2.fish "$fish"
