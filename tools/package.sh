#!/bin/sh
# Builds a Debian package of the program in out/, and prints its path as the last line. The package and its program are
# called par2undo: Debian's package par2 is par2cmdline, whose program par2 takes other words, on which other packages
# rely. So both can be installed. A package whose program has the NAME par2 conflicts with Debian's.
# usage: package.sh [CPU [NAME]]     CPU as in tools/build.sh
set -eu
cd "$(dirname "$0")/.."
cpu=${1:-x86-64-v2}
package=par2undo
name=${2:-$package}
maintainer="Tillerapple maintainers <maintainers@users.noreply.tillerapple.example>"
version=$(cat VERSION)
if ! command -v dpkg-deb > /dev/null 2>&1; then
    echo "the command dpkg-deb is not there" >&2
    exit 1
fi
room=$(mktemp -d)
trap 'rm -rf "$room"' EXIT
root=$room/root
documents=$root/usr/share/doc/$package
mkdir -p "$root/DEBIAN" "$documents"
chmod 755 "$root"

PREFIX=/usr DESTDIR=$root NAME=$name ZSH_FUNCTIONS=/usr/share/zsh/vendor-completions sh tools/install.sh "$cpu"
# (with its symbols: it is, byte for byte, the program that was tested)
program=$root/usr/bin/$name
gzip -9n "$root/usr/share/man/man1/$name.1"

{
    echo "Format: https://www.debian.org/doc/packaging-manuals/copyright-format/1.0/"
    echo "Upstream-Name: par2"
    echo
    echo "Files: *"
    sed -n 's/^Copyright (c) /Copyright: /p' LICENSE
    echo "License: Expat"
    sed '1,/^Copyright/d' LICENSE | sed '/./,$!d; s/^$/./; s/^/ /'
    echo "Comment: This is the MIT licence, as the file LICENSE of the sources has it."
} > "$documents/copyright"

# The versions of CHANGELOG.md in Debian's form, the newest first.
awk -v package="$package" -v maintainer="$maintainer" '
    function end() { if (day != "") printf "\n -- %s  %s\n", maintainer, day }
    /^## [0-9]/ {
        if (day != "") { end(); print "" }
        version = $2
        day = $3
        gsub(/[()]/, "", day)
        command = "LC_ALL=C date -u -R -d " day
        command | getline day
        close(command)
        printf "%s (%s) unstable; urgency=medium\n\n", package, version
    }
    /^- / && day != "" { sub(/^- /, "  * "); print; next }
    /^  / && day != "" { print "  " $0 }
    END { end() }' CHANGELOG.md > "$documents/changelog"
released=$(sed -n 's/^ -- .*>  //p' "$documents/changelog" | head -n 1)
gzip -9n "$documents/changelog"

(cd "$root" && find usr -type f | LC_ALL=C sort | xargs -d '\n' md5sum > DEBIAN/md5sums)
# In KiB, each file and folder rounded up.
size=$(find "$root/usr" -printf '%y %s\n' | awk '{ sum += $1 == "f" ? int(($2 + 1023) / 1024) : 1 } END { print sum }')
# What it needs of the C library, by the versions of the symbols that it names.
glibc=$(grep -ao 'GLIBC_2\.[0-9.]*' "$program" | sed 's/GLIBC_//' | sort -uV | tail -n 1)
{
    echo "Package: $package"
    echo "Version: $version"
    echo "Architecture: amd64"
    echo "Maintainer: $maintainer"
    echo "Installed-Size: $size"
    echo "Depends: libc6 (>= ${glibc:-2.17})"
    if [ "$name" = par2 ]; then
        echo "Conflicts: par2"
        echo "Replaces: par2"
    fi
    echo "Section: utils"
    echo "Priority: optional"
    echo "Description: protect files with PAR2 recovery volumes, with undo and redo"
    echo " Creates recovery volumes for the files of a folder, verifies, and repairs"
    echo " damaged, lost or renamed files by them. Sets go both ways between it and other"
    echo " PAR2 programs. Each create, repair and purge can be undone and redone, in a"
    echo " later run too. Each function is proved to do what its contract says."
    echo " ."
    echo " The program is called $name. It is built for $cpu."
} > "$root/DEBIAN/control"

# The same sources give the same bytes.
SOURCE_DATE_EPOCH=$(date -u -d "$released" +%s)
export SOURCE_DATE_EPOCH
mkdir -p out
made=out/${package}_${version}_amd64.deb
dpkg-deb --root-owner-group --build "$root" "$made" > /dev/null
echo "$made"
