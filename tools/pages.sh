#!/bin/sh
# Compares the parts of the pages that commands print (--check), or writes them (--write).
# usage: pages.sh --check | --write
set -eu
cd "$(dirname "$0")/.."
# The version is that of the changelog's first entry, and the man page has both with the day.
version=$(cat VERSION)
day=$(sed -n '/^## [0-9]/ { s/^## '"$version"' (\(.*\))$/\1/p; q; }' CHANGELOG.md)
[ "$(head -n 1 docs/par2.1)" = ".TH PAR2 1 $day \"par2 $version\" \"User commands\"" ] || {
    echo "VERSION, the first entry of CHANGELOG.md and the first line of docs/par2.1 name different versions or days"
    exit 1
}
python3 tools/map.py --check
python3 tools/named.py
python3 tools/prove.py --minutes "$1" README.md
python3 tools/reading_list.py "$1" docs/PROMISES.md
python3 tools/tests_table.py "$1" docs/CHANGING.md
python3 bench/page.py "$1"
