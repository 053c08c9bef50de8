#!/bin/sh
# Draws the pictures of docs/ from the files beside them, by gnuplot and dot if these are installed: ratios.svg from
# ratios.txt, growth.svg from growth.txt (which `make bench` writes), and map.svg from map.dot and crates.txt.
# usage: pictures.sh
set -eu
cd "$(dirname "$0")/../docs"

# is_there COMMAND: says so if a command is not installed.
is_there() {
    command -v "$1" > /dev/null 2>&1 || {
        echo "the command $1 is not there, so what it draws stays as it is"
        return 1
    }
}

# lighter FILE: an SVG without the parts that no viewer needs.
lighter() {
    grep -vE '^ *(<!--.*-->)?$' "$1" | sed -E 's/ (fill-opacity|stroke-opacity) *= *"1\.0*"//g' > "$1.new"
    mv "$1.new" "$1"
    echo "docs/$1"
}

if is_there dot; then
    python3 ../tools/map.py | dot -Tsvg > map.svg
    lighter map.svg
fi
if is_there gnuplot; then
    for picture in ratios growth; do
        if [ -f "$picture.txt" ]; then
            gnuplot "$picture.gp" > "$picture.svg"
            lighter "$picture.svg"
        fi
    done
fi
