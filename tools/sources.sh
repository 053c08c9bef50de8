#!/bin/sh
# Prints a checksum of what the program is made of: the toolchain's version, the list of crates, and each source.
set -eu
cd "$(dirname "$0")/.."
{
    rt version
    cat crates.txt HANDLES
    find crates -name out -prune -o -type f \( -name '*.rt' -o -name '*.antt' \) -print | LC_ALL=C sort |
        xargs sha256sum
} | sha256sum | cut -d ' ' -f 1
