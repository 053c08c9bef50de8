#!/bin/sh
# Builds a library that a program loads before its own, with the toolchain's C compiler.
# usage: build.sh NAME TO     NAME.c is the source beside this script, and TO the library
set -eu
clang=$(dirname "$(rt doc)")/toolchain/bin/clang
exec "$clang" -shared -fPIC -O2 -nostdlib -o "$2" "$(dirname "$0")/$1.c"
