#!/bin/sh
# Prints the widest level of x86-64 for which the toolchain builds and which this machine's processor has: x86-64-v3, or
# else x86-64-v2, which is the least that the program needs. If the processor is unknown, it is x86-64-v2.
# usage: processor.sh [FILE]     FILE says what the processor has, as /proc/cpuinfo does
set -eu
file=${1:-/proc/cpuinfo}

# has FLAG..: whether the first processor of the file has these (abm is what Linux calls LZCNT).
has() {
    flags=$(sed -n 's/^flags[^:]*:\(.*\)/\1 /p' "$file" 2> /dev/null | head -n 1)
    for flag in "$@"; do
        case $flags in *" $flag "*) ;; *) return 1 ;; esac
    done
}

if has avx avx2 bmi1 bmi2 f16c fma abm movbe xsave; then
    echo x86-64-v3
else
    echo x86-64-v2
fi
