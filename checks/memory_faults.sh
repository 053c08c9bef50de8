#!/bin/sh
# Out of memory is reported only where an allocation failed. No contract can say that, because a true fault reported as
# Memory would meet it. In the crates that the program is made of, an AllocError comes from the library, and each
# `Memory` of a fault is made from one by `From`, or by an arm or a closure. The pattern of these is AllocError,
# AllocFailed, the `Memory` of another fault, or an error's OutOfMemory, and so is each part of a pattern that has several.
# Prints each line that makes one otherwise, and fails if there is any.
set -eu
cd "$(dirname "$0")/.."

# The crates that the program is made of.
crates() {
    awk '
        /^#/ || NF == 0 { next }
        { name = $1; sub(/:$/, "", name); $1 = ""; needs[name] = $0 }
        END {
            open[1] = "par2"
            for (k = last = 1; k <= last; k++) {
                if (seen[open[k]]++ || !(open[k] in needs)) continue
                print open[k]
                count = split(needs[open[k]], below, " ")
                for (i = 1; i <= count; i++) open[++last] = below[i]
            }
        }' crates.txt
}

# The lines of the sources that make one out of something else.
made_otherwise() {
    find "$@" -name '*.rt' -exec awk '
        # Whether each part of an arm is one of the patterns. The bars of a closure separate nothing.
        function is_right(pattern,    count, parts, i) {
            if (pattern !~ /=>/) return pattern ~ right
            count = split(pattern, parts, "|")
            for (i = 1; i <= count; i++) if (parts[i] !~ right && parts[i] !~ /^[[:space:]]*$/) return 0
            return 1
        }
        BEGIN { right = "AllocError|AllocFailed|::Memory|OutOfMemory" }
        FNR == 1 { in_use = in_from = 0; above = parts_above = "" }
        { line = $0; sub(/\/\/.*/, "", line) }
        line ~ /^[[:space:]]*(pub )?use / { in_use = 1 }
        in_use { in_use = line !~ /;/; next }
        line ~ /^impl.* From<Alloc(Error|Failed<T>)> for / { in_from = 1 }
        line ~ /^}/ { in_from = 0 }
        line ~ /^[[:space:]]*$/ { next }
        {
            # The parts of a pattern whose last one is on this line.
            parts = line ~ /^[[:space:]]*\| / ? parts_above above : ""
            # The pattern is before the arrow or between the bars, on this line or at the end of the one above.
            pattern = above ~ /(=>|\|)( [({])?$/ ? parts_above above : ""
            made = line
            if (match(line, /.*=>|\|[^|]+\|/)) {
                pattern = parts substr(line, 1, RSTART + RLENGTH - 1)
                made = substr(line, RSTART + RLENGTH)
            }
            above = line
            parts_above = parts
            # Types name AllocError too.
            gsub(/<AllocError>|, (E = )?AllocError>|: AllocError\)/, "", made)
            if (made !~ /::Memory|AllocError/ || in_from) next
            if (is_right(pattern)) next
            print FILENAME ":" FNR ": " $0
        }' {} +
}

found=$(made_otherwise $(crates | sed 's,.*,crates/&/src,'))
if [ -n "$found" ]; then
    echo "Memory is answered where no growth was refused:"
    echo "$found"
    exit 1
fi
echo "Memory is answered only where memory is out"
