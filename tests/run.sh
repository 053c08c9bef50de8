#!/bin/sh
# The whole test command: the gate, then what else must hold. The last line is 'N passed, M failed'.
set -eu
cd "$(dirname "$0")/.."
sh checks/memory_faults.sh
python3 checks/duplicate_lemmas.py
sh tools/pages.sh --check
log=$(mktemp)
clock=
trap 'rm -f "$log"; [ -z "$clock" ] || kill "$clock" 2> /dev/null || true' EXIT

# Each check takes one processor, and there are as many at a time as processors, and as memory holds at 5 GB each: a
# check that several processors share takes more of them together.
room=$(awk '/^MemAvailable/ { print int($2 / 5000000) }' /proc/meminfo)
lanes=$(nproc)
[ "$lanes" -le "$room" ] || lanes=$room
[ "$lanes" -ge 1 ] || lanes=1

status=0
python3 tools/gate_clock.py "$log" "$lanes" &
clock=$!
RT_JOBS=$lanes rt ci > "$log" 2>&1 || status=$?
kill "$clock" 2> /dev/null || true
if [ "$status" -ne 0 ]; then
    cat "$log"
    exit "$status"
fi
sed '$d' "$log"
# The gate has left the programs that it built, so `make demo` and `make install` need not build again.
sh tools/sources.sh > crates/par2/out/par2.sources
# What follows needs one processor at a time, so the rows for wider lanes are built and run beside it. On the
# processors that are left, each function that an edit changes is shown to be refused by a goal of its own.
wide=$(mktemp)
bodies=$(mktemp)
trap 'rm -f "$log" "$wide" "$bodies"' EXIT
python3 tests/avx2.py > "$wide" 2>&1 &
rows=$!
RT_JOBS=$((lanes > 2 ? lanes - 1 : 1)) nice python3 checks/wrong_bodies.py --together > "$bodies" 2>&1 &
edits=$!
python3 checks/assumed.py --check docs/PROMISES.md
sh tests/odd_folders.sh
python3 tests/readme.py
python3 tests/commands/run.py
# The same over the program as the toolchain's own compiler makes it, where it does.
[ ! -x crates/par2/out/par2.by-rattle ] || python3 tests/commands/run.py crates/par2/out/par2.by-rattle
python3 tests/out_of_memory.py
python3 tests/calls_out_of_memory.py
python3 tests/forged_claims.py
sh tests/obstacles.sh
sh tests/stops.sh
python3 tests/cuts.py
python3 tests/two_runs.py
sh tests/interop.sh
sh tests/installed.sh
wait "$rows" || status=$?
cat "$wide"
[ "$status" -eq 0 ]
if wait "$edits"; then
    tail -n 1 "$bodies"
else
    cat "$bodies"
    exit 1
fi
# That program is left for `make install` too.
[ ! -x crates/par2/out/par2-x86-64-v3 ] || cp crates/par2/out/par2.sources crates/par2/out/par2-x86-64-v3.sources
# The gate's own count is the last line, and there is one.
tail -n 1 "$log"
tail -n 1 "$log" | grep -qE '^[0-9]+ passed, 0 failed$'
