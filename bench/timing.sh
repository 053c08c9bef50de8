# What the benchmarks here share, each of which reads it: a room in memory, the least time of a few runs, and folders that
# are damaged and come back.
clock=$(cd "$(dirname "$0")" && pwd)/clock.py
shm=/dev/shm
[ -d "$shm" ] || shm=${TMPDIR:-/var/tmp}
room=$(mktemp -d -p "$shm")
trap 'rm -rf "$room"' EXIT

# timed NAME STATUS COMMAND..: adds the milliseconds of a run to the times of this name, and those of the processor to the
# times NAME.user. The run ends with this status.
timed() {
    times=$room/$1
    wanted=$2
    shift 2
    python3 "$clock" "$times" "$wanted" "$room/said" "$@"
}

# least NAME: the least time of this name.
least() { sort -g "$room/$1" | head -n 1; }

# restore: the files of the present folder are those that `keep` kept, and there is no history.
restore() {
    find . -mindepth 1 -delete
    cp -R "$room/kept/." .
}

# keep: keeps the files of the present folder, without a history.
keep() {
    rm -rf "$room/kept" .par2undo
    cp -R . "$room/kept"
}

# overwrite SIZE FIRST STEP LAST: overwrites slices of `data` by zeros: each STEP-th one, from the first number to the last.
overwrite() {
    python3 - "$@" <<'END'
import sys

size, first, step, last = map(int, sys.argv[1:])
with open("data", "r+b") as file:
    for slice in range(first, last + 1, step):
        file.seek(size * slice)
        file.write(bytes(size))
END
}
