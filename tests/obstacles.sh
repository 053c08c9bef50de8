#!/bin/sh
# Tries what a real folder has beside files, files that change meanwhile, and the modes of what is written. A link, a
# folder, a pipe or a device is where the program looks for a file or would put one. A file or the folder can't be read
# or written, or not to its end. A name is as long as names can be, or longer. A file grows, shrinks or vanishes while
# the folder is read, or appears where one is to be written. Each run says so and changes nothing; and afterwards the
# same run ends as if nothing had happened. If the system has no links or no locks, runs end as usual. What is written
# in a folder where some files are private, or a group's, can be read by nobody else, from the moment it is created.
set -eu
cd "$(dirname "$0")/.."
room=$(mktemp -d)
trap 'chmod -R u+rwx "$room"; rm -rf "$room"' EXIT
cp crates/par2/out/par2 "$room/par2"
sh tests/preload/build.sh obstruct "$room/meddle.so"
chmod 755 "$room" "$room/par2"
mkdir "$room/outside" "$room/whole" "$room/found"
printf 'of another folder' > "$room/outside/kept"
failed='par2: a file could not be read or written'
rows=0

# par2 WORD..: a run in the folder `here`. Its output goes to `told`, and its status is kept.
par2() {
    status=0
    (cd "$room/here" && "$room/par2" "$@") > "$room/told" 2>&1 || status=$?
}

# The same by a user whom the modes of files bind, and to whom the folder belongs.
bound() {
    if [ "$(id -u)" -ne 0 ]; then
        par2 "$@"
        return
    fi
    chown -R 65534:65534 "$room/here"
    status=0
    (cd "$room/here" && setpriv --reuid=65534 --regid=65534 --clear-groups "$room/par2" "$@") \
        > "$room/told" 2>&1 || status=$?
}

# The same while the folder is meddled with as the variable says. What that reports goes to `tells`.
meddled() {
    variable=$1
    shift
    status=0
    (cd "$room/here" && env "$variable" WHEN="$when" LD_PRELOAD="$room/meddle.so" "$room/par2" "$@") \
        > "$room/told" 2>&1 9> "$room/tells" || status=$?
}

# here FOLDER: a fresh copy of this one.
here() {
    rm -rf "$room/here"
    cp -R "$room/$1" "$room/here"
}

# What is in the folder and outside of it: names, kinds and targets of links, and the checksums of the files. The
# journal may be another one, if it is a file.
stands() {
    (
        cd "$room"
        find here outside ! \( -type f -name '.par2undo*' \) -printf '%p %y %l\n'
        find here outside -type f ! -name '.par2undo*' -exec cksum {} +
    ) | LC_ALL=C sort > "$1"
}

# fail WORD..: says what was tried and what it printed, and ends.
fail() {
    echo "places: $*: not as it must be, status $status"
    cat "$room/told"
    ls -la "$room/here"
    exit 1
}

# is_told NAME STATUS TEXT: whether the last run ended like that.
is_told() {
    rows=$((rows + 1))
    [ "$status" -eq "$2" ] || fail "$1"
    printf '%s\n' "$3" | cmp -s - "$room/told" || fail "$1"
}

# is_kept NAME: whether everything is as it was `before`.
is_kept() {
    stands "$room/after"
    cmp "$room/before" "$room/after" || fail "$1, afterwards"
}

# same_as_ever NAME WORD..: a run that ends as if nothing had ever been in its way.
same_as_ever() {
    name=$1
    shift
    par2 "$@"
    stands "$room/after"
    ever=$status
    mv "$room/told" "$room/told.ever"
    mv "$room/here" "$room/here.ever"
    here found
    par2 "$@"
    stands "$room/before"
    [ "$ever" -eq "$status" ] || fail "$name, once it is over: $ever"
    cmp "$room/told.ever" "$room/told" || fail "$name, once it is over"
    cmp "$room/before" "$room/after" || fail "$name, once it is over"
    rm -rf "$room/here.ever"
}

# Things that are no files. If this user may make no device, none is tried.
kinds='link inner dangling folder pipe device'
if ! mknod "$room/device" c 1 3 2> /dev/null; then
    kinds='link inner dangling folder pipe'
fi

# thing KIND PATH: puts such a thing there, in a fresh copy of the folder. A file in its place is moved `aside`.
thing() {
    here found
    rm -f "$room/aside"
    [ ! -f "$room/here/$2" ] || mv "$room/here/$2" "$room/aside"
    case $1 in
        link) ln -s ../outside/kept "$room/here/$2" ;;
        inner) ln -s aa "$room/here/$2" ;;
        dangling) ln -s nowhere "$room/here/$2" ;;
        folder) mkdir "$room/here/$2" && printf 'in the folder' > "$room/here/$2/inner" ;;
        pipe) mkfifo "$room/here/$2" ;;
        device) mknod "$room/here/$2" c 1 3 ;;
    esac
    stands "$room/before"
}

# in_place PATH WORD..: puts one thing after the other in the way of a run. The next run takes back what it leaves halfway.
in_place() {
    path=$1
    shift
    for kind in $kinds; do
        thing "$kind" "$path"
        par2 "$@"
        is_told "a $kind at $path, $*" 6 "$failed"
        par2 verify none.par2
        is_kept "a $kind at $path, $*"
        rm -r "$room/here/$path"
        [ ! -f "$room/aside" ] || mv "$room/aside" "$room/here/$path"
        same_as_ever "a $kind at $path, $*" "$@"
    done
}

# passed_by PATH STATUS TEXT WORD..: puts one thing after the other where a run looks and writes nothing.
passed_by() {
    path=$1
    wanted=$2
    text=$3
    shift 3
    for kind in $kinds; do
        thing "$kind" "$path"
        par2 "$@"
        is_told "a $kind at $path, $*" "$wanted" "$text"
        is_kept "a $kind at $path, $*"
    done
}

# without_mode NAME MODE PATH WORD..: a run that may not do what the mode forbids.
without_mode() {
    name=$1
    mode=$2
    path=$3
    shift 3
    here found
    kept=$(stat -c %a "$room/here/$path")
    stands "$room/before"
    chmod "$mode" "$room/here/$path"
    bound "$@"
    is_told "$name, $*" 6 "$failed"
    chmod "$kept" "$room/here/$path"
    is_kept "$name, $*"
    same_as_ever "$name, $*" "$@"
}

# ---- without a set
printf 'abcdefgh' > "$room/whole/aa"
printf 'ijklmnopqrst' > "$room/whole/bb"
cp "$room"/whole/* "$room/found"
in_place t.par2 create -s4 -c5 t.par2 aa bb
in_place t.par2 create -s4 -c5 --overwrite t.par2 aa bb
in_place t.vol00001+00002.par2 create -s4 -c5 t.par2 aa bb
in_place .par2undo create -s4 -c5 t.par2 aa bb
in_place .par2undo.tmp create -s4 -c5 t.par2 aa bb
in_place .par2undo undo
passed_by cc 3 'par2: no such file: cc' create -s4 -c5 t.par2 aa cc
passed_by t.par2 3 'par2: no such file: t.par2' verify t.par2
without_mode "a file that can't be read" 000 aa create -s4 -c5 t.par2 aa bb
without_mode "another file that can't be read" 000 bb create -s4 -c5 t.par2 aa
without_mode "a folder that can't be written" 555 . create -s4 -c5 t.par2 aa bb
without_mode "a folder that can't be listed" 311 . create -s4 -c5 t.par2 aa bb

# ---- with a set
here found
par2 create -s4 -c5 t.par2 aa bb
is_told "a create" 0 "$(printf 'write %s\n' t.par2 t.vol00000+00001.par2 t.vol00001+00002.par2 t.vol00003+00002.par2
    echo 'done: 4')"
rm -rf "$room/found"
mv "$room/here" "$room/found"
set_id=$(cd "$room/found" && "$room/par2" verify t.par2 | head -n 1)
# Targets are in the order of their File IDs.
complete=$(printf '%s\n' "$set_id" 'complete bb' 'complete aa' 'result: complete')
missing=$(printf '%s\n' "$set_id" 'complete bb' 'missing aa 0/2' 'result: repairable, lost 2, rank 2')
in_place .par2undo verify t.par2
in_place .par2undo.tmp undo
passed_by .par2undo.tmp 0 "$complete" verify t.par2
passed_by t.par2.1 0 "$complete" verify t.par2
without_mode "a journal that can't be read" 000 .par2undo undo
without_mode "a journal that can't be read" 000 .par2undo verify t.par2
without_mode "a volume that can't be read" 000 t.vol00000+00001.par2 verify t.par2
without_mode "a folder that can't be written" 555 . undo

# A target is gone. What another hand changes is the begin of a new history.
rm "$room/found/aa" "$room/found/.par2undo"
passed_by aa 1 "$missing" verify t.par2
in_place aa repair t.par2
without_mode "a folder that can't be written" 555 . repair t.par2

# It has another name.
printf 'abcdefgh' > "$room/found/cc"
in_place aa repair t.par2 cc
rm "$room/found/cc"

# It is damaged.
printf 'abcdxfgh' > "$room/found/aa"
in_place aa.1 repair t.par2
in_place .par2undo.tmp repair t.par2
printf 'abcdefgh' > "$room/found/aa"

# Its volumes were purged.
(cd "$room/found" && "$room/par2" purge t.par2) > /dev/null
in_place t.par2 undo
in_place t.vol00001+00002.par2 undo

# Their create was undone.
rm -rf "$room/found"
cp -R "$room/whole" "$room/found"
(cd "$room/found" && "$room/par2" create -s4 -c5 t.par2 aa bb && "$room/par2" undo) > /dev/null
in_place t.par2 redo
in_place t.vol00001+00002.par2 redo
(cd "$room/found" && "$room/par2" redo) > /dev/null
rm "$room/found/.par2undo"

# ---- while the folder is read
for when in listed opened; do
    here found
    rm "$room/here/bb"
    stands "$room/before"
    printf 'ijklmnopqrst' > "$room/here/bb"
    meddled VANISHES=bb verify t.par2
    is_told "a file that vanishes when it is $when" 6 "$failed"
    is_kept "a file that vanishes when it is $when"
    printf 'ijklmnopqrst' > "$room/here/bb"
    meddled VANISHES=bb create -s4 -c5 u.par2 aa bb
    is_told "a file that vanishes when it is $when, a create" 6 "$failed"
    is_kept "a file that vanishes when it is $when, a create"

    # What it has grown to counts: a repair puts that aside.
    here found
    meddled GROWS=bb repair t.par2
    is_told "a file that grows when it is $when" 0 "$(printf '%s\n' 'rename bb to bb.1' 'write bb' 'done: 2')"
    [ "$(cat "$room/here/bb")" = ijklmnopqrst ] || fail "a file that grows when it is $when"
    [ "$(cat "$room/here/bb.1")" = ijklmnopqrst+ ] || fail "a file that grows when it is $when"
done

# What it has shrunk to counts, too.
here found
meddled SHRINKS=bb verify t.par2
is_told "a file that shrinks when it is opened" 1 \
    "$(printf '%s\n' "$set_id" 'damaged bb 1/3' 'complete aa' 'result: repairable, lost 2, rank 2')"
here found
meddled SHRINKS=bb repair t.par2
is_told "a file that shrinks when it is opened, a repair" 0 "$(printf '%s\n' 'rename bb to bb.1' 'write bb' 'done: 2')"
[ "$(cat "$room/here/bb")" = ijklmnopqrst ] || fail "a file that shrinks when it is opened"
[ "$(cat "$room/here/bb.1")" = ijklm ] || fail "a file that shrinks when it is opened"
when=never

# A file can't be read on, or there is no memory for it: that ends the run at once. The errors are EIO and ENOMEM.
for words in 'verify t.par2' 'create -s4 -c5 u.par2 aa' 'repair t.par2' undo; do
    for FAULT in 5 12; do
        export FAULT
        here found
        head -c 200000 /dev/zero > "$room/here/large"
        stands "$room/before"
        # shellcheck disable=SC2086
        meddled UNREAD=large $words
        case $FAULT in
            5) is_told "a file that can't be read on, $words" 6 "$failed" ;;
            12) is_told "a file that there is no memory to read on, $words" 8 'par2: out of memory' ;;
        esac
        [ "$(cat "$room/tells")" = '!!' ] || fail "a file that can't be read on, $words: it was read on"
        is_kept "a file that can't be read on, $words"
    done
done
unset FAULT

for words in 'verify t.par2' 'create -s4 -c5 u.par2 aa' undo; do
    here found
    stands "$room/before"
    # shellcheck disable=SC2086
    meddled LONG=aa $words
    is_told "a name of more bytes than names have, $words" 6 "$failed"
    is_kept "a name of more bytes than names have, $words"
done

# A folder that can't be read to its end, and an entry of which is not known whether it is a file. What isn't listed
# would be written over.
printf 'abcdxfgh' > "$room/found/aa"
seq -f "$room/found/beside%03.0f" 300 | xargs touch
for words in 'verify t.par2' 'create -s4 -c5 u.par2 aa' 'repair t.par2' undo; do
    for number in 1 2 3; do
        here found
        stands "$room/before"
        # shellcheck disable=SC2086
        meddled FAILS=$number $words
        is_told "a folder that can't be read on at call $number, $words" 6 "$failed"
        is_kept "a folder that can't be read on at call $number, $words"
    done
    here found
    # shellcheck disable=SC2086
    meddled UNTOLD=aa $words
    is_told "a file whose kind can't be told, $words" 6 "$failed"
    is_kept "a file whose kind can't be told, $words"
done
printf 'abcdefgh' > "$room/found/aa"
find "$room/found" -name 'beside*' -delete

# ---- a file that appears where one is to be written, or to get its name: it stays, and the run goes no further
# appears PATH WORD..: a run in which it does. Once it is gone the run ends as ever.
appears() {
    path=$1
    shift
    here found
    printf '+' > "$room/here/$path"
    stands "$room/before"
    rm "$room/here/$path"
    meddled APPEARS="$path" "$@"
    is_told "a file that appears at $path, $when, $*" 6 "$failed"
    is_kept "a file that appears at $path, $when, $*"
    rm "$room/here/$path"
    same_as_ever "a file that appears at $path, $when, $*" "$@"
}
rm "$room/found/bb"
for when in listed named; do
    appears bb repair t.par2
    appears u.par2 create -s4 -c1 u.par2 aa
done
# dangles PATH WORD..: a run in which a link appears that leads nowhere.
dangles() {
    path=$1
    shift
    here found
    ln -s nowhere "$room/here/$path"
    stands "$room/before"
    rm "$room/here/$path"
    meddled DANGLES="$path" "$@"
    is_told "a link that appears at $path, $*" 6 "$failed"
    is_kept "a link that appears at $path, $*"
    rm "$room/here/$path"
    same_as_ever "a link that appears at $path, $*" "$@"
}
dangles bb repair t.par2
dangles u.par2 create -s4 -c1 u.par2 aa
# The errors of a system without links: EPERM, ENOSYS, EOPNOTSUPP.
for NOLINKS in 1 38 95; do
    export NOLINKS
    appears bb repair t.par2
    appears u.par2 create -s4 -c1 u.par2 aa
    dangles bb repair t.par2
    dangles u.par2 create -s4 -c1 u.par2 aa
    here found
    meddled APPEARS=none repair t.par2
    is_told "a folder without hard links" 0 "$(printf '%s\n' 'write bb' 'done: 1')"
    [ "$(cat "$room/here/bb")" = ijklmnopqrst ] || fail "a folder without hard links"
    [ ! -e "$room/here/.par2undo.tmp" ] || fail "a folder without hard links, the temporary file"
done
unset NOLINKS
printf 'ijklmnopqrst' > "$room/found/bb"
printf 'abcdxfgh' > "$room/found/aa"
when=listed
appears aa.1 repair t.par2
printf 'abcdefgh' > "$room/found/aa"

# ---- a file that another hand takes away just before it is removed
for path in t.par2 t.vol00001+00002.par2; do
    here found
    stands "$room/before"
    when=removed
    meddled VANISHES="$path" purge t.par2
    is_told "$path, which vanishes when it is removed" 6 "$failed"
    par2 verify none.par2
    is_kept "$path, which vanishes when it is removed"
    same_as_ever "$path, which vanishes when it is removed" purge t.par2
done
when=never

# ---- a temporary file that is a file of the folder under a second name
for words in 'create -s4 -c1 u.par2 aa' 'create -s4 -c1 --overwrite t.par2 aa' 'purge t.par2'; do
    here found
    ln "$room/here/aa" "$room/here/.par2undo.tmp"
    # shellcheck disable=SC2086
    same_as_ever "a temporary file that is another's second name, $words" $words
    [ "$status" -eq 0 ] || fail "a temporary file that is another's second name, $words"
done

# ---- an output whose first writes are interrupted
here found
meddled INTERRUPTED=3 verify t.par2
is_told "an output that is interrupted" 0 "$complete"

# ---- locks: a system may have none, which it says by ENOLCK, EOPNOTSUPP, EINVAL or EBADF. EWOULDBLOCK says that another
# run holds the folder
here found
(cd "$room/here" && "$room/par2" create -s4 -c1 u.par2 aa) > "$room/told"
rm -rf "$room/found"
mv "$room/here" "$room/found"
for words in 'verify t.par2' 'create -s4 -c1 v.par2 aa' 'purge u.par2' undo; do
    for number in 37 95 22 9; do
        here found
        # shellcheck disable=SC2086
        meddled LOCKS=$number $words
        mv "$room/here" "$room/here.ever"
        stands_there=$status
        mv "$room/told" "$room/told.ever"
        here found
        # shellcheck disable=SC2086
        par2 $words
        [ "$status" -eq "$stands_there" ] || fail "no locks, error $number, $words: $stands_there"
        cmp "$room/told" "$room/told.ever" || fail "no locks, error $number, $words"
        diff -r "$room/here" "$room/here.ever" || fail "no locks, error $number, $words"
        rm -rf "$room/here.ever"
        rows=$((rows + 1))
    done
    here found
    # shellcheck disable=SC2086
    meddled LOCKS=11 $words
    is_told "a folder that another run holds, $words" 6 "$failed"
    diff -r "$room/here" "$room/found" || fail "a folder that another run holds, $words"
done

# ---- names that begin with a point
here whole
mv "$room/here/aa" "$room/here/.a"
par2 create -s4 -c5 .t.par2 .a bb
is_told "names that begin with a point, a create" 0 "$(printf 'write %s\n' .t.par2 .t.vol00000+00001.par2 \
    .t.vol00001+00002.par2 .t.vol00003+00002.par2; echo 'done: 4')"
printf 'abcd' > "$room/here/.a"
rm "$room/here/.par2undo"
stands "$room/before"
par2 repair .t.par2
is_told "names that begin with a point, a repair" 0 "$(printf '%s\n' 'rename .a to .a.1' 'write .a' 'done: 2')"
[ "$(cat "$room/here/.a")" = abcdefgh ] || fail "names that begin with a point"
[ "$(cat "$room/here/.a.1")" = abcd ] || fail "names that begin with a point"
par2 undo
is_told "names that begin with a point, an undo" 0 "$(printf '%s\n' 'remove .a' 'rename .a.1 to .a' 'done: 2')"
is_kept "names that begin with a point, an undo"

# ---- many files: each of them is listed
here whole
(cd "$room/here" && "$room/par2" create -s4 -c0 t.par2 aa) > /dev/null
many=$(seq -f "f%05.0f" 70000)
(cd "$room/here" && echo "$many" | xargs touch)
# shellcheck disable=SC2086
par2 verify t.par2 $many
[ "$status" -eq 0 ] || fail "many files, each named"
[ "$(tail -n 1 "$room/told")" = 'result: complete' ] || fail "many files, each named"
# shellcheck disable=SC2086
par2 verify t.par2 $many f70001
is_told "many files, and one that isn't there" 3 'par2: no such file: f70001'

# ---- a name of as many bytes as names have
long=$(printf '%0255d' 0)
here whole
mv "$room/here/bb" "$room/here/$long"
rm -rf "$room/found"
cp -R "$room/here" "$room/found"
par2 create -s4 -c3 t.par2 aa "$long"
[ "$status" -eq 0 ] || fail "a file with the longest name, a create"
stands "$room/before"
rm "$room/here/$long"
par2 repair t.par2
is_told "a file with the longest name, a repair" 0 \
    "$(printf '%s\n' 'note: history dropped' "write $long" 'done: 1')"
is_kept "a file with the longest name, a repair"
printf 'ijklmnopqrsT' > "$room/here/$long"
stands "$room/before"
par2 repair t.par2
is_told "a damaged file with the longest name" 3 'par2: a file name would be longer than 255 bytes'
is_kept "a damaged file with the longest name"
here found
stands "$room/before"
par2 create -s4 -c1 "$(printf '%0250d' 0).par2" aa
is_told "a base with the longest name" 3 'par2: a file name would be longer than 255 bytes'
is_kept "a base with the longest name"

# ---- names that are kept for the history
here found
printf 'of the user' > "$room/here/.par2undo.old"
mkdir "$room/here/.par2undo.d"
par2 create -s4 -c1 t.par2 aa
[ "$status" -eq 0 ] || fail "names that are kept for the history"
[ "$(cat "$room/here/.par2undo.old")" = 'of the user' ] || fail "names that are kept for the history"

# ---- who may read and write what is written
# by USER MASK WORD..: a run of this user with this umask, in a folder of the group 65534. It must be accepted.
by() {
    user=$1
    mask=$2
    shift 2
    as=
    [ "$(id -u)" -ne 0 ] || as="setpriv --reuid=$user --regid=65534 --clear-groups"
    status=0
    # shellcheck disable=SC2086
    (cd "$room/here" && umask "$mask" && $as env MODES=yes LD_PRELOAD="$room/meddle.so" "$room/par2" "$@") \
        > "$room/told" 2>&1 9> "$room/tells" || status=$?
    rows=$((rows + 1))
    [ "$status" -eq 0 ] || fail "modes, $*"
}

# modes MODE.. -- WORD..: whether the last run made files of these modes and no others, each with its mode at once and
# where nothing was. The words say what the run is.
modes() {
    wanted=
    while [ "$1" != -- ]; do
        wanted="$wanted $1"
        shift
    done
    shift
    # shellcheck disable=SC2086
    printf '%s new\n' $wanted | LC_ALL=C sort > "$room/modes"
    if grep -qvE '^[0-7]+ [0-7]+ new ' "$room/tells" \
        || ! cut -d ' ' -f 2,3 "$room/tells" | LC_ALL=C sort -u | cmp -s - "$room/modes"; then
        cat "$room/tells"
        fail "modes, $*: made otherwise than $wanted"
    fi
}

# have MODE NAME..: whether these files, and no others, have this mode.
have() {
    mode=$1
    shift
    printf '%s\n' "$@" | LC_ALL=C sort > "$room/modes"
    find "$room/here" -type f -perm "$mode" -printf '%f\n' | LC_ALL=C sort | cmp - "$room/modes" || fail "modes, $mode"
}

# shared MODE [FILE..]: a folder of files of this mode, and of those FILEs that are private, for two users of a group.
shared() {
    mode=$1
    shift
    here whole
    chmod "$mode" "$room/here/aa" "$room/here/bb"
    for name in "$@"; do
        chmod 600 "$room/here/$name"
    done
    chmod 770 "$room/here"
    [ "$(id -u)" -ne 0 ] || chown -R 65534:65534 "$room/here"
}

volumes='t.par2 t.vol00000+00001.par2 t.vol00001+00002.par2 t.vol00003+00002.par2'

# A private file among public ones. What is put aside and put back keeps its mode.
shared 644 aa
by 65534 022 create -s4 -c5 t.par2 aa bb
modes 600 -- a create over a private file and another
# shellcheck disable=SC2086
have 600 aa $volumes .par2undo
printf 'abcdxfgh' > "$room/here/aa"
by 65534 022 repair t.par2
modes 600 -- a repair of a private file
# shellcheck disable=SC2086
have 600 aa aa.1 $volumes .par2undo
for words in undo redo undo; do
    by 65534 022 $words
    modes 600 -- $words of a repair of a private file
done
# shellcheck disable=SC2086
have 600 aa $volumes .par2undo
by 65534 022 repair -p t.par2
modes 600 -- a repair of a private file that purges
have 600 aa .par2undo
for words in undo redo undo; do
    by 65534 022 $words
    modes 600 -- $words of a repair of a private file that purges
done
# shellcheck disable=SC2086
have 600 aa $volumes .par2undo
have 644 bb

# What is written beside it is private too.
printf 'ijklmnopqrsT' > "$room/here/bb"
by 65534 022 repair t.par2
modes 600 -- a repair beside a private file
# shellcheck disable=SC2086
have 600 aa aa.1 bb $volumes .par2undo
have 644 bb.1

# A file that is replaced keeps what it lacked.
shared 644
by 65534 022 create -s4 -c5 t.par2 aa bb
modes 644 -- a create over public files
# shellcheck disable=SC2086
have 644 aa bb $volumes .par2undo
chmod 444 "$room/here/t.vol00000+00001.par2"
by 65534 022 create -s4 -c5 --overwrite t.par2 aa bb
modes 444 644 -- a create over a volume that nobody writes
have 444 t.vol00000+00001.par2
chmod 640 "$room/here/t.vol00000+00001.par2"
by 65534 022 create -s4 -c5 --overwrite t.par2 aa bb
modes 640 -- a create over a volume of a group
# shellcheck disable=SC2086
have 640 $volumes .par2undo
chmod 600 "$room/here/t.vol00000+00001.par2"
by 65534 022 create -s4 -c5 --overwrite t.par2 aa bb
modes 600 -- a create over a private volume
# shellcheck disable=SC2086
have 600 $volumes .par2undo
by 65534 022 undo
modes 600 -- an undo of a create over a private volume

# Volumes that were private are private again, although no other file is: the journal determines that.
shared 644
by 65534 022 create -s4 -c5 t.par2 aa bb
# shellcheck disable=SC2086
(cd "$room/here" && chmod 600 $volumes)
by 65534 022 purge t.par2
modes 600 -- a purge of private volumes
by 65534 022 undo
modes 600 -- an undo of a purge of private volumes
# shellcheck disable=SC2086
have 600 $volumes .par2undo

# Public files, as each umask has them.
for mask in 002 022 077; do
    shared 666
    by 65534 $mask create -s4 -c5 t.par2 aa bb
    case $mask in
        002) modes 664 -- "umask $mask" ;;
        022) modes 644 -- "umask $mask" ;;
        077) modes 600 -- "umask $mask" ;;
    esac
done

# Two members of a group, each of whom goes on where the other stopped.
shared 660
by 65534 007 create -s4 -c5 t.par2 aa bb
modes 660 -- a create of a group
printf 'abcdxfgh' > "$room/here/aa"
by 65533 007 repair t.par2
modes 660 -- a repair by another member
by 65534 007 undo
modes 660 -- an undo by the first member
by 65533 007 redo
modes 660 -- a redo by the other member
# shellcheck disable=SC2086
have 660 aa aa.1 bb $volumes .par2undo

echo "places: $rows runs, each told as it must be, and nothing was lost"
