#!/usr/bin/env bash
# Puts an image where that goes wrong: on a full disk, past a limit on file size, into a folder that is read-only, over a file
# that is, through links, also such as can't be read, over standard output, into devices and a pipe, and with the program failing
# and killed at its system calls and killed at a hundred moments.
# Under the name must stand the old image or the new one, every byte of it, and beside it nothing, unless the program was killed.
# ALPACA names another build of the program. The row of the full disk wants root, which mounts a small one; those of system calls want strace.
set -u
top=$(cd "$(dirname "$(readlink -f "$0")")/.." && pwd)
built=${ALPACA:-$top/crates/alpaca/out/alpaca}
work=$(mktemp -d)
trap 'umount "$work/disk" 2>/dev/null; rm -rf "$work"' EXIT
chmod 755 "$work"
cp "$built" "$work/alpaca" && chmod 755 "$work/alpaca"
alpaca=$work/alpaca
cd "$work" || exit 1
failed=0

# a program of `count` tasks
source_of() {
    local n
    echo "shared unsigned n = 0;"
    for n in $(seq "$1"); do
        echo "task t$n { n = n + sense(); emit(n); transition_to(t$(($n % $1 + 1))); }"
    done
    echo "entry t1;"
}

say() {
    if [ "$2" = yes ]; then echo "$1: as it should be"; else echo "$1: WRONG, $2"; failed=1; fi
}

# row LABEL STATUS FILE IMAGE FOLDER..: the status, what stands in the file, and what stands in the folder
row() {
    local label=$1 status=$2 file=$3 image=$4 folder=$5 verdict=yes
    shift 5
    [ "$got" = "$status" ] || verdict="status $got and not $status"
    cmp -s "$file" "$image" || verdict="$file is not $image"
    [ "$(ls -A "$folder")" = "$(printf '%s\n' "$@")" ] || verdict="the folder has $(ls -A "$folder" | tr '\n' ' ')"
    say "$label" "$verdict"
}

# a user without rights of root, if that is who runs this
plain() {
    if [ "$(id -u)" = 0 ]; then setpriv --reuid=65534 --regid=65534 --clear-groups "$@"; else "$@"; fi
}

fresh() {
    rm -rf here && mkdir here && cp old.img here/a.img && chmod 640 here/a.img
}

build() {
    "$@" >/dev/null 2>&1
    got=$?
}

source_of 3 >old.alp
source_of 40 >new.alp
"$alpaca" build old.alp old.img >/dev/null && "$alpaca" build new.alp new.img >/dev/null || exit 1

fresh && rm here/a.img
build "$alpaca" build new.alp here/a.img
row "a new file" 0 here/a.img new.img here a.img

fresh
build "$alpaca" build new.alp here/a.img
row "an old file" 0 here/a.img new.img here a.img
[ "$(stat -c %a here/a.img)" = 640 ] && say "its permissions" yes || say "its permissions" "$(stat -c %a here/a.img)"

fresh && chmod 6750 here/a.img
build "$alpaca" build new.alp here/a.img
row "a file with setuid and setgid" 0 here/a.img new.img here a.img
[ "$(stat -c %a here/a.img)" = 750 ] && say "its permissions" yes || say "its permissions" "$(stat -c %a here/a.img)"

# the old file isn't written in place: under its other name it is as it was
fresh && ln here/a.img here/b.img
build "$alpaca" build new.alp here/a.img
row "a file with two names" 0 here/a.img new.img here a.img b.img
cmp -s here/b.img old.img && say "its other name" yes || say "its other name" "b.img is not old.img"

# the new file is made beside the old one, and nowhere else
fresh && chmod 777 here && chmod 666 here/a.img && rm -rf bare && mkdir bare && chmod 555 bare
(cd bare && TMPDIR=/proc plain "$alpaca" build ../new.alp ../here/a.img >/dev/null)
got=$?
row "from a folder in which nothing can be made" 0 here/a.img new.img here a.img

fresh
(cd here && "$alpaca" build ../new.alp a.img >/dev/null)
got=$?
row "a name without a folder" 0 here/a.img new.img here a.img

fresh
(ulimit -f 4; trap '' XFSZ; "$alpaca" build new.alp here/a.img >/dev/null 2>&1)
got=$?
row "a limit on file size" 4 here/a.img old.img here a.img

fresh
(ulimit -c 0; ulimit -f 4; "$alpaca" build new.alp here/a.img >/dev/null 2>&1) 2>/dev/null
cmp -s here/a.img old.img && say "a limit on file size that kills" yes || say "a limit on file size that kills" "a.img is not old.img"

fresh && chmod 666 here/a.img && chmod 555 here
build plain "$alpaca" build new.alp here/a.img
row "a read-only folder" 4 here/a.img old.img here a.img
chmod 755 here

fresh && chmod 444 here/a.img && chmod 777 here
build plain "$alpaca" build new.alp here/a.img
row "a read-only file" 4 here/a.img old.img here a.img

fresh && mkdir links && ln -s ../here/a.img links/one && ln -s one links/two
build "$alpaca" build new.alp links/two
row "a link to a link" 0 here/a.img new.img here a.img
row "its folder" 0 links/two new.img links one two
[ -L links/one ] && [ -L links/two ] && say "the links" yes || say "the links" "one is a file now"

rm -f links/* && ln -s ../here/b.img links/new
build "$alpaca" build new.alp links/new
row "a link to nothing" 0 here/b.img new.img here a.img b.img
[ -L links/new ] && say "the link" yes || say "the link" "it is a file now"
ln -s itself links/itself
build "$alpaca" build new.alp links/itself
[ "$got" = 4 ] && [ -L links/itself ] && say "a link to itself" yes || say "a link to itself" "status $got"

# links whose targets are no UTF-8, which the library can't read: nothing is touched
odd=$'t\xff'
for there in yes no; do
    fresh && rm -rf links && mkdir links && ln -s "../here/$odd" links/odd && ln -s odd links/two
    [ $there = no ] || mv here/a.img "here/$odd"
    for name in odd two; do
        build "$alpaca" build new.alp links/$name
        [ "$got" = 4 ] && [ -L links/odd ] && [ -L links/two ] && [ "$(ls -A here | wc -l)" = 1 ] && cmp -s here/* old.img && say "an odd link, $name, $there" yes ||
            say "an odd link, $name, $there" "status $got, $(ls -A here links | tr '\n' ' ')"
    done
done
fresh && rm -rf "$odd" && mkdir "$odd" && ln -s ../here/a.img "$odd/link" && ln -s "$odd" folder
build "$alpaca" build new.alp folder/link
row "through a folder that is an odd link" 0 here/a.img new.img here a.img
rm -rf links && mkdir links && fresh
ln -s ../here/a.img links/$'\xfe' && ln -s $'\xfe' links/odd
build "$alpaca" build new.alp links/odd
row "an odd link to a link" 4 here/a.img old.img here a.img

# standard output goes into the file that is to be put
echo 'c 100000 0' >trace
fresh
"$alpaca" try new.alp trace here/a.img >>here/a.img 2>/dev/null
got=$?
row "standard output is the file" 4 here/a.img old.img here a.img
"$alpaca" build new.alp /dev/stdout >>here/a.img 2>/dev/null
got=$?
row "/dev/stdout, which is a file" 4 here/a.img old.img here a.img
"$alpaca" build new.alp /dev/stdout 2>/dev/null | cmp -s - <(cat new.img; "$alpaca" build new.alp here/b.img) && say "/dev/stdout, which is a pipe" yes || say "/dev/stdout, which is a pipe" "it isn't the image and the report"

fresh
build "$alpaca" build new.alp /dev/null
[ "$got" = 0 ] && [ -c /dev/null ] && say "/dev/null" yes || say "/dev/null" "status $got"
build "$alpaca" build new.alp /dev/full
[ "$got" = 4 ] && [ -c /dev/full ] && say "/dev/full" yes || say "/dev/full" "status $got"
mkfifo pipe
cat pipe >through & build "$alpaca" build new.alp pipe
wait
[ "$got" = 0 ] && [ -p pipe ] && cmp -s through new.img && say "a pipe" yes || say "a pipe" "status $got"
build "$alpaca" build new.alp here
row "a folder" 4 here/a.img old.img here a.img

mkdir disk
if mount -t tmpfs -o size=16k tmpfs disk 2>/dev/null; then
    cp old.img disk/a.img
    build "$alpaca" build new.alp disk/a.img
    row "a full disk" 4 disk/a.img old.img disk a.img
else
    echo "a full disk: not tried, since none can be mounted"
fi

# after a kill: the old image or the new one
whole() {
    if cmp -s here/a.img old.img; then old=$((old + 1)); elif cmp -s here/a.img new.img; then new=$((new + 1)); else broken=$((broken + 1)); fi
}

# killed at each call of a kind in turn, until the program comes to its end
kills_at() {
    local call
    for call in $(seq 1 100); do
        fresh
        strace -o /dev/null -e trace=all -e "inject=$1:signal=KILL:when=$call" "$alpaca" build new.alp here/a.img >/dev/null 2>&1 && return
        whole
    done
}

# failing at each call of a kind in turn: with status 0 the new image stands, with another one the old one, and nothing beside it;
# the new one also where not the put but the output failed
fails_at() {
    local call status
    for call in $(seq 1 40); do
        fresh
        timeout 20 strace -o calls -e trace=all -e "inject=$1:error=$2:when=$call" "$alpaca" build new.alp here/a.img >/dev/null 2>&1
        status=$?
        [ "$(ls -A here)" = a.img ] || { echo "$1 $2 at call $call: the folder has $(ls -A here | tr '\n' ' ')"; broken=$((broken + 1)); }
        case $status in
            0) cmp -s here/a.img new.img && new=$((new + 1)) && status=well ;;
            124) ;;
            *) { cmp -s here/a.img old.img || { [ "$1" = write ] && cmp -s here/a.img new.img; }; } && old=$((old + 1)) && status=well ;;
        esac
        [ $status = well ] || { echo "$1 $2 at call $call: status $status"; broken=$((broken + 1)); }
        grep -q INJECTED calls || return
    done
}

if command -v strace >/dev/null; then
    old=0 new=0 broken=0
    for kind in statx openat readlink fchmod write fsync rename; do
        for error in EIO EACCES; do fails_at $kind $error 2>/dev/null; done
    done
    [ $broken = 0 ] && [ $old -gt 0 ] && say "failing at system calls: old $old times, new $new times" yes || say "failing at system calls" "old $old, new $new, broken $broken"
    # The first reads are those of the system's loader. Reads that all fail from one on are a failure, and no read is tried for ever;
    # one that is interrupted is tried again.
    first=$(strace -e trace=openat,read -o calls "$alpaca" build new.alp here/a.img >/dev/null; grep -n 'openat.*new.alp' calls | cut -d: -f1)
    first=$(($(head -n "$first" calls | grep -c '^read') + 1))
    fresh && timeout 20 strace -o /dev/null -e trace=all -e "inject=read:error=EIO:when=$first+" "$alpaca" build new.alp here/a.img >/dev/null 2>&1
    got=$?
    row "reads that fail" 3 here/a.img old.img here a.img
    fresh && timeout 20 strace -o /dev/null -e trace=all -e "inject=read:error=EINTR:when=$first..$((first + 3))" "$alpaca" build new.alp here/a.img >/dev/null 2>&1
    got=$?
    row "reads that are interrupted" 0 here/a.img new.img here a.img
fi

old=0 new=0 broken=0
if command -v strace >/dev/null; then
    for kind in statx openat readlink fchmod write fsync close rename unlink exit_group; do kills_at $kind 2>/dev/null; done
    [ $broken = 0 ] && [ $new -gt 0 ] && say "killed at system calls: old $old times, new $new times" yes || say "killed at system calls" "old $old, new $new, broken $broken"
fi

fresh
start=$(date +%s%N)
"$alpaca" build new.alp here/a.img >/dev/null
took=$((($(date +%s%N) - start) / 1000))
old=0 new=0 broken=0
for part in $(seq 1 100); do
    fresh
    "$alpaca" build new.alp here/a.img >/dev/null 2>&1 &
    sleep "$(awk "BEGIN { printf \"%.6f\", $took * $part / 90 / 1000000 }")"
    { kill -KILL $!; wait $!; } 2>/dev/null
    whole
done
[ $broken = 0 ] && say "killed a hundred times: old $old times, new $new times" yes || say "killed a hundred times" "old $old, new $new, broken $broken"
exit $failed
