#!/usr/bin/env bash
# Refuses each allocation of the program in turn: of `mean`, `try`, `build`, `run`, `asm`, `dis`, `save` and `resume` on worked texts and of
# `gen 0`. Each such run must end with status 5, write nothing to the output, put nothing, and tell `out of memory`; the
# first run that has no allocation to refuse must be whole. Std's `collect` asks for all of a list's room first and, where that is
# refused, for the room of one: the program never sees such a refusal, and its run must be whole to the byte. Prints how many
# were refused and how many of them the library made up for, and fails where one answers otherwise.
# The kit's `rt try --fail-alloc N` refuses one, and builds the program anew for it; here the built program runs beside a
# library that refuses the Nth call, made with $CC. ALPACA names another build of the program.
set -eu
top=$(cd "$(dirname "$(readlink -f "$0")")/.." && pwd)
alpaca=${ALPACA:-$top/crates/alpaca/out/alpaca}
work=$(mktemp -d)
trap 'rm -rf "$work"' EXIT
cd "$work"

# The library takes the call's number from REFUSE, and writes a byte to file 9 where it refuses it.
"${CC:-cc}" -O1 -shared -fPIC -o refuse.so -xc - -ldl <<'C'
#define _GNU_SOURCE
#include <dlfcn.h>
#include <errno.h>
#include <stdlib.h>
#include <unistd.h>

static long calls, refused = -1;

static int is_refused(void) {
    if (refused < 0) {
        const char *number = getenv("REFUSE");
        refused = number ? atol(number) : 0;
    }
    if (++calls != refused) return 0;
    errno = ENOMEM;
    return write(9, "x", 1) == 1;
}

void *malloc(size_t size) {
    static void *(*next)(size_t);
    if (!next) next = (void *(*)(size_t))dlsym(RTLD_NEXT, "malloc");
    return is_refused() ? NULL : next(size);
}

void *realloc(void *block, size_t size) {
    static void *(*next)(void *, size_t);
    if (!next) next = (void *(*)(void *, size_t))dlsym(RTLD_NEXT, "realloc");
    return is_refused() ? NULL : next(block, size);
}

void *calloc(size_t count, size_t size) {
    static void *(*next)(size_t, size_t);
    if (!next) next = (void *(*)(size_t, size_t))dlsym(RTLD_NEXT, "calloc");
    return is_refused() ? NULL : next(count, size);
}

void *aligned_alloc(size_t align, size_t size) {
    static void *(*next)(size_t, size_t);
    if (!next) next = (void *(*)(size_t, size_t))dlsym(RTLD_NEXT, "aligned_alloc");
    return is_refused() ? NULL : next(align, size);
}

int posix_memalign(void **block, size_t align, size_t size) {
    static int (*next)(void **, size_t, size_t);
    if (!next) next = (int (*)(void **, size_t, size_t))dlsym(RTLD_NEXT, "posix_memalign");
    return is_refused() ? ENOMEM : next(block, align, size);
}
C

echo "shared unsigned n = 0; task a { n = n + sense(); emit(n); transition_to(a); } entry a;" >sum.alp
cat >range.alp <<'SOURCE'
shared unsigned a[8]; shared unsigned x; shared unsigned y; shared unsigned z = 9;
task t { a[8] = 1; x = a[8] + 7 / 0; y = 7 % 0; z = 65535 + 1; transition_to(u); }
task u { x = sense(); transition_to(u); }
entry t;
SOURCE
printf 'r 5 7\n' >two.trace
printf 's 60 0\nc 1000000 0\nr 5 7 9\n' >cut.trace
printf 'c 100000 0\n' >long.trace
printf 's 100 0\n' >steps.trace
printf 'start: mov #0,&0x0202\n mov #77,&0x0204\n mov #77,&0x0204\n bis #16,sr\n .org 0xFFFE\n .word start\n' >send.asm
printf '@4400\n82 43 02 02 B2 40 4D 00 04 02 B2 40 4D 00 04 02\n32 D0 10 00\n@FFFE\n00 44\nq\n' >send.txt
"$alpaca" build sum.alp sum.txt >out
"$alpaca" save sum.txt two.trace sum.state >out
failed=0
all=0
made_up=0

# what a run must leave whose n-th allocation is refused
expect() {
    [ "$status" = 5 ] && [ ! -s out ] && [ ! -e put ] && [ "$(cat err)" = "out of memory" ] && return
    if [ "$status" = 0 ] && [ ! -s err ] && cmp -s out whole.out && same_put; then
        made_up=$((made_up + 1))
        return
    fi
    echo "alpaca $*: allocation $n refused: status $status, $(wc -c <out) bytes of output, $( [ ! -e put ] || echo a file put,) told: $(cat err)"
    failed=1
}

# what was put is what the whole run puts, or both put nothing
same_put() {
    if [ -e whole.put ]; then cmp -s put whole.put; else [ ! -e put ]; fi
}

refuse() {
    n=0
    rm -f put whole.put
    "$alpaca" "$@" >whole.out
    [ ! -e put ] || mv put whole.put
    while :; do
        n=$((n + 1))
        rm -f put
        : >refused
        status=0
        timeout 60 env REFUSE=$n LD_PRELOAD="$work/refuse.so" "$alpaca" "$@" >out 2>err 9>>refused || status=$?
        [ -s refused ] || break
        expect "$@"
    done
    if [ "$status" != 0 ] || [ -s err ]; then
        echo "alpaca $*: status $status with no allocation refused, told: $(cat err)"
        failed=1
    fi
    all=$((all + n - 1))
    echo "alpaca $*: $((n - 1)) allocations, each refused"
}

refuse mean sum.alp two.trace
refuse mean range.alp /dev/null
refuse try sum.alp cut.trace put
refuse try range.alp long.trace put
refuse build sum.alp put
refuse asm send.asm put
refuse run send.txt steps.trace
refuse dis send.txt
refuse save send.txt steps.trace put
refuse save sum.state cut.trace put
refuse resume sum.txt sum.state cut.trace
refuse gen 0 put
echo "$all allocations refused, $made_up of them made up for by the library"
exit $failed
