#!/usr/bin/env bash
# Of eleven task bodies: the cycles from a power-up to the end of the first commit, beside the bound; and the words of the code, beside
# those that the allowance gives it (the image fills these up with `jmp $`). Of fourteen bodies that a C compiler was given too: the same less
# what an empty task takes. Of each example: the cycles of a transition in the mean, of all that its readings pay for, in one charge.
#
# ALPACA names another build of the program, COMMAND the runtime: `try` (which is taken without it) or `undo`. Nothing depends on these figures.
set -u
top=$(cd "$(dirname "$(readlink -f "$0")")/.." && pwd)
program=${ALPACA:-$top/bin/alpaca}
command=${COMMAND:-try}
folder=$(mktemp -d)
trap 'rm -rf "$folder"' EXIT
cd "$folder" || exit 1

# whether a charge of so many cycles completes transition $2 on the readings r
completes() {
    { echo "c $1 0"; cat r; } > t
    "$program" "$command" s t i 2>&1 | grep -q "^t $2 "
}

# the fewest cycles of a charge that completes transition $2, at most $1
fewest() {
    local low=0 high=$1 middle
    while ((low + 1 < high)); do
        middle=$(((low + high) / 2))
        if completes "$middle" "$2"; then high=$middle; else low=$middle; fi
    done
    echo "$high"
}

# the words of the code of image i, and how many of them fill it up
words() {
    awk '/^map/ { exit } /^@/ { code = seen; seen = 0; next } !/^q/ { for (k = 1; k < NF; k += 2) { n++; if ($k $(k + 1) == "FF3F") fill++ } } END { print n, fill + 0 }' i
}

measure() {
    printf '%s\n' "$2" > s
    local bound used all fill
    bound=$("$program" build s i | awk '{ print $2 }')
    used=$(fewest "$bound" 1)
    read -r all fill < <(words)
    printf '%-22s %6s of %6s cycles (%2d%%)  %5s of %5s words (%2d%%)\n' "$1" "$used" "$bound" $((100 * used / bound)) $((all - fill)) "$all" $((100 * (all - fill) / all))
}

# a body, less what an empty task takes
less() {
    printf '%s\n' "$2" > s
    printf '%-22s %6s cycles more than an empty task\n' "$1" $(($(fewest "$("$program" build s i | awk '{ print $2 }')" 1) - empty))
}

# an example: its transitions, and the cycles of one in the mean
example() {
    local last bound
    cp "$top/examples/$1.alp" s
    grep '^r' "$top/examples/$1.trace" > r
    last=$("$program" mean s r | awk '/^t / { n = $2 } END { print n }')
    bound=$("$program" build s i | awk '{ print $2 }')
    printf '%-22s %6s transitions of %s cycles, bound %s\n' "$1" "$last" $(($(fewest $((bound * (last + 1))) "$last") / last)) "$bound"
}

echo 'r 9 8 7 6 5 4 3 2' > r
measure 'a sum' 'shared unsigned n; task t { n = n + sense(); transition_to(t); } entry t;'
measure 'a sum that is sent' 'shared unsigned n; task t { n = n + sense(); emit(n); transition_to(t); } entry t;'
measure 'four scalars' 'shared unsigned a; shared unsigned b; shared unsigned c; shared unsigned d; task t { a = a + 1; b = b + a; c = c ^ b; d = d - c; transition_to(t); } entry t;'
measure 'an element' 'shared unsigned a[8]; shared unsigned i; task t { a[i] = sense(); i = (i + 1) & 7; transition_to(t); } entry t;'
measure 'each element' 'shared unsigned a[16]; task t { unsigned i; for (i = 0; i < 16; i++) { a[i] = a[i] + i; } transition_to(t); } entry t;'
measure 'a product' 'shared unsigned p = 3; task t { p = p * 5 + 1; transition_to(t); } entry t;'
measure 'a quotient and a rest' 'shared unsigned q = 60000; task t { q = q / 7 + q % 7; transition_to(t); } entry t;'
measure 'comparisons' 'shared int s = -2; shared unsigned m; task t { int r = sense(); m = 0; if (s < r && r <= 9) { m = 1; } else if (s > r || r == 4) { m = 2; } transition_to(t); } entry t;'
measure 'nested loops' 'shared unsigned k; task t { unsigned i; unsigned j; for (i = 0; i < 8; i++) { for (j = 0; j < 8; j++) { k = k + i * j; } } transition_to(t); } entry t;'
measure 'words that are sent' 'shared unsigned c; task t { unsigned i; for (i = 0; i < 16; i++) { emit(c + i); } c = c + 16; transition_to(t); } entry t;'
measure 'one element of 512' 'shared unsigned a[512]; task t { a[9] = sense(); transition_to(t); } entry t;'

printf 'task t { transition_to(t); } entry t;\n' > s
empty=$(fewest 500 1)
echo "an empty task: $empty cycles"
less sum8 'shared unsigned a[8]; shared unsigned s; task t { unsigned i; for (i = 0; i < 8; i++) { s = s + a[i]; } transition_to(t); } entry t;'
less addto8 'shared unsigned a[8]; shared unsigned x = 7; task t { unsigned i; for (i = 0; i < 8; i++) { a[i] = a[i] + x; } transition_to(t); } entry t;'
less row14 'shared unsigned a[64]; task t { unsigned i; for (i = 0; i < 64; i++) { a[0] = a[0] + 1; } transition_to(t); } entry t;'
less mul 'shared unsigned x = 1234; shared unsigned y = 567; shared unsigned z; task t { z = x * y; transition_to(t); } entry t;'
less divmod 'shared unsigned x = 54321; shared unsigned y = 77; shared unsigned q; shared unsigned r; task t { q = x / y; r = x % y; transition_to(t); } entry t;'
less branch 'shared unsigned x = 5; shared unsigned y = 9; shared int p = -3; task t { if (x < y) { x = 77; } else { emit(y); } if (p < 2 && y > 3) { y = y - 1; } transition_to(t); } entry t;'
less sense 'shared unsigned n = 0; task t { n = n + sense(); emit(n); transition_to(t); } entry t;'
less dot8 'shared unsigned a[8]; shared unsigned b[8]; shared unsigned s; task t { unsigned i; s = 0; for (i = 0; i < 8; i++) { s = s + a[i] * b[i]; } transition_to(t); } entry t;'
less mix 'shared unsigned x = 4660; shared unsigned y = 41; shared unsigned a[32]; task t { x = (x << 3) ^ (x >> 2); a[x % 32] = y; y = a[y] ^ x; transition_to(t); } entry t;'
less max16 'shared unsigned a[16]; shared unsigned m; task t { unsigned i; unsigned k = 0; for (i = 0; i < 16; i++) { if (a[i] > k) { k = a[i]; } } m = k; transition_to(t); } entry t;'
# with functions: those of a C compiler are not put into what calls them
less crc 'shared unsigned a[8]; shared unsigned s; unsigned crc(unsigned c, unsigned w) { unsigned i; c = c ^ w; for (i = 0; i < 8; i++) { if (c & 32768) { c = (c << 1) ^ 4129; } else { c = c << 1; } } return c; } task t { unsigned i; unsigned c = 65535; for (i = 0; i < 8; i++) { c = crc(c, a[i]); } s = c; transition_to(t); } entry t;'
less clamp 'shared unsigned a[8]; shared unsigned s; unsigned clamp(unsigned v, unsigned low, unsigned high) { if (v < low) { return low; } if (v > high) { return high; } return v; } task t { unsigned i; unsigned k = 0; for (i = 0; i < 8; i++) { k = k + clamp(a[i], 2, 5); } s = k; transition_to(t); } entry t;'
less four 'shared unsigned x = 1234; shared unsigned y = 567; shared unsigned z = 77; shared unsigned s; unsigned four(unsigned p, unsigned q, unsigned r, unsigned k) { return (p + q) ^ (r - k); } task t { s = four(x, y, z, 3) + four(y, 7, x, z); transition_to(t); } entry t;'
less chain 'shared unsigned x = 1234; shared unsigned y = 567; shared unsigned s; unsigned h(unsigned v) { return v + x; } unsigned g(unsigned v) { return h(v + 1) ^ v; } unsigned f(unsigned v) { return g(v) + g(v + 2); } task t { s = f(x) - f(y); transition_to(t); } entry t;'

for name in $(cd "$top/examples" && ls -- *.alp); do example "${name%.alp}"; done
