#!/usr/bin/env bash
# Prints how long two builds of the program take to write many lines into a pipe, side by side, the ratio, and how many write calls
# each makes: `mean` with 10,000 transitions, and a `run` that prints a million `o` lines.
# Argument: the other build. ALPACA names another first one, LINES another number of lines. Nothing depends on these figures.
set -eu
top=$(cd "$(dirname "$(readlink -f "$0")")/.." && pwd)
alpaca=${ALPACA:-$top/bin/alpaca}
other=$1
lines=${LINES:-1000000}
work=$(mktemp -d)
trap 'rm -rf "$work"' EXIT
cd "$work"
TIMEFORMAT=%R

echo 'shared unsigned n = 0; task a { n = n + sense(); emit(n); transition_to(a); } entry a;' >source
seq 1 10000 | awk '{ print "r", $1 }' >readings
cat >count.asm <<'END'
turn:   mov &0x5000, &0x0202
        mov &0x5000, &0x0204
        inc &0x5000
        jmp turn
        .org 0xFFFE
        .word turn
END
"$alpaca" asm count.asm image
echo "s $((4 * lines)) 0" >charge

# the least time of three runs into a pipe, the two builds in turn
least() {
    for _ in 1 2 3; do
        { time "$other" "$@" | cat >/dev/null; } 2>>others
        { time "$alpaca" "$@" | cat >/dev/null; } 2>>ours
    done
}

writes() {
    if command -v strace >/dev/null; then
        strace -f -c -e trace=write -o calls "$@" >/dev/null
        awk '$NF == "write" { print $4 " writes" }' calls
    fi
}

row() {
    local label=$1
    shift
    rm -f others ours
    least "$@"
    awk -v label="$label" -v a="$(sort -n others | head -n 1)" -v b="$(sort -n ours | head -n 1)" \
        'BEGIN { printf "%s: other %s s, alpaca %s s, %.2f times as fast\n", label, a, b, a / b }'
    echo "$label: other $(writes "$other" "$@"), alpaca $(writes "$alpaca" "$@")"
}

row "mean, 10,000 transitions" mean source readings
row "run, $lines o lines" run image charge
