#!/usr/bin/env bash
# Prints how many million instructions `alpaca run` makes a second of processor time: a loop that counts in a register, one that copies words in FRAM, and a
# compiled program without and with its map's transitions being watched. ALPACA names another build of the program. Nothing depends on these figures.
. "$(dirname "$(readlink -f "$0")")/workplace.sh"
count=${COUNT:-50000000}
echo "s $count 0" >charge
TIMEFORMAT=%U

# the least processor time of three runs
least() {
    for _ in 1 2 3; do
        { time "$alpaca" run "$1" charge >/dev/null 2>&1; } 2>&1
    done | sort -n | head -n 1
}

row() {
    awk "BEGIN { printf \"%-28s %6.1f million instructions a second\n\", \"$1\", $count / $(least "$2") / 1000000 }"
}

cat >counting <<'E2'
turn:   add #3,r4
        dec r5
        jne turn
        jmp turn
        .org 0xFFFE
        .word turn
E2
cat >copying <<'E2'
start:  mov #0x5000,r4
        mov #0x6000,r5
        mov #256,r6
turn:   mov @r4+,0(r5)
        incd r5
        dec r6
        jne turn
        jmp start
        .org 0xFFFE
        .word start
E2
echo 'shared unsigned n; shared unsigned a[16]; task t { unsigned i; for (i = 0; i < 16; i++) { n = n * 5 + i; a[n & 15] = n; } transition_to(t); } entry t;' >source
"$alpaca" asm counting counting.img
"$alpaca" asm copying copying.img
"$alpaca" build source watched.img >/dev/null
sed '/^map$/,$d' watched.img >plain.img
row 'a counting loop' counting.img
row 'a copying loop' copying.img
row 'a compiled program' plain.img
row 'the same, watched' watched.img
