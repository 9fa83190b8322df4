#!/usr/bin/env bash
# Prints the seconds that `alpaca run` takes for images with a map and without it, and what share of its speed watching costs:
# a counting loop that makes no transition, one that makes a transition every 205 instructions, and one that loses power every
# 50 instructions.
# ALPACA names another build of the program. Nothing depends on these figures.
. "$(dirname "$(readlink -f "$0")")/workplace.sh"
TIMEFORMAT=%R

cat >loop <<'END'
@4400
15 53 FE 3F
@FFFE
00 44
q
END
cat >tasks.asm <<'END'
start:  mov #100, r6
next:   dec r6
        jnz next
        mov #1, &0x5004
        clr &0x5004
        jmp start
        .org 0xFFFE
        .word start
END
"$alpaca" asm tasks.asm tasks
cat >map <<'END'
map
bound 1000
words 5000 5002 5004 5006 5008 500A 500C 500E
list 6000 4
emits 6100 4
versions 6200 4
scalar x unsigned 5010
array a unsigned 5012 8
task first
end
END
for image in loop tasks; do
    cat $image map >$image.watched
done
echo 's 40000000 0' >long
echo 's 50 0 * 800000' >cuts

# the least time of five runs
least() {
    for _ in 1 2 3 4 5; do
        { time "$alpaca" run "$@" >/dev/null 2>&1; } 2>&1
    done | sort -n | head -n 1
}

row() {
    local plain watched
    plain=$(least "$2" "$3")
    watched=$(least "$2.watched" "$3")
    awk "BEGIN { printf \"$1: plain $plain s, watched $watched s (%.0f %% of its speed lost)\n\", 100 * (1 - $plain / $watched) }"
}

row "counting loop" loop long
row "a transition every 205 instructions" tasks long
row "a power-up every 50 instructions" loop cuts
