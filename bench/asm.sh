#!/usr/bin/env bash
# Prints the seconds that `alpaca asm` takes for texts of 1 MiB (an instruction a line with labels and jumps, labels alone,
# words on one line, the same label on each line, a fault in the last line) and `alpaca dis` for images without a zero word
# and with a section for every other word.
# ALPACA names another build of the program. Nothing depends on these figures.
. "$(dirname "$(readlink -f "$0")")/workplace.sh"

seconds() {
    local label=$1 start
    shift
    start=$(date +%s.%N)
    "$alpaca" "$@" >out 2>&1 || true
    echo "$label: $(echo "$(date +%s.%N) $start" | awk '{ printf "%.3f", $1 - $2 }') s, $(wc -l <out) lines, the last: $(tail -n 1 out)"
}

awk 'BEGIN {
    for (n = 0; n < 24063; n++) printf "l%05d: %-14s; word %05d .......\n", n, n % 3 ? "add r5, r6" : "jmp l" sprintf("%05d", n), n
    print ".org 0xFFFE\n.word l00000"
}' >instructions
awk 'BEGIN { for (n = 0; n < 127500; n++) printf "l%05d:\n", n; print ".org 0xFFFE\n.word l00000" }' >labels
awk 'BEGIN { printf ".word l"; for (n = 1; n < 24063; n++) printf "%-40s, l", ""; print "\n.org 0xFFFE\nl: .word l" }' >words
awk 'BEGIN { for (n = 0; n < 340000; n++) print "l:" }' >repeated
awk 'BEGIN { for (n = 0; n < 24063; n++) printf "    add r5, r6 ; %-25d\n", n; print ".org 0xFFFE\n.word 65536" }' >fault
awk 'BEGIN {
    print "@4400"
    for (n = 0; n < 3008; n++) print "05 56 26 42 32 40 34 12 17 53 FF 3F 16 45 34 12"
    print "q"
}' >full
awk 'BEGIN {
    print "@4400"
    for (n = 0; n < 3008; n++) print "05 56 00 00 26 42 00 00 17 53 00 00 FF 3F 00 00"
    print "q"
}' >sections

"$alpaca" dis full >/dev/null
for text in instructions labels words repeated fault; do
    seconds "asm of $text, $(wc -c <$text) bytes" asm $text image
done
seconds "dis of an image without a zero word" dis full
seconds "dis of an image of $((3008 * 4)) sections" dis sections
