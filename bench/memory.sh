#!/usr/bin/env bash
# Prints the most memory that each command of the program holds, and its seconds, on inputs at the limit of a file or of FRAM.
# ALPACA names another build of the program. Nothing depends on these figures.
. "$(dirname "$(readlink -f "$0")")/workplace.sh"

measure() {
    local label=$1
    shift
    /usr/bin/time -o used -f '%M KiB, %e s' "$alpaca" "$@" >out 2>err || true
    echo "$1 of $label: $(tail -n 1 used), $(tail -n 1 err)"
}

# a piece as often as it fits into a file, between a front and an end
fill() {
    awk -v front="$1" -v piece="$2" -v end="$3" 'BEGIN {
        printf "%s", front
        for (room = 1048576 - length(front end); room >= length(piece); room -= length(piece)) printf "%s", piece
        printf "%s", end
    }'
}

: >none
echo 'task t{transition_to(t);}entry t;' >small
sum='task a { n = n + sense(); emit(n); transition_to(a); } entry a;'
end='transition_to(t);}entry t;'
fill '' '\n' "shared unsigned n = 0; $sum" >lines
minuses=$(printf '%253s' '' | tr ' ' -)
fill 'shared int a;task t{' "a=${minuses}1;" "$end" >tokens
fill 'shared int a;task t{' 'a=1;' "$end" >statements
fill 'task t{if(1){}' 'else if(1){}' "$end" >arms
fill 'task t{' 'if(1){}' "$end" >ifs
fill 'task t{' "$(printf 'if(1){%.0s' $(seq 62))$(printf '}%.0s' $(seq 62))" "$end" >nested
fill 'shared int a;task t{' "a=1$(printf '+1%.0s' $(seq 126));" "$end" >sums
fill 'shared int a;task t{' "a=a$(printf '+a%.0s' $(seq 126));" "$end" >uses
awk 'BEGIN {
    printf "task t{"
    for (n = 100000; n < 187370; n++) printf "int l%d;", n
    printf "transition_to(t);}entry t;"
}' >names
awk 'BEGIN {
    printf "r"
    for (n = 0; n < 262144; n++) printf " 1"
    printf "\n"
    for (n = 0; n < 43000; n++) print "s 0 0\ns 0 1"
    print "s 1 0 * 913999\nc 4294967295 0"
}' >charges
echo 'shared int n;task t{int i;for(i=0;i<26;i++){n=sense();}transition_to(t);}entry t;' >sensing
awk 'BEGIN { for (n = 0; n < 127500; n++) printf "l%05d:\n", n; print ".org 0xFFFE\n.word l00000" }' >labels
awk 'BEGIN {
    print "l: .word 0x1800"
    for (n = 0; n < 24062; n++) printf "%-35s 0x1800\n", "    .word"
    print ".org 0xFFFE\n.word l"
}' >words
awk 'BEGIN {
    print "@4400"
    for (n = 0; n < 24063; n++) printf "FF 3F "
    print "00 44\nq\nmap\nbound 1\nwords 5000 5002 5004 5006 5008 500A 500C 500E\nlist 5010 1\nemits 5010 1\nversions 5010 1"
    for (n = 0; n < 256; n++) printf "array a%d unsigned 4400 24064\n", n
    print "task t\nend"
}' >arrays

measure "a small source" mean small none
for text in lines tokens sums uses statements nested ifs arms names; do
    measure "$text, $(wc -c <$text) bytes" mean $text none
done
measure "1,000,000 charges and 262,144 readings, $(wc -c <charges) bytes" mean sensing charges
measure "the same" try sensing charges image
measure "the same, of that image" run image charges
measure "lines, $(wc -c <lines) bytes" build lines image
measure "labels, $(wc -c <labels) bytes" asm labels image
measure "words, $(wc -c <words) bytes" asm words image
measure "an image of all FRAM" dis image
measure "an image of all FRAM with 256 arrays of all FRAM" run arrays none
measure "the same" save arrays none state
measure "the same, of that state" resume arrays state none
measure "1,000,000 charges and 262,144 readings, of an image" save image charges state
measure "the same, of that state" resume image state charges
measure "number 0" gen 0 image
