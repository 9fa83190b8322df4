#!/usr/bin/env bash
# Prints how time and memory grow: `run` with 10^6, 10^7 and 10^8 instructions of a compiled program, `mean` with 10^2, 10^3 and 10^4 transitions of a task of
# some thirty thousand nodes. A row has the least seconds of processor time of nine runs, less those of an empty trace, what that is for one (an
# instruction, a transition), and the most memory held.
# Then families of inputs that once took time with the square of their size, or for all that a map names: of each the least seconds of processor time of
# nine runs at three sizes, and the exponent between the last two: 1 where twice the size takes twice the time. The script fails where one is above 1.2, or,
# where the size is to make no difference, above 0.2.
# ALPACA names another build of the program.
. "$(dirname "$(readlink -f "$0")")/workplace.sh"

# the least seconds of processor time of nine runs, to the thousandth, and the most memory in KiB
least() {
    local TIMEFORMAT='%3U %3S'
    for _ in 1 2 3 4 5 6 7 8 9; do
        { time /usr/bin/time -q -a -o most -f '%M' "$alpaca" "$@" >out 2>err; } 2>>used || true
    done
    paste used most | awk '{ seconds = $1 + $2; if (NR == 1 || seconds < low) low = seconds; if ($3 > top) top = $3 } END { print low, top }'
    rm used most
}

# how many, of what, and the words of the command
row() {
    local count=$1 what=$2 command=$3 file=$4 start
    start=$(least "$command" "$file" none)
    echo "$start $(least "$command" "$file" trace)" | awk -v count="$count" -v what="$what" -v command="$command" '{
        printf "%s, %d %s: %.2f s, %.1f ns each, %d KiB\n", command, count, what, $3 - $1, ($3 - $1) * 1e9 / count, $4
    }'
}

: >none
echo 'shared unsigned n; shared unsigned a[16]; task t { unsigned i; for (i = 0; i < 16; i++) { n = n * 5 + i; a[n & 15] = n; } transition_to(t); } entry t;' >source
echo 'shared unsigned x; task a { unsigned i; x = sense(); for (i = 0; i < 5000; i++) { x = x + i ^ 3; } transition_to(a); } entry a;' >loops
"$alpaca" build source image >/dev/null
for count in 1000000 10000000 100000000; do
    echo "s $count 0" >trace
    row "$count" instructions run image
done
for count in 100 1000 10000; do
    seq 1 "$count" | awk '{ print "r", $1 }' >trace
    row "$count" transitions mean loops
done

# family LABEL MOST MAKER SIZE SIZE SIZE: MAKER N makes the files of one size, and prints the words of the command
failed=0
family() {
    local label=$1 most=$2 make=$3 n words seconds=() sizes=("${@:4}")
    for n in "${sizes[@]}"; do
        words=$($make "$n")
        seconds+=("$(least $words | cut -d' ' -f1)")
    done
    echo "${sizes[*]} ${seconds[*]}" | awk -v label="$label" -v most="$most" '{
        power = log(($6 + 0.005) / ($5 + 0.005)) / log($3 / $2)
        printf "%s: %s s at %d, %s s at %d, %s s at %d: exponent %.2f%s\n", label, $4, $1, $5, $2, $6, $3, power, (power > most ? ", TOO HIGH" : "")
        exit power > most
    }' || failed=1
}

repeated() {
    awk -v n="$1" -v piece="$2" 'BEGIN { for (i = 0; i < n; i++) printf "%s", piece }'
}

# a table that is read and never written, of so many words
table() {
    echo "shared unsigned k; shared unsigned t[$1]; task a { k = k + t[0]; transition_to(a); } entry a;" >table.alp
    "$alpaca" build table.alp table.img >built
    echo 'c 20000000 0' >table.trace
    echo run table.img table.trace
}

# so many arrays, each of which is all of the FRAM
overlaps() {
    printf '@4400\n92 43 04 50 92 53 10 50 82 43 04 50 F9 3F\n@FFFE\n00 44\nq\n' >overlaps.img
    printf 'map\nbound 1\nwords 5000 5002 5004 5006 5008 500A 500C 500E\nlist 6000 1\nemits 6100 1\nversions 6200 0\n' >>overlaps.img
    seq "$1" | awk '{ print "array v" $1 " unsigned 4400 24064" }' >>overlaps.img
    printf 'task a\nend\n' >>overlaps.img
    echo 's 3000 0' >overlaps.trace
    echo run overlaps.img overlaps.trace
}

# a report of some 32,000 transitions over an array of so many words
audited() {
    echo "shared unsigned k; shared unsigned t[$1]; task a { k = k + 1 + t[0]; transition_to(a); } entry a;" >audited.alp
    : >audited.trace
    seq 32000 | awk '{ printf "t %d a a 0 0\nv k %d\n", $1, $1 } END { print "end charges 32000 0 0" }' >audited.report
    echo audit audited.alp audited.report audited.trace
}

# rows of ifs without a body
ifs() {
    { printf 'task a { int l=sense(); '; repeated "$1" 'if(1){}'; printf ' transition_to(a); } entry a;'; } >ifs.alp
    echo mean ifs.alp none
}

# locals, each of which is set to the one before it
locals() {
    { printf 'task a { int l0=sense();'; seq "$1" | awk '{ printf "int l%d=l%d;", $1, $1 - 1 }'; printf ' transition_to(a); } entry a;'; } >locals.alp
    echo mean locals.alp none
}

tested() {
    { printf 'task a { int l0=sense();'; seq "$1" | awk '{ printf "if(l%d){}int l%d=1;", $1 - 1, $1 }'; printf ' transition_to(a); } entry a;'; } >tested.alp
    echo mean tested.alp none
}

# a nest of fifty choices, in each of which one way leaves, round so many locals that are declared and assigned, with as many in front of it
nests() {
    {
        printf 'task a { int l=sense(); '
        seq "$1" | awk '{ printf "int o%d;", $1 }'
        repeated 25 'if(l){transition_to(a);}else{if(l){'
        seq "$1" | awk '{ printf "int x%d;x%d=1;o%d=x%d;", $1, $1, $1, $1 }'
        repeated 25 '}else{transition_to(a);}}'
        seq "$1" | awk '{ printf "l=o%d;", $1 }'
        printf ' transition_to(a); } entry a;'
    } >nests.alp
    echo mean nests.alp none
}

# a text of one length whose expressions are rows of so many signs
signs() {
    { printf 'shared int a; task t { a=sense(); '; repeated $((400000 / ($1 + 4))) "a=$(repeated "$1" -)1;"; printf ' transition_to(t); } entry t;'; } >signs.alp
    echo mean signs.alp none
}

sums() {
    { printf 'shared int a; task t { a=sense(); '; repeated "$1" 'a=1+1+1;'; printf ' transition_to(t); } entry t;'; } >sums.alp
    echo mean sums.alp none
}

family "run: a table of so many words" 0.2 table 1000 5000 20000
family "run: so many arrays that are all of the FRAM" 1.2 overlaps 64 128 256
family "audit: an array of so many words" 0.2 audited 5000 10000 20000
family "mean: ifs" 1.2 ifs 35000 70000 140000
family "mean: locals that are set to one another" 1.2 locals 10000 20000 40000
family "mean: locals that are tested" 1.2 tested 10000 20000 40000
family "mean: locals in a nest of choices" 1.2 nests 5000 10000 20000
family "mean: signs in front of a number" 0.2 signs 50 100 200
family "mean: sums" 1.2 sums 30000 60000 120000
exit $failed
