#!/usr/bin/env bash
# Prints the seconds that `alpaca mean` takes: 10,000 transitions of a small task, a source text of 1 MiB, hostile texts of
# 1 MiB with tens of thousands of locals, and two hundred million nodes of expressions.
# ALPACA names another build of the program. Nothing depends on these figures.
. "$(dirname "$(readlink -f "$0")")/workplace.sh"

seconds() {
    local label=$1 start
    shift
    start=$(date +%s.%N)
    "$alpaca" "$@" >out 2>&1 || true
    echo "$label: $(echo "$(date +%s.%N) $start" | awk '{ printf "%.3f", $1 - $2 }') s, $(wc -l <out) lines, the last: $(tail -1 out)"
}

echo 'shared unsigned n = 0; task a { n = n + sense(); emit(n); transition_to(a); } entry a;' >small
seq 1 10000 | awk '{ print "r", $1 }' >readings
awk 'BEGIN {
    print "shared unsigned n = 0; task a { n = sense();"
    for (bytes = 100; bytes < 1048000; bytes += 12) print "n = n + 1 ;"
    print "transition_to(a); } entry a;"
}' >large
awk 'BEGIN {
    print "task a {"
    for (n = 0; n < 70000; n++) printf "int l%d;\n", n
    print "transition_to(a); } entry a;"
}' >unassigned
awk 'BEGIN {
    print "task a {"
    for (n = 0; n < 35000; n++) printf "int l%d; l%d = 1;\n", n, n
    print "transition_to(a); } entry a;"
}' >assigned
awk 'BEGIN {
    print "shared unsigned x; task a { unsigned i; unsigned j; x = sense();"
    print "for (i = 0; i < 1000; i++) { for (j = 0; j < 1000; j++) { x = x + i ^ j * 3; } } transition_to(a); } entry a;"
}' >nodes
echo 'r 1' >reading
seq 1 28 | awk '{ print "r", $1 }' >some

"$alpaca" mean small reading >/dev/null
seconds "10,000 transitions of a small task" mean small readings
seconds "a source text of $(wc -c <large) bytes, one transition" mean large reading
seconds "70,000 locals without a value, $(wc -c <unassigned) bytes" mean unassigned reading
seconds "35,000 locals, each assigned, $(wc -c <assigned) bytes" mean assigned reading
seconds "28 transitions of 7,000,000 nodes" mean nodes some
