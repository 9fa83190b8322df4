#!/usr/bin/env bash
# Prints the seconds of processor time that `alpaca run` and another emulator take for the same images and traces, side by side, and their ratio;
# and what mspdebug's simulator takes for the images, where it is on the PATH.
# Arguments: the other emulator, called as `EMULATOR run IMAGE TRACE`, and a folder with the TI-TXT images count.txt, copy.txt
# and mixed.txt and the traces speed.tr (one long charge) and cuts.tr (a power-up every few instructions).
# ALPACA names another build of the program. Nothing depends on these figures.
set -eu
top=$(cd "$(dirname "$(readlink -f "$0")")/.." && pwd)
alpaca=${ALPACA:-$top/bin/alpaca}
emulator=$1
images=$2
commands=$(mktemp)
times=$(mktemp)
trap 'rm "$commands" "$times"' EXIT
TIMEFORMAT=%U

# the seconds of one run
seconds() {
    { time "$@" >/dev/null 2>&1; } 2>&1
}

# of the lines `WHO SECONDS`, the least of one
least() {
    awk -v who="$1" '$1 == who { print $2 }' "$times" | sort -n | head -n 1
}

# the address of the `bis #16, sr` that ends an image: there a simulator without CPUOFF has to stop
stop_of() {
    awk '/^@/ { at = 0; for (i = 2; i <= length($1); i++) at = 16 * at + index("0123456789ABCDEF", substr($1, i, 1)) - 1; next }
        /^[0-9A-F][0-9A-F] / { for (i = 1; i <= NF; i++) { seen = seen $i; if (seen ~ /32D01000$/) { printf "0x%x\n", at - 3; exit } at++ } }' "$1"
}

# the least of five times each, taken in turn
row() {
    local other ours theirs= simulates=
    if [ "$3" = speed.tr ] && command -v mspdebug >/dev/null; then
        simulates=1
        printf 'opt quiet 1\nprog %s\nreset\nsetbreak %s\nrun\n' "$images/$2" "$(stop_of "$images/$2")" >"$commands"
    fi
    for _ in 1 2 3 4 5; do
        echo "other $(seconds "$emulator" run "$images/$2" "$images/$3")"
        echo "alpaca $(seconds "$alpaca" run "$images/$2" "$images/$3")"
        [ -z "$simulates" ] || echo "mspdebug $(seconds mspdebug -q sim "read $commands")"
    done >"$times"
    other=$(least other)
    ours=$(least alpaca)
    [ -z "$simulates" ] || theirs=", mspdebug $(least mspdebug) s"
    awk "BEGIN { printf \"$1: other $other s, alpaca $ours s (%.2f)$theirs\n\", $other / $ours }"
}

row count count.txt speed.tr
row copy copy.txt speed.tr
row mixed mixed.txt speed.tr
row cuts count.txt cuts.tr
