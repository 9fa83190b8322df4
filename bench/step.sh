#!/usr/bin/env bash
# Prints the user seconds of ten million instructions on the proved CPU and on another emulator, side by side.
# Arguments: the other emulator, called as `EMULATOR rate IMAGE TRACE`, and a folder with count.txt and mixed.txt, the
# two programs of crates/step_bench as TI-TXT images. `rt run` in crates/step_bench builds the program first.
set -eu
emulator=$1
images=$2
bench=$(dirname "$(readlink -f "$0")")/../crates/step_bench/out/step_bench
trace=$(mktemp)
trap 'rm "$trace"' EXIT
steps=10000000
echo "s $steps 0" >"$trace"
TIMEFORMAT=%U

# the least user time of five runs
least() {
    for _ in 1 2 3 4 5; do
        { time "$@" >/dev/null; } 2>&1
    done | sort -n | head -n 1
}
proved() { echo "$1 $2 $steps" | "$bench"; }

for image in count mixed; do
    other=$(least "$emulator" rate "$images/$image.txt" "$trace")
    step=$(least proved $image step)
    parts=$(least proved $image parts)
    awk "BEGIN { printf \"$image: other $other s, step $step s (%.2f), price and execution $parts s (%.2f)\n\", $other / $step, $other / $parts }"
done
