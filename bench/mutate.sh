#!/usr/bin/env bash
# Mutates the examples of the five kinds of texts (sources, traces, images, maps, assembler texts) and runs the program on
# them: `bench/mutate.sh SECONDS SEED`. It fails where a run stops by a signal, hangs, answers a status without a meaning,
# tells more or less than its one line, or puts something on a refusal; such texts are kept, and named.
# ALPACA names another build of the program; WORKERS says how many runs there are side by side.
set -eu
top=$(cd "$(dirname "$(readlink -f "$0")")/.." && pwd)
exec python3 "$top/bench/mutate.py" "${ALPACA:-$top/crates/alpaca/out/alpaca}" "$@"
