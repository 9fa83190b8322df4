#!/usr/bin/env bash
# Compares the images that two programs make: `bench/same_images.sh BEFORE AFTER`. Sources are those of examples/, those that rows build, and those
# that `gen` draws from 400 numbers. It names each whose image or answer differs, and fails where one does.
set -eu
top=$(cd "$(dirname "$(readlink -f "$0")")/.." && pwd)
exec python3 "$top/bench/same_images.py" "$@"
