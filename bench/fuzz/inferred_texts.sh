#!/bin/sh
# Compares the answers to generated modules that come without what is known of them with those to the same modules with it
# (`inferred_modules/__main__.py`). Run it at the top of the repository, with how many modules and which seed; it tries the
# program without proofs, or takes one that is there, which is named third.
set -e
modules=${1:-20000}
seed=${2:-1}
top=$(pwd)
program=$3
if [ -z "$program" ]; then
    kept=$(mktemp -d)
    trap 'rm -rf "$kept"' EXIT
    program=$kept/yorwethul
    cd crates/yorwethul
    "$top/bench/keep_tried.sh" "$program" --lines
fi
python3 "$top/bench/fuzz/inferred_modules" texts "$program" "$modules" "$seed"
