#!/bin/sh
# As generated_modules.sh, with the program tried and not proved: some hundreds of modules in a few minutes. Run it at
# the top of the repository, with how many modules, which seed, and `structs` for modules of structs alone.
set -e
modules=${1:-500}
seed=${2:-1}
top=$(pwd)
kept=$(mktemp -d)
trap 'rm -rf "$kept"' EXIT
cd crates/yorwethul
"$top/bench/keep_tried.sh" "$kept/yorwethul" --lines
python3 "$top/bench/fuzz/generated_modules/model" "$kept/yorwethul" "$modules" "$seed" $3
