#!/bin/sh
# Compares the texts of generated modules with those of a model that was written apart from the writer, and what the
# module and its text do when they run (`generated_modules/model`, and with whole numbers `crates/wgsl_cases/runs`). Run
# it at the top of the repository, with how many modules, which seed, and `structs` for modules of structs alone; it
# proves and builds `yorwethul`, where that has not been done, and asks it by `--lines`.
set -e
modules=${1:-100000}
seed=${2:-1}
top=$(pwd)
cd crates/yorwethul
told=$(rt run -- --version < /dev/null 2>&1) || { echo "$told" >&2; exit 1; }
python3 "$top/bench/fuzz/generated_modules/model" out/yorwethul "$modules" "$seed" $3
