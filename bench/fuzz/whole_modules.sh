#!/bin/sh
# Compares what `naga_json` reads of modules over every form with what was told (`whole_modules/__main__.py`), and looks
# at what it answers to modules that are spoiled (`whole_modules/hostile.py`). Run it at the top of the repository, with
# how many modules of each and which seed; it works on a copy, and tries the reader without proofs.
modules=${1:-2000}
spoiled=${2:-100}
seed=${3:-1}
top=$(pwd)
set -- fuzz/whole_modules naga_info naga_json
. bench/on_a_copy.sh
"$top/bench/keep_tried.sh" "$copy/dump"
python3 "$top/bench/fuzz/whole_modules" "$copy/dump" "$modules" "$seed"
python3 "$top/bench/fuzz/whole_modules/hostile.py" "$copy/dump" "$spoiled" "$seed"
