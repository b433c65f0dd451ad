#!/bin/sh
# Compares the types that the crate naga_inference gives the expressions of generated modules with those that
# `crates/wgsl_cases/ir/inference.py` gives (`inferred_modules/__main__.py`). Run it at the top of the repository, with
# how many modules and which seed; it works on a copy, and tries the code without proofs.
modules=${1:-20000}
seed=${2:-1}
top=$(pwd)
libraries="naga_info naga_spelling naga_back wgsl_words shader_runs float_numerals wgsl_text wgsl_layout naga_layout\
    text_semantics module_semantics naga_acceptance naga_inference naga_json json"
set -- fuzz/inferred_modules $libraries
. bench/on_a_copy.sh
"$top/bench/keep_tried.sh" "$copy/types"
python3 "$top/bench/fuzz/inferred_modules" types "$copy/types" "$modules" "$seed"
