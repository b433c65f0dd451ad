#!/bin/sh
# Refuses each allocation in turn of inferring what is known of a module with each kind of declaration and of statement, one
# in each run, and counts the runs in which nothing was refused, and those in which the refusal was told and the other call
# found as many types as with ample memory; others are wrong, so that the status is 1. Run it at the top of the repository;
# it works on a copy.
whole=$(mktemp)
grep '^{"name":"each kind of declaration and of statement",' crates/wgsl_cases/stdin > "$whole"
set -- memory/refused_inference decimal_numerals naga_info naga_json wgsl_words naga_spelling wgsl_layout naga_layout \
    naga_back wgsl_text float_numerals shader_runs text_semantics module_semantics naga_acceptance naga_inference
. bench/memory/count_runs.sh
. bench/on_a_copy.sh
trap 'rm -rf "$copy" "$whole"' EXIT

# The allocation with this number is refused in each run.
last=8000

# Runs in which so many allocations were made before as the numbers on the standard input say.
try() {
    rm -rf cases
    mkdir cases
    while read -r number; do
        { echo "$number"; cat "$whole"; } > "cases/$number"
    done
    rt try --steps 1 --fail-alloc "$last" --cases cases > printed 2> told || true
}

# first in steps, then each one around those that were refused
seq -w 5000 10 $((last - 1)) | try
awk '/^== / { number = $2 } $1 == "refused" { print number + 0 }' printed | sort -n | sed -n '1p;$p' | tr '\n' ' ' > ends
read -r from to < ends || true
[ -n "$from" ] || { echo "none refused" >&2; head -n 50 told >&2; exit 1; }
seq -w $((from > 10 ? from - 10 : 0)) $((to + 10)) | try
grep -xE '(right|refused|wrong|unread) [0-9]+' printed > words || true
count_runs words "$(ls cases | wc -l)"
