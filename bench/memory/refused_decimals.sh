#!/bin/sh
# Refuses each allocation of a program that makes the floats of a module decimal, one in each run, and counts the runs in
# which nothing was refused, in which a refusal was told, each literal had its value all the same and a second call did the
# rest, and others, which are wrong: the status is 1 then. `unbuilt` are those in which the module found no memory. Run it
# at the top of the repository; it works on a copy.
set -- memory/refused_decimals float_numerals finite_numerals naga_info wgsl_words naga_spelling naga_back wgsl_layout naga_layout \
    shader_runs wgsl_text text_semantics module_semantics decimal_floats
. bench/memory/count_runs.sh
. bench/on_a_copy.sh
mkdir cases
for count in $(seq -w 0 199); do
    echo "$count" > "cases/$count"
done
rt try --steps 1 --fail-alloc 200 --cases cases > printed 2> told || true
grep -xE 'right|refused|unbuilt|wrong' printed > words || true
count_runs words "$(ls cases | wc -l)"
