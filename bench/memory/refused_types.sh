#!/bin/sh
# Refuses each allocation of a program that spells types, rules and names of predeclared structs, one in each
# run, and counts the runs in which nothing was refused, in which a refusal was told and the call was whole
# when it was repeated, and others, which are wrong: the status is 1 then. Run it at the top of the repository; it works
# on a copy.
set -- memory/refused_types naga_info wgsl_words naga_spelling naga_words
. bench/memory/count_runs.sh
. bench/on_a_copy.sh
mkdir cases
for count in $(seq -w 0 399); do
    echo "$count" > "cases/$count"
done
rt try --fail-alloc 400 --cases cases > printed 2> told || true
grep -xE 'right|refused|wrong' printed > words || true
count_runs words "$(ls cases | wc -l)"
