#!/bin/sh
# Refuses each allocation of a program that makes the sets of WGSL's words, resets a `Namer` and names labels, one in each
# run, and counts the runs in which nothing was refused, in which a refusal was told and the call gave, when it was
# repeated, what it would have given, and others, which are wrong: the status is 1 then. Run it at the top of the
# repository, with a number to refuse each so-manyth alone; it works on a copy.
step=${1:-1}
set -- memory/refused_names
. bench/memory/count_runs.sh
. bench/on_a_copy.sh
mkdir cases
for count in $(seq -w 0 "$step" 119); do
    echo "$count" > "cases/$count"
done
rt try --steps 1 --fail-alloc 120 --cases cases > printed 2> told || true
grep -xE 'right|refused|wrong' printed > words || true
count_runs words "$(ls cases | wc -l)"
