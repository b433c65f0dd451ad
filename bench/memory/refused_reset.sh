#!/bin/sh
# Refuses each allocation of a program that resets a `Namer`, one in each run, and tells of a run that found
# anything else than what `reset` promises. Run it at the top of the repository; it works on a copy.
set -- memory/refused_reset
. bench/on_a_copy.sh
mkdir cases
for count in $(seq -w 0 399); do
    echo "$count" > "cases/$count"
    echo right > "cases/$count.stdout"
done
rt try --fail-alloc 400 --cases cases
