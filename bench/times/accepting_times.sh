#!/bin/sh
# What `accepts` takes for each item of modules of several shapes and sizes, in a program as users get it, proved and
# built for release: nanoseconds of processor time, the least of several calls. Run it at the top of the repository; it
# works on a copy, with the proofs that earlier checks kept (some GB).
set -- accepting_times bench/times/accepting_times/*.rt.txt bench/times/writing_times/clock.rt.txt \
    bench/times/writing_times/each_item.rt.txt bench/times/writing_times/lines.rt.txt bench/times/writing_times/cases.rt.txt bench/times/writing_times/sample.rt.txt
. bench/on_a_whole_copy.sh
rt run > table 2> told || { cat told >&2; exit 1; }
cat table
