#!/bin/sh
# What the program as users get it, proved and built for release, takes for each item of modules of several
# shapes and sizes: nanoseconds of processor time in `Namer::reset`, `accepts`, `count` and `write_string`, and the
# megabytes of text that are written in a second; where valgrind is there, allocations; and for each level of nested
# operands bytes of the stack. Run it at the top of the repository; it works on a copy, with the proofs that earlier
# checks kept (some GB).
set -- writing_times bench/times/writing_times/*.rt.txt
. bench/on_a_whole_copy.sh
program="$copy/crates/writing_times/out/writing_times"

rt run > table 2> told || { cat told >&2; exit 1; }
cat table

# How many allocations the program makes, called with these words.
allocations() {
    valgrind "$program" "$@" 2>&1 > /dev/null | sed -n 's/.*total heap usage: \([0-9,]*\) allocs.*/\1/p' | tr -d ,
}

# What one call more takes.
if command -v valgrind > /dev/null; then
    for call in 'empty 1 write' 'lines 10 write' 'lines 1000 write' 'mixed 1000 write' 'mixed 10000 write' 'bound_sums 1000 write' 'functions 1000 write' \
        'long_labels 1000 write' 'locals 1000 write' 'nested_operands 1000 write' 'structs 1000 reset'; do
        once=$(allocations $call 1)
        twice=$(allocations $call 2)
        echo "$call: $((twice - once)) allocations"
    done
fi

# The least stack, in KiB, on which so many nested operands are written.
least_stack() {
    low=16
    high=8192
    while [ $((high - low)) -gt 1 ]; do
        middle=$(((low + high) / 2))
        if (ulimit -s $middle && "$program" nested_operands "$1" write 1) > /dev/null 2>&1; then
            high=$middle
        else
            low=$middle
        fi
    done
    echo $high
}

few=$(least_stack 1000 2> /dev/null)
many=$(least_stack 5000 2> /dev/null)
echo "nested_operands: $(((many - few) * 1024 / 4000)) bytes of the stack for each level"
