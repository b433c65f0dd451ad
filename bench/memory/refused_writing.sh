#!/bin/sh
# Refuses each allocation in turn of writing a sample module, `mixed`, a hundred expressions of many kinds, `layouts`,
# structs with gaps, or `read`, a module with each kind of declaration and of statement, one in each run, and counts for
# each the runs in which nothing was refused, and those in which the refusal was told, a beginning of the text stood there,
# and the other call answered as with ample memory; others are wrong, so that the status is 1, and `unbuilt` are those in
# which the module found no memory. Run it at the top of the repository, with words as those below, each list one argument,
# for these alone; it works on a copy.

# how many allocations, at least, are made in one run, and what is written
[ $# -gt 0 ] || set -- '500 identity' '500 store' '500 store explicit' '500 vertex' '500 continue' '500 pointer' \
    '500 modf' '500 modf explicit' '500 sample' '500 sample explicit' '4000 mixed' '4000 mixed explicit' '500 tail' \
    '500 tail explicit' '500 call' '500 call explicit' '500 switch' '500 switch explicit' '500 deep' \
    '500 deep explicit' '500 layouts' '500 layouts explicit' '1800 read' '1800 read explicit'
asked=$(mktemp)
printf '%s\n' "$@" > "$asked"
whole=$(mktemp)
python3 - "each kind of declaration and of statement" > "$whole" << 'END'
import json
import sys
sys.path.append("crates/wgsl_cases/ir")
from inference import with_info
cases = map(json.loads, open("crates/wgsl_cases/stdin", encoding="utf-8"))
print(*(json.dumps(with_info(case)) for case in cases if case["name"] == sys.argv[1]))
END
set -- refused_writing bench/memory/refused_writing/main.rt.txt bench/times/writing_times/layouts.rt.txt \
    bench/times/writing_times/mixed.rt.txt bench/times/writing_times/sample.rt.txt
. bench/memory/count_runs.sh
. bench/on_a_whole_copy.sh
trap 'rm -rf "$copy" "$asked" "$whole"' EXIT

# The allocation with this number is refused in each run.
last=8000

# Adds runs of `$words`, with so many allocations in front as the numbers on the standard input say.
add() {
    name=$(echo "$words" | tr ' ' -)
    while read -r count; do
        { echo "$count $words"; cat "$whole"; } > "cases/${name}_$count"
    done
}

# What the runs of `$words` printed, each with its number in front.
told_of() {
    awk -v "name=$(echo "$words" | tr ' ' -)" '
        /^== / { split($2, parts, "_"); next }
        parts[1] == name { print parts[2], $0 }' printed
}

# How many runs of `$words` there are.
number_of_runs() {
    ls cases | grep -c "^$(echo "$words" | tr ' ' -)_" || true
}

try() {
    rt try --steps 1 --fail-alloc "$last" --cases cases > printed 2> told || true
}

# first in steps, then each one around those that were refused
mkdir cases
while read -r number words; do
    seq -w $((last - number)) 10 $((last - 1)) | add
done < "$asked"
try
rm -rf cases
mkdir cases
while read -r number words; do
    told_of | awk '$2 == "refused" { print $1 + 0 }' | sort -n | sed -n '1p;$p' | tr '\n' ' ' > ends
    read -r from to < ends || true
    [ -n "$from" ] || { echo "$words: none refused"; continue; }
    seq $((from > 10 ? from - 10 : 0)) $((to + 10)) | add
done < "$asked"
try
status=0
while read -r number words; do
    echo "== $words"
    told_of | cut -d ' ' -f 2- > words
    count_runs words "$(number_of_runs)" || status=1
done < "$asked"
exit $status
