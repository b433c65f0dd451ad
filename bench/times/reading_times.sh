#!/bin/sh
# How fast `read_known` reads the JSON of a small module, of one of seven hundred functions, and of that one with all that naga
# tells in an info: nanoseconds of processor time of the shortest of many calls, and megabytes a second. Run it at the top of
# the repository; it works on a copy, with the proofs that earlier checks kept.
set -- times/reading_times naga_info naga_json
. bench/on_a_copy.sh
python3 "$top/bench/times/reading_times/texts.py" "$copy"
for each in 'small 2000' 'large 50' 'whole_info 50'; do
    echo "${each% *}: $(rt run -- "$copy/${each% *}.json" "${each#* }")"
done
