#!/bin/sh
# Times `yorwethul --lines` over small modules, and tells the modules and megabytes of JSON a second and the peak of its memory. Run it at the
# top of the repository, with how many modules and which seed; it runs the proved program, which `./yorwethul --prove` proves and builds where
# it is not there, or where a source has changed since.
set -e
modules=${1:-100000}
seed=${2:-1}
./yorwethul --prove --version > /dev/null
program=out/proved/yorwethul
room=$(mktemp -d)
trap 'rm -rf "$room"' EXIT
python3 bench/times/json_lines/modules.py "$modules" "$seed" > "$room/lines"
/usr/bin/time -f '%e %U %M' -o "$room/time" "$program" --lines "$room/lines" > "$room/answers"
written=$(grep -c '^{"id":[0-9]*,"text":' "$room/answers" || true)
read -r seconds user peak < "$room/time"
awk -v modules="$modules" -v written="$written" -v bytes="$(wc -c < "$room/lines")" -v seconds="$seconds" -v user="$user" -v peak="$peak" 'BEGIN {
    printf "%d modules, %d written, %.1f MB of JSON: %.2f s of the clock, %.2f s of a processor, ", modules, written, bytes / 1e6, seconds, user
    if (seconds > 0) printf "%.0f modules and %.1f MB a second, ", modules / seconds, bytes / 1e6 / seconds
    printf "at most %.1f MB of memory\n", peak / 1e3
}'
