#!/usr/bin/env bash
# Asks whether ./yorwethul reads a file whose name is no UTF-8, and prints nothing where it does.
set -eu
top=$(cd "$(dirname "${BASH_SOURCE[0]}")/.." && pwd)
room=$(mktemp -d)
trap 'rm -rf "$room"' EXIT
cd "$room"
cp "$top/crates/yorwethul/runs/double.json" double.json
cp double.json $'gr\xf6\xdfe.json'
"$top/yorwethul" double.json >wanted
"$top/yorwethul" $'gr\xf6\xdfe.json' >text 2>told
cmp wanted text
grep -q 'whose name is no UTF-8, is read as /proc/self/fd/[0-9]*$' told
