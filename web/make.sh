#!/bin/bash
# make.sh [OUT [MODULE.ll]]: makes the page in OUT (web/out): index.html, yorwethul.wasm, examples.json. It is NOT PROVED: the kit
# compiles nothing for WebAssembly that takes memory, so that what bindings/unproved/make.sh makes for this machine, which is
# MODULE.ll where it is there already, is changed by hand to be for that one. It needs the kit, with its clang, and python3.
#
#   web/make.sh && python3 -m http.server -d web/out     # then open http://localhost:8000
set -eu
here=$(cd "$(dirname "$0")" && pwd)
top=$(cd "$here/.." && pwd)
out=${1:-$here/out}
mkdir -p "$out"
room=$(mktemp -d)
trap 'rm -rf "$room"' EXIT
module=${2:-$room/library/module.ll}
if [ $# -lt 2 ]; then
    "$top/bindings/unproved/make.sh" "$room/library"
fi
clang=$(dirname "$(rt doc)")/toolchain/bin/clang

layout="e-m:e-p:64:64-p10:8:8-p20:8:8-i64:64-i128:128-n32:64-S128"
sed -e "s/^target datalayout = .*/target datalayout = \"$layout\"/" \
    -e 's/^target triple = .*/target triple = "wasm64-unknown-unknown"/' \
    -e '/^attributes #/{s/sanitize_address//;s/"probe-stack"="[^"]*"//;s/"stack-probe-size"="[^"]*"//;s/"target-cpu"="[^"]*"//;s/"frame-pointer"="[^"]*"//}' \
    -e 's/^attributes #\([0-9]*\) = { *}/attributes #\1 = { nounwind }/' "$module" >"$room/module.ll"
flags="--target=wasm64-unknown-unknown --no-default-config -O2 -mbulk-memory"
"$clang" $flags -Wno-override-module -c -x ir "$room/module.ll" -o "$room/module.o"
"$clang" $flags -fno-builtin -nostdlib -ffreestanding -Wall -Wextra -c "$here/heap.c" -o "$room/heap.o"

exports=(--export=page_alloc --export=page_reset)
for call in $(sed -n 's/^uint32_t \(yorwethul_[a-z]*\)(.*/\1/p' "$top/bindings/c/yorwethul.h"); do
    exports+=("--export=$call")
done
# clang is the kit's linker too, under its name. The stack comes first, so that it ends at address 0: past it is a trap.
(exec -a wasm-ld "$clang" -mwasm64 --no-entry --gc-sections --strip-all --stack-first -z stack-size=8388608 --export-memory \
    "${exports[@]}" -o "$out/yorwethul.wasm" "$room/module.o" "$room/heap.o")

cp "$here/index.html" "$out/"
python3 - "$top" >"$out/examples.json" <<'END'
import json, pathlib, sys
files = sorted(pathlib.Path(sys.argv[1], "examples").glob("*.json"))
print(json.dumps({file.stem: file.read_text() for file in files}))
END
echo "not proved: $out/index.html"
