#!/bin/sh
# pack.sh ARCHIVE OUT: makes OUT/libyorwethul.a of the archive that `rt lib` makes in crates/yorwethul_c, and of heap.c and
# calls.c: one object in which only the names of yorwethul.h can be seen, so that it stands beside other Rattle libraries in
# one program. OUT/libyorwethul.so is the same for programs that load it: a link to libyorwethul.so.0.1, the name by which a
# program finds it, and that one to the file. The header is put beside them, and what CMake and pkg-config read.
set -eu
here=$(cd "$(dirname "$0")" && pwd)
archive=$1
out=$2
cc=${CC:-cc}
room=$(mktemp -d)
trap 'rm -rf "$room"' EXIT
mkdir -p "$out"
for file in heap calls; do
    "$cc" -O2 -fPIC -Wall -Wextra -c "$here/$file.c" -o "$room/$file.o"
done
ld -r -o "$room/proved.o" --whole-archive "$archive" --no-whole-archive "$room/heap.o"
# calls.c has the calls under their own names, and makes the proved ones
nm -g --defined-only "$room/proved.o" | sed -n 's/.* \(yorwethul_[a-z_]*\)$/\1 proved_\1/p' >"$room/names"
objcopy --redefine-syms="$room/names" "$room/proved.o"
ld -r -o "$room/whole.o" "$room/proved.o" "$room/calls.o"
objcopy --wildcard --keep-global-symbol='yorwethul_*' "$room/whole.o" "$room/yorwethul.o"
rm -f "$out/libyorwethul.a"
ar rcsD "$out/libyorwethul.a" "$room/yorwethul.o"
version=$(sed -n 's/^Version: //p' "$here/yorwethul.pc")
name=libyorwethul.so.${version%.*}
rm -f "$out"/libyorwethul.so*
"$cc" -shared -Wl,-z,defs -Wl,-soname,"$name" "$room/yorwethul.o" -o "$out/libyorwethul.so.$version"
ln -s "libyorwethul.so.$version" "$out/$name"
ln -s "$name" "$out/libyorwethul.so"
cp "$here/yorwethul.h" "$here/yorwethul.pc" "$here/yorwethul-config.cmake" "$here/yorwethul-config-version.cmake" "$out/"
