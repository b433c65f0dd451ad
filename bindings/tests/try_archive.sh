#!/usr/bin/env bash
# try_archive.sh ARCHIVE MODULE.json: unpacks the archive that ./dist made into a folder, and has its program, its library and
# its Python module print the text of a module, in a process that has neither the kit nor anything of the repository on its
# paths. It prints what it tried; the status is 0 where all texts are one.
set -euo pipefail
archive=$(readlink -f "$1")
module=$(readlink -f "$2")
room=$(mktemp -d)
trap 'rm -rf "$room"' EXIT
tar -C "$room" -xzf "$archive"
prefix=$(echo "$room"/*)
cp "$module" "$room/module.json"
cd "$room"
clean() {
    env -i PATH=/usr/bin:/bin "$@"
}
clean "$prefix/bin/yorwethul" module.json >text
[ -s text ]
clean "$prefix/bin/yorwethul" --version | grep -q '^proved: '
tried=program
clean python3 "$prefix/share/yorwethul/python/yorwethul.py" --library "$prefix/lib/libyorwethul.so" module.json | cmp - text
tried="$tried, Python"
cat >try.c <<'END'
#include <stdio.h>
#include "yorwethul.h"
int main(void) {
    static uint8_t json[1 << 20], out[1 << 20];
    size_t length = fread(json, 1, sizeof json, stdin), needed;
    uint32_t flags = YORWETHUL_PORTABLE | YORWETHUL_DECIMAL_FLOATS;
    if (yorwethul_write(json, length, flags, out, sizeof out, &needed) || needed > sizeof out) return 1;
    return fwrite(out, 1, needed, stdout) != needed;
}
END
if command -v pkg-config >/dev/null; then
    words=$(PKG_CONFIG_PATH="$prefix/lib/pkgconfig" pkg-config --cflags --libs yorwethul)
    # shellcheck disable=SC2086
    clean cc try.c $words -o by_name
    ./by_name <module.json | cmp - text
    tried="$tried, pkg-config"
fi
clean cc -I"$prefix/include" try.c -L"$prefix/lib" -lyorwethul -Wl,-rpath,"$prefix/lib" -o shared
./shared <module.json | cmp - text
tried="$tried, the shared library"
if command -v cmake >/dev/null; then
    mkdir project
    printf '%s\n' 'cmake_minimum_required(VERSION 3.13)' 'project(try C)' 'find_package(yorwethul 0.1 REQUIRED CONFIG)' \
        'add_executable(try ../try.c)' 'target_link_libraries(try PRIVATE yorwethul::yorwethul)' >project/CMakeLists.txt
    clean cmake -S project -B build -DCMAKE_PREFIX_PATH="$prefix" >/dev/null
    clean cmake --build build >/dev/null
    ./build/try <module.json | cmp - text
    tried="$tried, CMake"
fi
for file in share/man/man1/yorwethul.1 share/bash-completion/completions/yorwethul share/doc/yorwethul/WHAT_IS_PROVED; do
    [ -s "$prefix/$file" ]
done
bash -n "$prefix/share/bash-completion/completions/yorwethul"
echo "passed: the archive: $tried"
