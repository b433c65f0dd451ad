#!/bin/sh
# install.sh PREFIX: lays out what stands beside this file, as ./dist made it, below PREFIX, for example /usr/local:
#
#   bin/yorwethul, share/man/man1, share/bash-completion      the program, its page, its completions
#   lib, lib/pkgconfig, lib/cmake/yorwethul, include          the library for C and C++
#   share/yorwethul                                           the Rust crates, the module for Python; how the program was made
#   share/doc/yorwethul                                       what is proved, the licences, the pages for users
#
# DESTDIR stands in front of PREFIX where it is set. Nothing is compiled.
set -eu
here=$(cd "$(dirname "$0")" && pwd)
if [ $# -ne 1 ]; then
    echo "install.sh: which PREFIX?" >&2
    exit 2
fi
to=${DESTDIR:-}$1

place() {
    folder=$to/$1
    shift
    mkdir -p "$folder"
    # links stay links
    cp -P "$@" "$folder/"
}

cd "$here"
place bin yorwethul
place share/man/man1 yorwethul.1
place share/bash-completion/completions completions/yorwethul
place lib libyorwethul.a libyorwethul.so*
place include yorwethul.h
place lib/cmake/yorwethul yorwethul-config.cmake yorwethul-config-version.cmake
mkdir -p "$to/lib/pkgconfig" "$to/share/yorwethul"
# beside this file the library lies where the .pc file does, and below PREFIX two folders above it
sed -e 's|^Cflags: .*|Cflags: -I${pcfiledir}/../../include|' -e 's|^Libs: .*|Libs: ${pcfiledir}/../libyorwethul.a|' \
    yorwethul.pc >"$to/lib/pkgconfig/yorwethul.pc"
cp -R rust rust-naga python yorwethul.made "$to/share/yorwethul/"
place share/doc/yorwethul WHAT_IS_PROVED LICENSE LICENSE-APACHE LICENSE-MIT doc/*
