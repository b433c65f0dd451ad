#!/bin/sh
# Tries the edits of bench/edits: ways to turn what public functions do, beside those in must-fail/ of their crates, which
# `rt ci` tries. Each edit must be refused. Run it at the top of the repository, with the names of crates for these alone;
# it works on a copy.
set -e
top=$(pwd)
copy=$(mktemp -d)
trap 'rm -rf "$copy"' EXIT
cp -r HANDLES crates.txt crates "$copy"
cd "$copy"
rm -f crates/*/must-fail/*.edit
# each folder but `tested`, whose edits only tests refuse, has the edits of a crate
[ $# -gt 0 ] || set -- $(cd "$top/bench/edits" && ls -d */ | tr -d / | grep -vx tested)
for crate in "$@"; do
    mkdir -p "crates/$crate/must-fail"
    cp "$top/bench/edits/$crate/"*.edit "crates/$crate/must-fail/"
done
rt must-fail "$@"
