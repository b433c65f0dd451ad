#!/bin/sh
# Compares the literals of floats with those of Rust's own formatting, byte for byte, and the bits that their numerals
# denote with the floats': of 2,000,000 `f32` and 1,000,000 `f64` spread over all, of those around each power of two, and of
# all `f16`. Then it tells nanoseconds a literal, of the program proved and built for release and of Rust. Run it at the
# top of the repository, where `rustc` is; it works on a copy, with the proofs that earlier checks kept.
set -e
top=$(pwd)
copy=$(mktemp -d)
trap 'rm -rf "$copy"' EXIT
cp HANDLES "$copy"
mkdir -p "$copy/crates/float_texts/src" "$copy/crates/float_texts/specs" "$copy/crates/float_texts/proofs"
cp -a crates/decimal_numerals crates/float_numerals "$copy/crates/"
grep -E '^(decimal|float)_numerals:' crates.txt > "$copy/crates.txt"
echo 'float_texts: float_numerals' >> "$copy/crates.txt"
cp bench/fuzz/float_texts/main.rt.txt "$copy/crates/float_texts/src/main.rt"
rustc -O -o "$copy/compare" bench/fuzz/float_texts/compare.rs
cd "$copy/crates/float_texts"
: > specs/Lib.antt
: > proofs/Lib.antt
rt run > lines 2> told || { cat told >&2; exit 1; }
"$copy/compare" < lines
echo 'the program:'
out/float_texts times
echo "Rust's formatting:"
"$copy/compare" times
