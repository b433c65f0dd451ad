# Goes to a copy of the namer and what it stands on, with the program of this folder of bench/ above them, and with the
# libraries that are named after it: those that it uses itself, and all below them. The scripts of bench/memory, bench/times
# and bench/fuzz read it. They are run at the top of the repository.
set -e
folder=$1
name=$(basename "$folder")
shift
top=$(pwd)
copy=$(mktemp -d)
trap 'rm -rf "$copy"' EXIT
cp HANDLES "$copy"
mkdir -p "$copy/crates/$name/src" "$copy/crates/$name/specs" "$copy/crates/$name/proofs"
for library in decimal_numerals naga_ir naga_keywords naga_naming naga_names "$@"; do
    [ -d "$copy/crates/$library" ] && continue # the program uses one of the first five itself
    [ -d "crates/$library" ] || continue # it is the kit's
    tar cf - --exclude=out "crates/$library" | tar xf - -C "$copy"
    grep "^$library:" crates.txt >> "$copy/crates.txt"
done
echo "$name: naga_ir naga_names $*" >> "$copy/crates.txt"
cp "$top/bench/$folder/main.rt.txt" "$copy/crates/$name/src/main.rt"
: > "$copy/crates/$name/specs/Lib.antt"
: > "$copy/crates/$name/proofs/Lib.antt"
cd "$copy/crates/$name"
