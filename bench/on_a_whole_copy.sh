# Goes to a copy of the libraries, with the proofs that earlier checks kept (some GB), and with the program of this name
# above them, of the files that are named after it. The crates that nothing stands on, programs and tests, are left out.
# The scripts of bench/memory and bench/times read it. They are run at the top of the repository.
set -e
name=$1
shift
top=$(pwd)
copy=$(mktemp -d)
trap 'rm -rf "$copy"' EXIT
cp HANDLES "$copy"
mkdir -p "$copy/crates"
# a library is what a line names after its colon
libraries=$(sed 's/#.*//; s/^[^:]*://' crates.txt | tr -s ' ' '\n' | sort -u)
for library in $libraries; do
    [ -d "crates/$library" ] || continue # it is the kit's
    cp -a "crates/$library" "$copy/crates/"
    grep "^$library:" crates.txt >> "$copy/crates.txt"
done
echo "$name: anyhow bitflags naga_json naga_wgsl_out sample_modules" >> "$copy/crates.txt"
mkdir -p "$copy/crates/$name/src" "$copy/crates/$name/specs" "$copy/crates/$name/proofs"
for file in "$@"; do
    cp "$top/$file" "$copy/crates/$name/src/$(basename "$file" .txt)"
done
cd "$copy/crates/$name"
: > specs/Lib.antt
: > proofs/Lib.antt
