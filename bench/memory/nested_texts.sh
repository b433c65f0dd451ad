#!/bin/sh
# Compares the text of 3,000 blocks and loops in one another, and of 10,000 nested sums, with what is wanted, as the program
# that users get, proved and built for release, writes it. Run it at the top of the repository; it works on a copy, with
# the proofs that earlier checks kept (some GB).
set -- nested_texts bench/memory/nested_texts/main.rt.txt
. bench/on_a_whole_copy.sh

python3 - > wanted << 'END'
blocks, sums = 3000, 10000
print("fn nested() {")
for level in range(1, blocks + 1):
    print("    " * level + ("loop {" if (blocks - level) % 2 else "{"))
for level in range(blocks, 0, -1):
    print("    " * level + "}")
print("}\n")
print(f"fn sums(x: i32) -> i32 {{\n    return {'(' * sums}x{' + x)' * sums};\n}}\n")
END
rt run > text 2> told || { cat told >&2; exit 1; }
cmp text wanted && echo "the text of $(wc -c < text) bytes is the one wanted"
