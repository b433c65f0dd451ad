# Has a function by which the scripts of this folder end, which read this file. They run their program in a copy, where `told`
# is what `rt try` told of it.

# count_runs FILE NUMBER
#
# Counts the words that stand in a file, one line for each run that printed one, of so many runs. Where a run was wrong or
# printed none, or where none was refused, so that nothing was tried, it prints what was told, and its status is 1.
count_runs() {
    sort "$1" | uniq -c
    if grep -q '^wrong' "$1"; then
        echo "a run was wrong" >&2
    elif ! grep -q '^refused' "$1"; then
        echo "no run was refused" >&2
    elif [ "$(wc -l < "$1")" -ne "$2" ]; then
        echo "of $2 runs $(wc -l < "$1") told what became of them" >&2
    else
        tail -n 1 told
        return 0
    fi
    head -n 50 told >&2
    return 1
}
