#!/bin/sh
# Tells what of README.md and docs/*.md is not so, and what nobody needs:
#   names in backticks that are not in the tree: a path that is no file, an item that its crate has not, a word that stands
#   in no file of crates/, bench/ or the top, comments left out (names.py);
#   bounds that pages keep, links that lead nowhere, and a word that none has (bounds.py);
#   pictures that are not as they would be made (pictures.py, which also makes them);
#   counts in docs/ADDING.md that the tree has not (mentions.py, which also writes them);
#   lemmas and definitions that nothing uses (unused.py);
#   public names that no test imports (public.py);
#   imports of what the named file has not (imports.py);
#   heads that name other contracts than their lemmas serve (serves.py, which also writes them);
#   lines of prose that are too long, and long paragraphs (wrap.py, which also lays them out).
# It is quiet, and its status is 0, where all is so. Run it at the top of the repository, with pages for the names of these alone.
here=$(dirname "$0")
status=0
python3 "$here/names.py" "$@" || status=1
python3 "$here/bounds.py" || status=1
python3 "$here/pictures.py" --check || status=1
python3 "$here/mentions.py" --check || status=1
python3 "$here/unused.py" || status=1
python3 "$here/public.py" || status=1
python3 "$here/imports.py" || status=1
python3 "$here/serves.py" || status=1
python3 "$here/wrap.py" --check || status=1
exit $status
