#!/bin/sh
# Compares the functions of `Word` over plain slices with the same loops of plain Rust.
# The path of the program may be given, and after it the number of runs.
set -eu
here=$(cd "$(dirname "$0")" && pwd)
. "$here/prepare.sh"
prepare word_loops words_peer "${1:-}"
python3 "$here/measure_words.py" "$program" "$here/build/words_peer" "${2:-7}"
