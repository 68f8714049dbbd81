#!/bin/sh
# Compares the calls of a column of words with loops of plain Rust over slices, and a column in many
# chunks with one in a single chunk. The path of the program may be given, and after it the number of runs.
set -eu
here=$(cd "$(dirname "$0")" && pwd)
. "$here/prepare.sh"
# The processor that the proved program is built for.
peer_flags="-C target-cpu=x86-64-v2"
prepare chunk_loops chunks_peer "${1:-}"
python3 "$here/measure_chunks.py" "$program" "$here/build/chunks_peer" "${2:-7}"
