#!/bin/sh
# Compares the proved program with its peer. The path of the program may be given,
# and after it the number of runs.
set -eu
here=$(cd "$(dirname "$0")" && pwd)
. "$here/prepare.sh"
prepare tizlumed peer "${1:-}"
python3 "$here/make_script.py" "$here/build"
python3 "$here/measure.py" "$program" "$here/build/peer" "$here/build" "${2:-7}"
