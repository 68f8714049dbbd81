#!/usr/bin/env bash
# Whether the tables in crates/col_rows/stdin are those that the three scripts here print.
set -eu
here=$(cd "$(dirname "${BASH_SOURCE[0]}")" && pwd)
{
    python3 "$here/temporal_tables.py" casts operators scalars units shifts
    python3 "$here/plan_tables.py"
    python3 "$here/number_tables.py"
} | cmp - <(sed -n '/^## casts of date$/,$p' "$here/../crates/col_rows/stdin" | sed '1i\
')
echo "the tables are those of the formulas"
