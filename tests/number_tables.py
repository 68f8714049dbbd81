#!/usr/bin/env python3
"""Prints tables of integers: with themselves and with each temporal type, with the answers wanted.

The formulas and the tables' forms are those of temporal_tables.py and of plan_tables.py. Nothing of
the program is run. The tables stand in crates/col_rows/stdin behind all others.
"""

import plan_tables as plans
import temporal_tables as tables
from temporal_tables import DAY, I32, I64, INTEGER, TYPES, ends, pairs, text

# Both ends of the word, the last day, and what is one past a day and a time of the day.
COLUMN = [I64[0], None, -1, 0, 1, I32[1], I32[1] + 1, DAY[1] + 1, I64[1]]


def casts():
    tables.casts_of(INTEGER, COLUMN, TYPES + [INTEGER])
    inputs = [(f"c{n}", old, ends(old)) for n, old in enumerate(TYPES)]
    tables.table("casts to i64", inputs)
    for n, (name, old, column) in enumerate(inputs):
        for sign in ["", "!", "~"]:
            wanted = tables.cast_answer(old, INTEGER, sign, column, name)
            tables.case(f"${n} cast{sign}:i64", wanted)


def operators():
    for dtype in TYPES:
        tables.operators_of(INTEGER, dtype, pairs(INTEGER, dtype))
    for dtype in TYPES + [INTEGER]:
        least = tables.values(dtype)[0]
        tables.operators_of(dtype, INTEGER, pairs(dtype, INTEGER) + [(least, -1)])


def others():
    tables.scalars_of(INTEGER, [-7, 0, 7, *I64, None])
    tables.units_of(INTEGER, [5, None])


def found():
    plans.casts_of("plans of casts of i64", INTEGER, TYPES + [INTEGER])
    for old in TYPES:
        plans.casts_of(f"plans of casts of {text(old)} to i64", old, [INTEGER])
    for dtype in TYPES:
        plans.operators_of(INTEGER, dtype)
    for dtype in TYPES + [INTEGER]:
        plans.operators_of(dtype, INTEGER)
    plans.scalars_of(INTEGER)


if __name__ == "__main__":
    for part in (casts, operators, others, found):
        part()
