#!/usr/bin/env python3
"""Prints how many cases and reads each group of crates/chunk_cases has to have.

The answers of the calls are lists here too, by Python's own slices. Nothing of the program is run.
`diff <(tests/chunk_counts.py) crates/chunk_cases/stdout` shows whether these are still its lines.
"""

import itertools

ROWS = (0, 1, 63, 64, 65, 129)
# One chunk, chunks of one row, and slices that begin at these rows.
LAYOUTS = ("one chunk", "rows", 1, 63, 64)
NULLS = ("none", "all", "every second")

OFFSETS = (0, 1, 62, 63, 64, 65, 129, 130, -1, -63, -64, -65, -130, -(2**63), 2**63 - 1)
LENGTHS = (0, 1, 63, 64, 65, 129, 2**64 - 1)
PERIODS = (0, 1, -1, 63, -63, 64, -64, 128, -128, 130, -130, -(2**63), 2**63 - 1)
REPEATS = (0, 1, 64, 65)
OTHERS = (0, 65, 3, 64)
RUNS = (1, 7, 63, 64, 200)


class Count:
    def __init__(self):
        self.cases = self.reads = 0

    def case(self, times=1):
        self.cases += times

    def column(self, rows, times=1):
        """A column that is compared slot by slot."""
        self.cases += times
        self.reads += times * rows


def first_place(layout):
    return layout if isinstance(layout, int) else 0


def valid_rows(rows, layout, nulls):
    first = first_place(layout)
    places = range(first, first + rows)
    return {"none": rows, "all": 0, "every second": len([p for p in places if p % 2 == 0])}[nulls]


def sliced(rows, offset, length):
    """How many rows a part has."""
    first = offset + rows if offset < 0 else offset
    return len(range(max(first, 0), min(max(first + length, 0), rows)))


def read(count, rows, layout, nulls):
    count.case(3)  # name, len, null_count
    count.column(rows, 2)  # by get, by the views of chunks
    count.case(0 if isinstance(layout, int) else 1)  # lengths of chunks


def make(count, rows, layout, nulls):
    count.column(valid_rows(rows, layout, nulls), 2)
    count.column(rows)
    count.case(3)


def copy(count, rows, layout, nulls):
    count.column(rows, 5)
    count.case(3)


def part(count, rows, layout, nulls):
    for offset in OFFSETS:
        for length in LENGTHS:
            count.column(sliced(rows, offset, length))
        count.column(rows)  # the two parts of a split have all rows together
        count.case()
    count.column(rows, len(PERIODS))


def take(count, rows, layout, nulls):
    count.column(rows)
    count.column(valid_rows(rows, layout, nulls))
    scattered = [at % 3 != 2 and rows > 0 for at in range(rows)] + [False]
    for valid in ([], [True] * rows, scattered):
        count.column(len(valid), 2)
        count.column(max(len(valid) - 1, 0))
        count.column(sum(valid))
    count.case(3 * 2)  # indices past the end
    for _ in (row for row in (0, rows // 2, rows - 1) if 0 <= row < rows):
        for length in REPEATS:
            count.column(length)
        count.case(2)
    count.case(3 * 3)


def append(count, rows, layout, nulls):
    for other in OTHERS + (rows,):
        count.column(rows + other, 3)
        count.case(3 + 1)
        count.column(rows)
        count.column(other)


def reduce(count, rows, layout, nulls):
    count.case(7)


def write(count, rows, layout, nulls):
    for _ in (row for row in (0, rows // 2, 62, 63, 64, rows - 1) if 0 <= row < rows):
        count.column(rows, 4 + 1)
    count.column(rows)
    if rows > 1:
        count.column(rows - 1, 4 + 1)
        count.column(rows, 4)


def walk(count, rows, layout, nulls):
    count.column(rows, len(RUNS))


GROUPS = {
    "read": read,
    "make": make,
    "copy": copy,
    "slice, split, shift": part,
    "take, turn, drop nulls, repeat": take,
    "append, extend": append,
    "reduce": reduce,
    "write": write,
    "walk": walk,
}


def known(count):
    for rows in (3, 3, 3, 4, 3, 0, 4, 3, 3, 2):
        count.column(rows, 2)
        count.case(2 * 7)
    for rows in (3, 3, 2, 2, 4, 5):
        count.column(rows, 1)


def slots(count, rows):
    """Single rows, each of them a case."""
    count.column(1, rows)


def limits(count):
    count.case(3)  # full_null
    for _ in range(6):  # a column of 2^31 rows, before and after each refusal
        count.case(3)
        slots(count, 6)
    count.case(2 + 1)  # append, extend, append_owned
    count.case(4)  # the greatest number of rows, and one more
    slots(count, 3 + 1)


def shared(count):
    for _ in range(3 * 4_000 + 1):
        count.case()
        slots(count, 4)
    slots(count, 3 * 4_000)  # around the write to each slice


def in_place(count):
    slots(count, 3 * 200_000)


OTHER_GROUPS = {
    "known values": known,
    "too many rows": limits,
    "shared at once": shared,
    "written in place": in_place,
}


def main():
    for title, group in GROUPS.items():
        count = Count()
        for case in itertools.product(ROWS, LAYOUTS, NULLS):
            group(count, *case)
        print(f"{title}: {count.cases} cases, {count.reads} reads")
    for title, group in OTHER_GROUPS.items():
        count = Count()
        group(count)
        print(f"{title}: {count.cases} cases, {count.reads} reads")


if __name__ == "__main__":
    main()
