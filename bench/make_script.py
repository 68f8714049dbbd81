#!/usr/bin/env python3
"""Writes the scripts of the benchmark, the same ones each time.

    make_script.py FOLDER

`long` has 760,000 slots of mostly 19 digits, `short` 4,000,000 slots of one or
two digits in chunks. Each is one column and one cast. `sum` has 600,000 moments
and lengths of time, which are added and cast to days.
"""

import os
import sys

MASK = (1 << 64) - 1
MAX_SCRIPT = 16_777_216


def numbers(state):
    """A fixed row of numbers below 2^64 (splitmix64)."""
    while True:
        state = (state + 0x9E3779B97F4A7C15) & MASK
        mixed = state
        mixed = ((mixed ^ (mixed >> 30)) * 0xBF58476D1CE4E5B9) & MASK
        mixed = ((mixed ^ (mixed >> 27)) * 0x94D049BB133111EB) & MASK
        yield mixed ^ (mixed >> 31)


def long_slots(count):
    """Ticks of 19 digits, a quarter below zero, one slot in thirty-two null."""
    draw = numbers(1)
    for _ in range(count):
        kind, number = next(draw), next(draw)
        if kind % 32 == 0:
            yield "null"
        else:
            tick = 10**18 + number % (8 * 10**18)
            yield str(-tick if kind % 128 > 96 else tick)


def short_slots(count):
    """Ticks of one or two digits, one slot in thirty-two null, and the end of a
    chunk after one slot in thirty-two."""
    draw = numbers(2)
    for _ in range(count):
        kind = next(draw)
        if kind % 32 == 0:
            yield "null"
        else:
            yield str((kind >> 16) % 100)
        if (kind >> 8) % 32 == 0:
            yield "|"


def moments(count):
    """Microseconds of 16 digits, one slot in sixteen null."""
    draw = numbers(3)
    for _ in range(count):
        number = next(draw)
        yield "null" if number % 16 == 15 else str(10**15 + number % 10**15)


def lengths(count):
    """Milliseconds of half a day at most, of up to eight digits."""
    draw = numbers(4)
    for _ in range(count):
        yield str(next(draw) % 43_200_000)


def few_moments(count):
    """Milliseconds from 0 to 10, one slot in thirty-two null."""
    draw = numbers(5)
    for _ in range(count):
        number = next(draw)
        yield "null" if number % 32 == 31 else str((number >> 16) % 11)


def chain(pairs):
    """Casts to a finer unit and back, and the plan that covers the column and each of them."""
    casts = " cast:datetime[ns] cast:datetime[ms]" * pairs
    plan = [f"{node} 0 {10_000_000 if node % 2 == 1 else 10}" for node in range(2 * pairs + 1)]
    return "$0" + casts, plan


def write_script(path, columns, expression, plan=()):
    lines = [f"col {name} {dtype} {' '.join(slots)}\n" for name, dtype, slots in columns]
    lines += [f"plan {entry}\n" for entry in plan]
    text = "".join(lines) + f"expr {expression}\n"
    assert len(text) < MAX_SCRIPT, f"{path} has {len(text)} bytes"
    with open(path, "w", encoding="ascii", newline="\n") as script:
        script.write(text)


def main():
    folder = sys.argv[1]
    os.makedirs(folder, exist_ok=True)
    scripts = {
        "long": ([("a", "datetime[ns]", long_slots(760_000))], "$0 cast:datetime[ms]"),
        "short": ([("a", "datetime[ms]", short_slots(4_000_000))], "$0 cast:datetime[us]"),
        "sum": (
            [
                ("start", "datetime[us]", moments(600_000)),
                ("length", "duration[ms]", lengths(600_000)),
            ],
            "$0 $1 + cast:date",
        ),
        "chain": ([("a", "datetime[ms]", few_moments(20_000))], *chain(255)),
    }
    for name, script in scripts.items():
        write_script(os.path.join(folder, name), *script)


if __name__ == "__main__":
    main()
