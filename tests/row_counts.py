#!/usr/bin/env python3
"""Prints how many rows crates/col_rows has, and in how many runs they have to be answered.

The list is read here once more. Nothing of the program is run. `diff <(tests/row_counts.py)
crates/col_rows/stdout` shows whether this is still its line.
"""

import pathlib

LIST = pathlib.Path(__file__).parent.parent / "crates/col_rows/stdin"

# Devices that move so many bytes at a call: a row by hand is run by each of them, one of a table by one.
STEPS = (1, 3, 7, 4096)

# `autofold` and `fold` without a plan, and, where the script is good, `fold` and `check` under a false
# plan and under the one that is found.
FOLDED_BAD, FOLDED_GOOD = 2, 6

# The words of a column's line in front of its slots.
WORDS_IN_FRONT = 3


def line_of_script(text):
    """A line with its tabs and carriage returns, and its line feed unless it ends in \\c."""
    first, *pieces = text.split("\\")
    ends = "c" not in pieces
    marks = {"t": "\t", "r": "\r"}
    behind = "".join(marks.get(piece[:1], "") + piece[1:] for piece in pieces if piece != "c")
    return first + behind + ("\n" if ends else "")


def most_slots(script):
    """The most slots that a column of the script has."""
    lines = [line.split(" ") for line in script.split("\n") if line.startswith("col ")]
    counts = [sum(1 for word in line if word not in ("", "|")) - WORDS_IN_FRONT for line in lines]
    return max([0, *counts])


def status_of(answer):
    if answer.startswith("bad line "):
        return "bad script"
    return "refused" if answer.startswith("refused ") else "done"


def rows():
    """The words, the script, the status of each row, and whether it is one of a table."""
    columns = row = None
    expression = ""
    for text in LIST.read_text().split("\n"):
        kind, _, rest = text.partition(" ")
        if kind == "#":
            if row:
                yield tuple(row)
            columns, row = None, ["", "", "", False]
        elif kind == "##":
            if row:
                yield tuple(row)
            columns, row = "", None
        elif columns is not None:
            if kind == ">":
                columns += line_of_script(rest)
            elif kind == "?":
                expression = rest
            elif kind == "=":
                script = columns + "expr " + line_of_script(expression)
                yield "eval", script, status_of(rest), True
            elif kind == ":":
                yield "plan", "", "done", True
                yield "check", "", "done", True
            elif kind == "!":
                for _ in rest.split(" / "):
                    yield "check", "", "done", True
        elif row and kind == ">":
            row[1] += line_of_script(rest)
        elif row and text and kind != "<":
            row[2 if row[0] else 0] += text
    if row:
        yield tuple(row)


def runs_of(words, script, status, in_table):
    """In how many runs a row is answered."""
    runs = 1 if in_table else len(STEPS)
    if words != "eval":
        return runs
    if status == "bad script":
        return runs + FOLDED_BAD
    # a cut behind each slot but the last one, and a chunk for each row
    cuts = most_slots(script)
    return runs + FOLDED_GOOD + (cuts if cuts >= 2 else 0)


def main():
    runs = [runs_of(*row) for row in rows()]
    print(f"{len(runs)} rows are answered as they have to be, in {sum(runs)} runs")


if __name__ == "__main__":
    main()
