#!/usr/bin/env python3
"""Prints tables of plans: what is found for each rule of each table, and what is too narrow.

A case has an expression, the plan that the columns give (`:`), under which `check` answers yes,
and entries (`!`) with each of which `check` answers no: the result's interval less one at either
end, or all values of its type where no interval is known. Nothing of the program is run.
"""

import temporal_tables as tables
from spans import Span, hull
from temporal_tables import DATE, DAY, NANOS, TIME, TYPES, text, values

# Columns of both signs, the narrow ones first; times have none below 0.
DATES = [[-7, None, 5], [20001, None, -1001], [-106751, 106751]]
TICKS = [[-7, None, 5], [1999999, None, -86400001], [-9223372036854, 9223372036854]]
TIMES = [[0, None, 7], [1999999, 5], [DAY[1], 86399]]
# Divisors of one sign; the last is 0 in a coarser unit.
DIVISORS = [[3000000, None, 17000000], [-17000000, -3000000], [1, 4]]
# For each column the integer that it meets.
SCALARS = [-3, 3, -1, 1]


def columns(dtype):
    return {DATE: DATES, TIME: TIMES}.get(dtype, TICKS)


def unary_columns(dtype):
    """The columns, and one from end to end of the type, which few rules have room for."""
    return columns(dtype) + [list(values(dtype))]


def narrower(number, span):
    """The interval less one at either end."""
    if span.low == span.high:
        return [f"{number} {x} {x}" for x in (span.low - 1, span.high + 1)]
    spans = [Span(span.low + 1, span.high), Span(span.low, span.high - 1)]
    return [f"{number} {narrow}" for narrow in spans]


def case(expression, inputs, dtype, span):
    """An expression over these columns, its type, and where its slots lie."""
    number = len(inputs)
    known = span.inside(values(dtype)) if span else None
    found = [hull(column) for column in inputs] + ([known] if known else [])
    denied = narrower(number, known) if known else [f"{number} {Span(*values(dtype))}"]
    print(f"? {expression}")
    print(": " + " / ".join(f"{node} {entry}" for node, entry in enumerate(found)))
    print("! " + " / ".join(denied))


def is_listed(form, *types):
    """Whether the table has a rule for these types."""
    try:
        form(*types, *(Span(1, 1) for _ in types))
    except KeyError:
        return False
    return True


def table(title, *groups):
    named = [(dtype, column) for dtype, group in groups for column in group]
    tables.table(title, [(f"c{n}", dtype, column) for n, (dtype, column) in enumerate(named)])


def casts():
    for old in TYPES:
        casts_of(f"plans of casts of {text(old)}", old, TYPES)


def casts_of(title, old, targets):
    table(title, (old, unary_columns(old)))
    for new in targets:
        if not is_listed(lambda old, new, x, y: tables.cast(old, new, False, x), old, new):
            continue
        # What isn't a date becomes one: the options differ.
        for sign in ["", "!", "~"] if new == DATE != old else [""]:
            for n, column in enumerate(unary_columns(old)):
                span = tables.cast(old, new, sign == "~", hull(column))
                case(f"${n} cast{sign}:{text(new)}", [column], new, span)


def operators():
    for left in TYPES:
        for right in TYPES:
            operators_of(left, right)


def operators_of(left, right):
    forms = {op: form for op, form in tables.OPERATORS.items() if is_listed(form, left, right)}
    if not forms:
        return
    divided = [op for op in ("/", "%") if op in forms]
    groups = [(left, columns(left)), (right, columns(right)), (right, DIVISORS)]
    table(f"plans of {text(left)} with {text(right)}", *groups[: 3 if divided else 2])
    for op, form in forms.items():
        rights = 2 if op in divided else 1
        for n, inputs in enumerate(zip(columns(left), groups[rights][1])):
            dtype, span = form(left, right, *map(hull, inputs))
            case(f"${n} ${n + 3 * rights} {op}", inputs, dtype, span)


def scalars():
    for dtype in [DATE, TIME, tables.datetime("us", "UTC"), tables.duration("ns")]:
        scalars_of(dtype)


def scalars_of(dtype):
    inputs = unary_columns(dtype)
    signed = [column for column in ([2, None, 9], [-9, -2]) if dtype != TIME or column[0] > 0]
    table(f"plans of scalars with {text(dtype)}", (dtype, inputs + signed))
    for n, (column, k) in enumerate(zip(inputs, SCALARS)):
        for op, form in tables.RIGHT.items():
            scalar_case(n, f"{op}#{k}", form, dtype, k, column)
        for op, form in tables.LEFT.items():
            scalar_case(n, f"{k}#{op}", form, dtype, k, column)
    for op in ["/", "%", "tdiv"]:
        scalar_case(0, f"{op}#0", tables.RIGHT[op], dtype, 0, inputs[0])
    for n, column in enumerate(signed, len(inputs)):
        for op in ["/", "%"]:
            for k in [-100, 100]:
                scalar_case(n, f"{k}#{op}", tables.LEFT[op], dtype, k, column)


def scalar_case(n, token, form, dtype, k, column):
    value = form(tables.word(dtype), hull(column), k)
    case(f"${n} {token}", [column], dtype, tables.fit(values(dtype), value))


def units():
    for dtype in TYPES:
        if dtype in (DATE, TIME):
            continue
        table(f"plans of units of {text(dtype)}", (dtype, unary_columns(dtype)))
        for unit in NANOS:
            for n, column in enumerate(unary_columns(dtype)):
                span = tables.unit_change(dtype, unit, hull(column))
                case(f"${n} unit:{unit}", [column], (dtype[0], unit) + dtype[2:], span)


def shifts():
    table("plans of shifts of date", (DATE, DATES))
    for periods in [1, -2]:
        for n, column in enumerate(DATES):
            case(f"${n} shift:{periods}", [column], DATE, hull(column))


if __name__ == "__main__":
    for part in (casts, operators, scalars, units, shifts):
        part()
