#!/usr/bin/env python3
"""Prints tables of casts, operators, scalars, changes of unit and shifts with the answers wanted.

Each value comes from the formulas written here, over Python's integers without bound. Nothing of
the program is run. The formulas are those of integers too, whose tables `number_tables.py` prints. The tables stand in crates/col_rows/stdin, behind the rows that were worked out
by hand; `compare.sh` shows whether they are still these.
"""

import sys

from spans import is_span, quotient, rest

NANOS = {"ns": 1, "us": 1_000, "ms": 1_000_000}
DAY_NANOS = 86_400_000_000_000
I32 = (-(2**31), 2**31 - 1)
I64 = (-(2**63), 2**63 - 1)
DAY = (0, DAY_NANOS - 1)

DATE, TIME, INTEGER = ("date",), ("time",), ("i64",)


def datetime(unit, zone=None):
    return ("datetime", unit, zone)


def duration(unit):
    return ("duration", unit)


TYPES = [DATE, TIME]
TYPES += [datetime(unit) for unit in NANOS] + [datetime("us", "UTC")]
TYPES += [duration(unit) for unit in NANOS]


def text(dtype):
    if dtype[0] == "datetime":
        zone = "," + dtype[2] if dtype[2] else ""
        return f"datetime[{dtype[1]}{zone}]"
    if dtype[0] == "duration":
        return f"duration[{dtype[1]}]"
    return dtype[0]


def word(dtype):
    return I32 if dtype == DATE else I64


def values(dtype):
    return DAY if dtype == TIME else word(dtype)


def day(unit):
    return DAY_NANOS // NANOS[unit]


# ---- arithmetic; a null is None and makes each result null; spans give the span of the values


def fit(bounds, x):
    if is_span(x):
        return x.inside(bounds)
    return x if x is not None and bounds[0] <= x <= bounds[1] else None


def wrap(bounds, x):
    if is_span(x):
        return x.inside(bounds)
    width = bounds[1] - bounds[0] + 1
    return None if x is None else (x - bounds[0]) % width + bounds[0]


def divided(form, x, k):
    if x is None or k is None:
        return None
    if is_span(x, k):
        return quotient(form, x, k)
    return None if k == 0 else form(x, k)


def towards_zero(x, k):
    size = abs(x) // abs(k)
    return size if (x < 0) == (k < 0) else -size


def floor(x, k):
    return divided(lambda x, k: x // k, x, k)


def trunc(x, k):
    return divided(towards_zero, x, k)


def mod(x, k):
    if is_span(x, k) and None not in (x, k):
        return rest(k)
    return None if None in (x, k) or k == 0 else x % k


def in_unit(old, new, x, rounded):
    if NANOS[old] > NANOS[new]:
        return fit(I64, x * (NANOS[old] // NANOS[new]))
    return rounded(x, NANOS[new] // NANOS[old])


def dt(old, new, x):
    return in_unit(old, new, x, floor)


def du(old, new, x):
    return in_unit(old, new, x, trunc)


def join(sign, x, y):
    return None if x is None or y is None else x + sign * y


def coarser(u, v):
    return max(u, v, key=NANOS.get)


# ---- casts


def cast(old, new, wraps, x):
    """The value, or None for null; KeyError for a pair without a cast."""
    a, b = old[0], new[0]
    if old == new:
        return x
    if INTEGER in (old, new):
        made = (wrap if wraps else fit)(word(new), x)
        return fit(DAY, made) if new == TIME else made
    if (a, b) == ("date", "datetime"):
        return fit(I64, x * day(new[1]))
    if (a, b) == ("datetime", "datetime"):
        return dt(old[1], new[1], x)
    if (a, b) == ("datetime", "date"):
        return (wrap if wraps else fit)(I32, floor(x, day(old[1])))
    if (a, b) == ("datetime", "time"):
        return mod(x, day(old[1])) * NANOS[old[1]]
    if (a, b) == ("duration", "duration"):
        return du(old[1], new[1], x)
    if (a, b) == ("time", "duration"):
        return du("ns", new[1], x)
    raise KeyError


# ---- operators: the type and the value, KeyError for a pair without a row


def add(left, right, x, y):
    a, b = left[0], right[0]
    if left == right == INTEGER:
        return INTEGER, wrap(I64, join(1, x, y))
    if (a, b) == ("date", "duration"):
        return DATE, shifted_date(1, right[1], x, y)
    if (a, b) == ("duration", "date"):
        return DATE, fit(I32, floor(x, day(left[1])) + y)
    if "duration" in (a, b) and {a, b} <= {"datetime", "duration"}:
        unit = coarser(left[1], right[1])
        zone = left[2] if a == "datetime" else right[2] if b == "datetime" else None
        dtype = datetime(unit, zone) if "datetime" in (a, b) else duration(unit)
        return dtype, wrap(I64, join(1, moved(left, unit, x), moved(right, unit, y)))
    raise KeyError


def sub(left, right, x, y):
    a, b = left[0], right[0]
    if left == right == INTEGER:
        return INTEGER, wrap(I64, join(-1, x, y))
    if (a, b) == ("date", "date"):
        return duration("ms"), (x - y) * day("ms")
    if (a, b) == ("time", "time"):
        return duration("ns"), x - y
    if (a, b) == ("date", "duration"):
        return DATE, shifted_date(-1, right[1], x, y)
    if (a, b) == ("date", "datetime"):
        return duration(right[1]), wrap(I64, join(-1, fit(I64, x * day(right[1])), y))
    if (a, b) == ("datetime", "date"):
        return duration(left[1]), wrap(I64, join(-1, x, fit(I64, y * day(left[1]))))
    if (a, b) == ("datetime", "datetime") and left[2] == right[2]:
        unit = coarser(left[1], right[1])
        return duration(unit), wrap(I64, join(-1, moved(left, unit, x), moved(right, unit, y)))
    if b == "duration" and a in ("datetime", "duration"):
        unit = coarser(left[1], right[1])
        dtype = datetime(unit, left[2]) if a == "datetime" else duration(unit)
        return dtype, wrap(I64, join(-1, moved(left, unit, x), moved(right, unit, y)))
    raise KeyError


def mul(left, right, x, y):
    if INTEGER in (left, right):
        dtype = right if left == INTEGER else left
        if dtype == INTEGER or dtype[0] == "duration":
            return dtype, wrap(I64, x * y)
    raise KeyError


def div(left, right, x, y):
    if right == INTEGER and (left == INTEGER or left[0] == "duration"):
        return left, wrap(I64, floor(x, y))
    raise KeyError


def rem(left, right, x, y):
    if left == right == INTEGER:
        return INTEGER, mod(x, y)
    if (left[0], right[0]) == ("duration", "duration"):
        unit = coarser(left[1], right[1])
        return duration(unit), mod(moved(left, unit, x), moved(right, unit, y))
    raise KeyError


def moved(dtype, unit, x):
    return (dt if dtype[0] == "datetime" else du)(dtype[1], unit, x)


def shifted_date(sign, unit, x, y):
    moment = wrap(I64, join(sign, x * day("ms"), du(unit, "ms", y)))
    return fit(I32, floor(moment, day("ms")))


OPERATORS = {"+": add, "-": sub, "*": mul, "/": div, "%": rem}

# ---- scalars, in the word of the type

RIGHT = {
    "+": lambda w, x, k: wrap(w, x + k),
    "-": lambda w, x, k: wrap(w, x - k),
    "*": lambda w, x, k: wrap(w, x * k),
    "/": lambda w, x, k: wrap(w, floor(x, k)),
    "%": lambda w, x, k: mod(x, k),
    "tdiv": lambda w, x, k: wrap(w, trunc(x, k)),
}
LEFT = {op: (lambda form: lambda w, x, k: form(w, k, x))(form) for op, form in RIGHT.items()}
del LEFT["tdiv"]


def unit_change(dtype, unit, x):
    """As a cast between units, but wrapped."""
    if NANOS[dtype[1]] > NANOS[unit]:
        return wrap(I64, x * (NANOS[dtype[1]] // NANOS[unit]))
    return moved(dtype, unit, x)


# ---- printing


def slots(values):
    return ["null" if x is None else str(x) for x in values]


def answer(dtype, column, name="a"):
    return " / ".join([f"{name} {text(dtype)} {len(column)}"] + slots(column))


def table(title, columns):
    print(f"\n## {title}")
    for name, dtype, column in columns:
        print("> " + " ".join(["col", name, text(dtype)] + slots(column)))


def case(expression, wanted):
    print(f"? {expression}")
    print(f"= {wanted}")


def on_slots(form, column):
    return [None if x is None else form(x) for x in column]


def ends(dtype):
    low, high = values(dtype)
    return [low, None, -1, 0, 1, high] if dtype != TIME else [low, None, 1, high]


def casts():
    for old in TYPES:
        casts_of(old, ends(old), TYPES)


def casts_of(old, column, targets):
    table(f"casts of {text(old)}", [("a", old, column)])
    for new in targets:
        for sign in ["", "!", "~"]:
            case(f"$0 cast{sign}:{text(new)}", cast_answer(old, new, sign, column))


def cast_answer(old, new, sign, column, name="a"):
    try:
        made = on_slots(lambda x: cast(old, new, sign == "~", x), column)
    except KeyError:
        return "refused 1 unsupported"
    lost = [row for row, (x, y) in enumerate(zip(column, made)) if x is not None and y is None]
    return f"refused 1 strict {lost[0]}" if sign == "!" and lost else answer(new, made, name)


def pairs(left, right):
    """Ends against ends, both signs, and nulls on each side."""
    (l, g), (m, h) = values(left), values(right)
    rows = [(l, m), (l, h), (g, m), (g, h), (1, 1), (7, 3), (None, 1), (1, None), (7, 0), (0, 7)]
    if left != TIME:
        rows += [(-1, 1), (-7, 3)]
    if right != TIME:
        rows += [(1, -1), (7, -3)]
    if TIME not in (left, right):
        rows += [(-1, -1), (-7, -3)]
    return rows


def operators():
    for left in TYPES:
        for right in TYPES:
            operators_of(left, right, pairs(left, right))


def operators_of(left, right, rows):
    xs, ys = (list(column) for column in zip(*rows))
    table(f"{text(left)} with {text(right)}", [("a", left, xs), ("b", right, ys)])
    for op, form in OPERATORS.items():
        case(f"$0 $1 {op}", operator_answer(form, left, right, xs, ys))


def operator_answer(form, left, right, xs, ys):
    try:
        dtype = form(left, right, 1, 1)[0]
    except KeyError:
        return "refused 2 unsupported"
    made = [None if None in (x, y) else form(left, right, x, y)[1] for x, y in zip(xs, ys)]
    return answer(dtype, made)


def scalars():
    for dtype in [DATE, TIME, datetime("us", "UTC"), duration("ns")]:
        column = [0, 7] if dtype == TIME else [-7, 7, word(dtype)[0]]
        scalars_of(dtype, column + [values(dtype)[1], None])


def scalars_of(dtype, column):
    low, high = word(dtype)
    table(f"scalars with {text(dtype)}", [("a", dtype, column)])
    for k in [-2, -1, 0, 1, 2, low, high, low - 1, high + 1]:
        for op, form in RIGHT.items():
            case(f"$0 {op}#{k}", scalar_answer(form, dtype, k, column))
        for op, form in LEFT.items():
            case(f"$0 {k}#{op}", scalar_answer(form, dtype, k, column))


def scalar_answer(form, dtype, k, column):
    if fit(word(dtype), k) is None:
        return "refused 1 scalar"
    made = on_slots(lambda x: fit(values(dtype), form(word(dtype), x, k)), column)
    return answer(dtype, made)


def units():
    for dtype in TYPES:
        low, high = values(dtype)
        units_of(dtype, [low, high, None, 0, 1999999] + ([] if dtype == TIME else [-1, -1999999]))


def units_of(dtype, column):
    table(f"units of {text(dtype)}", [("a", dtype, column)])
    for unit in NANOS:
        if dtype[0] not in ("datetime", "duration"):
            case(f"$0 unit:{unit}", "refused 1 unsupported")
            continue
        new = (dtype[0], unit) + dtype[2:]
        made = on_slots(lambda x: unit_change(dtype, unit, x), column)
        case(f"$0 unit:{unit}", answer(new, made))


def shifts():
    for column in [[], [5], [1, None, 3]]:
        dtype = TIME if len(column) == 1 else DATE
        table(f"shifts of {len(column)} rows", [("a", dtype, column)])
        for periods in [0, 1, -1, 2, -2, 3, -3, 4, -4, *I64]:
            rows = range(len(column))
            made = [column[i - periods] if i - periods in rows else None for i in rows]
            case(f"$0 shift:{periods}", answer(dtype, made))


def main():
    for part in sys.argv[1:]:
        {"casts": casts, "operators": operators, "scalars": scalars, "units": units, "shifts": shifts}[part]()


if __name__ == "__main__":
    main()
