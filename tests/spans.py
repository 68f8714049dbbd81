"""Intervals of integers: where the value of a formula lies by where its slots do.

A span is none (None) where a slot could be lost, a value could wrap, or a divisor could be 0.
"""


class Span:
    """The integers from low to high."""

    def __init__(self, low, high):
        assert low <= high
        self.low, self.high = low, high

    def __eq__(self, other):
        return isinstance(other, Span) and (self.low, self.high) == (other.low, other.high)

    def __str__(self):
        return f"{self.low} {self.high}"

    def __add__(self, other):
        return at_ends(lambda x, y: x + y, self, other)

    def __radd__(self, other):
        return at_ends(lambda x, y: x + y, other, self)

    def __sub__(self, other):
        return at_ends(lambda x, y: x - y, self, other)

    def __rsub__(self, other):
        return at_ends(lambda x, y: x - y, other, self)

    def __mul__(self, other):
        return at_ends(lambda x, y: x * y, self, other)

    def __rmul__(self, other):
        return at_ends(lambda x, y: x * y, other, self)

    def holds(self, x):
        return self.low <= x <= self.high

    def inside(self, bounds):
        """The span, or none where some of it lies outside the bounds."""
        return self if bounds[0] <= self.low and self.high <= bounds[1] else None


def is_span(*operands):
    return any(isinstance(operand, Span) for operand in operands)


def span_of(operand):
    return operand if isinstance(operand, Span) else Span(operand, operand)


def hull(values):
    """From the least to the greatest valid slot, none where there is none."""
    valid = [x for x in values if x is not None]
    return Span(min(valid), max(valid)) if valid else None


def at_ends(form, left, right):
    """From the least to the greatest value over the four pairs of end points."""
    p, q = span_of(left), span_of(right)
    return hull([form(x, y) for x in (p.low, p.high) for y in (q.low, q.high)])


def quotient(form, left, right):
    return None if span_of(right).holds(0) else at_ends(form, left, right)


def rest(divisor):
    """Between 0 and the divisor, on its side of 0."""
    q = span_of(divisor)
    if q.holds(0):
        return None
    return Span(0, q.high - 1) if q.low > 0 else Span(q.low + 1, 0)
