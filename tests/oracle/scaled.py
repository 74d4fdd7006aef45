"""Numbers with digits after the point, of columns `num(p,s)` and of decimal literals."""
import fractions
import functools


def value_of(number):
    return number.value if isinstance(number, Scaled) else number


@functools.total_ordering
class Scaled:
    """A number of `units` divided by ten to the power of `scale`; it compares by its exact value, with whole numbers too."""

    def __init__(self, units, scale):
        self.units = units
        self.scale = scale
        self.value = fractions.Fraction(units, 10**scale)

    def __eq__(self, other):
        return self.value == value_of(other)

    def __lt__(self, other):
        return self.value < value_of(other)

    def text(self):
        """With exactly its digits after the point, no leading zeros but one before the point, and `-` below zero."""
        digits = str(abs(self.units)).rjust(self.scale + 1, "0")
        whole, part = digits[: len(digits) - self.scale], digits[len(digits) - self.scale :]
        return (("-" if self.units < 0 else "") + whole + ("." + part if part else "")).encode()

    def hash(self):
        """The units at the least scale, and that scale where it isn't 0."""
        units, scale = self.units, self.scale
        while scale and units % 10 == 0:
            units, scale = units // 10, scale - 1
        return units * 31 + scale if scale else units


def rescaled(number, scale):
    """A number, or None, at a scale that is no smaller than its own."""
    if number is None:
        return None
    units, own = (number.units, number.scale) if isinstance(number, Scaled) else (number, 0)
    return Scaled(units * 10 ** (scale - own), scale)
