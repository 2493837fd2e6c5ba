"""Reference function of ITS-90, scope document, section "Reference function".

Values are in units of 10^-11, temperatures are Celsius counts.
"""

from fractions import Fraction
from functools import lru_cache

from quantity import UNITS_ONE, kelvin, quotient_down

# As printed in the table, C0 first, to be compared with it by eye.
PRINTED = (
    "2.781 572 54",
    "1.646 509 16",
    "-0.137 143 90",
    "-0.006 497 67",
    "-0.002 344 44",
    "0.005 118 68",
    "0.001 879 82",
    "-0.002 044 72",
    "-0.000 461 22",
    "0.000 457 24",
)


def units(printed):
    """A value as printed, spaces between its digits, in whole units."""
    value = Fraction(printed.replace(" ", "")) * UNITS_ONE
    if value.denominator != 1:
        raise ValueError(f"{printed} is no whole number of units")
    return value.numerator


COEFFICIENTS = tuple(units(printed) for printed in PRINTED)

CENTRE = 4_810_000  # 481 °C, both the middle and the half-width of x

TOP = 9_617_800  # 961.78 °C, the last step of the scale
PAST_TOP = TOP + 1  # the last step at which the working value is promised

WORKING_ERROR = 9  # units; the working value lies nearer than this

BELOW = "below"
PAST = "past"


# Bisections come to the same steps again and again.
@lru_cache(maxsize=65536)
def working(step):
    """The working value, rounded downward after each of the nine divisions."""
    if not 0 <= step <= PAST_TOP:
        raise ValueError(f"step {step} is outside 0 to {PAST_TOP}")
    n = step - CENTRE
    value = COEFFICIENTS[9]
    for i in range(8, -1, -1):
        value = quotient_down(value * n, CENTRE) + COEFFICIENTS[i]
    return value


def exact(step):
    """The exact sum as a fraction, in units."""
    # By ITS-90's own x = (T/K - 754.15)/481, not by the n the working value
    # uses, so that comparing the two also tests the passage to kelvin.
    x = (Fraction(kelvin(step), 10_000) - Fraction("754.15")) / 481
    value = Fraction(0)
    for c in reversed(COEFFICIENTS):
        value = value * x + c
    return value


@lru_cache(maxsize=1024)
def inverse(value):
    """The largest step of the scale whose working value is not above `value`.

    BELOW where there is none, PAST where the step past the top would do too.
    """
    if value < working(0):
        return BELOW
    if value >= working(PAST_TOP):
        return PAST
    # Bisection rests on the working value increasing with the step.
    low, high = 0, PAST_TOP
    while high - low > 1:
        middle = (low + high) // 2
        if working(middle) <= value:
            low = middle
        else:
            high = middle
    return low
