"""Curve of IEC 60751, scope document, section "The curve".

An exact ratio is a fraction, 1 at 0 °C; a ratio W is in units of 10^-9.
Temperatures are Celsius counts.
"""

from fractions import Fraction
from functools import lru_cache

from cases import CheckFailed
from quantity import (
    RATIO_MOST,
    RATIO_ONE,
    RESISTANCE_MOST,
    Refused,
    quotient_down,
    ratio,
)

# As printed, to be compared with the standard by eye.
A = Fraction("3.9083e-3")
B = Fraction("-5.775e-7")
C = Fraction("-4.183e-12")

DEGREE = 10_000  # steps in 1 °C

FIRST = -2_000_000  # -200 °C
LAST = 8_500_000  # 850 °C
PAST_LAST = LAST + 1  # the last step whose exact ratio is asked for

# Letter: first and last bath, allowance in °C at 0 °C and per °C of the bath.
CLASSES = {
    ord("A"): (-2_000_000, 6_500_000, Fraction("0.15"), Fraction("0.002")),
    ord("B"): (-2_000_000, 8_500_000, Fraction("0.3"), Fraction("0.005")),
}


# A reading, the tests of it, and the same by other limits come to the same steps.
@lru_cache(maxsize=1024)
def exact_ratio(step):
    """R/R0 by the standard's own formula, as a fraction."""
    if not FIRST <= step <= PAST_LAST:
        raise ValueError(f"step {step} is outside {FIRST} to {PAST_LAST}")
    t = Fraction(step, DEGREE)
    value = 1 + A * t + B * t**2
    if t < 0:
        value += C * (t - 100) * t**3
    return value


# The exact ratio times 10^31 is whole at every step. With t = step/10^4 the
# factors of the step, its square, and (step - 10^6)*step^3 are these.
MULTIPLE = 10**31


def _whole(value):
    if value.denominator != 1:
        raise ValueError(f"{value} is no whole number")
    return value.numerator


_A = _whole(A * MULTIPLE / DEGREE)
_B = _whole(B * MULTIPLE / DEGREE**2)
_C = _whole(C * MULTIPLE / DEGREE**4)


def _multiplied(step):
    """The exact ratio times MULTIPLE, in whole numbers throughout, for speed."""
    value = MULTIPLE + _A * step + _B * step**2
    if step < 0:
        value += _C * (step - 100 * DEGREE) * step**3
    return value


@lru_cache(maxsize=1024)
def read(w):
    """The largest step whose exact ratio is not above `w`, or Refused 2, 8 or 9."""
    if w > RATIO_MOST:
        raise Refused(2)
    sought = Fraction(w, RATIO_ONE)
    if sought < exact_ratio(FIRST):
        raise Refused(8)
    if sought >= exact_ratio(PAST_LAST):
        raise Refused(9)
    # Bisection rests on the exact ratio increasing with the step.
    multiplied = w * (MULTIPLE // RATIO_ONE)
    low, high = FIRST, PAST_LAST
    while high - low > 1:
        middle = (low + high) // 2
        if _multiplied(middle) <= multiplied:
            low = middle
        else:
            high = middle
    if Fraction(_multiplied(low), MULTIPLE) != exact_ratio(low):
        raise CheckFailed(f"the exact ratio at step {low} is multiplied out wrongly")
    if not exact_ratio(low) <= sought < exact_ratio(low + 1):
        raise CheckFailed(f"step {low} is not the reading of {w}")
    return low


def in_range(step, first, last):
    """Nothing where the step lies from first to last, else Refused 8 or 9."""
    if step < first:
        raise Refused(8)
    if step > last:
        raise Refused(9)


def forward(step):
    """The exact ratio rounded downward to W, or Refused 8 or 9."""
    in_range(step, FIRST, LAST)
    units = exact_ratio(step) * RATIO_ONE
    return quotient_down(units.numerator, units.denominator)


def read_back(step):
    """The step that reading forward(step) is to answer.

    The step itself where the exact ratio has nine decimals; else rounding has
    gone under it, and the step below answers.
    """
    units = exact_ratio(step) * RATIO_ONE
    return step if units.denominator == 1 else step - 1


def allows(letter, bath, error):
    """Whether the class allows the error, in steps; the limit itself passes."""
    _, _, at_zero, per_degree = CLASSES[letter]
    limit = at_zero + per_degree * abs(Fraction(bath, DEGREE))
    return abs(Fraction(error, DEGREE)) <= limit


def tolerance(letter, bath, r, r0, most=RESISTANCE_MOST):
    """Whether the class allows the error, and the error: the curve's step less
    the bath's.

    Or Refused: 3, then 8 or 9 for the bath, then 1, 2, and 8 or 9 for W.
    """
    if letter not in CLASSES:
        raise Refused(3)
    first, last, _, _ = CLASSES[letter]
    in_range(bath, first, last)
    error = read(ratio(r, r0, most)) - bath
    return allows(letter, bath, error), error
