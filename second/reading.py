"""Readings and forward steps by every law, scope document, section "From
resistance to temperature".

A certificate is (name, a, b, c, d, W(Al)) with the name of its law. A ratio W is
in units of 10^-9, reference values, deviations and coefficients in units of
10^-11. Temperatures are Celsius counts.
"""

from fractions import Fraction

import curve
from cases import CheckFailed
from certificate import SUBRANGES, given, product, working_deviation
from quantity import (
    RATIO_MOST,
    RATIO_ONE,
    RESISTANCE_MOST,
    UNITS_ONE,
    Refused,
    ratio,
)
from reference import inverse, working

CURVE = "curve"

# °C as printed in the table of cells, to be compared with it by eye.
PRINTED = {
    "Ga": "29.7646",
    "In": "156.5985",
    "Sn": "231.928",
    "Zn": "419.527",
    "Al": "660.323",
    "Ag": "961.78",
}


def _steps(printed):
    """A temperature as printed, in whole steps."""
    value = Fraction(printed) * curve.DEGREE
    if value.denominator != 1:
        raise ValueError(f"{printed} is no whole number of steps")
    return value.numerator


BOTTOM = 0  # 0 °C, the first step of every subrange

# A subrange's top is the cell it is named after, the last it needs.
TOPS = {name: _steps(PRINTED[cells[-1]]) for name, cells in SUBRANGES.items()}


def bounds(name):
    """The first and the last step of a law."""
    if name == CURVE:
        return curve.FIRST, curve.LAST
    return BOTTOM, TOPS[name]


def silver_term(d, wal, w):
    """d z^2 with z = W - W(Al), rounded after each of its two products."""
    z = w - wal
    return product(product(d, z), z)


def deviation_at(certificate, w):
    """The working deviation of a certificate at a ratio."""
    name, a, b, c, d, wal = certificate
    value = working_deviation(a, b, c, w - RATIO_ONE)
    # ITS-90 3.3.2: at W(Al) itself the term counts, below it there is none.
    if name == "ag" and w >= wal:
        value += silver_term(d, wal, w)
    return value


def wr_at(certificate, w):
    """Wr, the ratio less the working deviation."""
    return w * (UNITS_ONE // RATIO_ONE) - deviation_at(certificate, w)


def _scale_step(certificate, w):
    """The inverse of Wr, or Refused 8 or 9 outside the subrange."""
    wr = wr_at(certificate, w)
    top = TOPS[certificate[0]]
    if wr < working(BOTTOM):
        raise Refused(8)
    if wr >= working(top + 1):
        raise Refused(9)
    return inverse(wr)


def read(name, a, b, c, d, wal, r, r0, most=RESISTANCE_MOST):
    """The law and the step of a reading, or Refused: 3, 7, 1, 2, 8, 9."""
    certificate = given(name, a, b, c, d, wal)
    w = ratio(r, r0, most)
    if name == CURVE:
        return name, curve.read(w)
    return name, _scale_step(certificate, w)


def _least_ratio(certificate, value):
    """The least ratio from 0 to 4.4 whose Wr is not under `value`."""
    if wr_at(certificate, 0) >= value:
        return 0
    if wr_at(certificate, RATIO_MOST) < value:
        raise CheckFailed(f"no ratio to 4.4 reaches {value} by {certificate}")
    # Bisection rests on Wr increasing with the ratio. It does: a unit more
    # raises W by 100 units of 10^-11, of which the deviation, its slope under
    # 0.05 at coefficients to 0.001, takes 5 and its roundings under 20.
    low, high = 0, RATIO_MOST
    while high - low > 1:
        middle = (low + high) // 2
        if wr_at(certificate, middle) < value:
            low = middle
        else:
            high = middle
    return high


def forward(name, a, b, c, d, wal, step):
    """The law and the ratio of a step, or Refused: 3, 7, then 8 or 9."""
    certificate = given(name, a, b, c, d, wal)
    if name == CURVE:
        return name, curve.forward(step)
    curve.in_range(step, *bounds(name))
    return name, _least_ratio(certificate, working(step))


def tolerance(letter, bath, r, r0, most=RESISTANCE_MOST):
    """The law, always the curve, whether the class allows the error, and it."""
    return CURVE, *curve.tolerance(letter, bath, r, r0, most)
