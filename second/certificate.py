"""Certificates, scope document, sections "Cells and subranges" and "From record
to certificate".

A ratio W and x = W - 1 are in units of 10^-9, reference values, deviations and
coefficients in units of 10^-11.
"""

from quantity import (
    RATIO_MOST,
    RATIO_ONE,
    RESISTANCE_MOST,
    UNITS_ONE,
    Refused,
    divided,
    quotient_down,
    within_limits,
)
from reference import units

# As printed in the table, to be compared with it by eye.
PRINTED = {
    "Hg": "0.844 142 11",
    "Ga": "1.118 138 89",
    "In": "1.609 801 85",
    "Sn": "1.892 797 68",
    "Zn": "2.568 917 30",
    "Al": "3.376 008 60",
    "Ag": "4.286 420 53",
}

CELLS = tuple(PRINTED)
WR = {cell: units(printed) for cell, printed in PRINTED.items()}

# The cells a subrange needs, upward.
SUBRANGES = {
    "ga": ("Ga",),
    "in": ("In",),
    "sn": ("In", "Sn"),
    "zn": ("Sn", "Zn"),
    "al": ("Sn", "Zn", "Al"),
    "ag": ("Sn", "Zn", "Al", "Ag"),
}

# How many of the places a, b, c, d, W(Al) a law uses, counted from a.
USED_PLACES = {"curve": 0, "ga": 1, "in": 1, "sn": 2, "zn": 2, "al": 3, "ag": 5}

LAWS = tuple(USED_PLACES)

# Purity: W(Ga) and W(Ag) at least, W(Hg) at most.
GA_LEAST = 1_118_070_000
HG_MOST = 844_235_000
AG_LEAST = 4_284_400_000

NOT_MEASURED = 0
NO_RESISTANCES = (0, 0)  # R and R0 of a cell that was not measured

DEVIATION_PART = 1000  # |W - Wr| is at most this part of |W - 1|
COEFFICIENT_MOST = UNITS_ONE // 1000  # 0.001


def product(value, x):
    """A value in 10^-11 times a ratio in 10^-9, rounded once to 10^-11."""
    return quotient_down(value * x, RATIO_ONE)


def quotient(value, x):
    """A value in 10^-11 over a ratio in 10^-9, rounded once to 10^-11."""
    return quotient_down(value * RATIO_ONE, x)


def deviation(cell, w):
    """W - Wr."""
    return w * (UNITS_ONE // RATIO_ONE) - WR[cell]


def within_limit(cell, w):
    """Whether |W - Wr| is at most |W - 1|/1000, multiplied out."""
    x = w - RATIO_ONE
    return abs(deviation(cell, w)) * DEVIATION_PART * RATIO_ONE <= abs(x) * UNITS_ONE


def impure_cells(name, record):
    """The cells by which a record does not meet the purity relations; one of Ga and
    Hg is enough. One of these two was measured."""
    ga = record["Ga"] >= GA_LEAST
    # What was not measured is 0, and must not pass for a low ratio.
    hg = record["Hg"] != NOT_MEASURED and record["Hg"] <= HG_MOST
    if not (ga or hg):
        yield "Hg" if record["Hg"] != NOT_MEASURED else "Ga"
    if name == "ag" and record["Ag"] < AG_LEAST:
        yield "Ag"


def working_deviation(a, b, c, x):
    """a x + b x^2 + c x^3 taken from c inward, rounded after each product."""
    return product(product(product(c, x) + b, x) + a, x)


def lower_coefficients(x, delta):
    """a, b and c of the used cells, of which a fourth has no part in them."""
    q = [quotient(delta_i, x_i) for delta_i, x_i in zip(delta, x)]
    if len(x) == 1:
        return q[0], 0, 0
    r12 = quotient(q[1] - q[0], x[1] - x[0])
    if len(x) == 2:
        return q[0] - product(r12, x[0]), r12, 0
    r23 = quotient(q[2] - q[1], x[2] - x[1])
    c = quotient(r23 - r12, x[2] - x[0])
    b = r12 - product(c, x[0] + x[1])
    a = q[0] - product(b, x[0]) - product(product(c, x[0]), x[0])
    return a, b, c


def coefficients(name, record):
    """a, b, c and d of a record whose cells keep the deviation limit.

    The limit keeps every divisor from being 0: no cell can have W = 1, and no
    two cells the same W.
    """
    cells = SUBRANGES[name]
    x = [record[cell] - RATIO_ONE for cell in cells]
    delta = [deviation(cell, record[cell]) for cell in cells]
    a, b, c = lower_coefficients(x, delta)
    if name != "ag":
        return a, b, c, 0
    e = delta[3] - working_deviation(a, b, c, x[3])
    z = record["Ag"] - record["Al"]
    return a, b, c, quotient(quotient(e, z), z)


def refuse(number, cells):
    """Refused by the number for the first of these cells, where there is one."""
    for cell in cells:
        raise Refused(number, cell)


def certify(name, ratios):
    """The certificate (name, a, b, c, d, W(Al)) of a record, or Refused.

    `ratios` gives W by cell; a cell left out is not measured. Tested in the
    order 3, 2, 4, 5, 6, 7.
    """
    if name not in SUBRANGES:
        raise Refused(3)
    record = {cell: ratios.get(cell, NOT_MEASURED) for cell in CELLS}
    refuse(2, (cell for cell in CELLS if record[cell] > RATIO_MOST))
    refuse(4, (cell for cell in SUBRANGES[name] if record[cell] == NOT_MEASURED))
    if record["Ga"] == NOT_MEASURED and record["Hg"] == NOT_MEASURED:
        raise Refused(5)
    refuse(6, impure_cells(name, record))
    # Each cell given, used or not.
    measured = [cell for cell in CELLS if record[cell] != NOT_MEASURED]
    refuse(7, (cell for cell in measured if not within_limit(cell, record[cell])))
    found = coefficients(name, record)
    if any(abs(value) > COEFFICIENT_MOST for value in found):
        raise Refused(7)
    wal = record["Al"] if name == "ag" else 0
    return name, *found, wal


def ratios_of(resistances, most):
    """W by cell of the cells measured, or Refused 1 for a cell outside the limits.

    A W that is rounded to 0 stands for not measured, as in every record.
    """
    pairs = {c: pair for c, pair in resistances.items() if pair != NO_RESISTANCES}
    given_cells = [cell for cell in CELLS if cell in pairs]
    outside = (c for c in given_cells if not within_limits(*pairs[c], most))
    refuse(1, outside)
    return {cell: divided(*pair) for cell, pair in pairs.items()}


def certify_measured(name, resistances, most=RESISTANCE_MOST):
    """The certificate of a record of resistances, R and R0 by cell, or Refused.

    Tested in the order 3, 1 and then as the record of its ratios.
    """
    if name not in SUBRANGES:
        raise Refused(3)
    return certify(name, ratios_of(resistances, most))


def given(name, a, b, c, d, wal):
    """The certificate as given where it is sound, or Refused 3, then 7."""
    if name not in USED_PLACES:
        raise Refused(3)
    places = (a, b, c, d, wal)
    if any(place != 0 for place in places[USED_PLACES[name] :]):
        raise Refused(7)
    if any(abs(value) > COEFFICIENT_MOST for value in (a, b, c, d)):
        raise Refused(7)
    if name == "ag" and not within_limit("Al", wal):
        raise Refused(7)
    return name, *places
