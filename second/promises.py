"""What the scope document promises of an answer, tested on each case.

The tests are put in another way than the answers are made: in fractions where
these are whole numbers, by every refusal that has a cause where these stop at the
first. A case that breaks a promise raises CheckFailed.
"""

from collections import Counter
from fractions import Fraction
from functools import cache
from math import floor

import curve
from cases import CheckFailed
from certificate import (
    AG_LEAST,
    CELLS,
    GA_LEAST,
    HG_MOST,
    LAWS,
    NOT_MEASURED,
    SUBRANGES,
    WR,
    deviation,
    given,
)
from quantity import (
    DIVISOR_LEAST,
    RATIO_MOST,
    RATIO_ONE,
    READING_LEAST,
    RESISTANCE_MOST,
    UNITS_ONE,
    Refused,
)
from reading import CURVE, bounds, read, wr_at
from reference import CENTRE, COEFFICIENTS, exact, working


class Survey:
    """What the cases of one family met."""

    def __init__(self):
        self.seen = Counter()
        # Refusals that had a cause too and were not given, another being first.
        self.orders = Counter()
        # Refusals of records, with the cell each was for.
        self.cells = Counter()
        # Lines whose answer moved with the limits of R and R0: the list, the number
        # given before, and the number given now.
        self.moved = Counter()
        # And with the rounding of their ratio: the list, the law or class, and how.
        self.rounded = Counter()
        # Demand 3 on each answered scale reading: the largest excess over the
        # result at the step answered, and under it at the next.
        self.over = None
        self.under = None

    def note_excesses(self, over, under):
        self.over = over if self.over is None else max(over, self.over)
        self.under = under if self.under is None else max(under, self.under)

    def add(self, other):
        """Takes in what another part of the family met."""
        self.seen += other.seen
        self.orders += other.orders
        self.cells += other.cells
        self.moved += other.moved
        self.rounded += other.rounded
        if other.over is not None:
            self.note_excesses(other.over, other.under)


def check_seen(name, seen, least):
    """That each outcome occurred as often as listed, and none that is not."""
    for what, count in least.items():
        if seen[what] < count:
            raise CheckFailed(f"family {name}: {what} only {seen[what]} times")
    if not seen.keys() <= least.keys():
        raise CheckFailed(f"family {name}: {set(seen) - set(least)} cannot occur")


def outcome_and_cell(function, *arguments):
    """The answer, or the number of the refusal; and the cell that this is for."""
    try:
        return function(*arguments), None
    except Refused as refused:
        return refused.number, refused.cell


def outcome(function, *arguments):
    """The answer, or the number of the refusal."""
    answer, _ = outcome_and_cell(function, *arguments)
    return answer


def ratio_of(r, r0):
    """W, by fractions: of the two units about R/R0 the nearer one, and the upper where
    both are as near; 0 where there is no divisor."""
    if r0 <= 0:
        return 0
    quotient = Fraction(r * RATIO_ONE, r0)
    below = floor(quotient)
    above = below + 1
    return above if above - quotient <= quotient - below else below


HALVES = ("exactly a half", "next over a half", "next under a half")


def note_half(r, r0, seen):
    """Counts a ratio with exactly half a unit to be rounded, and one next to that, as
    it can be by an odd R0."""
    over = 2 * (r * RATIO_ONE % r0) - r0
    if abs(over) <= 1:
        seen["rounded", HALVES[over]] += 1


# Demand 3, in whole numbers multiplied out.

EXCESS_MOST = 30  # 0.0000000003 in units of 10^-11

# W less the deviation, in units and without rounding, is whole times the one,
# the exact reference value, in units, times the other.
RESULT_MULTIPLE = RATIO_ONE**3
REFERENCE_MULTIPLE = CENTRE**9
MULTIPLE = RESULT_MULTIPLE * REFERENCE_MULTIPLE


def exact_deviation(certificate, w):
    """The deviation the certificate gives at `w`, in units, without rounding."""
    name, a, b, c, d, wal = certificate
    x = Fraction(w - RATIO_ONE, RATIO_ONE)
    value = a * x + b * x**2 + c * x**3
    if name == "ag" and w >= wal:
        value += d * Fraction(w - wal, RATIO_ONE) ** 2
    return value


def result_multiplied(certificate, w):
    """W less the deviation, nothing rounded, times RESULT_MULTIPLE."""
    name, a, b, c, d, wal = certificate
    x = w - RATIO_ONE
    value = a * x * RATIO_ONE**2 + b * x**2 * RATIO_ONE + c * x**3
    if name == "ag" and w >= wal:
        value += d * (w - wal) ** 2 * RATIO_ONE
    return w * (UNITS_ONE // RATIO_ONE) * RESULT_MULTIPLE - value


def reference_multiplied(step):
    """The exact reference value times REFERENCE_MULTIPLE."""
    n = step - CENTRE
    value = 0
    power = 1
    for c in reversed(COEFFICIENTS):
        value = value * n + c * power
        power *= CENTRE
    return value


def rise(certificate, w, step):
    """The exact reference value at the step less the unrounded result, times
    MULTIPLE."""
    result = result_multiplied(certificate, w)
    reference = reference_multiplied(step)
    # Multiplied out rightly, by the fractions these stand for.
    unrounded = w * (UNITS_ONE // RATIO_ONE) - exact_deviation(certificate, w)
    if unrounded * RESULT_MULTIPLE != result:
        raise CheckFailed(f"{w} by {certificate} is multiplied out wrongly")
    if exact(step) * REFERENCE_MULTIPLE != reference:
        raise CheckFailed(f"the reference at step {step} is multiplied out wrongly")
    return reference * RESULT_MULTIPLE - result * REFERENCE_MULTIPLE


def excess_over(certificate, w, step):
    """How far the reference value at the step lies above the result, times
    MULTIPLE; never by more than demand 3 allows."""
    excess = rise(certificate, w, step)
    if excess > EXCESS_MOST * MULTIPLE:
        raise CheckFailed(f"{w} by {certificate}: step {step} lies too high")
    return excess


def excess_under(certificate, w, step):
    """How far it lies below the result, likewise."""
    excess = -rise(certificate, w, step)
    if excess > EXCESS_MOST * MULTIPLE:
        raise CheckFailed(f"{w} by {certificate}: step {step} lies too low")
    return excess


def in_thousandths(excess):
    """An excess in thousandths of a unit, rounded down."""
    return "none" if excess is None else excess * 1000 // MULTIPLE


# Refusals. The causes of each call stand in the document's order.


def first_of(causes):
    """The first that has a cause, or None."""
    return next((number for number, cause in causes.items() if cause), None)


def note_orders(call, causes, survey):
    """Counts which refusals had a cause too and were not given."""
    first, *later = [number for number, cause in causes.items() if cause] or [None]
    for other in later:
        survey.orders[call, f"{first} before {other}"] += 1


def check_first(call, causes, number, asked, survey):
    """That the refusal, None for an answer, is the first with a cause."""
    if first_of(causes) != number:
        raise CheckFailed(f"{call} {asked}: {number}, due {first_of(causes)}")
    note_orders(call, causes, survey)


def faultless(name, a, b, c, d, wal):
    """Whether a certificate of a known law keeps every limit, in fractions.

    There are as many coefficients as used cells, on the curve none.
    """
    values = (a, b, c, d)
    used = len(SUBRANGES.get(name, ()))
    if values[used:].count(0) != len(values) - used:
        return False
    if any(abs(Fraction(value, UNITS_ONE)) > Fraction("0.001") for value in values):
        return False
    if name != "ag":
        return wal == 0
    w = Fraction(wal, RATIO_ONE)
    return abs(w - Fraction("3.3760086")) <= abs(w - 1) / 1000


def faulty(name, places):
    """Whether there is a cause for 7; of an unknown law, a coefficient's size."""
    if name in LAWS:
        return not faultless(name, *places)
    return any(abs(value) * 1000 > UNITS_ONE for value in places[:4])


def outside_limits(r, r0):
    if r < READING_LEAST or r > RESISTANCE_MOST:
        return True
    return r0 < DIVISOR_LEAST or r0 > RESISTANCE_MOST


@cache
def ends(name):
    """The value at a law's first step, and at the one past its last."""
    first, last = bounds(name)
    value = curve.exact_ratio if name == CURVE else working
    return value(first), value(last + 1)


def outside_range(certificate, w):
    """Whether a ratio lies below the law's range, and whether above it."""
    first, past = ends(certificate[0])
    if certificate[0] == CURVE:
        value = Fraction(w, RATIO_ONE)
    else:
        value = wr_at(certificate, w)
    return value < first, value >= past


def reading_causes(name, places, r, r0):
    causes = {
        3: name not in LAWS,
        7: faulty(name, places),
        1: outside_limits(r, r0),
        2: ratio_of(r, r0) > RATIO_MOST,
    }
    if name in LAWS and r0 > 0:
        certificate = (name, *places)
        causes[8], causes[9] = outside_range(certificate, ratio_of(r, r0))
    return causes


# Readings.


def check_increase(certificate, r, r0, step):
    """That a reading a unit of W higher, where answered, is not lower."""
    higher = outcome(read, *certificate, r - (-r0 // RATIO_ONE), r0)
    if isinstance(higher, tuple) and higher[1] < step:
        raise CheckFailed(f"{r} {r0} by {certificate} reads higher than a unit more")


def check_scale(certificate, w, step, survey):
    """That the answered step is the inverse of Wr, and demand 3."""
    if not working(step) <= wr_at(certificate, w) < working(step + 1):
        raise CheckFailed(f"step {step} is not the inverse of {w} by {certificate}")
    survey.note_excesses(
        excess_over(certificate, w, step), excess_under(certificate, w, step + 1)
    )


def check_curve(w, step):
    """That the answered step is the largest whose exact ratio is not above W."""
    sought = Fraction(w, RATIO_ONE)
    if not curve.exact_ratio(step) <= sought < curve.exact_ratio(step + 1):
        raise CheckFailed(f"step {step} is not the curve's of {w}")


def check_answered(certificate, r, r0, answer, survey):
    """That an answered reading keeps what is promised of it."""
    law, step = answer
    first, last = bounds(certificate[0])
    if law != certificate[0] or not first <= step <= last:
        raise CheckFailed(f"{r} {r0} by {certificate} gives {answer}")
    check_increase(certificate, r, r0, step)
    if law == CURVE:
        check_curve(ratio_of(r, r0), step)
    else:
        check_scale(certificate, ratio_of(r, r0), step, survey)


def check_outside(certificate, w, number):
    """That a ratio refused by 8 or 9 lies outside by the exact values too, but
    for what demand 3 allows."""
    first, last = bounds(certificate[0])
    if certificate[0] == CURVE:
        return
    if number == 8:
        excess_under(certificate, w, first)
    else:
        excess_over(certificate, w, last + 1)


def reading(name, places, r, r0, survey):
    """What the reading gives, the promises tested, counted in the survey."""
    answer = outcome(read, name, *places, r, r0)
    answered = isinstance(answer, tuple)
    causes = reading_causes(name, places, r, r0)
    asked = (name, places, r, r0)
    check_first("reading", causes, None if answered else answer, asked, survey)
    certificate = (name, *places)
    if answered:
        check_answered(certificate, r, r0, answer, survey)
        survey.seen[name, "answered"] += 1
        return answer
    if answer in (8, 9):
        check_outside(certificate, ratio_of(r, r0), answer)
    survey.seen[name if name in LAWS else "unknown", answer] += 1
    return answer


# Forward.


def check_forward(certificate, step, w, back):
    """That the ratio is the least, on the curve the exact one rounded down, and
    what reading it is to give."""
    name = certificate[0]
    if name == CURVE:
        due = curve.read_back(step)
        if not w <= curve.exact_ratio(step) * RATIO_ONE < w + 1:
            raise CheckFailed(f"{w} is not the curve's ratio at step {step}")
    else:
        due = step
        if not wr_at(certificate, w - 1) < working(step) <= wr_at(certificate, w):
            raise CheckFailed(f"{w} is not the least of step {step} by {certificate}")
    if back != (name, due):
        raise CheckFailed(f"{w}, of step {step} by {certificate}, reads {back}")


def forward_causes(name, places, step):
    causes = {3: name not in LAWS, 7: faulty(name, places)}
    if name in LAWS:
        first, last = bounds(name)
        causes[8] = step < first
        causes[9] = step > last
    return causes


# Records and the certificates made of them.

# Units by which the exact deviation of a certificate may miss, at a used cell,
# the deviation measured there. Each rounding takes away less than one unit;
# with x1 to x4 the used cells the greatest miss is under
# - one cell: x1, by q1;
# - two: x2 (1 + x2 - x1), at the second, by q2 and by b;
# - al: x3 (2 + x3), at the third, by the three products taken away in a, which
#   can miss by 2 + x1, and the one in b, which can by x3 - x1;
# - ag: 1 + x4 + x4^2, at silver, by the three products of the working
#   deviation; at the lower cells as al.
# The other way, by the rounded quotients, al and ag miss by less. Each x lies
# so near Wr - 1 that the next whole number above holds for every record.
MISS_MOST = {"ga": 1, "in": 1, "sn": 2, "zn": 3, "al": 11, "ag": 16}

# Units by which all roundings together move a coefficient, generously.
COEFFICIENT_MISS = 100


def misses(certificate, record):
    """By how much the certificate misses each used cell's own deviation."""
    return [
        exact_deviation(certificate, record[cell]) - deviation(cell, record[cell])
        for cell in SUBRANGES[certificate[0]]
    ]


def check_record(certificate, record):
    """That a certificate made of a record keeps what is promised of it."""
    name = certificate[0]
    if not faultless(*certificate):
        raise CheckFailed(f"{certificate} of {record} is beyond a limit")
    if given(*certificate) != certificate:
        raise CheckFailed(f"{certificate} of {record} is not sound as given")
    if any(abs(miss) >= MISS_MOST[name] for miss in misses(certificate, record)):
        raise CheckFailed(
            f"{certificate} misses a cell of {record} by {MISS_MOST[name]} units"
            " or more"
        )


def exact_coefficients(name, record):
    """a to d of a record, in units, by divided differences and without rounding."""
    cells = SUBRANGES[name]
    x = [Fraction(record[cell] - RATIO_ONE, RATIO_ONE) for cell in cells]
    delta = [Fraction(deviation(cell, record[cell])) for cell in cells]
    row = [delta_i / x_i for delta_i, x_i in zip(delta, x)][:3]
    newton = [row[0]]
    for gap in range(1, len(row)):
        spans = zip(row, row[1:], x, x[gap:])
        row = [(above - below) / (high - low) for below, above, low, high in spans]
        newton.append(row[0])
    # Of the form by differences, the powers: q1 + r12 (x - x1) + c (x - x1)(x - x2).
    q1, r12, c = (*newton, 0, 0)[:3]
    x1, x2 = (*x, 0)[:2]
    b = r12 - c * (x1 + x2)
    a = q1 - r12 * x1 + c * x1 * x2
    if name != "ag":
        return a, b, c, 0
    e = delta[3] - (a * x[3] + b * x[3] ** 2 + c * x[3] ** 3)
    return a, b, c, e / (x[3] - x[2]) ** 2


def beyond_limit(cell, w):
    """Whether |W - Wr| is over |W - 1|/1000, in fractions."""
    ratio = Fraction(w, RATIO_ONE)
    return abs(ratio - Fraction(WR[cell], UNITS_ONE)) > abs(ratio - 1) / 1000


def impure(name, record):
    """The cells for which purity is not met: of mercury and gallium those measured
    stand first, and silver last."""
    cells = []
    if record["Ga"] < GA_LEAST and not 0 < record["Hg"] <= HG_MOST:
        cells = sorted(("Hg", "Ga"), key=lambda cell: record[cell] == NOT_MEASURED)
    if name == "ag" and record["Ag"] < AG_LEAST:
        cells.append("Ag")
    return cells


def record_causes(name, record):
    """The causes, those of a cell as the list of such cells, the first to be named
    first. Of 7, the deviation limit; a coefficient's size comes after all of these.

    What cells an unknown subrange needs nobody knows.
    """
    measured = [cell for cell in CELLS if record[cell] != NOT_MEASURED]
    needed = SUBRANGES.get(name, ())
    return {
        3: name not in SUBRANGES,
        2: [cell for cell in measured if record[cell] > RATIO_MOST],
        4: [cell for cell in CELLS if cell in needed and cell not in measured],
        5: "Ga" not in measured and "Hg" not in measured,
        6: impure(name, record),
        7: [cell for cell in measured if beyond_limit(cell, record[cell])],
    }


def check_by_coefficient(name, record):
    """That a record refused for the size of a coefficient has one about 0.001 or
    over it."""
    largest = max(map(abs, exact_coefficients(name, record)))
    if largest * 1000 < UNITS_ONE - COEFFICIENT_MISS * 1000:
        raise CheckFailed(f"{name} {record} is refused, its coefficients keep 0.001")


def check_certificate(call, causes, name, record, answer, survey):
    """That what a record gives, a certificate or the number of a refusal, is due to
    it."""
    asked = (name, record)
    if isinstance(answer, tuple):
        check_first(call, causes, None, asked, survey)
        if answer[0] != name:
            raise CheckFailed(f"{call} {asked} gives {answer}")
        check_record(answer, record)
        survey.seen[name] += 1
        return
    if first_of(causes) is None and answer == 7:
        check_by_coefficient(name, record)
        survey.seen["7 by a coefficient"] += 1
        return
    check_first(call, causes, answer, asked, survey)
    survey.seen[answer] += 1


def check_cell(call, causes, number, cell, survey):
    """That a refusal is for the first cell with the cause. By 3, 5 and for the size
    of a coefficient it is for none."""
    cells = causes[number] if isinstance(causes[number], list) else []
    due = cells[0] if cells else None
    if cell != due:
        raise CheckFailed(f"{call}: {number} for {cell}, due {due} of {causes}")
    survey.cells[call, number, cell] += 1


def record_of(resistances):
    """The record that resistances give, those outside their limits too."""
    return {cell: ratio_of(*resistances[cell]) for cell in CELLS}


def measured_causes(name, resistances):
    """1 for any cell with a number in it, then those of the record of ratios."""
    by_ratio = record_causes(name, record_of(resistances))
    filled = [cell for cell in CELLS if any(resistances[cell])]
    outside = [cell for cell in filled if outside_limits(*resistances[cell])]
    return {3: by_ratio.pop(3), 1: outside, **by_ratio}


# Tolerance tests.


def whole_limit(letter, bath):
    """The class's limit in whole steps, rounded down; B's for an unknown class.

    Errors are whole, so that it divides them as the limit itself does.
    """
    if letter == ord("A"):
        return 1500 + abs(bath) * 2 // 1000
    return 3000 + abs(bath) * 5 // 1000


def tolerance_causes(letter, bath, r, r0):
    """An unknown class is taken to have B's range of baths."""
    last = 6500000 if letter == ord("A") else 8500000
    causes = {
        3: letter not in (ord("A"), ord("B")),
        "bath 8": bath < -2000000,
        "bath 9": bath > last,
        1: outside_limits(r, r0),
        2: ratio_of(r, r0) > RATIO_MOST,
    }
    if r0 > 0:
        zeros = (CURVE, 0, 0, 0, 0, 0)
        causes[8], causes[9] = outside_range(zeros, ratio_of(r, r0))
    return causes


def number_of(cause):
    """The number given for a cause, 8 or 9 for one of the bath's."""
    return int(cause.removeprefix("bath ")) if isinstance(cause, str) else cause


def check_tolerance(letter, bath, r, r0, answer, survey):
    """That the verdict and the error, or the refusal, are due."""
    causes = tolerance_causes(letter, bath, r, r0)
    first = first_of(causes)
    asked = (letter, bath, r, r0)
    if not isinstance(answer, tuple):
        if number_of(first) != answer:
            raise CheckFailed(f"tolerance {asked}: {answer}, due {first}")
        note_orders("tolerance", causes, survey)
        survey.seen[chr(letter) if first != 3 else "unknown", first] += 1
        return
    check_first("tolerance", causes, None, asked, survey)
    law, passes, error = answer
    if law != CURVE:
        raise CheckFailed(f"tolerance {asked} gives {answer}")
    check_curve(ratio_of(r, r0), bath + error)
    if passes != (abs(error) <= whole_limit(letter, bath)):
        raise CheckFailed(f"tolerance {asked}: error {error} is misjudged")
    survey.seen[chr(letter), "pass" if passes else "fail"] += 1
