"""Families of tolerance tests: section "The curve"."""

import curve
import promises
from cases import CheckFailed
from draws import CURVE_EDGES, EDGE_PAIRS, LETTERS, around, widest
from family import Family, Line, for_each
from lists import TOLERANCE
from promises import HALVES, outcome, whole_limit
from quantity import (
    DIVISOR_LEAST,
    RATIO_ONE,
    RESISTANCE_MOST,
    RESISTANCE_MOST_BEFORE,
)
from reading import CURVE, tolerance
from reading_families import ZEROS, half_cases


def judged(letter, bath, r, r0, survey):
    """The line of a tolerance test, its promises tested."""
    answer = outcome(tolerance, ord(letter), bath, r, r0)
    promises.check_tolerance(ord(letter), bath, r, r0, answer, survey)
    result = answer
    if isinstance(answer, tuple):
        _, passes, error = answer
        result = ("pass" if passes else "fail", error)
    return Line(TOLERANCE, (letter, bath, r, r0), result)


# Bench card 10 and its like, by 100 ohm and by 1000: each class at these baths, an
# error of the whole limit and of one step more, above and below.
LIMIT_BATHS = (0, -2000000, 6500000, 8500000)
LIMIT_CASES = 2 * len(LIMIT_BATHS) * 2 * 2

EDGE_BATH = (
    -2000001,
    -2000000,
    -1999999,
    0,
    6500000,
    6500001,
    8499999,
    8500000,
    8500001,
)


def limit_case(i):
    """The class, the bath and the step that is to be read."""
    letter = "AB"[i // 16]
    bath = LIMIT_BATHS[i // 4 % 4]
    error = whole_limit(ord(letter), bath) + i % 2
    return letter, bath, bath - error if i // 2 % 2 else bath + error


def letter_for(generator):
    kind = generator.under(7)
    free = LETTERS[generator.under(len(LETTERS))]
    return "AAABBB"[kind] if kind < 6 else free


def bath_for(generator):
    if generator.under(4) == 0:
        return EDGE_BATH[generator.under(len(EDGE_BATH))]
    return generator.under(10500001) - 2000000


def aim_for(generator, letter, bath):
    """A step about either limit, near the bath or anywhere, None for no aim."""
    limit = whole_limit(ord(letter), bath)
    kind = generator.under(5)
    if kind == 0:
        # An aim is read as itself or, under half a unit, as the step below.
        return bath + limit + generator.under(3)
    if kind == 1:
        return bath - limit - 1 + generator.under(3)
    if kind == 2:
        return bath + around(generator, 10000)
    if kind == 3:
        return generator.under(10500001) - 2000000
    return None


EDGE_DIVISOR = (
    DIVISOR_LEAST - 1,
    DIVISOR_LEAST,
    25000000000,
    100000000000,
    RESISTANCE_MOST_BEFORE,
    RESISTANCE_MOST_BEFORE + 1,
    RESISTANCE_MOST,
    RESISTANCE_MOST + 1,
)

# R0 of a Pt100 and of a Pt1000.
OHMS = (100, 1000)


def unaimed(generator):
    """R and R0 of a ratio at an end of the curve or at 4.4, or about any."""
    w = CURVE_EDGES[generator.under(len(CURVE_EDGES))]
    r = generator.under(RESISTANCE_MOST + 2)
    r0 = EDGE_DIVISOR[generator.under(len(EDGE_DIVISOR))]
    kind = generator.under(6)
    if kind < 2:
        return OHMS[kind] * w, OHMS[kind] * RATIO_ONE
    return (widest(w), (r, r0), (r // 10, r0), (r // 100, r0))[kind - 2]


def tolerance_case(generator, i, survey):
    ohms = OHMS[i // LIMIT_CASES % 2]
    if i < 2 * LIMIT_CASES:
        letter, bath, aim = limit_case(i % LIMIT_CASES)
        # A unit more than the aim's ratio reads the aim itself.
        more = ohms
    else:
        letter = letter_for(generator)
        bath = bath_for(generator)
        aim = aim_for(generator, letter, bath)
        more = generator.under(ohms)
    if aim is not None and curve.FIRST <= aim <= curve.LAST:
        r, r0 = curve.forward(aim) * ohms + more, ohms * RATIO_ONE
    else:
        r, r0 = unaimed(generator)
    return [judged(letter, bath, r, r0, survey)]


def classes_case(generator, i, survey):
    """Every letter, bath edge and pair of limits, then any of everything."""
    if i < len(LETTERS):
        return [judged(LETTERS[i], 0, 10**11, 10**11, survey)]
    letter = "AB"[i % 2]
    at = (i - len(LETTERS)) // 2
    if at < len(EDGE_BATH):
        return [judged(letter, EDGE_BATH[at], 10**11, 10**11, survey)]
    at -= len(EDGE_BATH)
    if at < len(EDGE_PAIRS):
        return [judged(letter, 0, *EDGE_PAIRS[at], survey)]
    letter = "ABABABCDa"[generator.under(9)]
    bath = generator.under(11000000) - 2200000
    ohms = OHMS[at % 2]
    r, r0 = generator.under(4500000000 * ohms), ohms * RATIO_ONE
    if generator.under(4) == 0:
        r, r0 = EDGE_PAIRS[generator.under(len(EDGE_PAIRS))]
    return [judged(letter, bath, r, r0, survey)]


# Halves of a unit.


def judged_as(letter, bath, r, r0, due, survey):
    """The line of a test in which the curve is to give this; None where that is not
    known."""
    line = judged(letter, bath, r, r0, survey)
    found = line.result
    if isinstance(found, tuple):
        _, error = found
        found = (CURVE, bath + error)
    if due not in (None, found):
        raise CheckFailed(f"{letter} {bath} {r} {r0}: {found}, due {due}")
    return line


def half_step(generator, letter, bath):
    """A step from which on a class fails, above the bath, or passes, below it; one near
    the bath; any; the first of the curve, or the one past its last."""
    limit = whole_limit(ord(letter), bath)
    near = around(generator, 10000)
    free = generator.under(curve.PAST_LAST - curve.FIRST + 1)
    step = (
        bath + limit + 1,
        bath - limit,
        bath + near,
        curve.FIRST + free,
        curve.FIRST,
        curve.PAST_LAST,
    )[generator.under(6)]
    return min(max(step, curve.FIRST), curve.PAST_LAST)


def half_test_case(generator, i, survey):
    """Half a unit to be rounded, exactly or nearly, about a step."""
    letter = "AB"[i % 2]
    first, last, _, _ = curve.CLASSES[ord(letter)]
    bath = first + generator.under(last - first + 1)
    step = half_step(generator, letter, bath)
    asked = half_cases(generator, CURVE, ZEROS, step, survey.seen)
    return [judged_as(letter, bath, *pair, due, survey) for *pair, due in asked]


# The families.

JUDGED = ("pass", "fail", "bath 8", "bath 9", 1, 2, 8, 9)
TOLERANCE_LEAST = {**for_each("AB", JUDGED, 3), ("unknown", 3): 100}

HALVES_LEAST = {
    **for_each("AB", ("pass", "fail", 2, 8, 9), 50),
    **for_each(("rounded",), HALVES, 200),
}

FAMILIES = (
    Family("tolerance", 712, 10000, tolerance_case, TOLERANCE_LEAST),
    Family("classes", 713, 3000, classes_case, TOLERANCE_LEAST),
    Family("half-tests", 716, 2000, half_test_case, HALVES_LEAST),
)
