"""Families of records, of ratios and of resistances: sections "Cells and subranges"
and "From record to certificate".
"""

from fractions import Fraction
from math import floor

import promises
from cases import CheckFailed
from certificate import (
    CELLS,
    COEFFICIENT_MOST,
    NO_RESISTANCES,
    SUBRANGES,
    WR,
    certify,
    certify_measured,
    coefficients,
)
from draws import (
    DIVISORS,
    EDGE_R,
    EDGE_R0,
    EXACTLY,
    KILOHM,
    LARGEST_RESISTANCE,
    OVER,
    UNDER,
    any_divisor,
    around,
    divisor_about_half,
    least_by,
    most_divisor,
    near_kilohm,
    only_used,
    past_most,
    record_for,
    sensor,
    spoil_once,
    widest,
    word_for,
)
from family import Family, Line, for_each
from lists import ID_MOST, LINE_MOST, RATIOS, RESISTANCES, line_of
from moves import outcome_before
from promises import HALVES, Survey, note_half, outcome_and_cell
from quantity import (
    DIVISOR_LEAST,
    RATIO_ONE,
    RESISTANCE_MOST,
    RESISTANCE_MOST_BEFORE,
    UNITS_ONE,
)

NAMES = tuple(SUBRANGES)

# Records of ratios.


def certified(name, record, survey):
    """The line of a record, its promises tested."""
    answer, cell = outcome_and_cell(certify, name, record)
    causes = promises.record_causes(name, record)
    promises.check_certificate("record", causes, name, record, answer, survey)
    if not isinstance(answer, tuple):
        promises.check_cell("record", causes, answer, cell, survey)
    result = answer[1:] if isinstance(answer, tuple) else answer
    return Line(RATIOS, (name, *(record[cell] for cell in CELLS)), result)


def record_case(name):
    def case(generator, i, survey):
        return [certified(name, record_for(generator), survey)]

    return case


def named_case(generator, i, survey):
    """A record of any name, by ratios and by resistances."""
    name = word_for(generator)
    record = record_for(generator)
    line = certified(name, record, survey)
    return [line, measured(name, pairs_for(generator, record), survey)]


def faults_case(generator, i, survey):
    """A record with up to four faults, by ratios, and by resistances with up to
    two more."""
    name = word_for(generator) if generator.under(6) == 0 else NAMES[i % 6]
    record = sensor(generator)
    for _ in range(1 + generator.under(4)):
        spoil_once(generator, record)
    pairs = pairs_for(generator, record)
    for _ in range(generator.under(3)):
        cell = CELLS[generator.under(len(CELLS))]
        pairs[cell] = EDGES[generator.under(len(EDGES))]
    return [certified(name, record, survey), measured(name, pairs, survey)]


# Records with a coefficient at its limit, which only a search finds.

# The places that can have 0.001 while all else keeps its limits. In al and ag c
# cannot, and of one cell the deviation has the limit.
LIMIT_PLACES = (
    *(("sn", 0), ("sn", 1), ("zn", 0), ("zn", 1), ("al", 0), ("al", 1)),
    *(("ag", 0), ("ag", 1), ("ag", 3)),
)
LIMIT_VALUES = (
    COEFFICIENT_MOST,
    COEFFICIENT_MOST + 1,
    -COEFFICIENT_MOST,
    -COEFFICIENT_MOST - 1,
)

PURE = {"Ga": 1118138890, "Hg": 844142110}


def ratio_with(cell, places):
    """About the ratio of a cell in which these places give its deviation."""
    a, b, c, d = places
    x = Fraction(WR[cell], UNITS_ONE) - 1
    value = a * x + b * x**2 + c * x**3
    if cell == "Ag":
        value += d * Fraction(WR["Ag"] - WR["Al"], UNITS_ONE) ** 2
    return floor((WR[cell] + value) * RATIO_ONE / UNITS_ONE)


def record_with(generator, name, place, value):
    """A record with about this value in a place, each used cell in its limit."""
    while True:
        places = [around(generator, COEFFICIENT_MOST) for _ in "abcd"]
        places[place] = value
        places = only_used(name, [*places, 0])[:4]
        record = dict.fromkeys(CELLS, 0) | PURE
        for cell in SUBRANGES[name]:
            record[cell] = ratio_with(cell, places)
        if not any(promises.beyond_limit(c, record[c]) for c in SUBRANGES[name]):
            return record


def record_at(generator, name, place, value):
    """A record that gives just this value in a place, or None.

    One cell is moved unit by unit, and another as far as takes the place nearest
    to the value; it is met once in some hundred units.
    """
    record = record_with(generator, name, place, value)
    moved = SUBRANGES[name][0]
    # Silver has a part in d alone.
    fitting = "Ag" if place == 3 else SUBRANGES[name][:3][-1]

    def found():
        return coefficients(name, record)[place]

    start = found()
    record[fitting] += 1000
    rise = Fraction(found() - start, 1000)
    for _ in range(2000):
        record[fitting] += round((value - found()) / rise)
        if found() == value:
            return record
        record[moved] += 1
    return None


def fits_case(generator, i, survey):
    """Each place that can at 0.001 and a unit past it, of either sign."""
    name, place = LIMIT_PLACES[i % len(LIMIT_PLACES)]
    value = LIMIT_VALUES[i // len(LIMIT_PLACES) % len(LIMIT_VALUES)]
    record = None
    while record is None:
        record = record_at(generator, name, place, value)
    line = certified(name, record, survey)
    if isinstance(line.result, tuple):
        survey.seen[name, "at the limit"] += 1
    return [line, measured(name, pairs_for(generator, record), survey)]


# Records of resistances.


def measured(name, pairs, survey):
    """The line of a record of resistances, its promises tested."""
    answer, cell = outcome_and_cell(certify_measured, name, pairs)
    causes = promises.measured_causes(name, pairs)
    record = promises.record_of(pairs)
    promises.check_certificate("measured", causes, name, record, answer, survey)
    if not isinstance(answer, tuple):
        promises.check_cell("measured", causes, answer, cell, survey)
    # As by the ratios, where nothing is outside its limits.
    if answer not in (1, 3):
        if (answer, cell) != outcome_and_cell(certify, name, record):
            raise CheckFailed(f"{name} {pairs} gives {answer}, not as its ratios")
    numbers = [number for cell in CELLS for number in pairs[cell]]
    result = answer[1:] if isinstance(answer, tuple) else answer
    return Line(RESISTANCES, (name, *numbers), result)


def pair_by(generator, w, r0):
    """R and R0 of a cell: the least R with this ratio, the largest, or between.

    By a divisor under 1 ohm it can be some units more.
    """
    least, _ = least_by(w, r0)
    past, _ = least_by(w + 1, r0)
    count = max(1, past - least)
    between = generator.under(count)
    return least + (0, count - 1, between)[generator.under(3)], r0


def pair_for(generator, w):
    """R and R0 of a cell, by any divisor, one in use or a fine one."""
    if w == 0:
        return NO_RESISTANCES
    kind = generator.under(8)
    in_use = DIVISORS[generator.under(len(DIVISORS))]
    any_of = any_divisor(generator, most_divisor(w + 1))
    fine = RATIO_ONE + generator.under(100 * RATIO_ONE)
    return pair_by(generator, w, any_of if kind == 0 else in_use if kind < 4 else fine)


def pairs_for(generator, record):
    return {cell: pair_for(generator, record[cell]) for cell in CELLS}


def measured_case(name):
    def case(generator, i, survey):
        pairs = pairs_for(generator, record_for(generator))
        return [measured(name, pairs, survey)]

    return case


def edges_at(most):
    """R and R0 at and past the most, a ratio that is rounded to 0 and the least that
    is not."""
    one_unit, _ = least_by(1, most)
    return (
        (most, DIVISOR_LEAST),
        (most, most),
        (most + 1, most),
        (most, most + 1),
        (most + 1, DIVISOR_LEAST),
        (1, most),
        (one_unit - 1, most),
        (one_unit, most),
    )


ABOUT_MOST = (DIVISOR_LEAST, 25 * 10**9, 2 * 10**11, 2 * 10**12)

# A cell's R and R0: one of them 0, at and past each limit, now and before, and about
# 4.4.
EDGES = (
    *((0, r0) for r0 in EDGE_R0[1:]),
    *((r, 0) for r in EDGE_R[1:]),
    (1, DIVISOR_LEAST - 1),
    (1, DIVISOR_LEAST),
    *edges_at(RESISTANCE_MOST),
    *edges_at(RESISTANCE_MOST_BEFORE),
    *((past_most(r0) - 1, r0) for r0 in ABOUT_MOST),
    *((past_most(r0), r0) for r0 in ABOUT_MOST),
)


def pairs_case(generator, i, survey):
    """Each edge in each cell of a sensor by each subrange, then two of them."""
    pairs = pairs_for(generator, sensor(generator))
    name = NAMES[i % len(NAMES)]
    at = i // len(NAMES)
    if at < len(EDGES) * len(CELLS):
        pairs[CELLS[at % len(CELLS)]] = EDGES[at // len(CELLS)]
        return [measured(name, pairs, survey)]
    for _ in range(2):
        cell = CELLS[generator.under(len(CELLS))]
        pairs[cell] = EDGES[generator.under(len(EDGES))]
    return [measured(name, pairs, survey)]


# Halves of a unit.

# Divisors by which every unit has an R of its own, and R has 12 digits at most.
HALF_LEAST = RATIO_ONE
HALF_MOST = 150 * RATIO_ONE


def half_pair(generator, w, seen):
    """R and R0 of just this ratio: the least R or the largest, where half a unit is to
    be rounded, exactly or nearly."""
    side = (EXACTLY, EXACTLY, OVER, UNDER)[generator.under(4)]
    # The largest is a nanoohm less than the least of the next unit. None is 0.
    largest = 1 if w == 0 else generator.under(2)
    least = HALF_LEAST if w > 0 else 4 * HALF_LEAST
    r0 = divisor_about_half(generator, w + largest, side, least, HALF_MOST)
    r, _ = least_by(w + largest, r0)
    note_half(r - largest, r0, seen)
    return r - largest, r0


def note_moved(line, seen):
    """Counts a record that had another answer before request 7, by the numbers then and
    now, 0 with an answer."""
    name, *numbers = line.values
    outcomes = outcome_before(RESISTANCES, name, numbers), line.result
    if outcomes[0] != outcomes[1]:
        was, now = (0 if isinstance(made, tuple) else made for made in outcomes)
        seen["moved", f"{was} to {now}"] += 1


def half_record_case(generator, i, survey):
    """A record with such a half in each cell; of three cases one has a cell of one unit
    or of none, though it is given."""
    name = NAMES[i % len(NAMES)]
    record = record_for(generator)
    lowest = CELLS[generator.under(len(CELLS))]
    units = generator.under(6)
    if units < 2:
        record[lowest] = units
    pairs = {}
    for cell, w in record.items():
        if w > 0 or (units, cell) == (0, lowest):
            pairs[cell] = half_pair(generator, w, survey.seen)
        else:
            pairs[cell] = NO_RESISTANCES
    if promises.record_of(pairs) != record:
        raise CheckFailed(f"{pairs} are not of {record}")
    line = measured(name, pairs, survey)
    note_moved(line, survey.seen)
    return [line]


# Large resistances.


def kilohm_case(generator, i, survey):
    """A record by about 1 kΩ; of four one has R or R0 the most in some cells, and one
    in all. Cells without use are left out, so that the line is not too long."""
    name = NAMES[i % len(NAMES)]
    wanted = {*SUBRANGES[name], "Hg", "Ga"}
    record = record_for(generator)
    r0 = near_kilohm(generator)
    most_in = (0, 0, 1, 4)[generator.under(4)]
    pairs = {}
    for cell in CELLS:
        if cell not in wanted or record[cell] == 0:
            pairs[cell] = NO_RESISTANCES
        elif generator.under(4) < most_in:
            pairs[cell] = widest(record[cell])
        else:
            pairs[cell] = pair_by(generator, record[cell], r0)
    return [measured(name, pairs, survey)]


# Divisors by which R has 12 digits in each cell.
WIDE_LEAST = 119 * 10**9
WIDE_MOST = 233 * 10**9


def wide_pairs(generator):
    """R and R0 of a sensor, each of 12 digits."""
    pairs = {}
    for cell, w in sensor(generator).items():
        r0 = WIDE_LEAST + generator.under(WIDE_MOST - WIDE_LEAST)
        pairs[cell] = least_by(w, r0)
    return pairs


def long_case(generator, i, survey):
    """A record whose line has up to 200 bytes or some more, by the length of its
    id, of its name, of numbers with a digit more, or of such as are past their
    limits; each field keeps its rule."""
    pairs = wide_pairs(generator)
    kind = generator.under(4)
    word = word_for(generator)
    name = word if kind == 1 else NAMES[generator.under(len(NAMES))]
    size = 1 + generator.under(ID_MOST)
    for _ in range(generator.under(7)):
        cell = CELLS[generator.under(len(CELLS))]
        if kind == 2:
            pairs[cell] = (LARGEST_RESISTANCE, LARGEST_RESISTANCE - i)
        r, r0 = pairs[cell]
        if kind == 3 and r < KILOHM:
            pairs[cell] = (10 * r, 10 * r0)
    line = measured(name, pairs, Survey())._replace(name=f"{i:016}"[-size:])
    width = len(line_of(line.name, *line.values))
    survey.seen["bytes", min(max(width, LINE_MOST - 4), LINE_MOST + 5)] += 1
    else_due = "answered" if isinstance(line.result, tuple) else line.result
    survey.seen["too long" if width > LINE_MOST else "not too long", else_due] += 1
    return [line]


# The families.

RECORD_LEAST = {2: 20, 4: 20, 5: 20, 6: 20, 7: 20, "7 by a coefficient": 5}


def record_least(name):
    least = {name: 20, **RECORD_LEAST}
    if name == "ga":
        # Without gallium the test for 4 comes first.
        del least[5]
    if name in ("ga", "in"):
        # One cell's coefficient is its deviation's part, which has the limit.
        del least["7 by a coefficient"]
    return least


NAMED_LEAST = {
    **dict.fromkeys(NAMES, 10),
    3: 20,
    **dict.fromkeys((2, 4, 5, 6, 7, "7 by a coefficient"), 1),
}
FAULTS_LEAST = {**dict.fromkeys(NAMES, 20), **RECORD_LEAST, 1: 20, 3: 20}
# What stands with 0 may occur.
PAIRS_LEAST = {
    **dict.fromkeys((*NAMES, 4, 6, 7), 3),
    **{1: 500, 2: 100, 5: 0, "7 by a coefficient": 0},
}
FITS_LEAST = {
    **dict.fromkeys(("sn", "zn", "al", "ag"), 20),
    **for_each(("sn", "zn", "al", "ag"), ("at the limit",), 10),
    **{"7 by a coefficient": 100, 6: 0, 7: 0},
}

HALVES_LEAST = {
    **dict.fromkeys((*NAMES, 2, 4, 6, 7), 20),
    **{5: 20, "7 by a coefficient": 20},
    **for_each(("rounded",), HALVES, 500),
    **for_each(("moved",), ("0 to 0", "0 to 7", "4 to 6", "4 to 7", "7 to 2"), 10),
    **for_each(("moved",), ("0 to 6", "5 to 6", "5 to 7", "6 to 0", "7 to 0"), 5),
    **for_each(("moved",), ("4 to 5", "6 to 2", "6 to 7"), 0),
}

KILOHM_LEAST = {**dict.fromkeys(NAMES, 20), **RECORD_LEAST}

LONG_LEAST = {
    **{("bytes", width): 5 for width in range(LINE_MOST - 4, LINE_MOST + 6)},
    **for_each(("too long", "not too long"), ("answered", 1, 3), 10),
    **for_each(("too long", "not too long"), (6, 7), 0),
}

FAMILIES = (
    *(
        Family(name, 721 + n, 6000, record_case(name), record_least(name))
        for n, name in enumerate(NAMES)
    ),
    *(
        Family(f"{name}-ohms", 731 + n, 3000, measured_case(name), record_least(name))
        for n, name in enumerate(NAMES)
    ),
    Family("named", 741, 2000, named_case, NAMED_LEAST),
    Family("faults", 742, 4000, faults_case, FAULTS_LEAST),
    Family("pairs", 743, 4000, pairs_case, PAIRS_LEAST),
    Family("half-ohms", 747, 2000, half_record_case, HALVES_LEAST),
    Family("kilohms", 746, 3000, kilohm_case, KILOHM_LEAST),
    Family("fits", 744, 720, fits_case, FITS_LEAST),
    Family("long", 745, 2000, long_case, LONG_LEAST),
)
