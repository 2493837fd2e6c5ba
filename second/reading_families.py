"""Families of readings, of given certificates and of forward steps, by every law:
sections "Quantities", "Reference function" and "From resistance to temperature",
and the curve.
"""

import curve
import promises
from cases import CheckFailed
from certificate import COEFFICIENT_MOST, LAWS, SUBRANGES, product
from draws import (
    AL_STEP,
    AL_WR,
    CURVE_EDGES,
    EDGE_PAIRS,
    LARGEST,
    about_half,
    around,
    by_ohms,
    given_for,
    least_by,
    least_ratio,
    most_divisor,
    near_half,
    near_kilohm,
    only_used,
    past_most,
    places_for,
    resistances,
    sound_coefficient,
    sound_for,
    sound_wal,
    step_for,
    target_for,
    widest,
)
from family import Family, Line, for_each
from lists import FORWARD, READINGS
from promises import HALVES, note_half, outcome
from quantity import (
    DIVISOR_LEAST,
    RATIO_MOST,
    RATIO_ONE,
    RESISTANCE_MOST,
    RESISTANCE_MOST_BEFORE,
    UNITS_ONE,
)
from reading import CURVE, TOPS, bounds, forward, silver_term, wr_at
from reference import CENTRE, exact, working

NAMES = tuple(SUBRANGES)

# R0 by which each forward ratio is read back, and its part in R.
BACK_PART = 25
BACK_DIVISOR = BACK_PART * RATIO_ONE

WORKING_ERROR = 9  # units; the working value lies nearer than this

ZEROS = (0, 0, 0, 0, 0)


def reading_line(law, places, r, r0, answer):
    result = answer[1:] if isinstance(answer, tuple) else answer
    return Line(READINGS, (law, r, r0, *places), result)


def forward_line(law, places, step, answer):
    result = answer[1:] if isinstance(answer, tuple) else answer
    return Line(FORWARD, (law, step, *places), result)


def read(law, places, r, r0, survey):
    """The answer of a reading, its promises tested, and its line."""
    answer = promises.reading(law, places, r, r0, survey)
    return answer, reading_line(law, places, r, r0, answer)


# The ratio of two resistances.


def pair_about_most(generator):
    """R and R0 close about 4.4, the limit of refusal 2."""
    most = RESISTANCE_MOST * RATIO_ONE // RATIO_MOST - 1000
    r0 = DIVISOR_LEAST + generator.under(most - DIVISOR_LEAST)
    return past_most(r0) + generator.under(8) - 4, r0


def limits_case(generator, i, survey):
    """Each limit of R with each of R0 by each law; then any up to the most, now and
    before, and about 4.4."""
    law, places = sound_for(generator)
    if i < len(LAWS) * len(EDGE_PAIRS):
        law = LAWS[i % len(LAWS)]
        places = places_for(generator, law)
        r, r0 = EDGE_PAIRS[i // len(LAWS)]
    elif i % 2 == 0:
        most = RESISTANCE_MOST if i % 4 == 0 else RESISTANCE_MOST_BEFORE
        r = generator.under(most + 2)
        r0 = generator.under(most + 2)
    else:
        r, r0 = pair_about_most(generator)
    return [read(law, places, r, r0, survey)[1]]


def due_at(law, step):
    """What a reading at a step gives, also at one beside the law's range."""
    first, last = bounds(law)
    if step < first:
        return 8
    return (law, step) if step <= last else 9


def read_as(law, places, r, r0, due, survey):
    """The line of a reading that is to give this; None where that is not known."""
    answer, line = read(law, places, r, r0, survey)
    if due not in (None, answer):
        raise CheckFailed(f"{r} {r0} by {law} {places}: {answer}, due {due}")
    return line


def read_at(law, places, r, r0, step, survey):
    """The line of a reading that is to give this step."""
    return read_as(law, places, r, r0, due_at(law, step), survey)


def edge_or_any(generator, law):
    """A step at an end of the law or past its last, or any."""
    first, last = bounds(law)
    edges = (first, last + 1, last, first + 1)
    kind = generator.under(10)
    free = first + generator.under(last - first + 2)
    return edges[kind] if kind < len(edges) else free


def about_step(law, places, step, r, r0, survey):
    """The lines of a step's least R, and of one nanoohm less."""
    return [
        read_at(law, places, r, r0, step, survey),
        read_at(law, places, r - 1, r0, step - 1, survey),
    ]


def ratio_case(generator, i, survey):
    """The least R of a step, by any divisor, and one nanoohm less."""
    law = LAWS[i % len(LAWS)]
    places = places_for(generator, law)
    step = edge_or_any(generator, law)
    r, r0 = resistances(generator, least_ratio(law, places, step))
    return about_step(law, places, step, r, r0, survey)


# Halves of a unit.


def half_aim(generator, law, places, step):
    """The least ratio of a step, and what is read under half a unit less than it, there
    and over it; of six cases one has the least ratio over 4.4 instead."""
    if generator.under(6) == 0:
        return RATIO_MOST + 1, (9, 2, 2)
    at = due_at(law, step)
    return least_ratio(law, places, step), (due_at(law, step - 1), at, at)


def half_cases(generator, law, places, step, seen):
    """R and R0 with what is read: a nanoohm less than the least R that has the ratio of
    that aim, just this R, and a nanoohm more. Of five cases one is about some half
    beside it, and what is read is not known."""
    w, dues = half_aim(generator, law, places, step)
    if generator.under(5) == 0:
        pairs, dues = near_half(generator, w), (None, None, None)
    else:
        pairs = about_half(generator, w)
    for pair, due in zip(pairs, dues):
        note_half(*pair, seen)
        yield *pair, due


def halves_case(generator, i, survey):
    """Half a unit to be rounded, exactly or nearly, about a step."""
    law = LAWS[i % len(LAWS)]
    places = places_for(generator, law)
    step = edge_or_any(generator, law)
    asked = half_cases(generator, law, places, step, survey.seen)
    return [read_as(law, places, *pair, due, survey) for *pair, due in asked]


# Large resistances.

# What a Pt1000 is mostly read at, in steps: from -40 °C to 100 °C.
USUAL_FIRST = -400000
USUAL_LAST = 1000000


def kilohm_case(generator, i, survey):
    """The least R of a step, and one nanoohm less, of a Pt1000; of three cases one is
    by any law with the largest divisor, and also with R or R0 the most."""
    if i % 3 == 0:
        return widest_lines(generator, LAWS[i // 3 % len(LAWS)], survey)
    usual = USUAL_FIRST + generator.under(USUAL_LAST - USUAL_FIRST + 1)
    step = usual if i % 3 == 1 else edge_or_any(generator, CURVE)
    r, r0 = least_by(least_ratio(CURVE, ZEROS, step), near_kilohm(generator))
    return about_step(CURVE, ZEROS, step, r, r0, survey)


def widest_lines(generator, law, survey):
    places = places_for(generator, law)
    step = edge_or_any(generator, law)
    w = least_ratio(law, places, step)
    r, r0 = least_by(w, most_divisor(w))
    lines = about_step(law, places, step, r, r0, survey)
    return [*lines, read_at(law, places, *widest(w), step, survey)]


# The working value.


def small_places(generator, law):
    """Places for a law's a to be found with: b, c and d drawn, some so small that
    every rounding shows, and no b or c too large for that."""
    tiny = generator.under(3) == 0
    b = around(generator, 20 if tiny else 20000000)
    c = around(generator, 20 if tiny else 5000000)
    d = around(generator, 20) if tiny else sound_coefficient(generator)
    return only_used(law, [0, b, c, d, sound_wal(generator)])


def found_a(law, places, w, value):
    """The a with which Wr at the ratio is the value, or None.

    The deviation's last product, (a + ..) x rounded, must then have one value; of
    the numbers whose product is not under it the one next to that is taken.
    """
    _, b, c, d, wal = places
    x = w - RATIO_ONE
    if x == 0:
        return None
    last = w * (UNITS_ONE // RATIO_ONE) - value
    if law == "ag" and w >= wal:
        last -= silver_term(d, wal, w)
    sought = last * RATIO_ONE
    factor = -(-sought // x) if x > 0 else sought // x
    a = factor - product(product(c, x) + b, x)
    if abs(a) > COEFFICIENT_MOST or wr_at((law, a, *places[1:]), w) != value:
        return None
    return a


def meeting(generator, law, value):
    """A ratio and places of the law whose Wr there is the value to the unit, or
    None where none of some draws has it."""
    near = value // (UNITS_ONE // RATIO_ONE)
    reach = abs(near - RATIO_ONE) // 2000
    for _ in range(30):
        places = small_places(generator, law)
        w = near + around(generator, reach)
        a = found_a(law, places, w, value)
        if a is not None:
            return w, (a, *places[1:])
    return None


def working_step(generator, law):
    """A step about 0 °C, about the top, one past it included, about aluminium, or
    any."""
    top = TOPS[law]
    kind = generator.under(8)
    low = generator.under(200)
    near = generator.under(4)
    free = generator.under(top + 2)
    about = AL_STEP + near - 2 if law == "ag" else CENTRE + near - 2
    step = (near, low, top + 1 - near, about)[kind] if kind < 4 else free
    return min(step, top + 1)


def working_case(generator, i, survey):
    """Wr at the working value of a step, and one unit of 10^-11 under it.

    Both together say what the working value is, and that each rounding of the
    deviation is downward.
    """
    law = NAMES[i % len(NAMES)]
    edges = (0, TOPS[law], TOPS[law] + 1)
    at = i // len(NAMES)
    met = [None]
    while None in met:
        step = edges[at] if at < len(edges) else working_step(generator, law)
        met = [meeting(generator, law, working(step) - short) for short in (0, 1)]
    check_working(step)
    lines = []
    for short, (w, places) in enumerate(met):
        r, r0 = by_ohms(generator, w)
        lines.append(read_at(law, places, r, r0, step - short, survey))
    return lines


def check_working(step):
    """That the working value lies near the exact sum and increases."""
    value = working(step)
    if not abs(value - exact(step)) < WORKING_ERROR:
        raise CheckFailed(f"working value {value} at step {step} is too far off")
    if step <= TOPS["ag"] and not value < working(step + 1):
        raise CheckFailed(f"the working value does not increase after step {step}")


# Any ratio, by every law.


def note_aluminium(places, w, answer, seen):
    """Counts what a silver reading does about W(Al), and where d decides."""
    _, _, _, d, wal = places
    side = "from W(Al) on" if w >= wal else "below W(Al)"
    if abs(w - wal) <= 2:
        seen["ag", f"within 2 units, {side}"] += 1
    if isinstance(answer, tuple):
        # As read with the d term left out above, or put in below.
        term = silver_term(d, wal, w)
        wr = wr_at(("ag", *places), w)
        slip = wr + term if w >= wal else wr - term
        step = answer[1]
        if not working(step) <= slip < working(step + 1):
            seen["ag", f"another step but for d, {side}"] += 1


ALUMINIUM_NOTES = (
    "within 2 units, below W(Al)",
    "within 2 units, from W(Al) on",
    "another step but for d, below W(Al)",
    "another step but for d, from W(Al) on",
)


def read_case(generator, i, survey):
    law, places = sound_for(generator)
    target = target_for(generator, law, places)
    answer, line = read(law, places, *by_ohms(generator, target), survey)
    if law == "ag":
        note_aluminium(places, target, answer, survey.seen)
    return [line]


def curve_ratio(generator, i):
    if i < len(CURVE_EDGES):
        return CURVE_EDGES[i]
    kind = generator.under(4)
    if kind == 0:
        return generator.under(4400000001)
    if kind == 1:
        # Close about a step's own ratio.
        step = generator.under(10500001) - 2000000
        return curve.forward(step) + generator.under(3) - 1
    if kind == 2:
        # About the lower end, on both sides.
        return 150000000 + generator.under(100000000)
    # Below 0 °C, where C counts.
    return generator.under(1000000000)


def curve_case(generator, i, survey):
    r, r0 = by_ohms(generator, curve_ratio(generator, i))
    return [read(CURVE, ZEROS, r, r0, survey)[1]]


# Ratios of bench cards 3, 4 and 9 and beside them.
CARD_RATIOS = (
    4400000000,
    4400000001,
    4399999999,
    2781572540,
    2781572539,
    999960110,
    999960109,
    1000000000,
)


def cards_case(generator, i, survey):
    """Each law with a certificate of zeros at each of the cards' ratios."""
    law = LAWS[i % 7]
    places = (0, 0, 0, 0, AL_WR if law == "ag" else 0)
    m = 1 + i // 56
    w = CARD_RATIOS[i // 7 % 8]
    return [read(law, places, w * m, m * RATIO_ONE, survey)[1]]


# Forward.


def check_forward(name, places, step, answer, survey):
    """That the ratio is the one due and reads back; and the line of that."""
    w = answer[1]
    back, line = read(name, places, w * BACK_PART, BACK_DIVISOR, survey)
    promises.check_forward((name, *places), step, w, back)
    return line


def forward_lines(name, places, step, survey):
    """The line of a step, and where it is answered the one that reads it back."""
    answer = outcome(forward, name, *places, step)
    answered = isinstance(answer, tuple)
    number = None if answered else answer
    causes = promises.forward_causes(name, places, step)
    promises.check_first("forward", causes, number, (name, places, step), survey)
    line = forward_line(name, places, step, answer)
    if answered:
        return [line, check_forward(name, places, step, answer, survey)]
    survey.seen[name if name in LAWS else "unknown", f"forward {number}"] += 1
    return [line]


def forward_case(generator, i, survey):
    law, places = sound_for(generator)
    return forward_lines(law, places, step_for(generator, law), survey)


def forward_order_case(generator, i, survey):
    """A certificate and a step, each of them sound or not."""
    name, places = given_for(generator)
    step = step_for(generator, name if name in LAWS else CURVE)
    return forward_lines(name, places, step, survey)


EDGE_STEP = (-2000001, -2000000, -1, 0, 1, 8500000, 8500001, -LARGEST, LARGEST)


def curve_step(generator, i):
    if i < len(EDGE_STEP):
        return EDGE_STEP[i]
    kind = generator.under(3)
    if kind == 0:
        return generator.under(10500001) - 2000000
    if kind == 1:
        # Now and then outside.
        return generator.under(12000000) - 2500000
    # Even degrees from 0 °C on, whose exact ratio has nine decimals.
    return generator.under(426) * 20000


def curve_forward_case(generator, i, survey):
    step = curve_step(generator, i)
    lines = forward_lines(CURVE, ZEROS, step, survey)
    if len(lines) == 2:
        back = "itself" if curve.read_back(step) == step else "the step below"
        survey.seen[CURVE, f"reads as {back}"] += 1
    return lines


# Given certificates, sound or not.


def given_case(generator, i, survey):
    """Read at a ratio and forward at a step that every law has."""
    name, places = given_for(generator)
    step = generator.under(TOPS["ga"] + 1)
    w = 1010000000 + generator.under(90000000)
    _, line = read(name, places, *by_ohms(generator, w), survey)
    return [line, *forward_lines(name, places, step, survey)]


def order_case(generator, i, survey):
    """A certificate, R and R0, each of them sound or not."""
    name, places = given_for(generator)
    most = (RESISTANCE_MOST, RESISTANCE_MOST_BEFORE)[i % 2]
    edges = (0, most, most + 1)
    kind = generator.under(6)
    free = generator.under(2 * most)
    r = edges[kind] if kind < 3 else free
    edges = (DIVISOR_LEAST - 1, DIVISOR_LEAST, most + 1)
    kind = generator.under(6)
    free = generator.under(most)
    r0 = edges[kind] if kind < 3 else free
    return [read(name, places, r, r0, survey)[1]]


# The families.

READ_LEAST = {
    **for_each(LAWS, ("answered", 8, 9), 20),
    **for_each(("ag",), ALUMINIUM_NOTES, 20),
}

CARDS_LEAST = for_each(LAWS, (2, 8, 9, "answered"), 15)
del CARDS_LEAST[CURVE, 8]  # no card lies below the curve

ANSWERED = ("answered", 8, 9)
FORWARD_WHATS = ("answered", "forward 8", "forward 9")

HALVES_LEAST = {
    **for_each(LAWS, (*ANSWERED, 2), 50),
    **for_each(("rounded",), HALVES, 500),
}

FAMILIES = (
    Family(
        *("limits", 701, 6000, limits_case),
        {1: 300, 2: 500, 8: 200, 9: 200, "answered": 500},
        by_outcome=True,
    ),
    Family("ratio", 702, 6000, ratio_case, for_each(LAWS, ANSWERED, 50)),
    Family("pt1000", 714, 3000, kilohm_case, for_each(LAWS, ANSWERED, 5)),
    Family("halves", 715, 6000, halves_case, HALVES_LEAST),
    Family("working", 703, 10000, working_case, for_each(NAMES, ANSWERED, 20)),
    Family("read", 704, 14000, read_case, READ_LEAST),
    Family("curve", 705, 12000, curve_case, for_each((CURVE,), (*ANSWERED, 2), 1)),
    Family("cards", 706, 1008, cards_case, CARDS_LEAST),
    Family(
        *("order", 707, 4000, order_case),
        {3: 20, 7: 20, 1: 20, 2: 10, "answered": 10, 8: 10, 9: 10},
        by_outcome=True,
    ),
    Family(
        *("given", 708, 6000, given_case),
        {
            **for_each(LAWS, ("answered", 7, "forward 7"), 20),
            **for_each(("unknown",), (3, "forward 3"), 20),
        },
    ),
    Family("forward", 709, 8000, forward_case, for_each(LAWS, FORWARD_WHATS, 20)),
    Family(
        *("fwd-order", 710, 4000, forward_order_case),
        {
            **for_each(LAWS, (*FORWARD_WHATS, "forward 7"), 10),
            ("unknown", "forward 3"): 20,
        },
    ),
    Family(
        *("steps", 711, 8000, curve_forward_case),
        for_each(
            (CURVE,), (*FORWARD_WHATS, "reads as itself", "reads as the step below"), 20
        ),
    ),
)
