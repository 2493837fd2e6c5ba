"""What is drawn by the generator: ids, records, certificates, steps, ratios and
resistances, and the edges that are drawn from.
"""

from itertools import product as pairings
from math import gcd

import curve
from certificate import (
    AG_LEAST,
    CELLS,
    COEFFICIENT_MOST,
    GA_LEAST,
    HG_MOST,
    LAWS,
    NOT_MEASURED,
    USED_PLACES,
    WR,
    certify,
)
from lists import DIGITS_MOST, ID_MOST, RESISTANCE_DIGITS_MOST, WORD_MOST
from quantity import (
    DIVISOR_LEAST,
    RATIO_MOST,
    RATIO_ONE,
    RESISTANCE_MOST,
    RESISTANCE_MOST_BEFORE,
    UNITS_ONE,
    Refused,
    quotient_down,
)
from reading import CURVE, bounds, forward, wr_at
from reference import working

# The ratio of aluminium's Wr, and the least and the largest that keep its
# deviation limit.
AL_WR = 3376008600
AL_LEAST = 3373634966
AL_MOST = 3378386986

AL_STEP = 6603230

# Divisors in use: 0.25, 2.5, 25, 100 and 1000 ohm.
DIVISORS = (250000000, 2500000000, 25000000000, 100000000000, 1000000000000)

# 1 kΩ, and how far the R0 of a Pt1000 may lie from it: 0.12 %, as class B allows.
KILOHM = 10**12
KILOHM_OFF = 1200000000

LARGEST = 10**DIGITS_MOST - 1
LARGEST_RESISTANCE = 10**RESISTANCE_DIGITS_MOST - 1

LETTERS = "ABCDEFGHIJKLMNOPQRSTUVWXYZabcdefghijklmnopqrstuvwxyz"

ID_BYTES = b"ABCDEFGHIJKLMNOPQRSTUVWXYZabcdefghijklmnopqrstuvwxyz0123456789-"


def around(generator, n):
    return generator.under(2 * n + 1) - n


def name_for(generator):
    """An id of any length allowed."""
    size = 1 + generator.under(ID_MOST)
    return bytes(ID_BYTES[generator.under(len(ID_BYTES))] for _ in range(size))


def word_for(generator):
    """A law's name, one letter of it changed, dropped or doubled, or any word."""
    kind = generator.under(6)
    law = LAWS[generator.under(len(LAWS))]
    place = generator.under(len(law))
    letter = LETTERS[26 + generator.under(26)]
    size = 1 + generator.under(WORD_MOST)
    free = "".join(LETTERS[26 + generator.under(26)] for _ in range(size))
    return (
        law,
        law,
        law[:place] + letter + law[place + 1 :],
        law[:place] + law[place + 1 :],
        (law[: place + 1] + law[place:])[:WORD_MOST],
        free,
    )[kind]


# Records.

# How far each cell may lie from the record's common slant.
SPREADS = (0, 100, 100000, 10000000)


def limit_edge(cell, side):
    """W where |W - Wr| is |W - 1|/1000, above and below Wr, rounded down.

    Side 0 is where W - Wr and W - 1 have the same sign.
    """
    if side == 0:
        return quotient_down(10 * WR[cell] - RATIO_ONE, 999)
    return quotient_down(10 * WR[cell] + RATIO_ONE, 1001)


def spoil(record, fault, cell, shift, side, wide):
    """The record with the drawn fault put in."""
    if fault == 0:
        record[cell] = NOT_MEASURED
    elif fault == 1:
        record["Ga"] = record["Hg"] = NOT_MEASURED
    elif fault == 2:
        record["Ga"] = NOT_MEASURED
    elif fault == 3:
        record["Hg"] = NOT_MEASURED
    elif fault == 4:
        record[cell] = wide
    elif fault == 5:
        record[cell] = RATIO_MOST + shift - 1
    # Each purity limit with its neighbours, the other relation left open.
    elif fault == 6:
        record["Hg"] = NOT_MEASURED
        record["Ga"] = GA_LEAST + shift - 2
    elif fault == 7:
        record["Ga"] = NOT_MEASURED
        record["Hg"] = HG_MOST + shift - 1
    elif fault == 8:
        record["Ag"] = AG_LEAST + shift - 2
    elif fault == 9:
        record[cell] = limit_edge(cell, side) + shift - 1
    elif fault == 10:
        for later in CELLS[CELLS.index(cell) + 1 :]:
            record[later] = NOT_MEASURED


def sensor(generator):
    """The ratios of a sensor of one slant, each cell somewhat off."""
    slant = generator.under(140000001) - 70000000
    spread = SPREADS[generator.under(4)]
    record = {}
    for cell in CELLS:
        off = slant + generator.under(2 * spread + 1) - spread
        base = quotient_down(WR[cell], UNITS_ONE // RATIO_ONE)
        record[cell] = base + quotient_down(off * (base - RATIO_ONE), UNITS_ONE)
    return record


def spoil_once(generator, record):
    """Puts one drawn fault, or none, into the record."""
    fault = generator.under(16)
    cell = CELLS[generator.under(7)]
    shift = generator.under(4)
    side = generator.under(2)
    wide = generator.under(6000000000)
    spoil(record, fault, cell, shift, side, wide)


def record_for(generator):
    """A drawn record: a sensor and a fault."""
    record = sensor(generator)
    spoil_once(generator, record)
    return record


# Certificates.


def sound_coefficient(generator):
    """0, within the limit, at it, or small."""
    kind = generator.under(4)
    v = around(generator, 100000000)
    u = around(generator, 1000000)
    edge = COEFFICIENT_MOST if v >= 0 else -COEFFICIENT_MOST
    return (0, v, edge, u)[kind]


def sound_wal(generator):
    """Wr(Al), either end of the deviation limit, or between."""
    kind = generator.under(4)
    n = generator.under(AL_MOST - AL_LEAST + 1)
    return (AL_WR, AL_LEAST, AL_MOST, AL_LEAST + n)[kind]


def only_used(law, drawn):
    """The five places with 0 in those that the law has no use for."""
    used = USED_PLACES[law]
    return [*drawn[:used], *[0] * (len(drawn) - used)]


def sound_places(generator, law):
    """The five places of a law, drawn within their limits."""
    drawn = [sound_coefficient(generator) for _ in "abcd"]
    drawn.append(sound_wal(generator))
    return only_used(law, drawn)


def sound_for(generator):
    """A drawn law and its five places."""
    law = LAWS[generator.under(len(LAWS))]
    return law, sound_places(generator, law)


def fitted(generator, law):
    """The places of the first drawn record that gives a certificate."""
    while True:
        try:
            return certify(law, record_for(generator))[1:]
        except Refused:
            pass


def places_for(generator, law):
    """a, b, c, d and W(Al): of a record, or drawn within their limits."""
    if law == CURVE:
        return (0, 0, 0, 0, 0)
    if generator.under(2) == 0:
        return fitted(generator, law)
    return tuple(sound_places(generator, law))


# Certificates that are sound or not.


def coefficient_for(generator):
    """0, within the limit or just past it, at the limit, or of any size."""
    kind = generator.under(8)
    v = generator.under(200000003) - 100000001
    big = around(generator, LARGEST)
    if kind < 4:
        return 0
    if kind < 6:
        return v
    if kind == 6:
        return (COEFFICIENT_MOST, -COEFFICIENT_MOST, COEFFICIENT_MOST + 1)[v % 3]
    return big


def wal_for(generator):
    """0, about Wr(Al), about either edge of the deviation limit, or any."""
    kind = generator.under(8)
    near = around(generator, 2500000)
    shift = generator.under(4)
    big = generator.under(LARGEST + 1)
    if kind < 3:
        return 0
    if kind < 5:
        return AL_WR + near
    if kind < 7:
        return limit_edge("Al", kind - 5) + shift - 1
    return big


def given_for(generator):
    """A name, mostly a law's, and five places: all within their limits, or one
    that is not used filled, or each drawn by itself."""
    word = word_for(generator)
    law, sound = sound_for(generator)
    kind = generator.under(8)
    place = generator.under(5)
    places = [coefficient_for(generator) for _ in "abcd"]
    places.append(wal_for(generator))
    if kind == 0:
        return word, places
    if kind == 1:
        return law, sound
    if kind == 2:
        sound[place] = places[place]
        return law, sound
    return law, places


# Ratios, steps and resistances.


def target_for(generator, law, places):
    """The ratio aimed at: any, about the law's ends, about W(Al), about a step."""
    kind = generator.under(6)
    shift = generator.under(4)
    free = generator.under(4400000001)
    more = generator.under(1000)
    place = generator.under(10500001)
    first, last = bounds(law)

    def w(step):
        return forward(law, *places, step)[1]

    if kind == 0:
        return free
    if kind == 1:
        return w(first) + shift - 2
    if kind == 2:
        return w(last) + shift - 2
    if kind == 3:
        return w(last) + more
    if kind == 4:
        return (places[4] if law == "ag" else AL_WR) + shift - 2
    return w(first + place % (last - first + 1)) + shift - 2


def step_for(generator, law):
    """Any step of the law, either end, past either, or about aluminium."""
    kind = generator.under(6)
    place = generator.under(10500001)
    more = generator.under(10)
    near = generator.under(7)
    first, last = bounds(law)
    return (
        first + place % (last - first + 1),
        first,
        last,
        first - 1 - more,
        last + 1 + more,
        AL_STEP + near - 3,
    )[kind]


def least_ratio(law, places, step):
    """The least ratio that reads as the step, or that is refused by 9 where the
    step is the one past the law's last."""
    if law == CURVE:
        units = curve.exact_ratio(step) * RATIO_ONE
        return -(-units.numerator // units.denominator)
    _, last = bounds(law)
    if step <= last:
        return forward(law, *places, step)[1]
    # A step is some 400 units, so that they can be gone through one by one.
    w = forward(law, *places, last)[1]
    while wr_at((law, *places), w) < working(step):
        w += 1
    return w


def most_divisor(w):
    """The largest R0 by which R has this ratio: the most that R may be is half a unit
    under it or higher."""
    return min(RESISTANCE_MOST, 2 * RESISTANCE_MOST * RATIO_ONE // (2 * w - 1))


def any_divisor(generator, most):
    """An R0 up to the most, of 9 digits as often as of 13."""
    n = generator.under(most - DIVISOR_LEAST + 1)
    return DIVISOR_LEAST + n // 10 ** (n % 5)


def least_by(w, r0):
    """The least R that has this ratio or more by R0, half a unit under it or higher;
    and R0."""
    return -(-(2 * w - 1) * r0 // (2 * RATIO_ONE)), r0


def resistances(generator, w):
    """The least R that has this ratio or more, by a divisor in use, by any, or by the
    largest that there is for it.

    The ratio is then under 10 units more, as no divisor is under 0.1 ohm; a
    step is never so short.
    """
    most = most_divisor(w)
    in_use = DIVISORS[generator.under(len(DIVISORS))]
    free = any_divisor(generator, most)
    return least_by(w, (in_use, in_use, free, most)[generator.under(4)])


def widest(w):
    """R and R0 of just this ratio, the larger of them the most that there is."""
    r0 = most_divisor(w)
    return (RESISTANCE_MOST, r0) if w > RATIO_ONE else least_by(w, r0)


def near_kilohm(generator):
    """The R0 of a Pt1000: 1 kΩ, or about that."""
    return KILOHM + (generator.under(4) > 0) * around(generator, KILOHM_OFF)


# Ratios of whole units and a half, and next to these.

TWO_ONES = 2 * RATIO_ONE

EXACTLY, OVER, UNDER = 0, 1, -1


def divisor_about_half(generator, w, side, least, most):
    """An R0 within these limits by which some R is exactly half a unit under this
    ratio, next over that, or next under: the least such R0, the largest, or any.

    Exactly there R * 2 * 10^9 is R0 * (2 w - 1). Next to it the one differs from the
    other by what divides both factors.
    """
    common = gcd(TWO_ONES, 2 * w - 1)
    period = TWO_ONES // common
    first = -side * pow((2 * w - 1) // common, -1, period) % period
    low = -(-(least - first) // period)
    high = (most - first) // period
    n = generator.under(high - low + 1)
    free = low + n // 10 ** (n % 4)
    return first + period * (low, high, free)[generator.under(3)]


# Of the divisors in use those by which there is such a half at every unit.
HALVED_IN_USE = tuple(r0 for r0 in DIVISORS if r0 % TWO_ONES == 0)


def about(r, r0):
    """One nanoohm less, just these, and one more."""
    return (r - 1, r0), (r, r0), (r + 1, r0)


def about_half(generator, w):
    """The least R that has this ratio, and a nanoohm less and more, by an R0 by which
    some R is half a unit under the ratio or next to that."""
    side = (EXACTLY, EXACTLY, OVER, UNDER)[generator.under(4)]
    free = divisor_about_half(generator, w, side, DIVISOR_LEAST, most_divisor(w + 1))
    in_use = HALVED_IN_USE[generator.under(len(HALVED_IN_USE))]
    of_three = generator.under(3)
    r0 = in_use if side == EXACTLY and of_three == 0 else free
    return about(*least_by(w, r0))


# By the multiples of this there are halves at some units, by other divisors at none.
HALVING = 1024
HALVING_LEAST = -(-DIVISOR_LEAST // HALVING) * HALVING


def near_half(generator, w):
    """R and R0 whose ratio is a half and the next one under this ratio, and R a
    nanoohm less and more; R0 is the least by which there are halves, or any."""
    free = any_divisor(generator, most_divisor(w + 1)) // HALVING * HALVING
    r0 = (HALVING_LEAST, max(HALVING_LEAST, free))[generator.under(2)]
    # The halves are the odd multiples of this R.
    r = r0 // gcd(r0, TWO_ONES)
    n = (2 * w - 1) * r0 // (TWO_ONES * r)
    return about((n - 1 + n % 2) * r, r0)


# Each limit of R and of R0 with its neighbours, now and before.
EDGES_ABOVE = (
    RESISTANCE_MOST_BEFORE,
    RESISTANCE_MOST_BEFORE + 1,
    RESISTANCE_MOST - 1,
    RESISTANCE_MOST,
    RESISTANCE_MOST + 1,
    LARGEST_RESISTANCE,
)
EDGE_R = (0, 1, 2, *EDGES_ABOVE)
EDGE_R0 = (
    0,
    DIVISOR_LEAST - 1,
    DIVISOR_LEAST,
    DIVISOR_LEAST + 1,
    3 * DIVISOR_LEAST,
    *EDGES_ABOVE,
)
EDGE_PAIRS = tuple(pairings(EDGE_R, EDGE_R0))


def past_most(r0):
    """The least R that is over 4.4."""
    r, _ = least_by(RATIO_MOST + 1, r0)
    return r


def by_ohms(generator, w):
    """R and R0 with this ratio, R0 a whole number of ohms: up to 220, and as often up
    to 2200."""
    turn, n = divmod(generator.under(20 * 220), 220)
    m = 1 + n if turn < 10 else 1 + 10 * n + turn % 10
    # A unit is m nanoohms, from half of one under the ratio on.
    return w * m - m // 2 + generator.under(m), m * RATIO_ONE


# Both ends of the curve, 0 °C and the limit 4.4, each with its neighbour.
CURVE_EDGES = (
    185200800,
    185200799,
    3904811542,
    3904811543,
    1000000000,
    999999999,
    4400000000,
    4400000001,
)
