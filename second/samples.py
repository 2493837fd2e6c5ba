"""Good lines of each list: two that are answered, written by hand, and drawn ones;
and of a list that holds resistances one with the largest.

None has 180 bytes.
"""

from cases import CheckFailed
from certificate import CELLS, LAWS, NO_RESISTANCES, SUBRANGES, certify
from draws import (
    DIVISORS,
    least_by,
    least_ratio,
    name_for,
    places_for,
    resistances,
    sensor,
)
from lists import (
    FORWARD,
    RATIOS,
    READINGS,
    RESISTANCES,
    TOLERANCE,
    code_of,
    line_of,
)
from moves import check_moved
from promises import Survey
from quantity import RATIO_ONE, Refused
from reading import CURVE, bounds

# The document's example, bench cards 5, 6 and 10, and their like.
GOOD = {
    READINGS: b"F1,curve,138505500000,100000000000,0,0,0,0,0",
    RATIOS: b"R1,ga,0,1118070000,0,0,0,0,0",
    RESISTANCES: b"R1,ga,0,0,27951750000,25000000000,0,0,0,0,0,0,0,0,0,0",
    FORWARD: b"X1,curve,-1000000,0,0,0,0,0",
    TOLERANCE: b"S1,A,0,100058662249,100000000000",
}
NEXT = {
    READINGS: b"F2,ag,69539313500,25000000000,0,0,0,0,3376008600",
    RATIOS: b"R2,in,844142110,0,1609701850,0,0,0,0",
    RESISTANCES: b"R2,in,21103552750,25000000000,0,0,40242546250,25000000000"
    b",0,0,0,0,0,0,0,0",
    FORWARD: b"X2,sn,2319280,-82289596,47596138,0,0,0",
    TOLERANCE: b"S2,B,-2000000,18520080000,100000000000",
}
WIDEST = {
    READINGS: b"F3,curve,10000000000000,7219929897087,0,0,0,0,0",
    RESISTANCES: b"R3,in,0,0,10000000000000,8943432782730,10000000000000"
    b",6212330564884,0,0,0,0,0,0,0,0",
    TOLERANCE: b"S3,B,0,9999999995000,10000000000000",
}


def drawn_law(generator):
    """A law, its places, and a step of it."""
    law = LAWS[generator.under(len(LAWS))]
    first, last = bounds(law)
    places = places_for(generator, law)
    return law, places, first + generator.under(last - first + 1)


def drawn_reading(generator):
    law, places, step = drawn_law(generator)
    r, r0 = resistances(generator, least_ratio(law, places, step))
    return law, r, r0, *places


def drawn_forward(generator):
    law, places, step = drawn_law(generator)
    return law, step, *places


def drawn_tolerance(generator):
    letter = "AB"[generator.under(2)]
    bath = generator.under(8500001) - 2000000
    w = least_ratio(CURVE, None, bath) + generator.under(1000)
    return letter, bath, *least_by(w, DIVISORS[generator.under(len(DIVISORS))])


def drawn_record(generator):
    """A subrange, and the ratios of its cells and of gallium, which certify."""
    while True:
        name = tuple(SUBRANGES)[generator.under(len(SUBRANGES))]
        wanted = {*SUBRANGES[name], "Ga"}
        record = {c: w for c, w in sensor(generator).items() if c in wanted}
        try:
            certify(name, record)
        except Refused:
            continue
        return name, record


def drawn_ratios(generator):
    name, record = drawn_record(generator)
    return name, *(record.get(cell, 0) for cell in CELLS)


def drawn_resistances(generator):
    name, record = drawn_record(generator)
    # By 25 ohm or 1000, so that the ratio is the one drawn.
    ohms = (25, 1000)[generator.under(2)]
    numbers = []
    for cell in CELLS:
        r = ohms * record[cell] if cell in record else 0
        numbers += (r, ohms * RATIO_ONE) if r else NO_RESISTANCES
    return name, *numbers


DRAWN = {
    READINGS: drawn_reading,
    RATIOS: drawn_ratios,
    RESISTANCES: drawn_resistances,
    FORWARD: drawn_forward,
    TOLERANCE: drawn_tolerance,
}


def drawn_line(one, generator):
    """A drawn line of a list, which is answered."""
    while True:
        line = line_of(name_for(generator), *DRAWN[one](generator))
        answered = one.answer_line(line)
        if code_of(answered) == 0:
            check_moved(one, line, answered, Survey())
            return line


def drawn_lines(one, generator, count):
    """So many of them, one after the other and round again, as a function."""
    lines = [drawn_line(one, generator) for _ in range(count)]
    if max(map(len, lines)) >= 180:
        raise CheckFailed(f"a drawn line of {one.name} has 180 bytes")
    place = 0

    def line():
        nonlocal place
        place += 1
        return lines[place % count]

    return line
