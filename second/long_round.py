"""The example list `examples/long-round.csv`: a round of 300 readings of fridges,
freezers, cool boxes and stores, of which four were typed wrong.

Thirty places have ten of them each. The first fridge of a place is read by a
thermometer that has a certificate, the others by the curve.
"""

from cases import Generator
from draws import least_ratio
from lists import COMMA, READINGS, joined
from quantity import RATIO_ONE
from reading import CURVE

SEED = 611

PLACES = 30
THINGS = (
    *("FRIDGE-1", "FRIDGE-2", "FRIDGE-3", "FRIDGE-4", "FREEZER-1", "FREEZER-2"),
    *("COOLBOX-1", "COOLBOX-2", "STORE-1", "STORE-2"),
)

# Within what they are kept, in steps.
KEPT = {
    "FRIDGE": (20000, 80000),
    "FREEZER": (-250000, -150000),
    "COOLBOX": (20000, 100000),
    "STORE": (180000, 250000),
}

NO_PLACES = (0, 0, 0, 0, 0)
CERTIFICATES = (
    ("ga", (-13483408, 0, 0, 0, 0)),
    ("in", (-13392865, 0, 0, 0, 0)),
    ("sn", (-13373744, 6842, 0, 0, 0)),
    ("zn", (-13297695, -78476, 0, 0, 0)),
    ("al", (-13419303, 135673, -87147, 0, 0)),
    ("ag", (-13420214, 136876, -87492, -70541, 3375685772)),
)

# The last figure of a resistance, in nanoohms, by the curve and by the scale.
CURVE_FIGURE = 100000
SCALE_FIGURE = 100


def reading_by(generator, law, places, figure, r0, thing):
    """R, R0 and the rest of a line; R0 is up to 200 figures off the one given."""
    first, last = KEPT[thing.split("-")[0]]
    step = first + generator.under(last - first + 1)
    r0 += (generator.under(401) - 200) * figure
    r = least_ratio(law, places, step) * r0 // RATIO_ONE
    return law, r // figure * figure, r0, *places


def fields_for(generator, place, thing):
    """The fields of a line."""
    law, places = CERTIFICATES[place % len(CERTIFICATES)]
    if thing == THINGS[0]:
        known = (law, places, SCALE_FIGURE, 25482317400)
    else:
        known = (CURVE, NO_PLACES, CURVE_FIGURE, 10**11)
    name = f"B{place + 1}-{thing}"
    return [name, *map(str, reading_by(generator, *known, thing))]


# The four, by the numbers of their lines in the list.

REMARK = (
    " lid was open when we came, closed it at 06:40 and read it again at 07:15, when "
    "it had come down from 14 to 6 degrees; the night watch says it was shut at 23:00"
)


def with_remark(fields):
    """Something was written behind the last field."""
    return [*fields[:-1], fields[-1] + REMARK]


def without_r0(fields):
    return [*fields[:3], *fields[4:]]


def with_zero(fields):
    """The coefficient a has a zero before its first digit."""
    return [*fields[:4], fields[4].replace("-", "-0"), *fields[5:]]


def in_ohms(fields):
    """R stands in ohms, with a point."""
    ohms, nanoohms = divmod(int(fields[2]), RATIO_ONE)
    decimals = f"{nanoohms:09}".rstrip("0")
    return [*fields[:2], f"{ohms}.{decimals}", *fields[3:]]


WRONG = {58: with_remark, 131: without_r0, 212: with_zero, 268: in_ohms}


def make():
    """The list."""
    generator = Generator(SEED)
    lines = [READINGS.header]
    for place in range(PLACES):
        for thing in THINGS:
            fields = fields_for(generator, place, thing)
            number = len(lines) + 1
            if number in WRONG:
                fields = WRONG[number](fields)
            lines.append(COMMA.join(field.encode("ascii") for field in fields))
    return joined(lines)
