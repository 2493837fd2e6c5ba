"""Lines that are refused, by hand, each with the number that is due: of records by
each number in the first, a middle and the last cell and in several, with the cell
to be named; of the other lists one for each number.
"""

from typing import NamedTuple

from cases import CheckFailed
from certificate import CELLS, NO_RESISTANCES, SUBRANGES
from lists import FORWARD, RATIOS, READINGS, RESISTANCES, TOLERANCE, line_of

# The ratios of a sensor without deviations, which all six subranges certify.
SENSOR = {
    "Hg": 844142110,
    "Ga": 1118138890,
    "In": 1609801850,
    "Sn": 1892797680,
    "Zn": 2568917300,
    "Al": 3376008600,
    "Ag": 4286420530,
}

# The least and the largest ratio within the deviation's limit.
WITHIN = {
    "Hg": (843986097, 844297812),
    "Ga": (1118020870, 1118257147),
    "In": (1609192658, 1610412262),
    "Sn": (1891905775, 1893691371),
    "Zn": (2567349951, 2570487787),
    "Al": (3373634966, 3378386986),
    "Ag": (4283137393, 4289710240),
}

MOST = 4400000000
ABOVE = 4400000001

# The purity relations missed by a unit.
HG = 844235001
GA = 1118069999
AG = 4284399999


class Fault(NamedTuple):
    """A subrange; the cells in which a record is not as the sensor, as ratios or
    as R and R0; the number due, and the cell to be named."""

    subrange: str
    changes: dict
    number: int
    cell: str = None


def of_each(subrange, number, value):
    """The value in each cell by itself."""
    return tuple(Fault(subrange, {cell: value}, number, cell) for cell in CELLS)


ABOVE_RATIO = (
    *of_each("ag", 2, ABOVE),
    *of_each("ga", 2, ABOVE),
    Fault("al", {"In": ABOVE, "Al": ABOVE}, 2, "In"),
    Fault("zn", {"Al": ABOVE, "Ag": ABOVE}, 2, "Al"),
    Fault("sn", dict.fromkeys(CELLS, ABOVE), 2, "Hg"),
    # Before the others, of a lower cell too.
    Fault("ag", {"Sn": 0, "Al": ABOVE}, 2, "Al"),
    Fault("in", {"Hg": 0, "Ga": 0, "Ag": ABOVE}, 2, "Ag"),
    Fault("zn", {"Hg": HG, "Ga": GA, "Zn": ABOVE}, 2, "Zn"),
    Fault("al", {"Hg": 1, "Sn": ABOVE}, 2, "Sn"),
)

MISSING = (
    *(Fault(name, {c: 0}, 4, c) for name, cells in SUBRANGES.items() for c in cells),
    Fault("ga", {"Hg": 0, "Ga": 0}, 4, "Ga"),
    Fault("in", {"Hg": 0, "Ga": 0, "In": 0}, 4, "In"),
    Fault("sn", {"In": 0, "Sn": 0}, 4, "In"),
    Fault("al", {"Zn": 0, "Al": 0}, 4, "Zn"),
    Fault("ag", {"Al": 0, "Ag": 0}, 4, "Al"),
    Fault("ag", dict.fromkeys(CELLS, 0), 4, "Sn"),
    # Before the others, of a lower cell too.
    Fault("ag", {"Hg": HG, "Ga": GA, "Ag": 0}, 4, "Ag"),
    Fault("zn", {"Hg": 1, "Zn": 0}, 4, "Zn"),
)

IMPURE = (
    Fault("ga", {"Hg": 0, "Ga": GA}, 6, "Ga"),
    Fault("in", {"Hg": 0, "Ga": GA}, 6, "Ga"),
    Fault("in", {"Hg": HG, "Ga": 0}, 6, "Hg"),
    Fault("ga", {"Hg": HG, "Ga": GA}, 6, "Hg"),
    Fault("zn", {"Hg": HG, "Ga": GA}, 6, "Hg"),
    Fault("ag", {"Ag": AG}, 6, "Ag"),
    Fault("ag", {"Hg": 0, "Ag": AG}, 6, "Ag"),
    Fault("ag", {"Ga": 0, "Ag": AG}, 6, "Ag"),
    Fault("ag", {"Ga": GA, "Ag": AG}, 6, "Ag"),
    Fault("ag", {"Hg": HG, "Ag": AG}, 6, "Ag"),
    Fault("ag", {"Hg": HG, "Ga": GA, "Ag": AG}, 6, "Hg"),
    Fault("ag", {"Hg": 0, "Ga": GA, "Ag": AG}, 6, "Ga"),
    Fault("ag", {"Hg": HG, "Ga": 0, "Ag": AG}, 6, "Hg"),
    # Before 7, of a lower cell too.
    Fault("ag", {"Hg": 1, "Ag": AG}, 6, "Ag"),
    Fault("sn", {"Hg": 0, "Ga": GA, "In": 1}, 6, "Ga"),
)

DEVIATING = (
    *(Fault("ga", {cell: WITHIN[cell][0] - 1}, 7, cell) for cell in CELLS),
    *(Fault("ag", {cell: WITHIN[cell][1] + 1}, 7, cell) for cell in CELLS),
    Fault("ag", {"Hg": 1}, 7, "Hg"),
    Fault("in", {"In": 10**9}, 7, "In"),
    Fault("ag", {"Ag": MOST}, 7, "Ag"),
    Fault("ga", {"Ag": AG, "Al": 1}, 7, "Al"),
    Fault("al", {"Zn": 1, "Al": 1}, 7, "Zn"),
    Fault("sn", {"Hg": 1, "Ag": MOST}, 7, "Hg"),
    # Of a coefficient alone, and of one beside a cell.
    Fault("sn", {"In": WITHIN["In"][1], "Sn": WITHIN["Sn"][0]}, 7),
    Fault("zn", {"Sn": WITHIN["Sn"][0], "Zn": WITHIN["Zn"][1]}, 7),
    Fault("al", {"Zn": WITHIN["Zn"][0], "Al": WITHIN["Al"][1]}, 7),
    Fault("ag", {"Ag": AG + 1}, 7),
    Fault("zn", {"Sn": WITHIN["Sn"][0], "Zn": WITHIN["Zn"][1], "Ag": 1}, 7, "Ag"),
)

# Refused, and nothing is said.
UNSAID = (
    Fault("pt", {}, 3),
    Fault("curve", {"In": ABOVE}, 3),
    Fault("sn", {"Hg": 0, "Ga": 0}, 5),
    Fault("ag", {"Hg": 0, "Ga": 0, "Ag": AG}, 5),
)

BY_RATIOS = (*ABOVE_RATIO, *MISSING, *IMPURE, *DEVIATING, *UNSAID)

# Faults that only resistances have. R and R0:

R0 = 25 * 10**9
NO_R = (0, R0)
NO_R0 = (R0, 0)
OUTSIDE = (
    *(NO_R, NO_R0, (R0, 10**8 - 1), (10**13 + 1, R0), (R0, 10**13 + 1)),
    *((0, 1), (1, 0)),
)
# Have a ratio that is rounded to 0.
TINY = (1, 10**12)
TINIER = (4999, 10**13)

BY_RESISTANCES = (
    *(Fault("ag", {cell: pair}, 1, cell) for cell, pair in zip(CELLS, OUTSIDE)),
    *(Fault("ga", {cell: pair}, 1, cell) for cell, pair in zip(CELLS, OUTSIDE[::-1])),
    Fault("al", {"Sn": NO_R, "Ag": NO_R0}, 1, "Sn"),
    Fault("zn", dict.fromkeys(CELLS, NO_R0), 1, "Hg"),
    # Before the others, of a lower cell too.
    Fault("ag", {"Hg": ABOVE, "Ag": NO_R}, 1, "Ag"),
    Fault("zn", {"Sn": 0, "Al": NO_R0}, 1, "Al"),
    Fault("sn", {"Hg": 0, "Ga": 0, "Sn": NO_R}, 1, "Sn"),
    Fault("in", {"Hg": HG, "Ga": GA, "In": NO_R0}, 1, "In"),
    # By the ratios, rounded: a unit is 25 nanoohm.
    Fault("ag", {"Ag": (ABOVE * 25, R0)}, 2, "Ag"),
    Fault("ag", {"Ag": (ABOVE * 25 - 12, R0)}, 2, "Ag"),
    Fault("ag", {"Ag": (ABOVE * 25 - 13, R0)}, 7, "Ag"),
    Fault("in", {"In": TINY}, 4, "In"),
    Fault("ag", {"Sn": TINY, "Ag": TINY}, 4, "Sn"),
    Fault("in", {"Hg": TINY, "Ga": GA}, 6, "Ga"),
    Fault("in", {"Hg": TINY, "Ga": TINY}, 5),
    Fault("pt", {"Sn": NO_R}, 3),
    # Over 1 kΩ: two cells of before are within their limits, and the next is not;
    # above 4.4; not measured; by purity and by deviation.
    Fault("ag", {"Hg": (10**12 + 1, R0), "Sn": (R0, 10**13 + 1)}, 1, "Sn"),
    Fault("ga", {"Hg": (10**13, 10**13), "Ag": (10**13, 10**13 + 1)}, 1, "Ag"),
    Fault("ag", {"Hg": (10**12 + 1, R0)}, 2, "Hg"),
    Fault("ag", {"Zn": (10**13, 10**8)}, 2, "Zn"),
    Fault("in", {"In": (10**13, 2272727272469)}, 2, "In"),
    Fault("in", {"In": (10**13, 2272727272470)}, 7, "In"),
    Fault("zn", {"Sn": TINIER}, 4, "Sn"),
    Fault("in", {"Hg": TINIER, "Ga": TINIER}, 5),
    Fault("in", {"Hg": (1, 10**13), "Ga": (GA * 10**3, 10**12)}, 6, "Ga"),
    Fault("ag", {"Al": (10**13, 10**13)}, 7, "Al"),
    Fault("pt", {"Sn": (10**13 + 1, R0)}, 3),
)


def pair_of(value):
    """R and R0 of a ratio; such a pair as it is."""
    if isinstance(value, tuple):
        return value
    return (25 * value, R0) if value != 0 else NO_RESISTANCES


def ratios_of(fault):
    return list((SENSOR | fault.changes).values())


def resistances_of(fault):
    values = (SENSOR | fault.changes).values()
    return [number for value in values for number in pair_of(value)]


def record_lines(faults, numbers_of):
    """Each record with the number and the cell due, told apart by their ids."""
    for place, fault in enumerate(faults, 1):
        line = line_of(f"Q{place}", fault.subrange, *numbers_of(fault))
        yield line, fault.number, fault.cell


REFUSED = {
    READINGS: (
        (b"N1,pt,138505500000,100000000000,0,0,0,0,0", 3, None),
        (b"N2,curve,138505500000,100000000000,1,0,0,0,0", 7, None),
        (b"N3,curve,0,100000000000,0,0,0,0,0", 1, None),
        (b"N4,curve,440000000100,100000000000,0,0,0,0,0", 2, None),
        (b"N5,curve,18520079900,100000000000,0,0,0,0,0", 8, None),
        (b"N6,curve,390481154300,100000000000,0,0,0,0,0", 9, None),
        (b"N7,curve,10000000000001,1000000000000,0,0,0,0,0", 1, None),
        (b"N8,curve,1000000000000,10000000000001,0,0,0,0,0", 1, None),
        (b"N9,curve,10000000000000,100000000,0,0,0,0,0", 2, None),
    ),
    RATIOS: tuple(record_lines(BY_RATIOS, ratios_of)),
    RESISTANCES: tuple(record_lines((*BY_RATIOS, *BY_RESISTANCES), resistances_of)),
    FORWARD: (
        (b"N1,pt,0,0,0,0,0,0", 3, None),
        (b"N2,ga,0,100000001,0,0,0,0", 7, None),
        (b"N3,ga,-1,0,0,0,0,0", 8, None),
        (b"N4,ga,297647,0,0,0,0,0", 9, None),
    ),
    TOLERANCE: (
        (b"N1,C,0,100000000000,100000000000", 3, None),
        (b"N2,A,-2000001,100000000000,100000000000", 8, None),
        (b"N3,A,6500001,100000000000,100000000000", 9, None),
        (b"N4,B,0,0,100000000000", 1, None),
        (b"N5,B,0,440000000100,100000000000", 2, None),
        (b"N6,B,0,10000000000001,1000000000000", 1, None),
        (b"N7,A,0,10000000000000,100000000", 2, None),
    ),
}


def refused_lines(one):
    """The lines of a list, each tested to be refused as is due."""
    for line, *due in REFUSED[one]:
        if one.fault_of(line) is not None:
            raise CheckFailed(f"{line} of {one.name} is ill-formed")
        _, label, *numbers = one.values_of(line)
        found = one.outcome_of(label, *numbers)
        if found != tuple(due):
            raise CheckFailed(f"{line} of {one.name} gives {found}, due {due}")
        yield line
