"""All families of cases, and what they must have met together.

    python3 -B second/families.py  tells what the cases met

A case is drawn, answered here with every promise tested on it, and gives one line
or more of the lists of `launchlist` and `benchlist`. A family must have met every
outcome it can have, and all of them together every refusal before every other
that can have a cause beside it.
"""

from collections import Counter

import reading_families
import record_families
import tolerance_families
from cases import CheckFailed
from certificate import CELLS, LAWS
from family import check_family, part, parts
from lists import (
    FORWARD,
    RATIOS,
    READINGS,
    RESISTANCES,
    TOLERANCE,
    WRONG_FIELD,
    WRONG_LENGTH,
    code_of,
)
from moves import FROM_LAST, NEXT_STEP, OVER_MOST, TO_FIRST
from promises import Survey, check_seen, in_thousandths

FAMILIES = (
    *reading_families.FAMILIES,
    *tolerance_families.FAMILIES,
    *record_families.FAMILIES,
)

# Each refusal with those that had a cause too where it was given.
BATH_8, BATH_9 = "bath 8", "bath 9"
ORDERS = {
    "reading": {3: (7, 1, 2), 7: (1, 2, 8, 9), 1: (2, 8, 9), 2: (9,)},
    "forward": {3: (7,), 7: (8, 9)},
    "record": {
        3: (2, 5, 6, 7),
        2: (4, 5, 6, 7),
        4: (5, 6, 7),
        5: (6, 7),
        6: (7,),
    },
    "measured": {
        3: (1, 2, 5, 6, 7),
        1: (2, 4, 5, 6, 7),
        2: (4, 5, 6, 7),
        4: (5, 6, 7),
        5: (6, 7),
        6: (7,),
    },
    "tolerance": {
        3: (BATH_8, BATH_9, 1, 2, 8, 9),
        BATH_8: (1, 2, 8, 9),
        BATH_9: (1, 2, 8, 9),
        1: (2, 8, 9),
        2: (9,),
    },
}
ORDER_LEAST = 3

# Each refusal of a record with the cells it was for; None where it is for none.
RECORD_CELLS = {
    3: (None,),
    2: CELLS,
    4: ("Ga", "In", "Sn", "Zn", "Al", "Ag"),
    5: (None,),
    6: ("Hg", "Ga", "Ag"),
    7: (*CELLS, None),
}
REFUSED_FOR = {"record": RECORD_CELLS, "measured": {1: CELLS, **RECORD_CELLS}}
CELL_LEAST = 50

# The numbers that a list gives to lines of its families, 0 with an answer.
CODES = {
    READINGS: (0, 1, 2, 3, 7, 8, 9),
    RATIOS: (0, 2, 3, 4, 5, 6, 7),
    RESISTANCES: (0, 1, 2, 3, 4, 5, 6, 7, WRONG_LENGTH),
    FORWARD: (0, 3, 7, 8, 9),
    TOLERANCE: (0, 1, 2, 3, 8, 9),
}
CODE_LEAST = 50

# The numbers that lines of the families got by the limits of R and R0 before, where
# they get another now, and that other; every line of a family is well-formed now.
MOVED = {
    READINGS: {1: (0, 2, 8, 9), WRONG_FIELD: (0, 1, 2, 3, 7, 8, 9)},
    RESISTANCES: {1: (0, 2, 4, 5, 6, 7), WRONG_FIELD: (0, 1, 2, 3, 4, 5, 6, 7)},
    TOLERANCE: {1: (0, 2, 8, 9), WRONG_FIELD: (0, 1, 2, 3, 8, 9)},
}
MOVED_LEAST = 20

# How lines of the families moved with the rounding of the ratio, by law and by class;
# where the error of a tolerance test is one step more, the verdicts.
VERDICTS = ("pass to pass", "pass to fail", "fail to pass", "fail to fail")
ROUNDED = {
    READINGS: (LAWS, (NEXT_STEP, TO_FIRST, FROM_LAST, OVER_MOST)),
    TOLERANCE: ("AB", (*VERDICTS, TO_FIRST, FROM_LAST, OVER_MOST)),
}
ROUNDED_LEAST = 100


def check_orders(orders):
    for call, firsts in ORDERS.items():
        for first, laters in firsts.items():
            for later in laters:
                count = orders[call, f"{first} before {later}"]
                if count < ORDER_LEAST:
                    raise CheckFailed(f"{call}: {first} before {later} {count} times")


def check_cells(cells):
    """That each refusal of a record was for each cell it can be for, and no other."""
    least = {
        (call, number, cell): CELL_LEAST
        for call, numbers in REFUSED_FOR.items()
        for number in numbers
        for cell in numbers[number]
    }
    check_seen("records", cells, least)


def check_codes(codes):
    """That each list gave each of its numbers, and no other."""
    least = {(one.name, code): CODE_LEAST for one in CODES for code in CODES[one]}
    check_seen("lines", codes, least)


def check_moved(moved):
    """That lines moved from each number to each that they can move to."""
    least = {
        (one.name, was, now): MOVED_LEAST
        for one, numbers in MOVED.items()
        for was in numbers
        for now in numbers[was]
    }
    check_seen("moved lines", moved, least)


def check_rounded(rounded):
    """That the rounding of the ratio moved lines in each way that it can."""
    least = {
        (one.name, label, way): ROUNDED_LEAST
        for one, (labels, ways) in ROUNDED.items()
        for label in labels
        for way in ways
    }
    check_seen("lines moved by rounding", rounded, least)


def tell():
    """Tells what each family met."""
    met = Survey()
    codes = Counter()
    for family in FAMILIES:
        survey = Survey()
        counts = Counter()
        for first in parts(family):
            for one, lines in part(family, first, survey).items():
                counts[one.name] += len(lines)
                codes.update((one.name, code_of(due)) for _, due in lines)
        met.add(survey)
        print(f"{family.name}: {family.size} cases, {dict(counts)}")
        for what, count in sorted(survey.seen.items(), key=str):
            print(f"  {what}: {count}")
        if survey.over is not None:
            print(f"  over, in thousandths of a unit: {in_thousandths(survey.over)}")
            print(f"  under, in thousandths of a unit: {in_thousandths(survey.under)}")
        check_family(family, survey.seen)
    for (call, pair), count in sorted(met.orders.items()):
        print(f"{call}, {pair}: {count}")
    for (call, number, cell), count in sorted(met.cells.items(), key=str):
        print(f"{call}, {number} for {cell}: {count}")
    for (name, code), count in sorted(codes.items()):
        print(f"{name}, code {code}: {count}")
    for (name, was, now), count in sorted(met.moved.items()):
        print(f"{name}, moved from {was} to {now}: {count}")
    for (name, label, way), count in sorted(met.rounded.items()):
        print(f"{name}, {label}, moved by rounding, {way}: {count}")
    check_orders(met.orders)
    check_cells(met.cells)
    check_codes(codes)
    check_moved(met.moved)
    check_rounded(met.rounded)


if __name__ == "__main__":
    tell()
