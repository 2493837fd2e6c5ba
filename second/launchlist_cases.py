"""Inputs of the program `launchlist`: section "The list".

    python3 -B second/launchlist_cases.py  tells what the lines met

Each line is made together with the answer due to it, by the way it is made: a
resistance stands at the edge of a step, a refusal's cause is put in, a damage
is done. `stdout` compares the answers with these.
"""

from collections import Counter
from functools import lru_cache
from itertools import zip_longest
from typing import NamedTuple

import damage
import promises
from cases import CheckFailed, Generator
from certificate import COEFFICIENT_MOST, LAWS, USED_PLACES
from draws import (
    AL_LEAST,
    AL_MOST,
    AL_STEP,
    AL_WR,
    EDGES_ABOVE,
    LARGEST,
    LARGEST_RESISTANCE,
    least_by,
    least_ratio,
    name_for,
    near_kilohm,
    places_for,
    resistances,
    widest,
)
from family import for_each
from limit_lines import LONGEST_ROW, limit_lines
from lists import (
    COMMA,
    LINE_END,
    READINGS,
    WRONG_FIELD,
    WRONG_LINE,
    answer,
    code_of,
    field_of,
)
from moves import FROM_LAST, NEXT_STEP, OVER_MOST, TO_FIRST, check_moved
from nearest_lines import named_lines
from promises import Survey, check_seen
from quantity import DIVISOR_LEAST, RATIO_MOST, RESISTANCE_MOST
from reading import CURVE, bounds

HEADER = READINGS.header
ANSWER_HEADER = READINGS.answer_header

SEED = 601


class Case(NamedTuple):
    """A line, the answer due to it and, of a well-formed one, its reading."""

    kind: str
    line: bytes
    due: bytes
    asked: tuple = None


def ill_formed(damaged):
    """A damaged line, tested to be refused and spoken of as it is damaged."""
    damage.check_damaged(READINGS, damaged)
    number, field = damaged.fault
    due = b"?,?,%s,%d" % (b"" if field is None else b"%d" % field, number)
    return Case(damaged.kind, damaged.line, due)


def well_formed(kind, name, law, places, r, r0, result):
    """A line that asks for this reading; `result` is t and code."""
    numbers = [b"%d" % number for number in (r, r0, *places)]
    line = COMMA.join((name, law.encode("ascii"), *numbers))
    due = COMMA.join((name, law.encode("ascii"), *result))
    return Case(kind, line, due, (law, places, r, r0))


def answered(step):
    return b"%d" % step, b"0"


def refused(number):
    return b"", b"%d" % number


# Readings whose answer is known from how they are made.


def reading_for(generator, name, law, step, upper):
    """A line read as the step: by its least R or, where `upper`, its largest."""
    places = places_for(generator, law)
    r, r0 = resistances(generator, least_ratio(law, places, step + upper))
    asked = (law, places, r - upper, r0)
    return well_formed("answered", name, *asked, answered(step))


def steps_for(generator, law):
    """The law's ends, steps of every number of digits, and drawn ones; for ag
    also some about aluminium and above it, where d has its part."""
    first, last = bounds(law)
    steps = [first, first + 1, last - 1, last, 0, 1]
    for digits in range(1, 8):
        low, high = 10 ** (digits - 1), 10**digits - 1
        sizes = (low, high, low + generator.under(high - low + 1))
        steps += [*sizes, *(-size for size in sizes)]
    steps += [first + generator.under(last - first + 1) for _ in range(12)]
    if law == "ag":
        steps += range(AL_STEP - 2, AL_STEP + 3)
        steps += [AL_STEP + generator.under(last - AL_STEP) for _ in range(12)]
    return [step for step in steps if first <= step <= last]


def drawn_reading(generator, name=None):
    """A line that is answered, any law, any step."""
    law = LAWS[generator.under(len(LAWS))]
    first, last = bounds(law)
    step = first + generator.under(last - first + 1)
    if name is None:
        name = name_for(generator)
    return reading_for(generator, name, law, step, generator.under(2))


# Ids of 1 and of 16 bytes, and such as look like something else.
NAMES = (
    b"0",
    b"-",
    b"A",
    b"z",
    b"-0",
    b"00",
    b"007",
    b"id",
    b"curve",
    b"B1-FRIDGE-2",
    b"----------------",
    b"0000000000000000",
    b"9999999999999999",
    b"ABCDEFGHIJKLMNOP",
    b"ghijklmnopqrstuv",
    b"QRSTUVWXYZ-wxyz9",
)


def answered_cases(generator):
    for law in LAWS:
        for step in steps_for(generator, law):
            name = name_for(generator)
            yield reading_for(generator, name, law, step, generator.under(2))
        for step in bounds(law):
            for upper in range(2):
                name = name_for(generator)
                yield reading_for(generator, name, law, step, upper)
        # The least and the largest divisor, and those about the largest before, each
        # with W = 1: at 0 °C on the curve and, by definition, at 0.01 °C on the scale.
        result = answered(0 if law == CURVE else 100)
        for r0 in (DIVISOR_LEAST, *EDGES_ABOVE[:-2]):
            asked = (law, places_for(generator, law), r0, r0)
            yield well_formed("answered", name_for(generator), *asked, result)
    for name in NAMES:
        yield drawn_reading(generator, name)


def large_cases(generator):
    """Readings by about 1 kΩ, each by the least R of its step and by the largest; and
    with R or R0 the most."""
    for law in LAWS:
        for step in steps_for(generator, law)[::4]:
            places = places_for(generator, law)
            r0 = near_kilohm(generator)
            past, _ = least_by(least_ratio(law, places, step + 1), r0)
            w = least_ratio(law, places, step)
            for pair in (least_by(w, r0), (past - 1, r0), widest(w)):
                asked = (law, places, *pair)
                name = name_for(generator)
                yield well_formed("answered", name, *asked, answered(step))


# Refusals of well-formed lines.

UNKNOWN = (
    "pt",
    "hg",
    "a",
    "c",
    "g",
    "i",
    "s",
    "z",
    "aa",
    "gg",
    "ni",
    "gaa",
    "age",
    "inn",
    "alu",
    "curv",
    "urve",
    "curves",
    "scale",
    "curvecur",
    "agagagag",
    "zzzzzzzz",
    "abcdefgh",
)

FULL = (LARGEST, LARGEST, LARGEST, LARGEST, LARGEST)


def refusal(generator, kind, number, law, places, r, r0):
    """A well-formed line with a drawn id that is refused by this number."""
    name = name_for(generator)
    return well_formed(kind, name, law, places, r, r0, refused(number))


def unknown_cases(generator):
    """A reading otherwise sound, and one to be refused by 7 and by 1 as well."""
    for law in UNKNOWN:
        _, *sound = drawn_reading(generator).asked
        yield refusal(generator, "law unknown", 3, law, *sound)
        yield refusal(generator, "law unknown", 3, law, FULL, 0, 0)


def wrong_numbers(law, place):
    """Numbers that are wrong in a place of the law."""
    used = place < USED_PLACES[law]
    if place == 4 and used:
        return 0, 1, AL_LEAST - 1, AL_MOST + 1, LARGEST
    if place == 4:
        return 1, AL_WR, LARGEST
    if not used:
        return 1, -COEFFICIENT_MOST
    return COEFFICIENT_MOST + 1, -COEFFICIENT_MOST - 1, LARGEST, -LARGEST


# Sound ones; and those refused by 1 or 2 where 7 would not come first.
AFTER_SEVEN = ((10**11, 10**11), (0, 10**11), (RESISTANCE_MOST, DIVISOR_LEAST))


def unsound_cases(generator):
    for law in LAWS:
        for place in range(5):
            for number in wrong_numbers(law, place):
                places = list(places_for(generator, law))
                places[place] = number
                asked = (places, *AFTER_SEVEN[generator.under(3)])
                yield refusal(generator, "unsound", 7, law, *asked)


# R and R0 of which one at least is outside its limits.
OUTSIDE = (
    (0, 10**11),
    (RESISTANCE_MOST + 1, RESISTANCE_MOST),
    (RESISTANCE_MOST + 1, DIVISOR_LEAST),
    (LARGEST_RESISTANCE, 10**11),
    (10**11, 0),
    (10**8, DIVISOR_LEAST - 1),
    (RESISTANCE_MOST, DIVISOR_LEAST - 1),
    (RESISTANCE_MOST, RESISTANCE_MOST + 1),
    (10**11, LARGEST_RESISTANCE),
)


def outside_cases(generator):
    for law in LAWS:
        for r, r0 in OUTSIDE:
            places = places_for(generator, law)
            yield refusal(generator, "outside limits", 1, law, places, r, r0)


def range_cases(generator):
    """Just under and just past each law's range, and about 4.4."""
    for law in LAWS:
        first, last = bounds(law)
        for _ in range(3):
            places = places_for(generator, law)
            r, r0 = resistances(generator, least_ratio(law, places, first))
            yield refusal(generator, "under the range", 8, law, places, r - 1, r0)
            r, r0 = resistances(generator, least_ratio(law, places, last + 1))
            yield refusal(generator, "over the range", 9, law, places, r, r0)
            r, r0 = resistances(generator, RATIO_MOST + 1)
            yield refusal(generator, "4.4 or less", 9, law, places, r - 1, r0)
            yield refusal(generator, "over 4.4", 2, law, places, r, r0)
        places = places_for(generator, law)
        low, high = DIVISOR_LEAST, RESISTANCE_MOST
        yield refusal(generator, "under the range", 8, law, places, 1, low)
        yield refusal(generator, "under the range", 8, law, places, 1, high)
        yield refusal(generator, "over 4.4", 2, law, places, high, low)


def longest_cases(generator):
    """The longest lines that the fields' limits leave, 129 bytes, and near that."""
    lowest = (-LARGEST, -LARGEST, -LARGEST, -LARGEST, LARGEST)
    name = b"LONGEST-OF-LINES"
    for law, number in (("lawlawla", 3), ("curve", 7), ("ag", 7)):
        for places in (lowest, FULL):
            asked = (law, places, LARGEST_RESISTANCE, LARGEST_RESISTANCE)
            yield well_formed("longest", name, *asked, refused(number))


def case_by_hand(kind, line):
    """A line that was tested where it is given."""
    asked = None
    if READINGS.fault_of(line) is None:
        _, law, r, r0, *places = READINGS.values_of(line)
        asked = (law, places, r, r0)
    return Case(kind, line, READINGS.answer_line(line), asked)


def limit_cases(generator):
    """Lines about the limits of R and R0."""
    for line in limit_lines(READINGS):
        yield case_by_hand("about the limits", line)


def nearest_cases(generator):
    """Lines about half a unit of the ratio."""
    for line in named_lines():
        yield case_by_hand("about half a unit", line)


# Damages.


def damage_cases(damages):
    """A group of damaged lines, each made of a drawn reading."""

    def group(generator):
        yield from map(
            ill_formed, damages(READINGS, lambda: drawn_reading(generator).line)
        )

    return group


def byte_cases(generator):
    """Of one line, with R drawn."""

    def line():
        r = 10**11 + generator.under(10**10)
        return b"F1,curve,%d,100000000000,0,0,0,0,0" % r

    yield from map(ill_formed, damage.byte_cases(READINGS, line))


GROUPS = (
    answered_cases,
    large_cases,
    unknown_cases,
    unsound_cases,
    outside_cases,
    range_cases,
    longest_cases,
    limit_cases,
    nearest_cases,
    damage_cases(damage.field_cases),
    byte_cases,
    damage_cases(damage.count_cases),
    damage_cases(damage.shape_cases),
    damage_cases(damage.no_line_cases),
    damage_cases(damage.length_cases),
    damage_cases(damage.broken_cases),
    damage_cases(damage.pair_cases),
    damage_cases(damage.digits_cases),
    damage_cases(damage.both_cases),
)


def shuffle(generator, things):
    for i in range(len(things) - 1, 0, -1):
        j = generator.under(i + 1)
        things[i], things[j] = things[j], things[i]


@lru_cache(maxsize=None)
def all_cases():
    """The lines after the header, mixed; the last is one that is answered."""
    generator = Generator(SEED)
    cases = [case for group in GROUPS for case in group(generator)]
    shuffle(generator, cases)
    cases.append(drawn_reading(generator))
    return cases


def stdin():
    """The header and every line; the last lacks its CRLF."""
    return LINE_END.join((HEADER, *(case.line for case in all_cases())))


def code_due(case):
    return code_of(case.due)


def check_reading(case, survey):
    """That the reading asked for keeps its promises and has the result due."""
    law, places, r, r0 = case.asked
    found = promises.reading(law, places, r, r0, survey)
    result = answered(found[1]) if isinstance(found, tuple) else refused(found)
    if case.due != COMMA.join((*case.line.split(COMMA)[:2], *result)):
        raise CheckFailed(f"{case.line}: {found}, due {case.due}")


# How many kinds of damage there are: one that is no longer done is missed.
KINDS_OF_DAMAGE = 122

# The numbers that lines moved from with the limits of R and R0, and those to which; and
# the ways in which they moved with the rounding of the ratio.
MOVES = {
    **for_each((1,), (0, 2, 8, 9), 1),
    **for_each((WRONG_FIELD,), (0, 1, 2, 3, 7, 8, 9, WRONG_FIELD), 1),
}
ROUNDED = dict.fromkeys((NEXT_STEP, TO_FIRST, FROM_LAST, OVER_MOST), 10)


def check_met(cases):
    """That each damage was done several times, and each outcome met."""
    done = Counter(case.kind for case in cases if case.asked is None)
    check_seen("damages", done, dict.fromkeys(done, 3))
    check_seen("kinds", {"of damage": len(done)}, {"of damage": KINDS_OF_DAMAGE})
    least = {0: 300, 1: 50, 2: 20, 3: 40, 7: 50, 8: 20, 9: 40}
    least |= dict.fromkeys(WRONG_LINE, 100)
    check_seen("lines", Counter(map(code_due, cases)), least)
    broken = [case.due for case in cases if code_due(case) == WRONG_FIELD]
    named = Counter(map(field_of, broken))
    check_seen("fields", named, dict.fromkeys(range(1, len(READINGS.kinds) + 1), 100))
    laws = Counter(case.asked[0] for case in cases if code_due(case) == 0)
    check_seen("laws", laws, dict.fromkeys(LAWS, 40))
    longest = max(len(case.line) for case in cases if case.asked is not None)
    if longest != LONGEST_ROW:
        raise CheckFailed(f"the longest row has {longest} bytes")


def check_moves(cases):
    """That no answer moved that may not, and what did."""
    survey = Survey()
    for case in cases:
        check_moved(READINGS, case.line, case.due, survey)
    moved = Counter()
    for (_, was, now), count in survey.moved.items():
        moved[was, now] += count
    check_seen("moved lines", moved, MOVES)
    rounded = Counter()
    for (_, _, way), count in survey.rounded.items():
        rounded[way] += count
    check_seen("lines moved by rounding", rounded, ROUNDED)


def stdout():
    """The answers, each compared with the one due."""
    cases = all_cases()
    check_met(cases)
    check_moves(cases)
    survey = Survey()
    for case in cases:
        if case.asked is not None:
            check_reading(case, survey)
    made = answer("launchlist", stdin())
    due = [ANSWER_HEADER, *(case.due for case in cases), b""]
    for found, wanted in zip_longest(made.split(LINE_END), due):
        if found != wanted:
            raise CheckFailed(f"list answered {found}, due {wanted}")
    return made


def tell():
    """Tells what the lines met."""
    print(f"stdin: {len(stdin())} bytes, {len(all_cases())} lines after the header")
    print(f"stdout: {len(stdout())} bytes")
    for code, count in sorted(Counter(map(code_due, all_cases())).items()):
        print(f"  code {code}: {count}")
    for kind, count in sorted(Counter(case.kind for case in all_cases()).items()):
        print(f"  {kind}: {count}")


if __name__ == "__main__":
    tell()
