"""What two requests have moved. Each line is also answered as it was before; where the
answers differ, the move must be one that the request may make.

There is no second rule for what was. Before request 9 R and R0 had lower limits, and
these go into the same rule and the same list. Before request 7 their ratio was rounded
down, and another R over another R0 has just that ratio.
"""

from functools import cache

from cases import CheckFailed
from lists import (
    BEFORE,
    COMMA,
    READINGS,
    RESISTANCE,
    TOLERANCE,
    WRONG_COUNT,
    WRONG_FIELD,
    WRONG_LENGTH,
    code_of,
    field_of,
)
from promises import outside_limits, ratio_of
from quantity import (
    RATIO_ONE,
    RESISTANCE_MOST,
    RESISTANCE_MOST_BEFORE,
    quotient_down,
)
from reading import CURVE, bounds

# The limits of R and R0, request 9.

MAY_MOVE = (1, WRONG_FIELD)
NEVER_MOVE = (WRONG_LENGTH, WRONG_COUNT)


def over_before(one, line):
    """Whether some R or R0 of a line is a number over the most before."""
    fields = zip(one.kinds, line.split(COMMA))
    numbers = [field for kind, field in fields if kind == RESISTANCE]
    return any(n.isdigit() and int(n) > RESISTANCE_MOST_BEFORE for n in numbers)


def may_move(one, line, before, due):
    """Whether a line may have got the one answer before and another now: a refusal
    by 1 or 14 then, for an R or R0 over the most of then. 14 may stay with a later
    field, and no line has become too long or miscounted."""
    was, now = code_of(before), code_of(due)
    if was not in MAY_MOVE or now in NEVER_MOVE or not over_before(one, line):
        return False
    return was != now or field_of(before) < field_of(due)


def check_limits(one, line, due, moved):
    """That the answer is what it was by the limits of R and R0 before, or that it may
    have moved; such lines are counted."""
    before = BEFORE[one].answer_line(line)
    if before == due:
        return
    if not may_move(one, line, before, due):
        raise CheckFailed(f"{line} of {one.name} gave {before}, and gives {due}")
    moved[one.name, code_of(before), code_of(due)] += 1


# The rounding of the ratio, request 7.

# R and R0 whose ratio is 0, rounded either way.
OF_NO_UNIT = (1, RESISTANCE_MOST)


def as_before(r, r0):
    """R and R0 with the ratio that these had before: as many nanoohms over 1 ohm, a
    ratio that nothing is dropped of.

    Over 1 ohm R comes to a ratio of 10^4; a larger one is above 4.4 like this. What is
    outside its limits has no ratio, and stays.
    """
    if outside_limits(r, r0):
        return r, r0
    w = quotient_down(r * RATIO_ONE, r0)
    return (min(w, RESISTANCE_MOST), RATIO_ONE) if w > 0 else OF_NO_UNIT


@cache
def places_of_r(one):
    """Where each R stands among the numbers of a line, which come after the id and the
    law; its R0 stands behind it."""
    places = [place for place, kind in enumerate(one.kinds) if kind == RESISTANCE]
    return [place - 2 for place in places[::2]]


def outcome_before(one, label, numbers):
    """The outcome of a line with every R and R0 as before."""
    made = list(numbers)
    for place in places_of_r(one):
        made[place : place + 2] = as_before(*made[place : place + 2])
    outcome, _ = one.outcome_of(label, *made)
    return outcome


def answer_before(one, line):
    """The answer that a line got before request 7."""
    if one.fault_of(line) is not None:
        return one.answer_line(line)
    name, label, *numbers = one.values_of(line)
    return one.written(name, label, outcome_before(one, label, numbers))


def rounded_up(r, r0):
    """Whether half a unit or more was dropped, and the ratio is one unit more now."""
    w, dropped = divmod(r * RATIO_ONE, r0)
    return 2 * dropped >= r0 and ratio_of(r, r0) == w + 1


NEXT_STEP = "a step to the next"
TO_FIRST = "8 to the first step"
FROM_LAST = "the last step to 9"
OVER_MOST = "9 to 2"


def way_of(law, was, now):
    """How a ratio of one unit more may have moved a reading by this law, a step or the
    number of a refusal; None for a move that it may not have made."""
    first, last = bounds(law)
    ways = {
        (8, (first,)): TO_FIRST,
        ((last,), 9): FROM_LAST,
        (9, 2): OVER_MOST,
    }
    if isinstance(was, tuple) and now == (was[0] + 1,):
        return NEXT_STEP
    return ways.get((was, now))


def way_of_test(bath, was, now):
    """The same of a tolerance test; where the error is one step more, the verdicts."""

    def step(outcome):
        return (bath + outcome[1],) if isinstance(outcome, tuple) else outcome

    way = way_of(CURVE, step(was), step(now))
    return f"{was[0]} to {now[0]}" if way == NEXT_STEP else way


def check_rounding(one, line, due, rounded):
    """That the answer is what it was by the ratio rounded down, or that a unit more may
    have moved it; such lines are counted."""
    before = answer_before(one, line)
    if before == due:
        return
    _, label, *numbers = one.values_of(line)
    was = outcome_before(one, label, numbers)
    now, _ = one.outcome_of(label, *numbers)
    if one is READINGS:
        way = way_of(label, was, now)
    else:
        way = way_of_test(numbers[0], was, now)
    (place,) = places_of_r(one)
    if way is None or not rounded_up(*numbers[place : place + 2]):
        raise CheckFailed(f"{line} of {one.name} gave {before}, and gives {due}")
    rounded[one.name, label, way] += 1


def check_moved(one, line, due, survey):
    """That the answer to a line is what it was before both requests, or may have moved.
    Of a record a ratio of one unit more can make anything."""
    if one in BEFORE:
        check_limits(one, line, due, survey.moved)
    if one in (READINGS, TOLERANCE):
        check_rounding(one, line, due, survey.rounded)
