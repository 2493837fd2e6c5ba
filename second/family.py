"""Families of cases: what a case and a family are, and how a part of one becomes
lines of lists with the answers due to them.
"""

from collections import Counter
from collections.abc import Callable
from typing import NamedTuple

from cases import CheckFailed, Generator
from lists import LINE_MOST, WRONG_LENGTH, LineFault, List, line_of
from moves import check_moved
from promises import check_seen


class Line(NamedTuple):
    """A line without its id; what is to come between its law and its code, or the
    number of a refusal; and the id where it is not made of the case's number."""

    one: List
    values: tuple
    result: object
    name: str = None


class Family(NamedTuple):
    """Its name, the seed of its draws, the number of its cases, the case, and how
    often each outcome must have been met, by law or, where so said, in all.

    The case is a function of the generator, the case's number and the survey, and
    gives its lines.
    """

    name: str
    seed: int
    size: int
    case: Callable
    least: dict
    by_outcome: bool = False


def for_each(labels, whats, count):
    return {(label, what): count for label in labels for what in whats}


def by_outcome(seen):
    """The counts of each outcome, whatever the law or class."""
    met = Counter()
    for (_, what), count in seen.items():
        met[what] += count
    return met


def check_family(family, seen):
    """That a family met what it must have met."""
    met = by_outcome(seen) if family.by_outcome else seen
    check_seen(family.name, met, family.least)


# Parts, so that several can be made at a time.

PART = 1000  # cases
PART_DRAWS = 10**7  # more than any part draws

# One line in so many is also answered by its list, from the bytes on.
CHECKED_EVERY = 20


def parts(family):
    """The numbers of the first cases."""
    return range(0, family.size, PART)


def named_line(family, i, place, line):
    """The line with its id: the family, the case, and a letter for which line."""
    name = line.name or f"{family.name}-{i}{'abc'[place]}"
    return line_of(name, *line.values), name


def due_line(line, made, name):
    """The answer that is due. A line too long is ill-formed, whatever it asks."""
    if len(made) > LINE_MOST:
        return line.one.ill_formed(LineFault(WRONG_LENGTH))
    return line.one.written(name, line.values[0], line.result)


def check_made(one, made, name, values):
    """That the line is well-formed and stands for what was asked."""
    if len(made) <= LINE_MOST and one.fault_of(made) is not None:
        raise CheckFailed(f"{made} of {one.name} is ill-formed")
    if one.values_of(made) != (name.encode("ascii"), *values):
        raise CheckFailed(f"{made} of {one.name} is not {values}")


def part(family, first, survey):
    """The lines of a part and the answers due, by list."""
    generator = Generator(family.seed)
    generator.skip(first // PART * PART_DRAWS)
    made = {}
    for i in range(first, min(first + PART, family.size)):
        for place, line in enumerate(family.case(generator, i, survey)):
            text, name = named_line(family, i, place, line)
            check_made(line.one, text, name, line.values)
            due = due_line(line, text, name)
            check_moved(line.one, text, due, survey)
            made.setdefault(line.one, []).append((text, due))
    for one, lines in made.items():
        for text, due in lines[::CHECKED_EVERY]:
            if one.answer_line(text) != due:
                raise CheckFailed(f"{text} of {one.name} is due {due}")
    return made
