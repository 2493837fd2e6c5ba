"""Streams lists through the built `launchlist` and `benchlist` and compares every
line that comes out with the one computed here.

    python3 second/streams.py START FOLDER

START runs a program of FOLDER: START FOLDER/launchlist. The lists are the families
of cases, lists with damages in them, cut and with wrong headers, and very long ones.
Prints the first failures and, last, how many lines passed and failed.
"""

import sys

# A test run leaves nothing behind in the folder.
sys.dont_write_bytecode = True

import os
import subprocess
from collections import Counter
from concurrent.futures import ProcessPoolExecutor, as_completed
from dataclasses import dataclass, field
from itertools import zip_longest
from pathlib import Path

import damage
import families
import long_lists
from cases import CheckFailed, Generator
from family import check_family, part, parts
from inputs import example, listed
from lists import (
    BEFORE,
    LINE_END,
    LISTS,
    PROGRAM_OF,
    PROGRAMS,
    READINGS,
    RECORDS,
    WRONG_COUNT,
    WRONG_FIELD,
    WRONG_LENGTH,
    WRONG_LINE,
    LineFault,
    answer,
    code_of,
    joined,
    lines_of,
)
from messages import SAID_MOST, first_unlike, said, shown
from moves import check_moved
from promises import Survey
from samples import GOOD, NEXT, WIDEST, drawn_lines

USAGE = """\
usage: python3 second/streams.py START FOLDER
START runs a program of FOLDER, which has launchlist and benchlist.
"""

LIMIT = 300  # seconds after which a run that has not ended is ended
WORKERS = max(2, os.cpu_count() or 2)
SHOWN = 20  # failures


@dataclass
class Found:
    """What a job found: how many lines passed, what is wrong with the others, and
    what the cases met."""

    name: str
    passed: int = 0
    failed: int = 0
    wrong: list = field(default_factory=list)
    survey: Survey = field(default_factory=Survey)
    codes: Counter = field(default_factory=Counter)

    def fail(self, what):
        self.failed += 1
        if len(self.wrong) < SHOWN:
            self.wrong.append(f"{self.name}: {what}")


class Programs:
    """The built programs."""

    def __init__(self, start, folder):
        self.start = start
        self.folder = Path(folder)

    def command(self, program):
        return [self.start, str(self.folder / program)]

    def run(self, program, data, found):
        """What the program writes, on standard error what is to be said."""
        try:
            ended = subprocess.run(
                self.command(program), input=data, capture_output=True, timeout=LIMIT
            )
        except subprocess.TimeoutExpired:
            found.fail(f"{program} has not ended within {LIMIT} s")
            return b""
        if ended.returncode != 0:
            found.fail(f"{program} ended with status {ended.returncode}")
        due = said(program, data)
        if ended.stderr != due:
            found.fail(f"{program} says {first_unlike(ended.stderr, due)}")
        return ended.stdout


def compare(found, one, lines, dues, out):
    """Compares what came with the answers due to the lines."""
    came = out.split(LINE_END)
    if came.pop() != b"":
        found.fail("what came does not end with CRLF")
    if len(came) != len(dues) + 1:
        found.fail(f"{len(came)} lines came, due {len(dues) + 1}")
    if came[:1] != [one.answer_header]:
        found.fail(f"header {shown(came[0] if came else None)} came")
    for line, got, due in zip_longest(lines, came[1:], dues):
        if got == due:
            found.passed += 1
        else:
            found.fail(f"line {shown(line)} came {shown(got)} due {shown(due)}")


def by_hundreds(lines):
    """The lines in parts so small that all that is to be said of one is said."""
    return [lines[i : i + SAID_MOST] for i in range(0, len(lines), SAID_MOST)]


# The families of cases.


def family_job(programs, number, first):
    family = families.FAMILIES[number]
    found = Found(family.name)
    try:
        made = part(family, first, found.survey)
    except CheckFailed as failed:
        found.fail(f"check failed: {failed}")
        return found
    for one, pairs in made.items():
        for some in by_hundreds(pairs) if one in RECORDS else [pairs]:
            lines, dues = zip(*some)
            out = programs.run(PROGRAM_OF[one], listed(one, *lines), found)
            compare(found, one, lines, dues, out)
            found.codes.update((one.name, code_of(due)) for due in dues)
    return found


# Damaged lists.

DAMAGE_SEED = 801
DRAWN_LINES = 400
DRAWN_CHANGES = 4000
FIELD_LEAST = 100


def damaged_pieces(one, generator):
    """What stands between good lines, CRLFs included: ill-formed lines, such as just
    are not, good ones with a byte replaced, with fields exchanged, and with drawn
    changes."""
    line = drawn_lines(one, generator, DRAWN_LINES)
    for damaged in damage.ill_formed_cases(one, line):
        damage.check_damaged(one, damaged)
        yield damaged.line + LINE_END
    for kept in damage.kept_cases(one, line):
        if one.fault_of(kept) is not None:
            raise CheckFailed(f"{one.name}: {kept} is ill-formed")
        yield kept + LINE_END
    for good in (GOOD[one], NEXT[one], WIDEST.get(one, line()), line()):
        yield from damage.flips(good + LINE_END)
        for damaged in damage.field_changes(good):
            yield damaged + LINE_END
    for _ in range(DRAWN_CHANGES):
        yield damage.changed(generator, line()) + LINE_END


def run_again(programs, one, lines, found):
    """The lines once more as many small lists, so that nothing said of one of them
    is left out; they do not count."""
    for some in by_hundreds(lines):
        data = listed(one, *some)
        out = programs.run(PROGRAM_OF[one], data, found)
        if out != answer(PROGRAM_OF[one], data):
            found.fail(f"{shown(data)} came {shown(out)}")


def check_damages(found, one, count, dues):
    """That so many damages have brought enough of each fault, for each field."""
    codes = Counter(map(code_of, dues))
    ill_formed = sum(codes[code] for code in WRONG_LINE)
    if ill_formed < count // 2 or codes[0] < count:
        found.fail(f"of {count} damages come {codes}")
    for place in range(len(one.kinds)):
        fault = LineFault(WRONG_FIELD, place + 1)
        met = dues.count(one.ill_formed(fault))
        if met < FIELD_LEAST:
            found.fail(f"field {fault.field} is named {met} times")
    for number in (WRONG_LENGTH, WRONG_COUNT):
        if codes[number] < FIELD_LEAST:
            found.fail(f"{number} is given {codes[number]} times")


# The numbers that damaged lines moved from and to: 14 also from field to field.
MOVES = ((1, 0), (WRONG_FIELD, 0), (WRONG_FIELD, 1), (WRONG_FIELD, WRONG_FIELD))


def check_moves(found, one):
    """That lines of a list that holds resistances moved with their limits."""
    for was, now in MOVES if one in BEFORE else ():
        if found.survey.moved[one.name, was, now] == 0:
            found.fail(f"no line moved from {was} to {now}")


def damage_job(programs, name):
    """One list with every damage in it, a good line after each."""
    one = LISTS[name]
    found = Found(f"damaged {name}")
    generator = Generator(DAMAGE_SEED)
    try:
        good = drawn_lines(one, generator, DRAWN_LINES)
        pieces = [p + good() + LINE_END for p in damaged_pieces(one, generator)]
        data = listed(one) + b"".join(pieces)
        _, *lines = lines_of(data)
        _, *dues = lines_of(answer(PROGRAM_OF[one], data))
        for line, due in zip(lines, dues):
            damage.check_words(one, line)
            check_moved(one, line, due, found.survey)
    except CheckFailed as failed:
        found.fail(f"check failed: {failed}")
        return found
    compare(found, one, lines, dues, programs.run(PROGRAM_OF[one], data, found))
    run_again(programs, one, lines, found)
    check_damages(found, one, len(pieces), dues)
    check_moves(found, one)
    return found


def small_inputs(one):
    """A small list cut at every place, and after a damaged header a good line."""
    for data in damage.cuts(example(one)):
        yield f"cut to {len(data)} bytes", data
    for kind, header in damage.header_damages(one):
        yield f"header, {kind}", joined([header, GOOD[one]])


def cut_job(programs, name, turn, turns):
    """The small inputs of one of so many turns, each run by itself."""
    one = LISTS[name]
    found = Found(f"cut {name}")
    for kind, data in list(small_inputs(one))[turn::turns]:
        out = programs.run(PROGRAM_OF[one], data, found)
        due = answer(PROGRAM_OF[one], data)
        if out == due:
            found.passed += 1
        else:
            found.fail(f"{kind}, {shown(data)} came {shown(out)} due {shown(due)}")
    return found


# Long lists.


def long_job(programs, name, count):
    """A list of so many lines through a pipe; it counts as one line."""
    one = LISTS[name]
    found = Found(f"long {name}")
    command = programs.command(PROGRAM_OF[one])
    try:
        for what in long_lists.run(command, one, count, LIMIT):
            found.fail(what)
    except CheckFailed as failed:
        found.fail(f"check failed: {failed}")
    if found.failed == 0:
        found.passed += 1
    return found


# All jobs.

LONG = 1000000  # lines of the longest list; the others have a tenth
CUT_TURNS = 4


def jobs():
    """Each job and its arguments, the longest first."""
    for name in LISTS:
        yield long_job, name, LONG if name == READINGS.name else LONG // 10
    for name in LISTS:
        yield damage_job, name
    for name in LISTS:
        for turn in range(CUT_TURNS):
            yield cut_job, name, turn, CUT_TURNS
    for number, family in enumerate(families.FAMILIES):
        for first in parts(family):
            yield family_job, number, first


class Sum:
    """What all jobs found."""

    def __init__(self):
        self.passed = 0
        self.failed = 0
        self.codes = Counter()
        self.surveys = {}

    def add(self, found):
        for what in found.wrong[: max(0, SHOWN - self.failed)]:
            print(what, flush=True)
        self.passed += found.passed
        self.failed += found.failed
        self.codes += found.codes
        self.surveys.setdefault(found.name, Survey()).add(found.survey)

    def check(self, test, *arguments):
        try:
            test(*arguments)
        except CheckFailed as failed:
            self.failed += 1
            print(f"check failed: {failed}", flush=True)

    def check_met(self):
        """That the families met everything."""
        met = Survey()
        for family in families.FAMILIES:
            survey = self.surveys[family.name]
            self.check(check_family, family, survey.seen)
            met.add(survey)
        self.check(families.check_orders, met.orders)
        self.check(families.check_cells, met.cells)
        self.check(families.check_moved, met.moved)
        self.check(families.check_rounded, met.rounded)
        self.check(families.check_codes, self.codes)


def all_jobs(programs):
    """The sum of all jobs, some of them made at a time."""
    for program in PROGRAMS:
        if not (programs.folder / program).is_file():
            raise FileNotFoundError(f"{programs.folder / program} is missing")
    total = Sum()
    with ProcessPoolExecutor(WORKERS) as pool:
        made = [pool.submit(job, programs, *arguments) for job, *arguments in jobs()]
        for future in as_completed(made):
            total.add(future.result())
    total.check_met()
    return total


def main(arguments):
    if len(arguments) != 2:
        sys.stderr.write(USAGE)
        return 2
    total = Sum()
    try:
        total = all_jobs(Programs(*arguments))
    except OSError as error:
        print(f"streams: cannot be run: {error}")
        total.failed += 1
    print(f"streams: {total.passed} passed, {total.failed} failed")
    return 0 if total.failed == 0 else 1


if __name__ == "__main__":
    sys.exit(main(sys.argv[1:]))
