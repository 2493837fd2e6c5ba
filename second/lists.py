"""The lists of `launchlist` and `benchlist`, scope document, section "The list":
all bytes read to all bytes written.

A list is a row of columns, and each column has a pattern. The input is split at
every CRLF, a line at every comma, and each field matched as a whole; nothing is
looked at byte by byte.
"""

import re
from collections.abc import Callable
from functools import lru_cache, partial
from typing import NamedTuple

from certificate import CELLS, certify, certify_measured
from quantity import RESISTANCE_MOST, RESISTANCE_MOST_BEFORE, Refused
from reading import forward, read, tolerance

LINE_END = b"\r\n"
COMMA = b","

LINE_MOST = 200  # bytes before CRLF

ID_MOST = 16
WORD_MOST = 8
DIGITS_MOST = 13
RESISTANCE_DIGITS_MOST = 14

RESISTANCE_DIGITS_BEFORE = 13  # before request 9

# The number of a wrong first line, and of an ill-formed one after it by what is
# wrong, in the order of the tests.
WRONG_HEADER = 10
WRONG_LENGTH = 12
WRONG_COUNT = 13
WRONG_FIELD = 14
WRONG_LINE = (WRONG_LENGTH, WRONG_COUNT, WRONG_FIELD)


class LineFault(NamedTuple):
    """What is wrong with an ill-formed line: its number, and where a field breaks
    its rule, which, counted from 1."""

    number: int
    field: int = None


class Kind(NamedTuple):
    """What a column takes: the pattern of the whole field, what a field stands
    for, and of a number how many digits and whether a minus it may have."""

    pattern: re.Pattern
    value: Callable
    digits: int = 0
    minus: bool = False


def text(field):
    return field.decode("ascii")


# Patterns of bytes, with classes written out, put to the whole field: in text
# \d takes digits of every script, and $ lets an LF at the end pass.
def count(digits):
    return Kind(re.compile(rb"0|[1-9][0-9]{0,%d}" % (digits - 1)), int, digits)


def signed(digits):
    pattern = re.compile(rb"0|-?[1-9][0-9]{0,%d}" % (digits - 1))
    return Kind(pattern, int, digits, minus=True)


ID = Kind(re.compile(rb"[A-Za-z0-9-]{1,%d}" % ID_MOST), bytes)
WORD = Kind(re.compile(rb"[a-z]{1,%d}" % WORD_MOST), text)
LETTER = Kind(re.compile(rb"[A-Za-z]"), text)
COUNT = count(DIGITS_MOST)
SIGNED = signed(DIGITS_MOST)
RESISTANCE = count(RESISTANCE_DIGITS_MOST)

PLACES = {"a": SIGNED, "b": SIGNED, "c": SIGNED, "d": SIGNED, "wal": COUNT}
CELL_NAMES = [cell.lower() for cell in CELLS]


def line_of(*values):
    """The line of these values: bytes, text and numbers."""
    parts = [v if isinstance(v, bytes) else str(v).encode("ascii") for v in values]
    return COMMA.join(parts)


def code_of(answered):
    """The number that ends an answer."""
    return int(answered.rsplit(COMMA, 1)[1])


def field_of(answered):
    """The field that a refusal by 14 names."""
    return int(answered.split(COMMA)[2])


class List:
    """A list: its columns by name, in order; the header of its answers; and what
    is asked of a line's numbers, the law, subrange or class before them.

    What is asked gives the fields that an answer has between law and code, or is
    Refused.
    """

    def __init__(self, name, columns, answer_header, ask):
        self.name = name
        self.titles = tuple(columns)
        self.kinds = tuple(columns.values())
        self.header = COMMA.join(column.encode("ascii") for column in columns)
        self.answer_header = answer_header
        self.between = len(answer_header.split(COMMA)) - 3
        self.ask = ask

    def fault_of(self, line):
        """What is wrong with a line, or None for a well-formed one."""
        if len(line) > LINE_MOST:
            return LineFault(WRONG_LENGTH)
        fields = line.split(COMMA)
        if len(fields) != len(self.kinds):
            return LineFault(WRONG_COUNT)
        for number, (kind, field) in enumerate(zip(self.kinds, fields), 1):
            if kind.pattern.fullmatch(field) is None:
                return LineFault(WRONG_FIELD, number)
        return None

    def values_of(self, line):
        """What the fields of a well-formed line stand for."""
        fields = line.split(COMMA)
        return tuple(kind.value(field) for kind, field in zip(self.kinds, fields))

    def refusal(self, name, label, number):
        return line_of(name, label, *[""] * self.between, number)

    def ill_formed(self, fault):
        """The answer to an ill-formed line: the number of a field that breaks its
        rule stands in the third column."""
        field = "" if fault.field is None else fault.field
        return line_of("?", "?", field, *[""] * (self.between - 1), fault.number)

    def written(self, name, label, outcome):
        """The line of an answer: of its fields, or of the number of a refusal."""
        if not isinstance(outcome, tuple):
            return self.refusal(name, label, outcome)
        return line_of(name, label, *outcome, 0)

    # Long lists ask for the same many times.
    @lru_cache(maxsize=20000)
    def outcome_of(self, label, *numbers):
        """What stands between law and code, or the number of the refusal; and the
        first cell at fault, where a record is refused for one."""
        try:
            return tuple(self.ask(label, *numbers)), None
        except Refused as refused:
            return refused.number, refused.cell

    def answer_line(self, line):
        """The answer to one line after the header, both without CRLF."""
        fault = self.fault_of(line)
        if fault is not None:
            return self.ill_formed(fault)
        name, label, *numbers = self.values_of(line)
        outcome, _ = self.outcome_of(label, *numbers)
        return self.written(name, label, outcome)


def reading_of(law, r, r0, *places, most):
    _, step = read(law, *places, r, r0, most)
    return (step,)


def certificate_of(subrange, *ratios):
    _, *places = certify(subrange, dict(zip(CELLS, ratios)))
    return places


def measured_of(subrange, *resistances, most):
    pairs = zip(resistances[::2], resistances[1::2])
    _, *places = certify_measured(subrange, dict(zip(CELLS, pairs)), most)
    return places


def ratio_of(law, step, *places):
    _, w = forward(law, *places, step)
    return (w,)


def verdict_of(letter, bath, r, r0, most):
    _, passes, error = tolerance(ord(letter), bath, r, r0, most)
    return "pass" if passes else "fail", error


# The lists that hold resistances, by the most that R and R0 may be and the digits
# that they may have.


def readings_by(most, digits):
    r = count(digits)
    columns = {"id": ID, "law": WORD, "r": r, "r0": r, **PLACES}
    return List("readings", columns, b"id,law,t,code", partial(reading_of, most=most))


def resistances_by(most, digits):
    cells = [name + end for name in CELL_NAMES for end in ("", "0")]
    return List(
        "resistances",
        {"id": ID, "subrange": WORD, **dict.fromkeys(cells, count(digits))},
        b"id,law,a,b,c,d,wal,code",
        partial(measured_of, most=most),
    )


def tolerance_by(most, digits):
    r = count(digits)
    return List(
        "tolerance",
        {"id": ID, "class": LETTER, "t": SIGNED, "r": r, "r0": r},
        b"id,class,result,error,code",
        partial(verdict_of, most=most),
    )


LIMITS = (RESISTANCE_MOST, RESISTANCE_DIGITS_MOST)
LIMITS_BEFORE = (RESISTANCE_MOST_BEFORE, RESISTANCE_DIGITS_BEFORE)

READINGS = readings_by(*LIMITS)
RATIOS = List(
    "ratios",
    {"id": ID, "subrange": WORD, **dict.fromkeys(CELL_NAMES, COUNT)},
    b"id,law,a,b,c,d,wal,code",
    certificate_of,
)
RESISTANCES = resistances_by(*LIMITS)
FORWARD = List(
    "forward",
    {"id": ID, "law": WORD, "t": SIGNED, **PLACES},
    b"id,law,w,code",
    ratio_of,
)
TOLERANCE = tolerance_by(*LIMITS)

# Those that hold resistances, each with the same list by the limits before.
BEFORE = {
    READINGS: readings_by(*LIMITS_BEFORE),
    RESISTANCES: resistances_by(*LIMITS_BEFORE),
    TOLERANCE: tolerance_by(*LIMITS_BEFORE),
}

# The lists that a program knows by their headers. An unknown header is answered
# as by the first.
PROGRAMS = {
    "launchlist": (READINGS,),
    "benchlist": (RATIOS, RESISTANCES, FORWARD, TOLERANCE),
}

LISTS = {one.name: one for known in PROGRAMS.values() for one in known}

PROGRAM_OF = {one: program for program, known in PROGRAMS.items() for one in known}

# The lists whose lines are records.
RECORDS = (RATIOS, RESISTANCES)


def lines_of(data):
    """The lines without their CRLF."""
    lines = data.split(LINE_END)
    # Nothing after the last CRLF is no line, and so is nothing at all.
    if lines[-1] == b"":
        lines.pop()
    return lines


def joined(lines):
    """The lines, each with its CRLF."""
    return b"".join(line + LINE_END for line in lines)


def list_of(program, data):
    """The list of the program whose header is the first line of `data`, or None."""
    # No header is empty, so an empty input has a wrong one.
    first, *_ = data.split(LINE_END, 1)
    return next((one for one in PROGRAMS[program] if one.header == first), None)


def answer(program, data):
    """All that the program writes where it reads `data`."""
    one = list_of(program, data)
    if one is None:
        first = PROGRAMS[program][0]
        return joined([first.answer_header, first.refusal("?", "?", WRONG_HEADER)])
    _, *lines = lines_of(data)
    return joined([one.answer_header, *map(one.answer_line, lines)])
