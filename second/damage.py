"""Damages to lists: to a line, so that it is ill-formed or only may be, and to the
header.

Each function is given a list and good lines of it: one, or a function `line` that
gives one after the other. An ill-formed line comes with the fault that is due by the
way it is made.
"""

from itertools import combinations
from typing import NamedTuple

from broken_fields import KEPT, MANY_DIGITS, WITH_FEED, broken_fields, due_words
from cases import CheckFailed
from draws import ID_BYTES
from field_words import wrong_in
from lists import (
    COMMA,
    LETTER,
    LINE_MOST,
    LISTS,
    RESISTANCE,
    WRONG_COUNT,
    WRONG_FIELD,
    WRONG_HEADER,
    WRONG_LENGTH,
    WRONG_LINE,
    LineFault,
)
from messages import said_of_line

CR = b"\r"
LF = b"\n"
NUL = b"\0"
BYTE_ORDER_MARK = b"\xef\xbb\xbf"

WORD_BYTES = b"abcdefghijklmnopqrstuvwxyz"
LETTER_BYTES = WORD_BYTES + WORD_BYTES.upper()
DIGIT_BYTES = b"0123456789"

# A damage done to a number is given its sign, its digits and how many the column
# takes.
NUMBER_DAMAGES = {
    "leading zero": lambda sign, v, digits: sign + b"0" + v,
    "leading zeros": lambda sign, v, digits: sign + b"000" + v,
    "all digits with a leading zero": lambda sign, v, digits: (
        sign + b"0" + v.zfill(digits - 1)
    ),
    "only zeros": lambda sign, v, digits: b"00",
    "minus before 0": lambda sign, v, digits: b"-0",
    "minus before a leading zero": lambda sign, v, digits: b"-0" + v,
    "plus": lambda sign, v, digits: b"+" + v,
    "plus before 0": lambda sign, v, digits: b"+0",
    "two minuses": lambda sign, v, digits: b"--" + v,
    "minus alone": lambda sign, v, digits: b"-",
    "minus at the end": lambda sign, v, digits: v + b"-",
    "minus inside": lambda sign, v, digits: b"1-" + v,
    "a digit more": lambda sign, v, digits: sign + b"%d" % (10**digits + int(v)),
    "a digit more, zeros": lambda sign, v, digits: sign + v.zfill(digits + 1),
    "past 2^63": lambda sign, v, digits: sign + b"%d" % (2**63 + int(v)),
    "past 2^64": lambda sign, v, digits: sign + b"%d" % (2**64 + int(v)),
    "60 digits": lambda sign, v, digits: sign + b"1" * 60,
    "point": lambda sign, v, digits: sign + v + b".0",
    "point at the end": lambda sign, v, digits: sign + v + b".",
    "point before": lambda sign, v, digits: sign + b"." + v,
    "point inside": lambda sign, v, digits: sign + b"1." + v,
    "exponent": lambda sign, v, digits: sign + v + b"e0",
    "exponent in upper case": lambda sign, v, digits: b"1E9",
    "hexadecimal": lambda sign, v, digits: sign + b"0x%x" % int(v),
    "hexadecimal digit": lambda sign, v, digits: sign + b"1f",
    "underscore": lambda sign, v, digits: sign + b"1_0",
    "apostrophe": lambda sign, v, digits: sign + b"1'000",
    "letter for a digit": lambda sign, v, digits: sign + b"1O0",
    "no number": lambda sign, v, digits: b"nan",
    "minus of typography": lambda sign, v, digits: "\u2212".encode() + v,
    "digits of another script": lambda sign, v, digits: "\u0661\u0662".encode(),
    "full-width digits": lambda sign, v, digits: "\uff11\uff12".encode(),
    "superscript digit": lambda sign, v, digits: v + b"\xb2",
}

# A damage done to any field is given the field.
FIELD_DAMAGES = {
    "empty": lambda v: b"",
    "space before": lambda v: b" " + v,
    "space after": lambda v: v + b" ",
    "space inside": lambda v: v[:1] + b" " + v[1:],
    "space alone": lambda v: b" ",
    "tab before": lambda v: b"\t" + v,
    "tab after": lambda v: v + b"\t",
    "tab alone": lambda v: b"\t",
    "quotes": lambda v: b'"' + v + b'"',
    "quote opened": lambda v: b'"' + v,
    "quotes alone": lambda v: b'""',
    "single quotes": lambda v: b"'" + v + b"'",
    "NUL before": lambda v: NUL + v,
    "NUL inside": lambda v: v[:1] + NUL + v[1:],
    "NUL after": lambda v: v + NUL,
    "CR before": lambda v: CR + v,
    "CR inside": lambda v: v[:1] + CR + v[1:],
    "CR after": lambda v: v + CR,
    "CR alone": lambda v: CR,
    "LF before": lambda v: LF + v,
    "LF inside": lambda v: v[:1] + LF + v[1:],
    "LF after": lambda v: v + LF,
    "semicolon after": lambda v: v + b";",
    "mark of byte order": lambda v: b"\xef\xbb\xbf" + v,
    "no-break space": lambda v: v + b"\xc2\xa0",
    "byte over 127": lambda v: v + b"\xe9",
}

BAD_NAMES = (
    b"B1_FRIDGE",
    b"_",
    b"FRIDGE_",
    b"B1.FRIDGE",
    b"B1/FRIDGE",
    b"B1:FRIDGE",
    b"F#1",
    b"?",
    b"*",
    b"(F1)",
    b"F+1",
    "K\u00fchl".encode(),
    "\u041a1".encode(),
    "F\uff11".encode(),
    b"K\xfchl",
    b"\xff",
    b"\x80",
    b"ABCDEFGHIJKLMNOPQ",
    b"-----------------",
    b"00000000000000000",
    b"12345678901234567",
    b"ABCDEFGHIJKLMNOPQRSTUVWXYZ012345",
    b"F" * 100,
)

BAD_WORDS = (
    b"Curve",
    b"CURVE",
    b"curvE",
    b"cuRve",
    b"AG",
    b"Ag",
    b"aG",
    b"Zn",
    b"ZN",
    b"IN",
    b"In",
    b"Ga",
    b"sN",
    b"aL",
    b"al2",
    b"2al",
    b"ag0",
    b"0",
    b"1",
    b"7",
    b"curvecurv",
    b"agagagaga",
    b"abcdefghi",
    b"curve" * 10,
    b"al-ag",
    b"-ag",
    b"cur_ve",
    b"curve.",
    b"ag+",
    "\u00e5g".encode(),
    "\uff41\uff47".encode(),
    b"\xe5g",
)

BAD_LETTERS = (
    b"AA",
    b"AB",
    b"class",
    b"A1",
    b"A-",
    b"1",
    b"0",
    b"-",
    b"?",
    b"@",
    b"[",
    b"`",
    b"{",
    b"\xc1",
    "\u0410".encode(),
    "\uff21".encode(),
)

# What other rules take for the end of a line, and less.
JOINS = (LF, CR, LF + CR, NUL, b"\x0b", b"\x0c", b"\x1c", b"\x85", b"\xe2\x80\xa8")
JOINS += (COMMA, b" ", b"")

BEFORE_END = (CR, CR + CR, LF, LF + CR, LF + LF, NUL, b"\x1a")
AFTER_END = (CR, LF, LF + LF, NUL, BYTE_ORDER_MARK, b" ", b"#")

SEPARATORS = (b";", b"\t", b" ", b"|", b"\xc2\xa0")

# Lines that no list has, beside those made of its own header and answers: of fewer
# fields than any, and of nine, of which the second is broken.
FEW_FIELDS = (
    *(CR, LF, LF + CR, NUL, NUL * 9, b" ", b"\t", b"-", b"0", b"?", b'"', b"\x1a"),
    b"F1,curve,1000000,0",
    b"# F1,curve",
    bytes(range(128, 256)),
    bytes(range(255, 191, -1)),
)
NINE_FIELDS = (
    b"curve,F1,138505500000,100000000000,0,0,0,0,0",
    b"138505500000,100000000000,0,0,0,0,0,F1,curve",
)

LENGTHS = (199, 200, 201, 202, 203, 400, 5000)
LONG = 70000


def long_id(line, size):
    """The line with an id that brings it to this many bytes."""
    name, rest = line.split(COMMA, 1)
    return b"F" * (size - 1 - len(rest)) + COMMA + rest


FIRST = 0
LAST = -1

# Lines of a given number of bytes, made of a good one, and the field that is broken
# by that; None where the count of fields is wrong.
FILLINGS = {
    "letters": (lambda line, size: b"x" * size, None),
    "line, then spaces": (lambda line, size: line.ljust(size), LAST),
    "line, then zeros": (lambda line, size: line.ljust(size, b"0"), LAST),
    "line, then commas": (lambda line, size: line.ljust(size, COMMA), None),
    "line with a long id": (long_id, FIRST),
    "letters, then CR": (lambda line, size: b"x" * (size - 1) + CR, None),
    "letters, then LF": (lambda line, size: b"x" * (size - 1) + LF, None),
    "letters, then line": (lambda line, size: line.rjust(size, b"x"), FIRST),
}

LONG_FILLINGS = ("line, then zeros", "letters, then line", "line with a long id")


def with_field(fields, place, value):
    return COMMA.join((*fields[:place], value, *fields[place + 1 :]))


def without(fields, place):
    return COMMA.join((*fields[:place], *fields[place + 1 :]))


def with_more(fields, place, value):
    return COMMA.join((*fields[:place], value, *fields[place:]))


def joined_by(mark, fields, place):
    """The line with this mark for the comma before a field."""
    return mark.join((COMMA.join(fields[:place]), COMMA.join(fields[place:])))


def exchanged(fields, place):
    """The line with a field and the next in each other's place."""
    pair = (fields[place + 1], fields[place])
    return COMMA.join((*fields[:place], *pair, *fields[place + 2 :]))


# Ill-formed lines.


class Damaged(NamedTuple):
    """An ill-formed line: the kind of damage, the line, what is wrong with it, and
    what is to be said of it where that is written by hand."""

    kind: str
    line: bytes
    fault: LineFault
    words: str = None


def with_fault(kind, line, fault, words=None):
    """A damaged line with this fault, unless it is too long: that goes before."""
    if len(line) > LINE_MOST:
        return Damaged(kind, line, LineFault(WRONG_LENGTH))
    return Damaged(kind, line, fault, words)


def miscounted(kind, line):
    return with_fault(kind, line, LineFault(WRONG_COUNT))


def broken(kind, line, place, words=None):
    """A line whose first broken field is this one, counted from 0."""
    return with_fault(kind, line, LineFault(WRONG_FIELD, place + 1), words)


def check_damaged(one, damaged):
    """That the line is refused, and spoken of, as is due."""
    found = one.fault_of(damaged.line), said_of_line(one, damaged.line)
    due = damaged.fault, damaged.words or found[1]
    if found != due:
        what = f"{one.name}: {damaged.kind}, {damaged.line}"
        raise CheckFailed(f"{what} gives {found}, due {due}")


def check_words(one, line):
    """That the field named is the first that there are words for."""
    fault = one.fault_of(line) or LineFault(0)
    if fault.number in (WRONG_LENGTH, WRONG_COUNT):
        return
    fields = zip(one.kinds, line.split(COMMA))
    wrong = [wrong_in(kind, field) is not None for kind, field in fields]
    first = wrong.index(True) + 1 if True in wrong else None
    if first != fault.field:
        raise CheckFailed(f"{one.name}: {line} gives {fault}, and words for {first}")


def number_places(one):
    return [place for place, kind in enumerate(one.kinds) if kind.digits > 0]


def field_cases(one, line):
    """Every damage at every field it can be done to."""
    for kind, damage in FIELD_DAMAGES.items():
        for place in range(len(one.kinds)):
            fields = line().split(COMMA)
            yield broken(kind, with_field(fields, place, damage(fields[place])), place)
    for kind, damage in NUMBER_DAMAGES.items():
        for place in number_places(one):
            fields = line().split(COMMA)
            digits = fields[place].lstrip(b"-")
            sign = fields[place][: -len(digits)]
            value = damage(sign, digits, one.kinds[place].digits)
            yield broken(kind, with_field(fields, place, value), place)
    for place in number_places(one):
        if not one.kinds[place].minus:
            for number in (b"-1", b"-100000000000", b"-3376008600"):
                damaged = with_field(line().split(COMMA), place, number)
                yield broken("minus where there is none", damaged, place)
    for name in BAD_NAMES:
        yield broken("bad id", with_field(line().split(COMMA), 0, name), 0)
    for label in BAD_LETTERS if one.kinds[1] is LETTER else BAD_WORDS:
        yield broken("bad law", with_field(line().split(COMMA), 1, label), 1)


# Bytes at the edges of the classes allowed.
EDGE_BYTES = b"/:@[`{.+,;\0\x7f\x80\xff"


def byte_cases(one, line):
    """Every byte once in a field that does not take it, some in all such."""
    is_letter = one.kinds[1] is LETTER
    taken = (ID_BYTES, LETTER_BYTES if is_letter else WORD_BYTES, DIGIT_BYTES)
    for byte in range(256):
        places = [place for place in range(3) if byte not in taken[place]]
        if byte not in EDGE_BYTES:
            places = [places[byte % len(places)]]
        for place in places:
            fields = line().split(COMMA)
            start = b"" if place == 1 and is_letter else fields[place][:1]
            value = start + bytes([byte]) + fields[place][2:]
            damaged = with_field(fields, place, value)
            if bytes([byte]) == COMMA:
                yield miscounted("byte not taken", damaged)
            else:
                yield broken("byte not taken", damaged, place)


def count_cases(one, line):
    """Fields and commas too few and too many."""
    size = len(one.kinds)
    for count in range(1, size):
        fields = line().split(COMMA)
        yield miscounted("too few fields", COMMA.join(fields[:count]))
        yield miscounted("semicolon for a comma", joined_by(b";", fields, count))
        yield miscounted("comma left out", joined_by(b"", fields, count))
    for place in range(size):
        fields = line().split(COMMA)
        yield miscounted("field left out", without(fields, place))
        yield miscounted("field more", with_more(fields, place, b"0"))
        yield miscounted("two commas", with_more(fields, place, b""))
    for _ in range(3):
        fields = line().split(COMMA)
        yield miscounted("trailing comma", COMMA.join((*fields, b"")))
        yield miscounted("leading comma", COMMA.join((b"", *fields)))


def shape_cases(one, line):
    """Damages to the line as a whole."""
    # A title may stand for a word, and is no letter.
    in_header = 1 if one.kinds[1] is LETTER else 2
    last = len(one.kinds) - 1
    for _ in range(3):
        yield miscounted("empty line", b"")
        yield broken("header again", one.header, in_header)
        yield broken("line in quotes", b'"' + line() + b'"', 0)
        for mark in SEPARATORS:
            yield miscounted("other separators", line().replace(COMMA, mark))
        yield broken("blank after each comma", line().replace(COMMA, b", "), 1)
        for mark in JOINS:
            yield miscounted("two lines in one", line() + mark + line())
        for mark in BEFORE_END:
            yield broken("more before CRLF", line() + mark, last)
        for mark in AFTER_END:
            yield broken("more after CRLF", mark + line(), 0)


def no_line_cases(one, line):
    """Lines that no list has, and such as are no lines of this one."""
    kind = "no line of a list"
    size = len(one.kinds)
    for whole in FEW_FIELDS:
        yield miscounted(kind, whole)
    for whole in NINE_FIELDS:
        yield broken(kind, whole, 1) if size == 9 else miscounted(kind, whole)
    yield broken(kind, one.header.upper(), 1)
    yield miscounted(kind, one.header + COMMA)
    # Its answers, which may have as many fields as its lines.
    alike = one.answer_header.count(COMMA) == one.header.count(COMMA)
    answers = [one.refusal("?", "?", number) for number in (WRONG_HEADER, *WRONG_LINE)]
    for whole in (*answers, one.ill_formed(LineFault(WRONG_FIELD, size))):
        yield broken(kind, whole, 0) if alike else miscounted(kind, whole)
    whole = one.answer_header
    yield broken(kind, whole, 1) if alike else miscounted(kind, whole)
    # Commas alone: one, one too few and one too many, up to the limit of a line and
    # past it; and as many as there are.
    for count in (1, size - 2, size, 20, 199, 200, 201, 202, 203):
        yield miscounted("only commas", COMMA * count)
    yield broken("only commas", COMMA * (size - 1), 0)


def filled(one, name, line, size, kind):
    """A line of so many bytes, made of a good one by this filling."""
    filling, place = FILLINGS[name]
    damaged = filling(line, size)
    if place is None:
        return miscounted(kind, damaged)
    return broken(kind, damaged, place % len(one.kinds))


def length_cases(one, line):
    """Lines of about 200 bytes and more, of good ones that have less than 180."""
    for size in LENGTHS:
        for name in FILLINGS:
            yield filled(one, name, line(), size, f"{size} bytes")
    for name in LONG_FILLINGS:
        yield filled(one, name, line(), LONG, f"{LONG} bytes")
    # About the limit, a mark that ends no line and then what would be answered
    # if it did, or if the rest of a long line were a line.
    last = len(one.kinds) - 1
    for size in range(198, 204):
        for mark in (b"", CR, LF, LF + CR, NUL):
            start = line().ljust(size)
            yield miscounted("good line past the limit", start + mark + line())
        for mark in (CR, LF):
            start = line().ljust(size)
            yield broken("CR or LF at the limit", start + mark + b"x", last)


# Fields broken by hand.


def broken_cases(one, line):
    """Each field broken in every way that there are words for."""
    for place, kind in enumerate(one.kinds):
        for field, wrong in broken_fields(kind):
            damaged = with_field(line().split(COMMA), place, field)
            words = due_words(one, place, wrong)
            yield broken(f"field: {wrong or 'a LF'}", damaged, place, words)


def some_broken(kind, turn):
    """One of the broken fields of such a column, by turns."""
    fields = list(broken_fields(kind))
    return fields[7 * turn % len(fields)]


PAIR_TURNS = 3


def pair_cases(one, line):
    """Every two fields broken at once: the first of them is named."""
    pairs = list(combinations(range(len(one.kinds)), 2))
    for turn in range(PAIR_TURNS * len(pairs)):
        first, second = pairs[turn % len(pairs)]
        field, wrong = some_broken(one.kinds[first], turn)
        other, also = some_broken(one.kinds[second], turn + 1)
        fields = with_field(line().split(COMMA), first, field).split(COMMA)
        if also is WITH_FEED:
            wrong = WITH_FEED
        damaged = with_field(fields, second, other)
        words = due_words(one, first, wrong)
        yield broken("two fields broken", damaged, first, words)


def digits_cases(one, line):
    """A resistance with all the digits that it may have, and a later number with one
    too many: this one is named."""
    places = [place for place, kind in enumerate(one.kinds) if kind == RESISTANCE]
    for first, second in combinations(range(len(one.kinds)), 2):
        if first in places:
            largest = b"9" * RESISTANCE.digits
            fields = with_field(line().split(COMMA), first, largest).split(COMMA)
            digits = one.kinds[second].digits
            damaged = with_field(fields, second, b"%d" % 10**digits)
            words = due_words(one, second, MANY_DIGITS.format(digits))
            yield broken("digits, all and too many", damaged, second, words)


def with_length(fields, place, size):
    """The line with letters in a field that bring it to so many bytes."""
    rest = with_field(fields, place, b"")
    return with_field(fields, place, b"x" * (size - len(rest)))


def both_cases(one, line):
    """Lines with several faults: the length goes before the count, and the count
    before a field."""
    size = len(one.kinds)
    for place, kind in enumerate(one.kinds):
        for length in range(199, 204):
            damaged = with_length(line().split(COMMA), place, length)
            yield broken("broken field, about 200 bytes", damaged, place)
        field, _ = some_broken(kind, place)
        fields = with_field(line().split(COMMA), place, field).split(COMMA)
        few = without(fields, (place + 1) % size)
        yield miscounted("broken field, too few fields", few)
        for at in (0, size):
            more = with_more(fields, at, b"0")
            yield miscounted("broken field, too many fields", more)
        for length in (200, 201):
            commas = COMMA.join(fields).ljust(length, COMMA)
            yield miscounted("broken field, commas to 200 bytes and more", commas)
            letters = few.ljust(length, b"x")
            yield miscounted("broken field, too few, to 200 bytes and more", letters)


ILL_FORMED = (
    field_cases,
    byte_cases,
    count_cases,
    shape_cases,
    no_line_cases,
    length_cases,
    broken_cases,
    pair_cases,
    digits_cases,
    both_cases,
)


def ill_formed_cases(one, line):
    """Every line above."""
    for cases in ILL_FORMED:
        yield from cases(one, line)


def kept_cases(one, line):
    """Lines in which a field just keeps its rule."""
    for place, kind in enumerate(one.kinds):
        for field in KEPT[kind]:
            yield with_field(line().split(COMMA), place, field)


# Damages after which a line may be as good as before.

TELLING = (COMMA, CR, LF, b"-", b"0", b"9", b"x", NUL, b"\xff")


def flips(data, values=TELLING):
    """The bytes with each of them replaced by each of these."""
    for place in range(len(data)):
        for value in values:
            if data[place : place + 1] != value:
                yield data[:place] + value + data[place + 1 :]


def field_changes(line):
    """The line with each field twice, in place of the next, and exchanged with it."""
    fields = line.split(COMMA)
    for place, field in enumerate(fields):
        yield with_more(fields, place, field)
        if place + 1 < len(fields):
            yield with_field(fields, place + 1, field)
            yield exchanged(fields, place)


# What a drawn change puts into a line.
MARKS = (b",", b"-", b"0", b"1", b"9", b"00", b"A", b"a", b"ag", b"curve", b" ", b"\r")
MARKS += (b"\n", b"\r\n", b"\0", b"\xff", b"", b"999999999999", b",0", b"x" * 70)


def changed(generator, line):
    """The line after one to three drawn changes: up to three bytes taken out, and a
    mark put there."""
    for _ in range(1 + generator.under(3)):
        start = generator.under(len(line) + 1)
        gone = generator.under(4)
        line = line[:start] + MARKS[generator.under(len(MARKS))] + line[start + gone :]
    return line


# Damages to the header, each a whole input.


def header_damages(one):
    """The kind of damage, and the header."""
    header = one.header
    fields = header.split(COMMA)
    for place in range(len(header)):
        # Three of the telling bytes at each place, all of them within three.
        values = [TELLING[(3 * place + n) % len(TELLING)] for n in range(3)]
        for value in values:
            damaged = header[:place] + value + header[place + 1 :]
            yield f"byte {place} replaced by {value}", damaged
    for place, field in enumerate(fields):
        yield f"field {place} left out", without(fields, place)
        yield f"field {place} twice", with_more(fields, place, field)
        yield f"field {place} emptied", with_field(fields, place, b"")
        yield f"field {place} in capitals", with_field(fields, place, field.upper())
        if place + 1 < len(fields):
            yield f"field {place} exchanged", exchanged(fields, place)
    for other in LISTS.values():
        if other is not one:
            yield f"header of {other.name}", other.header
        yield f"header of answers to {other.name}", other.answer_header


def cuts(data):
    """The bytes up to each place."""
    return [data[:end] for end in range(len(data) + 1)]
