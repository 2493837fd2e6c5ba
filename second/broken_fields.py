"""Fields that break the rule of their column, by hand, with what is to be said of
each; and fields that just keep it.

The words are written out here a second time: those of `field_words.py` are tested
by them.
"""

from lists import COUNT, ID, LETTER, RESISTANCE, SIGNED, WORD
from messages import JOINED

NINES = b"9" * 13
MORE_NINES = b"9" * 14

MANY_DIGITS = "more than {} digits"

# Of a line with a LF it is not said which field breaks its rule.
WITH_FEED = None

OF_ID = {
    "it is empty": (b"",),
    "a point": (b".", b"F.1", b"F1.", b"F" * 17 + b".", b"F.1_2"),
    "a blank": (b" ", b" F1", b"F 1", b"F1 ", b"FRIDGE NUMBER SEVENTEEN"),
    "a quote": (b'"', b'"F1"', b'F1"'),
    "a semicolon": (b"F;1", b"F1;"),
    "a plus": (b"+F1", b"F+1"),
    "an underscore": (b"_", b"F_1", b"F_1.2"),
    "a tab": (b"\tF1", b"F1\t"),
    "a CR": (b"\r", b"\rF1", b"F\r1", b"F1\r"),
    "a byte that is not ASCII": (b"\x80", b"F\xe91", b"F1\xff", b"\xef\xbb\xbfF1"),
    "a byte that may not stand there": (
        *(b"'F1", b"F/1", b"F:1", b"F@1", b"[F1]", b"`", b"{F1}", b"F\x001"),
        *(b"\x7f", b"?", b"F1\x1a", b"\x0b"),
    ),
    "more than 16 bytes": (b"ABCDEFGHIJKLMNOPQ", b"-" * 17, b"0" * 17, b"F" * 60),
    WITH_FEED: (b"\n", b"\nF1", b"F\n1", b"F1\n", b"F.1\n"),
}

OF_WORD = {
    "it is empty": (b"",),
    "a point": (b"ag.", b".ag", b"a.g", b"curvecurv."),
    "a blank": (b" ", b" ag", b"ag "),
    "a quote": (b'"ag"', b'ag"'),
    "a semicolon": (b"ag;",),
    "a plus": (b"ag+", b"+ag"),
    "a minus": (b"-", b"-ag", b"al-ag"),
    "an underscore": (b"a_g", b"_"),
    "a tab": (b"\tag", b"ag\t"),
    "a CR": (b"\r", b"\rag", b"a\rg", b"ag\r"),
    "a digit": (b"0", b"ag1", b"1ag", b"curvecur9", b"a1G"),
    "a capital letter": (b"CURVE", b"Ag", b"aG", b"abcdefghI", b"aG1"),
    "a byte that is not ASCII": (b"\xe5g", b"ag\xa0", b"\xff"),
    "a byte that may not stand there": (
        *(b"'ag'", b"`", b"{ag}", b"a\x00g", b"\x7f", b"?", b"@", b"["),
    ),
    "more than 8 letters": (b"abcdefghi", b"curvecurve", b"z" * 60),
    WITH_FEED: (b"\n", b"\nag", b"a\ng", b"ag\n", b"AG\n"),
}

OF_LETTER = {
    "it is empty": (b"",),
    "a point": (b".", b"A.", b".A"),
    "a blank": (b" ", b" A", b"A "),
    "a quote": (b'"A"', b'A"'),
    "a semicolon": (b";", b"A;"),
    "a plus": (b"+", b"A+"),
    "a minus": (b"-", b"A-", b"-A"),
    "an underscore": (b"_", b"A_"),
    "a tab": (b"\t", b"A\t"),
    "a CR": (b"\r", b"A\r", b"\rA"),
    "a digit": (b"1", b"A1", b"1A", b"AB1"),
    "a byte that is not ASCII": (b"\xc1", b"A\xa0", b"\xd0\x90"),
    "a byte that may not stand there": (b"@", b"[", b"`", b"{", b"\x00", b"(A)"),
    "more than one letter": (b"AA", b"AB", b"ab", b"class"),
    WITH_FEED: (b"\n", b"A\n", b"\nA", b"1\n"),
}

# Of both sorts of numbers.
OF_NUMBER = {
    "it is empty": (b"",),
    "a point": (
        *(b".", b"1.0", b"1.", b".5", b"0.5", b"00.5", b"1" * 14 + b"."),
        b"1" * 15 + b".",
    ),
    "a blank": (b" ", b" 1", b"1 ", b"1 0"),
    "a quote": (b'"', b'"1"', b'1"'),
    "a semicolon": (b"1;", b";1"),
    "a plus": (b"+", b"+1", b"+0", b"1+", b"+-1"),
    "an underscore": (b"_1", b"1_0"),
    "a tab": (b"\t1", b"1\t"),
    "a CR": (b"\r", b"\r1", b"1\r2", b"1\r"),
    "a capital letter": (b"1E9", b"1O0", b"N", b"1O.0"),
    "a small letter": (b"1e9", b"0x1F", b"nan", b"x"),
    "a byte that is not ASCII": (b"1\xb2", b"\xd9\xa1", b"\xe2\x88\x921", b"\xff"),
    "a byte that may not stand there": (
        *(b"1'000", b"/", b":", b"1\x00", b"\x7f", b"?", b"=1", b"(1)", b"1*1"),
    ),
    "a leading zero": (
        *(b"00", b"007", b"01", b"0" + NINES, b"0" * 14, b"0" + MORE_NINES, b"0" * 15),
    ),
    WITH_FEED: (b"\n", b"\n1", b"1\n2", b"1\n", b"0.5\n"),
}


def more_digits(digits):
    """Of numbers of so many digits, such as have more."""
    sizes = (10**digits, 2**63, 2**64, 10**60)
    return {MANY_DIGITS.format(digits): tuple(b"%d" % size for size in sizes)}


def of_count(kind):
    """A minus is a byte like others where the column takes none."""
    minus = (b"-", b"-1", b"-0", b"--1", b"1-", b"1-2", b"-.", b"-" + NINES)
    return {**OF_NUMBER, **more_digits(kind.digits), "a minus": minus}


# What stands after a minus that the column takes.
AFTER_MINUS = {
    "a minus alone": (b"-",),
    "a minus": (b"--", b"--1", b"--0", b"1-", b"1-2", b"-1-", b"0-"),
    "a minus before 0": (b"-0",),
    "a leading zero": (b"-00", b"-007", b"-01", b"-0" + NINES, b"-" + b"0" * 14),
    "a point": (b"-.", b"-.5", b"-0.5", b"-1.0"),
    "a blank": (b"- 1", b"- "),
    "a plus": (b"-+1",),
    "a CR": (b"-\r", b"-1\r"),
    "a small letter": (b"-x", b"-1e9", b"-0x1"),
    "a byte that is not ASCII": (b"-\xb2",),
    "a byte that may not stand there": (b"-\x00", b"-/"),
    WITH_FEED: (b"-\n", b"-0\n"),
}


def of_signed(kind):
    """The same with a minus, and what only a minus brings."""
    made = {words: list(fields) for words, fields in OF_NUMBER.items()}
    for words, fields in more_digits(kind.digits).items():
        made[words] = [*fields, *(b"-" + field for field in fields)]
    for words, fields in AFTER_MINUS.items():
        made.setdefault(words, []).extend(fields)
    return made


BROKEN = {
    ID: OF_ID,
    WORD: OF_WORD,
    LETTER: OF_LETTER,
    COUNT: of_count(COUNT),
    RESISTANCE: of_count(RESISTANCE),
    SIGNED: of_signed(SIGNED),
}


def kept_numbers(kind):
    """0, and numbers of one digit and of all."""
    return b"0", b"9", b"1".ljust(kind.digits, b"0"), b"9" * kind.digits


KEPT = {
    ID: (b"F" * 16, b"-" * 16, b"0" * 16, b"-", b"0", b"007", b"-0", b"z"),
    WORD: (b"abcdefgh", b"zzzzzzzz", b"a", b"z"),
    LETTER: (b"A", b"Z", b"a", b"z"),
    COUNT: kept_numbers(COUNT),
    RESISTANCE: kept_numbers(RESISTANCE),
    SIGNED: (*kept_numbers(SIGNED), b"-1", b"-" + b"9" * SIGNED.digits),
}


def broken_fields(kind):
    """Each field that breaks the rule of such a column, and what is wrong with it;
    None where it holds a LF."""
    for wrong, fields in BROKEN[kind].items():
        yield from ((field, wrong) for field in fields)


def due_words(one, place, wrong):
    """What is to be said of a line whose first broken field is this, from 0."""
    if wrong is WITH_FEED:
        return JOINED
    return f"field {place + 1}, {one.titles[place]}: {wrong}"
