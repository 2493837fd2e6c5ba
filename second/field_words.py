"""What is said of a field that breaks the rule of its column.

The words go by the bytes one after the other, and not by the patterns of `lists.py`:
that both refuse the same fields is tested on every damaged line.
"""

from string import ascii_lowercase, ascii_uppercase, digits

from lists import ID, ID_MOST, LETTER, WORD, WORD_MOST

SMALL_LETTERS = ascii_lowercase.encode("ascii")
CAPITAL_LETTERS = ascii_uppercase.encode("ascii")
DIGITS = digits.encode("ascii")
MINUS = b"-"
ZERO = b"0"

EMPTY = "it is empty"
MINUS_ALONE = "a minus alone"
LEADING_ZERO = "a leading zero"
MINUS_BEFORE_ZERO = "a minus before 0"

# Of a column that holds no number: the bytes that it takes, how many of them, and
# what is said of more.
NO_NUMBERS = {
    ID: (
        CAPITAL_LETTERS + SMALL_LETTERS + DIGITS + MINUS,
        ID_MOST,
        f"more than {ID_MOST} bytes",
    ),
    WORD: (SMALL_LETTERS, WORD_MOST, f"more than {WORD_MOST} letters"),
    LETTER: (CAPITAL_LETTERS + SMALL_LETTERS, 1, "more than one letter"),
}

# A byte that a column does not take, in words. Those for a LF never come: of a line
# that holds one something else is said.
IN_WORDS = {
    b".": "a point",
    b" ": "a blank",
    b'"': "a quote",
    b";": "a semicolon",
    b"+": "a plus",
    MINUS: "a minus",
    b"_": "an underscore",
    b"\t": "a tab",
    b"\r": "a CR",
    b"\n": "a LF",
    DIGITS: "a digit",
    CAPITAL_LETTERS: "a capital letter",
    SMALL_LETTERS: "a small letter",
    bytes(range(128, 256)): "a byte that is not ASCII",
}
ANY_OTHER = "a byte that may not stand there"


def first_not_taken(taken, field):
    """What is said of the first byte that is not taken, or None."""
    for byte in field:
        if byte not in taken:
            named = (words for known, words in IN_WORDS.items() if byte in known)
            return next(named, ANY_OTHER)
    return None


def wrong_in_number(kind, field):
    """What is wrong with a field of a column of numbers, or None."""
    minus = kind.minus and field.startswith(MINUS)
    number = field.removeprefix(MINUS) if minus else field
    if number == b"":
        return MINUS_ALONE
    not_taken = first_not_taken(DIGITS, number)
    if not_taken is not None:
        return not_taken
    if len(number) > 1 and number.startswith(ZERO):
        return LEADING_ZERO
    if len(number) > kind.digits:
        return f"more than {kind.digits} digits"
    return MINUS_BEFORE_ZERO if minus and number == ZERO else None


def wrong_in(kind, field):
    """What is wrong with a field of a column of this kind, or None."""
    if field == b"":
        return EMPTY
    if kind not in NO_NUMBERS:
        return wrong_in_number(kind, field)
    taken, most, too_many = NO_NUMBERS[kind]
    not_taken = first_not_taken(taken, field)
    if not_taken is not None:
        return not_taken
    return too_many if len(field) > most else None
