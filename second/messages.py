"""How bytes stand in a message, and what the programs say on standard error."""

from itertools import islice, zip_longest

from field_words import wrong_in
from lists import (
    COMMA,
    LINE_MOST,
    PROGRAMS,
    RECORDS,
    WRONG_COUNT,
    WRONG_LENGTH,
    answer,
    lines_of,
    list_of,
)

MOST = 260

# So many first bytes of an input are looked at where its header is wrong.
KEPT = 128

LF = b"\n"
CR = b"\r"

MARK = b"\xef\xbb\xbf"
WIDE = (b"\xff\xfe", b"\xfe\xff")

# Ends each line of a list with CRLF.
MENDING = r"sed 's/\r*$/\r/;$a\' LIST"

EMPTY = "the input is empty"
MARKED = "it begins with a byte order mark: save the list as plain text, without one"
WIDE_TEXT = "it is UTF-16: save the list as plain text (ASCII or UTF-8)"
QUOTES = "it has quotes: save the list without them"
SEMICOLONS = "it has semicolons: separate the fields by commas"
BLANKS = "it has blanks: write the header without them"
FEEDS = f"its lines end with LF alone, and CRLF is wanted: {MENDING}"

# So many first bytes of a line are looked at.
LOOKED_AT = LINE_MOST + 1

SAID_MOST = 100  # messages of lines

JOINED = (
    "it holds a LF without CR, which ends no line, and nothing in it is answered; "
    f"to mend the list: {MENDING}"
)
LONG_LINE = f"it has more than {LINE_MOST} bytes"
# Of a record's refusals, what is said of the first cell at fault.
OF_CELL = {
    1: "its R or R0 is outside its limits",
    2: "its ratio is above 4.4",
    4: "the subrange needs this cell, and it was not measured",
    6: "the purity relation is not met",
    7: "its deviation is beyond the limit",
}
OF_COEFFICIENT = "7: a coefficient is beyond its limit"
COUNTED = "lines answered"
MORE = f"more lines have a fault; only the first {SAID_MOST} are said"


def shown(data):
    if data is None:
        return "nothing"
    text = ascii(data.decode("latin-1"))[1:-1]
    return text if len(text) <= MOST else f"{text[:MOST]}.. of {len(data)} bytes"


def first_unlike(came, due):
    """The first line that is not as due, and what is due there, both shown."""
    pairs = zip_longest(came.split(LF), due.split(LF))
    in_came, in_due = next(pair for pair in pairs if pair[0] != pair[1])
    return f"{shown(in_came)}, due {shown(in_due)}"


# Of a wrong header.


def first_line(kept):
    """The first line of the kept bytes, and whether LF alone ends it."""
    line, feed, _ = kept.partition(LF)
    if feed and line.endswith(CR):
        return line[:-1], False
    return line, feed == LF


def reason(data):
    """The usual reason for a wrong header, where one is seen."""
    kept = data[:KEPT]
    line, alone = first_line(kept)
    seen = (
        (kept == b"", EMPTY),
        (kept.startswith(MARK), MARKED),
        (kept.startswith(WIDE), WIDE_TEXT),
        (b'"' in line, QUOTES),
        (b";" in line, SEMICOLONS),
        (b" " in line, BLANKS),
        (alone, FEEDS),
    )
    return next((why for is_seen, why in seen if is_seen), None)


def printable(byte):
    return chr(byte) if 0x20 <= byte <= 0x7E else "."


def said_of_header(program, data):
    """What is said of a wrong header."""
    line, _ = first_line(data[:KEPT])
    headers = [known.header.decode("ascii") for known in PROGRAMS[program]]
    yield f"{program}: the first line is not the header of a list that it answers"
    yield "  read:     " + "".join(map(printable, line))
    yield "  expected: " + headers[0]
    yield from ("        or: " + header for header in headers[1:])
    why = reason(data)
    if why is not None:
        yield "  " + why


# Of the lines after a right one.


def said_of_fault(one, line, fault):
    """What is said of an ill-formed line."""
    if fault.number == WRONG_LENGTH:
        return LONG_LINE
    fields = line.split(COMMA)
    if fault.number == WRONG_COUNT:
        count = "1 field" if len(fields) == 1 else f"{len(fields)} fields"
        return f"it has {count}, and the header has {len(one.titles)}"
    place = fault.field - 1
    wrong = wrong_in(one.kinds[place], fields[place])
    return f"field {fault.field}, {one.titles[place]}: {wrong}"


def said_of_record(outcome, cell):
    """What is said of a record with this outcome, or None."""
    if cell is not None:
        return f"{outcome}, {cell.lower()}: {OF_CELL[outcome]}"
    return OF_COEFFICIENT if outcome == 7 else None


def said_of_line(one, line):
    """What is said of a line after the header, or None."""
    # No field takes a LF, so that the line is ill-formed.
    if LF in line[:LOOKED_AT]:
        return JOINED
    fault = one.fault_of(line)
    if fault is not None:
        return said_of_fault(one, line, fault)
    if one not in RECORDS:
        return None
    _, subrange, *numbers = one.values_of(line)
    return said_of_record(*one.outcome_of(subrange, *numbers))


def said_of_lines(program, one, lines):
    """What is said of these lines, which are all after the header: of the first
    hundred with a fault, and then once that there are more. No line past that is
    looked at."""
    numbered = ((n, said_of_line(one, line)) for n, line in enumerate(lines, 2))
    faults = (f"line {n}: {fault}" for n, fault in numbered if fault is not None)
    yield from (f"{program}: {fault}" for fault in islice(faults, SAID_MOST))
    if next(faults, None) is not None:
        yield f"{program}: {MORE}"


def said_at_end(program, data):
    """The lines after the header counted by their code: 0, and any other."""
    _, *answers = lines_of(answer(program, data))
    answered = sum(line.endswith(b",0") for line in answers)
    return f"{program}: {COUNTED}: {answered}, refused: {len(answers) - answered}"


def written(messages):
    return "".join(message + "\n" for message in messages).encode("ascii")


def said(program, data, terminal=False):
    """All that the program says on standard error where it reads `data`; on a
    terminal also how many lines it has answered."""
    one = list_of(program, data)
    if one is None:
        return written(said_of_header(program, data))
    _, *lines = lines_of(data)
    messages = list(said_of_lines(program, one, lines))
    if terminal:
        messages.append(said_at_end(program, data))
    return written(messages)
