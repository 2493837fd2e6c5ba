"""Whole inputs of a list, for the edges of the program that reads it: name and
bytes of each.

Wrong headers, last lines cut short, lists that end at, before or past the end of a
block, lists with lines of which something is said, and short ones with long answers.
"""

from functools import lru_cache
from itertools import chain, cycle, islice

from broken_fields import broken_fields
from cases import CheckFailed, Generator
from damage import BYTE_ORDER_MARK, CR, LF, LONG, NUL, with_field, with_more
from faults import REFUSED, refused_lines
from limit_lines import limit_lines
from lists import BEFORE, COMMA, FORWARD, LINE_END
from messages import SAID_MOST
from nearest_lines import nearest_lines
from samples import GOOD, NEXT, WIDEST, drawn_line

SEED = 602


def listed(one, *lines):
    """A list of these lines, each with its CRLF."""
    return LINE_END.join((one.header, *lines, b""))


def example(one):
    return listed(one, GOOD[one], NEXT[one])


# First lines that are no header, made of one that is.
WRONG_HEADERS = {
    "upper case": lambda h: h.upper(),
    "one capital": lambda h: h.replace(b"id", b"Id"),
    "trailing space": lambda h: h + b" ",
    "leading space": lambda h: b" " + h,
    "trailing tab": lambda h: h + b"\t",
    "spaces after commas": lambda h: h.replace(COMMA, b", "),
    "byte order mark": lambda h: BYTE_ORDER_MARK + h,
    "16-bit letters": lambda h: h.decode("ascii").encode("utf-16"),
    "trailing comma": lambda h: h + COMMA,
    "leading comma": lambda h: COMMA + h,
    "last field missing": lambda h: h[: h.rindex(COMMA)],
    "first field missing": lambda h: h.removeprefix(b"id,"),
    "a field more": lambda h: h + b",x",
    "cut by a byte": lambda h: h[:-1],
    "cut to a byte": lambda h: h[:1],
    "longer by a byte": lambda h: h + b"l",
    "first byte missing": lambda h: h[1:],
    "quotes": lambda h: b'"' + h.replace(COMMA, b'","') + b'"',
    "first field in quotes": lambda h: h.replace(b"id", b'"id"'),
    "semicolons": lambda h: h.replace(COMMA, b";"),
    "NUL before": lambda h: NUL + h,
    "NUL inside": lambda h: h.replace(b"id", b"i\0"),
    "NUL after": lambda h: h + NUL,
    "CR before": lambda h: CR + h,
    "CR after": lambda h: h + CR,
    "LF before": lambda h: LF + h,
    "LF after": lambda h: h + LF,
    "LF inside": lambda h: h.replace(COMMA, COMMA + LF),
    "empty line first": lambda h: b"",
    "header twice": lambda h: h + h,
    "200 letters": lambda h: b"x" * 200,
    "201 letters": lambda h: b"x" * 201,
    "300 letters": lambda h: b"x" * 300,
    "70000 letters": lambda h: b"x" * LONG,
    "header, spaces to 200": lambda h: h.ljust(200),
    "header, spaces to 201": lambda h: h.ljust(201),
    "header, spaces to 300": lambda h: h.ljust(300),
    "CR as byte 201": lambda h: h.ljust(200) + CR,
    "header after 200 bytes": lambda h: b"x" * 200 + h,
}


def wrong_headers(one):
    for kind, change in WRONG_HEADERS.items():
        yield kind, change(one.header)
    yield "header of answers", one.answer_header
    yield "good line first", GOOD[one]


def edge_runs(one):
    header = one.header
    both = example(one)
    yield "empty", b""
    yield "CRLF only", LINE_END
    yield "two CRLF", LINE_END + LINE_END
    yield "CR only", CR
    yield "LF only", LF
    yield "LF CR", LF + CR
    yield "NUL only", NUL
    yield "byte order mark only", BYTE_ORDER_MARK
    yield "header", listed(one)
    yield "header without CRLF", header
    yield "header, CR", header + CR
    yield "header, LF", header + LF
    yield "header, CR CR LF", header + CR + LINE_END
    yield "header, CRLF, CR", listed(one) + CR
    yield "header, CRLF, LF", listed(one) + LF
    yield "header, CRLF, NUL", listed(one) + NUL
    yield "wrong header without CRLF", header[:-1]
    yield "header after an empty line", LINE_END + listed(one, GOOD[one])
    yield "lines ended by LF", both.replace(LINE_END, LF)
    yield "lines ended by CR", both.replace(LINE_END, CR)
    yield "lines ended by LF CR", both.replace(LINE_END, LF + CR)
    # Each is followed by a good line, which is not to be answered.
    for kind, first in wrong_headers(one):
        yield f"wrong header: {kind}", first + LINE_END + GOOD[one] + LINE_END


def row_runs(one):
    good, after = GOOD[one], NEXT[one]
    both = example(one)
    yield "example", both
    yield "example without last CRLF", both.removesuffix(LINE_END)
    yield "example, last CR", both.removesuffix(LF)
    yield "example, CR at the end", both + CR
    yield "example, LF at the end", both + LF
    yield "example, empty line at the end", both + LINE_END
    yield "example, end mark", both + b"\x1a"
    yield "only row empty", listed(one, b"")
    yield "empty rows", listed(one, b"", b"", b"")
    yield "empty rows about a good one", listed(one, b"", good, b"")
    yield "one row", listed(one, good)
    yield "one row without CRLF", listed(one) + good
    yield "ill-formed last line without CRLF", listed(one, good) + b"F2,ag"
    yield "a byte without CRLF", listed(one, good) + b"x"
    yield "rows joined by LF", listed(one, good + LF + after)
    yield "rows joined by CR", listed(one, good + CR + after)
    yield "rows joined by LF CR", listed(one, good + LF + CR + after)
    yield "rows ended by LF", listed(one) + good + LF + after + LF
    yield "one row of four ended by LF", listed(one, good, good + LF + after, good)
    yield "CR before each CRLF", both.replace(LINE_END, CR + LINE_END)
    yield "CR before CRLF", listed(one, good + CR, after)
    yield "LF after CRLF", listed(one, good, LF + after)
    yield "CR, letter, LF", listed(one, good + CR + b"x" + LF + after)
    start = listed(one, good)
    for size in (199, 200, 201, 202, 203):
        yield f"last line of {size} bytes without CRLF", start + b"x" * size
        yield f"last line of {size} bytes and CR", start + b"x" * size + CR
        yield f"line of {size} bytes, then good", listed(one, b"x" * size, good)
    yield "100000 bytes and no CRLF", b"x" * 100000
    yield "header, 100000 bytes and no CRLF", listed(one) + b"x" * 100000
    yield "header, 100000 CR", listed(one) + CR * 100000
    yield "header, 5000 LF CR", listed(one) + (LF + CR) * 5000
    yield "header, 5000 empty lines", listed(one) + LINE_END * 5000
    yield "LF after long and empty lines", listed(one, *unlike_lines())


# Lines of which something is said, or nearly.

TWO = b"a" + LF + b"b"

# The last place at which a LF is looked for is byte 201.
PLACES = (199, 200, 201, 202)


def unlike_lines():
    """Lines long and empty, and some that a LF joins."""
    long = b"x" * LONG
    yield from (b"", TWO, long, TWO, long + LF, TWO, LF + long, long + LF + long)
    yield from (CR, TWO, CR + CR, NUL, TWO, COMMA, TWO, b"", b"")


def feeds_in_long_lines(good):
    """Long lines with a LF about the last place at which it is looked for: at their
    end, before a CR, inside, after a good line and after a CR."""
    for place in PLACES:
        start = b"x" * (place - 1) + LF
        yield from (start, start + CR, start.ljust(300, b"x"), good)
        yield good.ljust(place - 1) + LF + good
        yield b"x" * (place - 3) + CR + b"x" + LF


def joined_inputs(one):
    """Lists with lines that a LF joins."""
    good = GOOD[one]
    start = listed(one, good)
    for count in (99, 100, 101, 102, 300):
        yield f"{count} lines joined by LF", listed(one, *[TWO] * count, good)
    yield "LF in long lines", listed(one, *feeds_in_long_lines(good))
    yield "LF in the last line", start + TWO
    yield "LF CR in the last line", start + b"a" + LF + CR
    for place in PLACES:
        last = start + b"x" * (place - 1) + LF
        yield f"LF as byte {place} of the last line", last
        yield f"LF as byte {place} of the last line, CR", last + CR
        yield f"LF as byte {place} of the last line, more", last + b"x" * 9


REFUSED_PART = 40  # lines


def with_joined(lines):
    """The lines, and after each one that a LF joins."""
    return chain.from_iterable((line, TWO) for line in lines)


def ill_formed_lines(one):
    """A line too long, one with a field too few and one with a field too many; and
    for each field one in which it is empty."""
    fields = GOOD[one].split(COMMA)
    yield GOOD[one].ljust(201)
    yield COMMA.join(fields[:-1])
    yield with_more(fields, 1, b"0")
    for place in range(len(fields)):
        yield with_field(fields, place, b"")


def faulty_lines(one):
    """Lines of every sort that something may be said of, round and round: refused
    ones, such that a LF joins, and ill-formed ones."""
    sorts = (refused_lines(one), (TWO,), ill_formed_lines(one))
    return chain.from_iterable(zip(*(cycle(list(lines)) for lines in sorts)))


def refused_inputs(one):
    """Lists with refused lines; where these are records, something is said."""
    good = GOOD[one]
    lines = list(refused_lines(one))
    yield "refused lines", listed(one, *lines)
    for first in range(0, len(lines), REFUSED_PART):
        some = [(line, good) for line in lines[first:][:REFUSED_PART]]
        data = listed(one, *chain.from_iterable(some))
        yield f"refused lines from {first} on, good ones between", data
    for count in (100, 101):
        yield f"{count} refused lines", listed(one, *lines[:1] * count, good)
    both = list(islice(cycle(with_joined(lines)), 100))
    yield "50 refused lines, 50 joined by LF", listed(one, *both, good)
    yield "51 refused lines, 50 joined by LF", listed(one, *both, lines[0], good)


def broken_lines(one):
    """Each way to break a field of each kind that the list has, by turns in the
    fields of that kind."""
    for kind in dict.fromkeys(one.kinds):
        places = [place for place, like in enumerate(one.kinds) if like == kind]
        for (field, _), place in zip(broken_fields(kind), cycle(places)):
            yield with_field(GOOD[one].split(COMMA), place, field)


# Lines of one field and of two, of as many bytes as a line may have and of more.
ODD_LINES = (
    *(b"", COMMA, b"x", b"x,", b",x", b"x" * 200, b"x" * 201, b"," * 200, b"," * 201),
    *(COMMA + b"x" * 199, COMMA + b"x" * 200, b"x" * 200 + COMMA, b"x" * 200 + CR),
)


def ill_formed_inputs(one):
    """Lists with ill-formed lines, of each of which something is said."""
    good = GOOD[one]
    lines = list(broken_lines(one))
    for first in range(0, len(lines), SAID_MOST):
        data = listed(one, *lines[first:][:SAID_MOST])
        yield f"broken fields from {first} on", data
    odd = chain.from_iterable((line, good) for line in ODD_LINES)
    yield "odd lines, good ones between", listed(one, *odd)
    lines = list(ill_formed_lines(one))
    between = chain.from_iterable((line, good) for line in lines)
    yield "ill-formed lines, good ones between", listed(one, *between)
    for count in (100, 101):
        some = islice(cycle(lines), count)
        yield f"{count} ill-formed lines", listed(one, *some, good)
    mixed = islice(faulty_lines(one), 300)
    yield "300 lines, each with a fault or refused", listed(one, *mixed, good)
    for line, name in zip(lines, ("long", "short of a field", "of a field more")):
        yield f"line {name}, without CRLF", listed(one, good) + line
    yield "line with an empty field, without CRLF", listed(one, good) + lines[-1]


def first_refused(one):
    """The first line of each number, and of 7 also the first for a coefficient."""
    first = {}
    for line, number, cell in REFUSED[one]:
        first.setdefault((number, cell is None), line)
    return first.values()


def open_inputs(one):
    """Lists whose last line, with a fault, lacks its CRLF."""
    for line in first_refused(one):
        label = line.decode("ascii").split(",")[0]
        yield f"refused {label} without CRLF", listed(one, GOOD[one]) + line
    refused = next(refused_lines(one))
    for count in (99, 100):
        start = listed(one, *[TWO] * count)
        yield f"{count} lines joined by LF, one without CRLF", start + TWO
        yield f"{count} lines joined by LF, refused without CRLF", start + refused
        yield f"{count} lines joined by LF, a short one without CRLF", start + b"x"


def limit_inputs(one):
    """Lists with resistances about their limits."""
    if one in BEFORE:
        lines = list(limit_lines(one))
        yield "about the limits of R and R0", listed(one, *lines)
        between = chain.from_iterable((line, GOOD[one]) for line in lines)
        yield "about the limits, good ones between", listed(one, *between)
        yield "largest R without CRLF", listed(one) + WIDEST[one]


def nearest_inputs(one):
    """Lists with half a unit of a ratio to be rounded."""
    if one in BEFORE:
        lines = list(nearest_lines(one))
        yield "about half a unit", listed(one, *lines)
        between = chain.from_iterable((line, GOOD[one]) for line in lines)
        yield "about half a unit, good ones between", listed(one, *between)


def said_inputs(one):
    """Lists about what is said of lines, each small enough to be fed slowly."""
    yield from joined_inputs(one)
    yield from refused_inputs(one)
    yield from open_inputs(one)
    yield from limit_inputs(one)
    yield from nearest_inputs(one)


# Lines that are shorter than their answers: those to one read are more than the
# program writes at once, and it feeds the rest again. Of empty lines something is
# said, but only of the first hundred. Of answered ones nothing is; of all lists only
# the one of steps has such.

EMPTY = b""
ZERO_STEP = b"X,curve,0,0,0,0,0,0"

SHORT = 20000  # empty lines
ZERO_STEPS = 10000
AT_ONCE = 65536  # bytes
NEAR = 200  # bytes


def faulty_at(one, line, count, step):
    """So many lines like this one, and each so many lines a faulty one."""
    lines = [line] * count
    for place, faulty in zip(range(step, count, step), faulty_lines(one)):
        lines[place] = faulty
    return lines


def faulty_about_edges(one, like, most):
    """Lines like this one, and faulty ones where the answers come to the end of a
    block: so many bytes in all at most."""
    faults = faulty_lines(one)
    read = len(listed(one))
    size = len(one.answer_header + LINE_END)
    while True:
        near = size > NEAR and (size + NEAR) % AT_ONCE < 2 * NEAR
        line = next(faults) if near else like
        read += len(line + LINE_END)
        if read > most:
            return
        yield line
        size += len(one.answer_line(line) + LINE_END)


def long_answers(one):
    """Lists whose answers to one read are long. Of the steps answered, less than a
    hundred have a fault, more than a hundred, and those where a block ends."""
    lines = faulty_at(one, EMPTY, SHORT, 75)
    yield "long answers, empty lines", listed(one, *lines)
    lines = faulty_about_edges(one, EMPTY, 2 * SHORT)
    yield "long answers, others about the ends of blocks", listed(one, *lines)
    if one is FORWARD:
        for step in (150, 50):
            lines = faulty_at(one, ZERO_STEP, ZERO_STEPS, step)
            yield f"long answers, each {step} lines a fault", listed(one, *lines)
        lines = faulty_about_edges(one, ZERO_STEP, AT_ONCE)
        yield "long answers, faults about the end of a block", listed(one, *lines)


BLOCKS = (4096, 8192, 65536, 131072)

BIG = 30000


@lru_cache(maxsize=None)
def tails(one):
    """Good lines without their ids, to be used again and again."""
    generator = Generator(SEED)
    return [drawn_line(one, generator).split(COMMA, 1)[1] for _ in range(500)]


def numbered(i, tail):
    return b"F%05d," % i + tail


def filled(one, size):
    """A list of exactly this many bytes, CRLFs counted, every line answered."""
    lines = []
    left = size - len(listed(one))
    while left >= 1000:
        lines.append(numbered(len(lines), tails(one)[len(lines) % len(tails(one))]))
        left -= len(lines[-1] + LINE_END)
    # The rest is filled by lines of one length, ids made longer where needed.
    tail = GOOD[one].split(COMMA, 1)[1]
    count = left // len(numbered(0, tail) + LINE_END)
    more = left - count * len(numbered(0, tail) + LINE_END)
    for _ in range(count):
        wider = min(more, 10)
        lines.append(numbered(len(lines), tail).replace(COMMA, b"-" * wider + COMMA, 1))
        more -= wider
    data = listed(one, *lines)
    if len(data) != size:
        raise CheckFailed(f"list of {len(data)} bytes, due {size}")
    return data


def block_runs(one):
    """Lists in which a block of input ends at each sort of place."""
    after = GOOD[one] + LINE_END + NEXT[one] + LINE_END
    for size in BLOCKS:
        cut = filled(one, size + 1)
        open_end = filled(one, size + 2).removesuffix(LINE_END)
        yield f"{size} bytes", filled(one, size)
        yield f"{size + 1} bytes", cut
        yield f"{size} bytes without last CRLF", open_end
        yield f"{size} bytes, the last CR", cut.removesuffix(LF)
        yield f"CRLF ends at byte {size}", filled(one, size) + after
        yield f"CRLF cut at byte {size}", cut + after
        yield f"line cut at byte {size}", filled(one, size + 25) + after
        yield f"CR but no LF at byte {size}", cut.removesuffix(LF) + after
        long = b"x" * 201 + LINE_END
        yield f"line too long at byte {size}", filled(one, size - 200) + long + after
        # A line ended by LF alone, and so joined to the next.
        lines = filled(one, size + 1).removesuffix(LINE_END)
        yield f"LF but no CR at byte {size}", lines + LF + after
        yield f"LF but no CR after byte {size}", open_end + LF + after


def big_lines(one):
    return [numbered(i, tails(one)[i % len(tails(one))]) for i in range(BIG)]


FAULT_EVERY = 400  # lines, so that less than a hundred are said


def big_faulty(one):
    """The big list with faulty lines of every sort in it."""
    lines = big_lines(one)
    faults = faulty_lines(one)
    for place in range(FAULT_EVERY, BIG, FAULT_EVERY):
        lines[place] = next(faults)
    return listed(one, *lines)


def whole_inputs(one):
    """Name and input of each."""
    yield from edge_runs(one)
    yield from row_runs(one)
    yield from block_runs(one)
    yield from said_inputs(one)
    yield from ill_formed_inputs(one)
    yield from long_answers(one)
    yield "big list", listed(one, *big_lines(one))
    yield "big list with faults", big_faulty(one)
