"""Makes the expected outputs crates/NAME/stdout, the input of `launchlist` and the
answers to the example lists, and compares the files with them."""

import sys

# A test run leaves nothing behind in the folder.
sys.dont_write_bytecode = True

import subprocess
from functools import partial
from itertools import zip_longest
from pathlib import Path
from tempfile import TemporaryDirectory

import cards
import damage
import launchlist_cases
import long_round
import reading
import register
import register_cases
import register_story
import tables
from cases import CheckFailed
from certificate import WR, certify, given
from curve import allows, forward, read, tolerance
from faults import refused_lines
from limit_lines import limit_lines
from lists import BEFORE, LISTS, READINGS, answer, lines_of, list_of
from messages import MENDING, said, shown
from moves import check_moved
from nearest_lines import nearest_lines
from promises import Survey
from quantity import Refused, kelvin, quotient_down, ratio
from reading import deviation_at
from reference import BELOW, PAST, PAST_TOP, TOP, inverse, working
from register import Entry
from samples import GOOD

ROOT = Path(__file__).resolve().parent.parent

# The example lists and the program that answers each. They are written by hand, but
# for the long one.
EXAMPLES = {
    "round": "launchlist",
    "long-round": "launchlist",
    "records": "benchlist",
    "resistances": "benchlist",
    "steps": "benchlist",
    "tolerances": "benchlist",
}


def example_list(name):
    file = ROOT / "examples" / f"{name}.csv"
    if not file.is_file():
        raise CheckFailed(f"examples/{name}.csv is missing")
    return file.read_bytes()


def example_answer(name):
    """The answer, with nothing in it moved that may not."""
    data = example_list(name)
    made = answer(EXAMPLES[name], data)
    for line, due in list(zip(lines_of(data), lines_of(made)))[1:]:
        check_moved(list_of(EXAMPLES[name], data), line, due, Survey())
    return made


# Each file and its maker; a program may have several.
MAKERS = {
    "crates/cards/stdout": cards.make,
    "crates/tables/stdout": tables.make,
    "crates/register_cases/stdout": register_cases.make,
    "crates/register_story/stdout": register_story.make,
    "crates/launchlist/stdin": launchlist_cases.stdin,
    "crates/launchlist/stdout": launchlist_cases.stdout,
    "crates/benchlist/stdin": partial(example_list, "records"),
    "crates/benchlist/stdout": partial(example_answer, "records"),
    "examples/long-round.csv": long_round.make,
    **{
        f"examples/{name}.answer.csv": partial(example_answer, name)
        for name in EXAMPLES
    },
}

USAGE = """\
usage: python3 second/expected.py              compare the files
       python3 second/expected.py --write      write the files
       python3 second/expected.py --show FILE  print one as made
FILE is a path as listed by comparing, or NAME for crates/NAME/stdout.
"""


def outcome(function, arguments):
    try:
        return function(*arguments)
    except Refused as refused:
        return str(refused)


CLASS_A = ord("A")
CLASS_B = ord("B")

LIMIT_PASSES = (False, True, True, False)


def about_limit(letter, bath, limit):
    """Whether each error passes: one past the limit and the limit, either sign."""
    errors = (-limit - 1, -limit, limit, limit + 1)
    return tuple(allows(letter, bath, error) for error in errors)


def rounds_to_wr(cell, step):
    """Whether the working value at the cell's step is its Wr, to 8 decimals."""
    return quotient_down(working(step) + 500, 1000) * 1000 == WR[cell]


# A sensor without deviation: each cell's ratio is its Wr.
NO_DEVIATION = {
    "Hg": 844_142_110,
    "Ga": 1_118_138_890,
    "In": 1_609_801_850,
    "Sn": 1_892_797_680,
    "Zn": 2_568_917_300,
    "Al": 3_376_008_600,
    "Ag": 4_286_420_530,
}


def certify_but(name, changed):
    """What that sensor's record gives with some of its ratios changed."""
    return certify(name, {**NO_DEVIATION, **changed})


def sound(*certificate):
    """Whether a given certificate is answered as it is."""
    return given(*certificate) == certificate


W_AL = 3_376_008_600  # aluminium without deviation

ZERO_GA = ("ga", 0, 0, 0, 0, 0)
ZERO_IN = ("in", 0, 0, 0, 0, 0)
ZERO_AG = ("ag", 0, 0, 0, 0, W_AL)
ZERO_CURVE = ("curve", 0, 0, 0, 0, 0)

# Certificates at the limit of their coefficients.
FULL_AL = ("al", 10**8, 10**8, 10**8, 0, 0)
FULL_D = ("ag", 0, 0, 0, 10**8, W_AL)


def read_ratio(certificate, w):
    """What reading the ratio gives, its divisor 25 ohm."""
    return reading.read(*certificate, w * 25, 25 * 10**9)


def alike(certificate, w, wr):
    """Whether `w` reads as `wr` does where there is no deviation."""
    plain = (certificate[0], 0, 0, 0, 0, certificate[5])
    return read_ratio(certificate, w) == read_ratio(plain, wr)


def about_top(name):
    """What a certificate without deviation gives about its subrange's top.

    The working value at the top is Wr to 8 decimals, so a reading 5 units of
    10^-9 over Wr is at the top and 6 units under it is not; a step is 280 to
    400 units, so 500 over Wr is past it.
    """
    cell = name.capitalize()
    plain = (name, 0, 0, 0, 0, W_AL if name == "ag" else 0)
    shifts = (-6, 5, 500)
    return [outcome(read_ratio, (plain, NO_DEVIATION[cell] + n)) for n in shifts]


def past_top_of_ga(short):
    """What a reading by ga gives whose Wr is the working value one step past the
    top less `short` units, made so by the least a that does it."""
    wr = working(297_647) - short
    w = -(-wr // 100)
    a = -((wr - 100 * w) * 10**9 // (w - 10**9))
    return read_ratio(("ga", a, 0, 0, 0, 0), w)


def crlf(text):
    """The lines of a text in ASCII, each ended by CRLF."""
    return text.replace("\n", "\r\n").encode("ascii")


# The two lists of the document.
LIST = crlf(
    """\
id,law,r,r0,a,b,c,d,wal
F1,curve,138505500000,100000000000,0,0,0,0,0
F2,ag,69539313500,25000000000,0,0,0,0,3376008600
F3,zn,69539313500,25000000000,0,0,0,0,0
"""
)
ANSWERS = crlf(
    """\
id,law,t,code
F1,curve,1000000,0
F2,ag,4810000,0
F3,zn,,9
"""
)

LIST_HEAD = crlf("id,law,r,r0,a,b,c,d,wal\n")
ANSWER_HEAD = crlf("id,law,t,code\n")
WRONG_HEADER = crlf("id,law,t,code\n?,?,,10\n")


def launchlist(data):
    return answer("launchlist", data)


def row(
    name="F1", law="curve", r="138505500000", r0="100000000000", a="0", d="0", wal="0"
):
    """The document's first line with some of its fields changed."""
    return f"{name},{law},{r},{r0},{a},0,0,{d},{wal}".encode("latin-1")


def answers(*lines):
    """What is answered to lines after the header, each ended by CRLF."""
    made = launchlist(LIST_HEAD + b"".join(line + b"\r\n" for line in lines))
    head, *rest, end = made.split(b"\r\n")
    if head + b"\r\n" != ANSWER_HEAD or end != b"":
        raise CheckFailed(f"list answered {made}")
    return b" ".join(rest).decode("ascii")


def answer_before(line):
    """What was answered to a line before request 9."""
    return BEFORE[READINGS].answer_line(line).decode("ascii")


IS_100 = "F1,curve,1000000,0"
TOO_LONG = "?,?,,12"
MISCOUNTED = "?,?,,13"


# The first lines of the lists of `benchlist`, and of their answers.
RATIOS = "id,subrange,hg,ga,in,sn,zn,al,ag"
RESISTANCES = "id,subrange,hg,hg0,ga,ga0,in,in0,sn,sn0,zn,zn0,al,al0,ag,ag0"
FORWARD = "id,law,t,a,b,c,d,wal"
TOLERANCE = "id,class,t,r,r0"
BENCH_ANSWERS = {
    RATIOS: "id,law,a,b,c,d,wal,code",
    RESISTANCES: "id,law,a,b,c,d,wal,code",
    FORWARD: "id,law,w,code",
    TOLERANCE: "id,class,result,error,code",
}


def benchlist(data):
    return answer("benchlist", data)


def bench(header, line):
    """What is answered to a line of a list of `benchlist`."""
    made = benchlist(crlf(f"{header}\n{line}\n")).decode("ascii")
    head, answered, end = made.split("\r\n")
    if head != BENCH_ANSWERS[header] or end != "":
        raise CheckFailed(f"list answered {made}")
    return answered


def said_of(header, line):
    """What is said of the first line of a list of `benchlist`."""
    made = said("benchlist", crlf(f"{header}\n{line}\n")).decode("ascii")
    return made.removeprefix("benchlist: line 2: ")


def said_of_row(line):
    """What is said of the first line of a list of `launchlist`."""
    made = said("launchlist", LIST_HEAD + line + b"\r\n").decode("ascii")
    return made.removeprefix("launchlist: line 2: ")


def refused_in_long_round():
    """The refused lines of the long example with their answers, by number."""
    lines = launchlist(long_round.make()).decode("ascii").split("\r\n")
    numbered = enumerate(lines[1:-1], 2)
    return {number: line for number, line in numbered if not line.endswith(",0")}


SAID_OF_LONG_ROUND = b"""\
launchlist: line 58: it has more than 200 bytes
launchlist: line 131: it has 8 fields, and the header has 9
launchlist: line 212: field 5, a: a leading zero
launchlist: line 268: field 3, r: a point
"""


JOINED = (
    b"launchlist: line 2: it holds a LF without CR, which ends no line, and nothing in "
    b"it is answered; to mend the list: sed 's/\\r*$/\\r/;$a\\' LIST\n"
)
FEEDS = (
    b"  its lines end with LF alone, and CRLF is wanted: sed 's/\\r*$/\\r/;$a\\' LIST"
)


def said_last(count):
    """What is said last of so many lines joined by LF."""
    return said("launchlist", LIST_HEAD + b"a\nb\r\n" * count).splitlines()[-1][:40]


def reason_of(data):
    """What is said last of a list with a wrong header."""
    return said("launchlist", data).splitlines()[-1]


def mended(data):
    """What the command that is offered makes of a list."""
    with TemporaryDirectory() as folder:
        (Path(folder) / "LIST").write_bytes(data)
        made = subprocess.run(MENDING, shell=True, cwd=folder, capture_output=True)
    return made.stdout


# How the lines of a list may end, and the last one of them.
ENDS = {
    "LF": (b"\n",),
    "CRLF": (b"\r\n",),
    "CR CR LF": (b"\r\r\n",),
    "CRLF and LF": (b"\r\n", b"\n"),
    "LF and CRLF": (b"\n", b"\r\n"),
    "LF, CRLF and CR CR LF": (b"\n", b"\r\n", b"\r\r\n"),
}
LAST_ENDS = (b"\n", b"\r\n", b"\r\r\n", b"\r", b"")


def list_ended(ends, last):
    """The document's list with its lines ended by these in turn, the last by its
    own."""
    *lines, end = LIST.removesuffix(b"\r\n").split(b"\r\n")
    ended = [line + ends[i % len(ends)] for i, line in enumerate(lines)]
    return b"".join(ended) + end + last


def mending_checks():
    """That each of these lists is mended."""
    for name, ends in ENDS.items():
        for last in LAST_ENDS:
            what = f"lines ended by {name}, the last by {last}, mended"
            yield what, LIST, mended, list_ended(ends, last)


def ratio_checks():
    """That a ratio of 14 digits breaks the rule of its column, in each cell."""
    for place in range(7):
        ratios = ["0"] * 7
        ratios[place] = "10000000000000"
        due = f"?,?,{place + 3},,,,,14"
        line = ",".join(("R1", "ga", *ratios))
        yield f"14 digits in cell {place + 1}", due, bench, RATIOS, line


NO_RECORD = crlf("id,law,a,b,c,d,wal,code\n?,?,,,,,,10\n")

# A sensor without deviation below aluminium, and all of it by 150 ohm.
FIVE_CELLS = "844142110,1118138890,1609801850,1892797680,2568917300"
SEVEN_CELLS = (
    "126621316500,150000000000,167720833500,150000000000,241470277500,150000000000,"
    "283919652000,150000000000,385337595000,150000000000,506401290000,150000000000,"
    "642963079500,150000000000"
)

# The other cells' R and R0 after those of mercury and gallium.
FIVE_NOT_MEASURED = ",0" * 10


def entry(number, serial, mark=0, certificate=ZERO_GA):
    """An entry of the register."""
    return Entry(number, serial, mark, certificate)


UNKNOWN = ("pt", 0, 0, 0, 0, 0)
UNSOUND = ("ga", 10**8 + 1, 0, 0, 0, 0)

# Free places, with a bad certificate and with one that would be live.
FREE = entry(0, 1, 0, UNKNOWN)
FREE_SOUND = entry(0, 1)
TWICE = (entry(7, 1), entry(7, 1))


def table_after(act, table, *arguments):
    """The table that an act leaves, which it must not change to refuse."""
    made = list(table)
    try:
        act(made, *arguments)
    except Refused as refused:
        if made != list(table):
            raise CheckFailed(f"{refused}, and the table is changed: {made}")
        raise
    return tuple(made)


def imports(table, *entries):
    return table_after(register.import_list, table, entries)


def withdraws(table, number, serial):
    return table_after(register.withdraw, table, number, serial)


def read_water(table, number):
    """What W = 1 is read as: the water triple point, whatever the deviation."""
    return register.read(list(table), number, 25 * 10**9, 25 * 10**9)


IS_WATER = ("ga", 100)


# What, due, then the function and its arguments. The numbers due are copied
# from the scope document or follow from it by hand; none is worked out by the
# functions under test, save where the inverse is put to the working value.
SELF_CHECKS = (
    ("card 1: working value at 0 °C", 99_996_011_000, working, 0),
    ("card 2: working value at 481 °C", 278_157_254_000, working, 4_810_000),
    ("card 9: R = 2, R0 = 3*10^8", 7, ratio, 2, 3 * 10**8),
    ("half of it, 3.33 units", 3, ratio, 1, 3 * 10**8),
    ("card 9: 4.4 exactly is a ratio", 4_400_000_000, ratio, 440 * 10**9, 10**11),
    ("under half a unit above 4.4", 4_400_000_000, ratio, 440 * 10**9 + 49, 10**11),
    ("half a unit above 4.4", "refused 2", ratio, 440 * 10**9 + 50, 10**11),
    ("card 9: one unit more", "refused 2", ratio, 440 * 10**9 + 100, 10**11),
    ("refusal 1 goes before 2", "refused 1", ratio, 10**13, 10**8 - 1),
    ("R and R0 at the most", 1_000_000_000, ratio, 10**13, 10**13),
    ("R over it", "refused 1", ratio, 10**13 + 1, 10**13),
    ("R0 over it", "refused 1", ratio, 10**13, 10**13 + 1),
    ("both over it before", 1_000_000_000, ratio, 10**12 + 1, 10**12 + 1),
    ("by the most of before", "refused 1", ratio, 10**12 + 1, 10**12, 10**12),
    ("R0 by it", "refused 1", ratio, 10**12, 10**12 + 1, 10**12),
    ("both at it", 1_000_000_000, ratio, 10**12, 10**12, 10**12),
    ("R at the most, R0 at the least", "refused 2", ratio, 10**13, 10**8),
    ("R at the most, W = 4.4", 4_400_000_000, ratio, 10**13, 2_272_727_272_470),
    ("one unit more", "refused 2", ratio, 10**13, 2_272_727_272_469),
    ("R0 at the most", 10**9, ratio, 10**13 - 5000, 10**13),
    ("one unit less", 999_999_999, ratio, 10**13 - 5001, 10**13),
    ("the least ratio over 0", 1, ratio, 5000, 10**13),
    ("less", 0, ratio, 4999, 10**13),
    ("quotient -1/2", -1, quotient_down, -1, 2),
    ("quotient 1/-2", -1, quotient_down, 1, -2),
    ("quotient -1/-2", 0, quotient_down, -1, -2),
    ("481 °C is 754.15 K", 7_541_500, kelvin, 4_810_000),
    ("under the first step", BELOW, inverse, working(0) - 1),
    ("first step", 0, inverse, working(0)),
    ("last step", 9_617_800, inverse, working(TOP)),
    ("last value of the last step", 9_617_800, inverse, working(PAST_TOP) - 1),
    ("past the last step", PAST, inverse, working(PAST_TOP)),
    # The table of cells prints 8 decimals.
    ("Wr(Ag), to 8 decimals", 428_642_053, quotient_down, working(TOP) + 500, 1000),
    ("card 7: W = 1.385055", 1_000_000, read, 1_385_055_000),
    ("card 7: W = 0.1852008", -2_000_000, read, 185_200_800),
    ("card 7: one unit less", "refused 8", read, 185_200_799),
    ("card 8: W = 3.904811542", 8_500_000, read, 3_904_811_542),
    ("card 8: W = 3.904811543", "refused 9", read, 3_904_811_543),
    ("card 9: 4.4 exactly on the curve", "refused 9", read, 4_400_000_000),
    ("card 9: one unit more on the curve", "refused 2", read, 4_400_000_001),
    ("forward at -100 °C", 602_558_400, forward, -1_000_000),
    ("nine decimals read back", -1_000_000, read, 602_558_400),
    # Exactly 1.000 000 390 829 994 225.
    ("forward at one step", 1_000_000_390, forward, 1),
    ("rounded, it reads a step below", 0, read, 1_000_000_390),
    ("one unit more", 1, read, 1_000_000_391),
    ("forward under the range", "refused 8", forward, -2_000_001),
    ("forward over the range", "refused 9", forward, 8_500_001),
    ("card 10: A at 0 °C", LIMIT_PASSES, about_limit, CLASS_A, 0, 1_500),
    ("card 10: A at -200 °C", LIMIT_PASSES, about_limit, CLASS_A, -2_000_000, 5_500),
    ("A at 650 °C", LIMIT_PASSES, about_limit, CLASS_A, 6_500_000, 14_500),
    ("B at 0 °C", LIMIT_PASSES, about_limit, CLASS_B, 0, 3_000),
    ("B at -200 °C", LIMIT_PASSES, about_limit, CLASS_B, -2_000_000, 13_000),
    ("B at 650 °C", LIMIT_PASSES, about_limit, CLASS_B, 6_500_000, 35_500),
    ("B at 850 °C", LIMIT_PASSES, about_limit, CLASS_B, 8_500_000, 45_500),
    ("A, limit 1,500.998 steps", LIMIT_PASSES, about_limit, CLASS_A, 499, 1_500),
    ("A, limit 1,501 steps", LIMIT_PASSES, about_limit, CLASS_A, -500, 1_501),
    ("A, upper limit", (True, 1_500), tolerance, CLASS_A, 0, 100_058_662_249, 10**11),
    ("A, past it", (False, 1_501), tolerance, CLASS_A, 0, 100_058_662_250, 10**11),
    ("A, lower limit", (True, -1_500), tolerance, CLASS_A, 0, 99_941_374_250, 10**11),
    ("A, past it", (False, -1_501), tolerance, CLASS_A, 0, 99_941_374_249, 10**11),
    # The class bounds the bath; the reading keeps the curve's own range.
    (
        "A, bath at 650 °C, reading 651 °C",
        (True, 10_000),
        tolerance,
        CLASS_A,
        6_500_000,
        329_955_822_300,
        10**11,
    ),
    ("3 before 8", "refused 3", tolerance, ord("C"), -2_000_001, 0, 0),
    ("3 before 9", "refused 3", tolerance, ord("a"), 8_500_001, 0, 0),
    ("A, 8 for the bath before 1", "refused 8", tolerance, CLASS_A, -2_000_001, 0, 0),
    ("A, 9 for the bath before 1", "refused 9", tolerance, CLASS_A, 6_500_001, 0, 0),
    ("B, 8 for the bath before 1", "refused 8", tolerance, CLASS_B, -2_000_001, 0, 0),
    ("B, 9 for the bath before 1", "refused 9", tolerance, CLASS_B, 8_500_001, 0, 0),
    ("R outside its limits", "refused 1", tolerance, CLASS_B, 8_500_000, 0, 10**8),
    ("2 before 9", "refused 2", tolerance, CLASS_B, 0, 10**13, 10**8),
    ("W under the range", "refused 8", tolerance, CLASS_B, 0, 1, 10**8),
    ("W over the range", "refused 9", tolerance, CLASS_B, 0, 440 * 10**9, 10**11),
    # Mercury lies below the reference function used here.
    ("Wr(Ga) at 29.7646 °C", True, rounds_to_wr, "Ga", 297_646),
    ("Wr(In) at 156.5985 °C", True, rounds_to_wr, "In", 1_565_985),
    ("Wr(Sn) at 231.928 °C", True, rounds_to_wr, "Sn", 2_319_280),
    ("Wr(Zn) at 419.527 °C", True, rounds_to_wr, "Zn", 4_195_270),
    ("Wr(Al) at 660.323 °C", True, rounds_to_wr, "Al", 6_603_230),
    ("Wr(Ag) at 961.78 °C", True, rounds_to_wr, "Ag", 9_617_800),
    (
        "card 5: W(Ga) = 1.11807",
        ("ga", -58_346_744, 0, 0, 0, 0),
        certify,
        "ga",
        {"Ga": 1_118_070_000},
    ),
    ("card 5: one unit less", "refused 6", certify, "ga", {"Ga": 1_118_069_999}),
    (
        "card 6: W(In) = 1.60970185",
        ("in", -16_401_460, 0, 0, 0, 0),
        certify,
        "in",
        {"Ga": 1_118_138_890, "In": 1_609_701_850},
    ),
    ("card 6 without Ga", "refused 5", certify, "in", {"In": 1_609_701_850}),
    ("no deviation, in", ZERO_IN, certify_but, "in", {}),
    ("no deviation, ag", ZERO_AG, certify_but, "ag", {}),
    # q2 = -112.007, b = -113/0.283, b x1 = -400 * 0.6098, each rounded downward.
    (
        "sn, tin a unit low",
        ("sn", 244, -400, 0, 0, 0),
        certify_but,
        "sn",
        {"Sn": 1_892_797_679},
    ),
    # q3 = -42.1, r23 = -43/0.807, c = -54/1.483, b = -(-37 * 2.4617), b x1 =
    # 92 * 0.8928, c x1 = -37 * 0.8928, and that times x1 -34 * 0.8928.
    (
        "al, aluminium a unit low",
        ("al", -51, 92, -37, 0, 0),
        certify_but,
        "al",
        {"Al": 3_376_008_599},
    ),
    # At silver -37 * 3.2864, -30 * 3.2864 and -150 * 3.2864 leave e = 493; d is
    # 493/0.9104, then 541/0.9104.
    (
        "ag, aluminium a unit low",
        ("ag", -51, 92, -37, 594, 3_376_008_599),
        certify_but,
        "ag",
        {"Al": 3_376_008_599},
    ),
    # 100/0.9104, then 109/0.9104; one quotient by z^2 would give 120.
    (
        "ag, silver a unit high",
        ("ag", 0, 0, 0, 119, 3_376_008_600),
        certify_but,
        "ag",
        {"Ag": 4_286_420_531},
    ),
    ("3 before 2", "refused 3", certify, "curve", {"Ga": 4_400_000_001}),
    ("2 before 4", "refused 2", certify, "ga", {"Hg": 4_400_000_001}),
    ("4.4 exactly in a cell", "refused 7", certify_but, "ga", {"Ag": 4_400_000_000}),
    ("4 before 5", "refused 4", certify, "in", {}),
    ("5 before 6", "refused 5", certify_but, "ag", {"Ga": 0, "Hg": 0, "Ag": 1}),
    ("6 before 7", "refused 6", certify, "in", {"Ga": 1_118_069_999, "In": 1}),
    ("W = 1 in a cell", "refused 7", certify_but, "in", {"In": 1_000_000_000}),
    ("Hg alone pure", ZERO_IN, certify_but, "in", {"Ga": 0, "Hg": 844_235_000}),
    ("one unit more", "refused 6", certify_but, "in", {"Ga": 0, "Hg": 844_235_001}),
    ("Hg pure, Ga not", ZERO_IN, certify_but, "in", {"Ga": 1_118_069_999}),
    ("Ag not pure", "refused 6", certify_but, "ag", {"Ag": 4_284_399_999}),
    ("Ag pure, d over 0.001", "refused 7", certify_but, "ag", {"Ag": 4_284_400_000}),
    ("Ag not pure, not used", ZERO_IN, certify_but, "in", {"Ag": 4_284_399_999}),
    # The deviation limit counts for cells without use too. For mercury it runs
    # from 843 986 096.1 to 844 297 812.2, for aluminium from 3 373 634 965.03
    # to 3 378 386 986.99.
    ("Hg over its lower limit", ZERO_IN, certify_but, "in", {"Hg": 843_986_097}),
    ("Hg under it", "refused 7", certify_but, "in", {"Hg": 843_986_096}),
    ("Hg under its upper limit", ZERO_IN, certify_but, "in", {"Hg": 844_297_812}),
    ("Hg over it", "refused 7", certify_but, "in", {"Hg": 844_297_813}),
    ("W(Al) over its lower limit", True, sound, "ag", 0, 0, 0, 0, 3_373_634_966),
    ("W(Al) under it", "refused 7", sound, "ag", 0, 0, 0, 0, 3_373_634_965),
    ("W(Al) under its upper limit", True, sound, "ag", 0, 0, 0, 0, 3_378_386_986),
    ("W(Al) over it", "refused 7", sound, "ag", 0, 0, 0, 0, 3_378_386_987),
    ("W(Al) not given", "refused 7", sound, "ag", 0, 0, 0, 0, 0),
    ("card 5 as given", True, sound, "ga", -58_346_744, 0, 0, 0, 0),
    ("card 6 as given", True, sound, "in", -16_401_460, 0, 0, 0, 0),
    ("a = 0.001", True, sound, "ga", 100_000_000, 0, 0, 0, 0),
    ("a over it", "refused 7", sound, "ga", 100_000_001, 0, 0, 0, 0),
    ("a = -0.001", True, sound, "ga", -100_000_000, 0, 0, 0, 0),
    ("a under it", "refused 7", sound, "ga", -100_000_001, 0, 0, 0, 0),
    ("curve", True, sound, "curve", 0, 0, 0, 0, 0),
    ("curve, a not 0", "refused 7", sound, "curve", 1, 0, 0, 0, 0),
    ("in, b not 0", "refused 7", sound, "in", 0, 1, 0, 0, 0),
    ("zn, b used", True, sound, "zn", 0, 1, 0, 0, 0),
    ("zn, c not 0", "refused 7", sound, "zn", 0, 0, 1, 0, 0),
    ("al, c used", True, sound, "al", 0, 0, 1, 0, 0),
    ("al, d not 0", "refused 7", sound, "al", 0, 0, 0, 1, 0),
    ("al, W(Al) not 0", "refused 7", sound, "al", 0, 0, 0, 0, 3_376_008_600),
    ("3 before 7", "refused 3", sound, "pt", 100_000_001, 0, 0, 0, 0),
    ("card 3: W = 2.78157254", ("ag", 4_810_000), read_ratio, ZERO_AG, 2_781_572_540),
    ("card 3: one unit less", ("ag", 4_809_999), read_ratio, ZERO_AG, 2_781_572_539),
    ("card 4: W = 0.99996011", ("ag", 0), read_ratio, ZERO_AG, 999_960_110),
    ("card 4: one unit less", "refused 8", read_ratio, ZERO_AG, 999_960_109),
    ("card 9: 4.4 exactly by ag", "refused 9", read_ratio, ZERO_AG, 4_400_000_000),
    ("card 9: one unit more", "refused 2", read_ratio, ZERO_AG, 4_400_000_001),
    ("card 9: 4.4 exactly by ga", "refused 9", read_ratio, ZERO_GA, 4_400_000_000),
    ("card 9: one unit more", "refused 2", read_ratio, ZERO_GA, 4_400_000_001),
    (
        "list, F1",
        ("curve", 1_000_000),
        reading.read,
        *ZERO_CURVE,
        138_505_500_000,
        100_000_000_000,
    ),
    (
        "list, F2",
        ("ag", 4_810_000),
        reading.read,
        *("ag", 0, 0, 0, 0, 3_376_008_600),
        69_539_313_500,
        25_000_000_000,
    ),
    (
        "list, F3",
        "refused 9",
        reading.read,
        *("zn", 0, 0, 0, 0, 0),
        69_539_313_500,
        25_000_000_000,
    ),
    # Card 7 by this call.
    ("curve, -200 °C", ("curve", -2_000_000), read_ratio, ZERO_CURVE, 185_200_800),
    ("curve, one unit less", "refused 8", read_ratio, ZERO_CURVE, 185_200_799),
    ("top of ga", [("ga", 297_645), ("ga", 297_646), "refused 9"], about_top, "ga"),
    ("top of in", [("in", 1_565_984), ("in", 1_565_985), "refused 9"], about_top, "in"),
    ("top of sn", [("sn", 2_319_279), ("sn", 2_319_280), "refused 9"], about_top, "sn"),
    ("top of zn", [("zn", 4_195_269), ("zn", 4_195_270), "refused 9"], about_top, "zn"),
    ("top of al", [("al", 6_603_229), ("al", 6_603_230), "refused 9"], about_top, "al"),
    ("top of ag", [("ag", 9_617_799), ("ag", 9_617_800), "refused 9"], about_top, "ag"),
    ("Wr at the value past the top", "refused 9", past_top_of_ga, 0),
    ("one unit less", ("ga", 297_646), past_top_of_ga, 1),
    # By definition the water triple point, 0.01 °C, whatever the deviation.
    ("W = 1", ("al", 100), read_ratio, FULL_AL, 1_000_000_000),
    # 0.001 times 1 + 1 + 1, 2 + 4 + 8, and -1 + 1 - 1.
    ("deviation, W = 2", 300_000_000, deviation_at, FULL_AL, 2 * 10**9),
    ("deviation, W = 3", 1_400_000_000, deviation_at, FULL_AL, 3 * 10**9),
    ("deviation, W = 0", -100_000_000, deviation_at, FULL_AL, 0),
    ("W = 2 as 1.997", True, alike, FULL_AL, 2 * 10**9, 1_997_000_000),
    ("W = 3 as 2.986", True, alike, FULL_AL, 3 * 10**9, 2_986_000_000),
    # 1 times 0.000 000 001 either way, then 1 times 1.9, twice and three times.
    ("deviation just under 0", -1, deviation_at, ("ga", 1, 0, 0, 0, 0), 999_999_999),
    ("deviation just over 0", 0, deviation_at, ("ga", 1, 0, 0, 0, 0), 1_000_000_001),
    ("two products", 1, deviation_at, ("zn", 0, 1, 0, 0, 0), 2_900_000_000),
    ("three products", 1, deviation_at, ("al", 0, 0, 1, 0, 0), 2_900_000_000),
    # 0.001 times 0.25 half a unit above W(Al), and no d term below it.
    ("d above W(Al)", 25_000_000, deviation_at, FULL_D, W_AL + 5 * 10**8),
    ("d at W(Al)", 0, deviation_at, FULL_D, W_AL),
    ("d below W(Al)", 0, deviation_at, FULL_D, W_AL - 5 * 10**8),
    # 3 times 0.9 rounded, that times 0.9; times 0.81 it would be 2.
    ("d, two products", 1, deviation_at, ("ag", 0, 0, 0, 3, W_AL), W_AL + 9 * 10**8),
    ("d a unit above W(Al)", -1, deviation_at, ("ag", 0, 0, 0, -1, W_AL), W_AL + 1),
    ("d at W(Al), downward", 0, deviation_at, ("ag", 0, 0, 0, -1, W_AL), W_AL),
    ("d a unit below W(Al)", 0, deviation_at, ("ag", 0, 0, 0, -1, W_AL), W_AL - 1),
    (
        "W = 3.8760086 as 3.8757586, for d",
        True,
        alike,
        FULL_D,
        3_876_008_600,
        3_875_758_600,
    ),
    (
        "W = 2.8760086 as itself, without d",
        True,
        alike,
        FULL_D,
        2_876_008_600,
        2_876_008_600,
    ),
    ("card 3 by d", ("ag", 4_810_000), read_ratio, FULL_D, 2_781_572_540),
    ("W(Al) by d", True, alike, FULL_D, W_AL, W_AL),
    ("one unit less", True, alike, FULL_D, W_AL - 1, W_AL - 1),
    ("reading, 3 before 7", "refused 3", reading.read, "pt", 10**9, 0, 0, 0, 0, 0, 0),
    ("reading, 7 before 1", "refused 7", reading.read, "ga", 10**9, 0, 0, 0, 0, 0, 0),
    ("curve, 7 before 1", "refused 7", reading.read, "curve", 0, 0, 0, 0, 1, 0, 0),
    ("reading, 1 before 2", "refused 1", reading.read, *ZERO_GA, 10**13 + 1, 10**8),
    ("reading, 2 before 9", "refused 2", reading.read, *ZERO_GA, 10**13, 10**8),
    ("forward, 0 °C", ("ag", 999_960_110), reading.forward, *ZERO_AG, 0),
    ("forward, 481 °C", ("ag", 2_781_572_540), reading.forward, *ZERO_AG, 4_810_000),
    ("forward, 0 °C by the curve", ("curve", 10**9), reading.forward, *ZERO_CURVE, 0),
    ("forward, 3 before 7", "refused 3", reading.forward, "pt", 10**9, 0, 0, 0, 0, 0),
    ("forward, 7 before 8", "refused 7", reading.forward, "ga", 10**9, 0, 0, 0, 0, -1),
    ("forward, under 0 °C", "refused 8", reading.forward, *ZERO_GA, -1),
    ("forward, over the top of ga", "refused 9", reading.forward, *ZERO_GA, 297_647),
    ("forward, over that of ag", "refused 9", reading.forward, *ZERO_AG, 9_617_801),
    ("curve, under -200 °C", "refused 8", reading.forward, *ZERO_CURVE, -2_000_001),
    ("curve, over 850 °C", "refused 9", reading.forward, *ZERO_CURVE, 8_500_001),
    (
        "class A by the curve",
        ("curve", True, 1_500),
        reading.tolerance,
        CLASS_A,
        0,
        100_058_662_249,
        10**11,
    ),
    ("no class", "refused 3", reading.tolerance, ord("C"), 0, 10**11, 10**11),
    ("list, the example", ANSWERS, launchlist, LIST),
    ("list without its last CRLF", ANSWERS, launchlist, LIST[:-2]),
    ("list, empty input", WRONG_HEADER, launchlist, b""),
    ("list, header alone", ANSWER_HEAD, launchlist, LIST_HEAD),
    ("list, header alone without CRLF", ANSWER_HEAD, launchlist, LIST_HEAD[:-2]),
    ("list, header and CR", WRONG_HEADER, launchlist, LIST_HEAD[:-1]),
    ("list, empty line first", WRONG_HEADER, launchlist, b"\r\n" + LIST),
    ("list, byte order mark", WRONG_HEADER, launchlist, b"\xef\xbb\xbf" + LIST),
    ("list, header in upper case", WRONG_HEADER, launchlist, LIST.upper()),
    ("list, lines ended by LF", WRONG_HEADER, launchlist, LIST.replace(b"\r", b"")),
    ("list, empty line last", ANSWERS + crlf("?,?,,13\n"), launchlist, LIST + b"\r\n"),
    ("list, CR last", ANSWERS + crlf("?,?,,13\n"), launchlist, LIST + b"\r"),
    (
        "empty line between",
        f"{IS_100} {MISCOUNTED} {IS_100}",
        *(answers, row(), b"", row()),
    ),
    (
        "200 bytes, 201 bytes",
        f"{MISCOUNTED} {TOO_LONG}",
        *(answers, b"x" * 200, b"x" * 201),
    ),
    (
        "200 commas, 201 commas",
        f"{MISCOUNTED} {TOO_LONG}",
        *(answers, b"," * 200, b"," * 201),
    ),
    ("line after a long one", f"{TOO_LONG} {IS_100}", answers, b"x" * 201, row()),
    ("good line past 200 bytes", TOO_LONG, answers, b"x" * 200 + row()),
    ("good line, blanks to 200 bytes", "?,?,9,14", answers, row().ljust(200)),
    ("good line, blanks to 201 bytes", TOO_LONG, answers, row().ljust(201)),
    ("two lines joined by LF", MISCOUNTED, answers, row() + b"\n" + row()),
    ("CR before CRLF", "?,?,9,14", answers, row() + b"\r"),
    ("LF after CRLF", "?,?,1,14", answers, b"\n" + row()),
    ("trailing comma", MISCOUNTED, answers, row() + b","),
    ("too few fields", MISCOUNTED, answers, row()[:-2]),
    ("seven commas, eight", f"{MISCOUNTED} ?,?,1,14", answers, b"," * 7, b"," * 8),
    ("too few fields, one broken", MISCOUNTED, answers, row("F_1")[:-2]),
    ("two broken fields", "?,?,3,14", answers, row(r="", wal="00")),
    ("two others", "?,?,1,14", answers, row("F_1", "AG")),
    ("id of 16 bytes", "-" * 16 + ",curve,1000000,0", answers, row("-" * 16)),
    ("id of 17 bytes", "?,?,1,14", answers, row("A" * 17)),
    ("no id", "?,?,1,14", answers, row("")),
    ("id with an underscore", "?,?,1,14", answers, row("F_1")),
    ("id past ASCII", "?,?,1,14", answers, row("\xe9")),
    ("law of 8 letters", "F1,abcdefgh,,3", answers, row(law="abcdefgh")),
    ("law of 9 letters", "?,?,2,14", answers, row(law="abcdefghi")),
    ("law in upper case", "?,?,2,14", answers, row(law="CURVE")),
    ("law with a digit", "?,?,2,14", answers, row(law="ag1")),
    ("leading zero", "?,?,3,14", answers, row(r="0138505500000")),
    ("two zeros", "?,?,5,14", answers, row(a="00")),
    ("minus before 0", "?,?,5,14", answers, row(a="-0")),
    ("minus before R", "?,?,3,14", answers, row(r="-138505500000")),
    ("minus before W(Al)", "?,?,9,14", answers, row(wal="-1")),
    ("minus before d", "F1,curve,,7", answers, row(d="-1")),
    ("plus", "?,?,5,14", answers, row(a="+1")),
    ("no number", "?,?,9,14", answers, row(wal="")),
    ("space", "?,?,3,14", answers, row(r="138505500000 ")),
    ("LF at the end of a number", "?,?,9,14", answers, row(wal="0\n")),
    ("digit past ASCII", "?,?,5,14", answers, row(a="1\xb2")),
    ("R of 13 digits", "F1,curve,,2", answers, row(r="9999999999999")),
    ("R of 14 digits", "F1,curve,,2", answers, row(r="10000000000000")),
    ("a nanoohm more", "F1,curve,,1", answers, row(r="10000000000001")),
    ("R of 15 digits", "?,?,3,14", answers, row(r="100000000000000")),
    ("R0 of 13 digits", "F1,curve,,8", answers, row(r0="9999999999999")),
    ("R0 of 14 digits", "F1,curve,,8", answers, row(r0="10000000000000")),
    ("a nanoohm more", "F1,curve,,1", answers, row(r0="10000000000001")),
    ("R0 of 15 digits", "?,?,4,14", answers, row(r0="100000000000000")),
    (
        "R of 14 digits, R0 of 15",
        "?,?,4,14",
        *(answers, row(r="10000000000000", r0="100000000000000")),
    ),
    ("R of 13 digits, before", "F1,curve,,1", answer_before, row(r="9999999999999")),
    ("R of 14 digits, before", "?,?,3,14", answer_before, row(r="10000000000000")),
    ("R0 of 14 digits, before", "?,?,4,14", answer_before, row(r0="10000000000000")),
    (
        "R of 14 digits, R0 of 15, before",
        "?,?,3,14",
        *(answer_before, row(r="10000000000000", r0="100000000000000")),
    ),
    ("W(Al) of 13 digits", "F1,curve,,7", answers, row(wal="9999999999999")),
    ("W(Al) of 14 digits", "?,?,9,14", answers, row(wal="10000000000000")),
    ("a of 13 digits", "F1,curve,,7", answers, row(a="-9999999999999")),
    ("a of 14 digits", "?,?,5,14", answers, row(a="-10000000000000")),
    # W = 1, then card 7; card 9 with R0 100 ohm.
    ("0 °C", "F1,curve,0,0", answers, row(r="100000000000")),
    ("-200 °C", "F1,curve,-2000000,0", answers, row(r="18520080000")),
    ("half a unit less", "F1,curve,-2000000,0", answers, row(r="18520079950")),
    ("below it", "F1,curve,,8", answers, row(r="18520079949")),
    ("W = 4.4", "F1,curve,,9", answers, row(r="440000000000")),
    ("under half a unit more", "F1,curve,,9", answers, row(r="440000000049")),
    ("half a unit more", "F1,curve,,2", answers, row(r="440000000050")),
    ("one unit more", "F1,curve,,2", answers, row(r="440000000100")),
    ("R = 0", "F1,curve,,1", answers, row(r="0")),
    ("line, 14 before 3", "?,?,5,14", answers, row(law="pt", a="-0")),
    ("line, 3 before 7", "F1,pt,,3", answers, row(law="pt", a="1")),
    ("line, 7 before 1", "F1,curve,,7", answers, row(a="1", r="0")),
    ("nothing said", b"", said, "launchlist", LIST),
    (
        "said on a terminal",
        b"launchlist: lines answered: 2, refused: 1\n",
        *(said, "launchlist", LIST, True),
    ),
    ("LF as byte 201", JOINED, said, "launchlist", LIST_HEAD + b"x" * 200 + b"\n"),
    (
        "LF as byte 202",
        b"launchlist: line 2: it has more than 200 bytes\n",
        *(said, "launchlist", LIST_HEAD + b"x" * 201 + b"\n"),
    ),
    ("line 101", b"launchlist: line 101: it holds a LF with", said_last, 100),
    ("line 102", b"launchlist: more lines have a fault; onl", said_last, 101),
    ("line 103", b"launchlist: more lines have a fault; onl", said_last, 102),
    ("said of 12", "it has more than 200 bytes\n", said_of_row, b"," * 201),
    (
        "said of 200 commas",
        "it has 201 fields, and the header has 9\n",
        *(said_of_row, b"," * 200),
    ),
    (
        "said of an empty line",
        "it has 1 field, and the header has 9\n",
        *(said_of_row, b""),
    ),
    ("said of a comma", "it has 2 fields, and the header has 9\n", said_of_row, b","),
    ("said of an id", "field 1, id: an underscore\n", said_of_row, row("F_1")),
    ("said of a law", "field 2, law: a capital letter\n", said_of_row, row(law="AG")),
    ("said of r", "field 3, r: a point\n", said_of_row, row(r="138.5")),
    (
        "said of 15 digits",
        "field 3, r: more than 14 digits\n",
        *(said_of_row, row(r="100000000000000")),
    ),
    (
        "said of them in r0",
        "field 4, r0: more than 14 digits\n",
        *(said_of_row, row(r="10000000000000", r0="100000000000000")),
    ),
    (
        "said of 14 digits in wal",
        "field 9, wal: more than 13 digits\n",
        *(said_of_row, row(r="10000000000000", wal="10000000000000")),
    ),
    ("said of a", "field 5, a: a minus before 0\n", said_of_row, row(a="-0")),
    ("said of wal", "field 9, wal: a CR\n", said_of_row, row() + b"\r"),
    ("said of two fields", "field 3, r: it is empty\n", said_of_row, row(r="", wal="")),
    ("said of a reading", "", said_of_row, row(law="pt")),
    (
        "the long example",
        {58: TOO_LONG, 131: MISCOUNTED, 212: "?,?,5,14", 268: "?,?,3,14"},
        refused_in_long_round,
    ),
    (
        "said of the long example",
        SAID_OF_LONG_ROUND,
        *(said, "launchlist", long_round.make()),
    ),
    ("LF alone", FEEDS, reason_of, LIST.replace(b"\r\n", b"\n")),
    *mending_checks(),
    ("an empty list mended", b"", mended, b""),
    ("empty lines mended", b"\r\n" * 3, mended, b"\n\r\n\n"),
    (
        "said of 1",
        "1, hg: its R or R0 is outside its limits\n",
        *(said_of, RESISTANCES, "R1,ga,1,0,0,0" + FIVE_NOT_MEASURED),
    ),
    (
        "said of 2",
        "2, ag: its ratio is above 4.4\n",
        *(said_of, RATIOS, "R1,ga,0,0,0,0,0,0,4400000001"),
    ),
    (
        "said of 4",
        "4, sn: the subrange needs this cell, and it was not measured\n",
        *(said_of, RATIOS, "R1,ag,0,0,0,0,0,0,0"),
    ),
    ("said of 5", "", said_of, RATIOS, "R1,in,0,0,1609801850,0,0,0,0"),
    (
        "said of 6",
        "6, ga: the purity relation is not met\n",
        *(said_of, RATIOS, "R1,ga,0,1118069999,0,0,0,0,0"),
    ),
    (
        "said of 7",
        "7, ga: its deviation is beyond the limit\n",
        *(said_of, RATIOS, "R1,ga,0,1200000000,0,0,0,0,0"),
    ),
    (
        "said of 7 for d",
        "7: a coefficient is beyond its limit\n",
        *(said_of, RATIOS, f"R1,ag,{FIVE_CELLS},3376008600,4284400000"),
    ),
    (
        "said of 12 in a record",
        "it has more than 200 bytes\n",
        *(said_of, RESISTANCES, f"SIXTEEN--LETTERS,ag,{SEVEN_CELLS}"),
    ),
    (
        "said of 13 in a record",
        "it has 3 fields, and the header has 9\n",
        *(said_of, RATIOS, "R1,ga,0"),
    ),
    (
        "said of hg0",
        "field 4, hg0: more than 14 digits\n",
        *(said_of, RESISTANCES, "R1,ga,0,100000000000000,0,0" + FIVE_NOT_MEASURED),
    ),
    (
        "said of hg0 of 14 digits",
        "1, hg: its R or R0 is outside its limits\n",
        *(said_of, RESISTANCES, "R1,ga,0,10000000000000,0,0" + FIVE_NOT_MEASURED),
    ),
    (
        "said of ga of 14 digits, a ratio",
        "field 4, ga: more than 13 digits\n",
        *(said_of, RATIOS, "R1,ga,0,10000000000000,0,0,0,0,0"),
    ),
    (
        "said of r of a tolerance test",
        "field 4, r: more than 14 digits\n",
        *(said_of, TOLERANCE, "S1,A,0,100000000000000,1"),
    ),
    (
        "said of t of 14 digits",
        "field 3, t: more than 13 digits\n",
        *(said_of, TOLERANCE, "S1,A,-10000000000000,1,1"),
    ),
    ("said of t", "field 3, t: a minus alone\n", said_of, TOLERANCE, "S1,A,-,1,1"),
    (
        "said of a step",
        "field 3, t: a minus\n",
        *(said_of, FORWARD, "X1,ga,--1,0,0,0,0,0"),
    ),
    (
        "said of a class",
        "field 2, class: more than one letter\n",
        *(said_of, TOLERANCE, "S1,AB,0,1,1"),
    ),
    ("bench, empty input", NO_RECORD, benchlist, b""),
    ("bench, header of launchlist", NO_RECORD, benchlist, LIST),
    ("launchlist, header of bench", WRONG_HEADER, launchlist, crlf(FORWARD + "\n")),
    (
        "card 5 as a line",
        "R1,ga,-58346744,0,0,0,0,0",
        *(bench, RATIOS, "R1,ga,0,1118070000,0,0,0,0,0"),
    ),
    (
        "card 5, one unit less",
        "R1,ga,,,,,,6",
        *(bench, RATIOS, "R1,ga,0,1118069999,0,0,0,0,0"),
    ),
    (
        "card 6 as a line",
        "R1,in,-16401460,0,0,0,0,0",
        *(bench, RATIOS, "R1,in,0,1118138890,1609701850,0,0,0,0"),
    ),
    (
        "ag, aluminium a unit low, as a line",
        "R1,ag,-51,92,-37,594,3376008599,0",
        *(bench, RATIOS, f"R1,ag,{FIVE_CELLS},3376008599,4286420530"),
    ),
    ("record, unknown", "R1,hg,,,,,,3", bench, RATIOS, "R1,hg,0,4400000001,0,0,0,0,0"),
    ("record, over 4.4", "R1,ga,,,,,,2", bench, RATIOS, "R1,ga,0,0,0,0,0,0,4400000001"),
    ("record, no cell", "R1,ag,,,,,,4", bench, RATIOS, "R1,ag,0,0,0,0,0,0,0"),
    ("record, 5", "R1,in,,,,,,5", bench, RATIOS, "R1,in,0,0,1609801850,0,0,0,0"),
    ("record, 7", "R1,ga,,,,,,7", bench, RATIOS, "R1,ga,0,1200000000,0,0,0,0,0"),
    ("record, minus", "?,?,4,,,,,14", bench, RATIOS, "R1,ga,0,-1118070000,0,0,0,0,0"),
    (
        "record, 13 digits",
        "R1,ga,,,,,,2",
        *(bench, RATIOS, "R1,ga,9999999999999,0,0,0,0,0,0"),
    ),
    *ratio_checks(),
    ("record, empty line", "?,?,,,,,,13", bench, RATIOS, ""),
    ("record, 201 bytes", "?,?,,,,,,12", bench, RATIOS, "x" * 201),
    (
        "card 5 by resistances",
        "R1,ga,-58346744,0,0,0,0,0",
        *(bench, RESISTANCES, "R1,ga,0,0,27951750000,25000000000" + FIVE_NOT_MEASURED),
    ),
    (
        "12 nanoohm more, not yet half a unit",
        "R1,ga,-58346744,0,0,0,0,0",
        *(bench, RESISTANCES, "R1,ga,0,0,27951750012,25000000000" + FIVE_NOT_MEASURED),
    ),
    (
        "12 nanoohm less",
        "R1,ga,-58346744,0,0,0,0,0",
        *(bench, RESISTANCES, "R1,ga,0,0,27951749988,25000000000" + FIVE_NOT_MEASURED),
    ),
    (
        "13 nanoohm less",
        "R1,ga,,,,,,6",
        *(bench, RESISTANCES, "R1,ga,0,0,27951749987,25000000000" + FIVE_NOT_MEASURED),
    ),
    (
        "R without R0",
        "R1,ga,,,,,,1",
        *(bench, RESISTANCES, "R1,ga,1,0,27951750000,25000000000" + FIVE_NOT_MEASURED),
    ),
    (
        "R0 without R",
        "R1,ga,,,,,,1",
        *(bench, RESISTANCES, "R1,ga,0,25000000000,0,0" + FIVE_NOT_MEASURED),
    ),
    (
        "3 before 1",
        "R1,hg,,,,,,3",
        *(bench, RESISTANCES, "R1,hg,1,0,0,0" + FIVE_NOT_MEASURED),
    ),
    (
        "1 in one cell before 2 in another",
        "R1,ga,,,,,,1",
        *(bench, RESISTANCES, "R1,ga,1000000000000,100000000,1,0" + FIVE_NOT_MEASURED),
    ),
    (
        "2",
        "R1,ga,,,,,,2",
        *(bench, RESISTANCES, "R1,ga,1000000000000,100000000,0,0" + FIVE_NOT_MEASURED),
    ),
    # 499/10^12 is rounded to 0, which is not measured, and 500/10^12 is not.
    (
        "a ratio of 0",
        "R1,ga,,,,,,4",
        *(bench, RESISTANCES, "R1,ga,0,0,499,1000000000000" + FIVE_NOT_MEASURED),
    ),
    (
        "a ratio of a unit",
        "R1,ga,,,,,,6",
        *(bench, RESISTANCES, "R1,ga,0,0,500,1000000000000" + FIVE_NOT_MEASURED),
    ),
    (
        "200 bytes",
        "FIFTEEN-LETTERS,ag,0,0,0,0,3376008600,0",
        *(bench, RESISTANCES, f"FIFTEEN-LETTERS,ag,{SEVEN_CELLS}"),
    ),
    (
        "201 bytes",
        "?,?,,,,,,12",
        *(bench, RESISTANCES, f"SIXTEEN--LETTERS,ag,{SEVEN_CELLS}"),
    ),
    (
        "200 bytes, a blank",
        "?,?,16,,,,,14",
        *(bench, RESISTANCES, f"FOURTEENLETTER,ag,{SEVEN_CELLS} "),
    ),
    (
        "forward, 0 °C as a line",
        "X1,curve,1000000000,0",
        *(bench, FORWARD, "X1,curve,0,0,0,0,0,0"),
    ),
    (
        "forward, 481 °C",
        "X1,ag,2781572540,0",
        *(bench, FORWARD, "X1,ag,4810000,0,0,0,0,3376008600"),
    ),
    (
        "forward, -100 °C",
        "X1,curve,602558400,0",
        *(bench, FORWARD, "X1,curve,-1000000,0,0,0,0,0"),
    ),
    ("forward, 3", "X1,hg,,3", bench, FORWARD, "X1,hg,-1,100000001,0,0,0,0"),
    ("forward, 7", "X1,ga,,7", bench, FORWARD, "X1,ga,-1,100000001,0,0,0,0"),
    ("forward, 8", "X1,ga,,8", bench, FORWARD, "X1,ga,-1,100000000,0,0,0,0"),
    ("forward, 9", "X1,ga,,9", bench, FORWARD, "X1,ga,297647,0,0,0,0,0"),
    (
        "forward, 13 digits",
        "X1,curve,,8",
        *(bench, FORWARD, "X1,curve,-9999999999999,0,0,0,0,0"),
    ),
    (
        "forward, 14 digits",
        "?,?,3,14",
        *(bench, FORWARD, "X1,curve,-10000000000000,0,0,0,0,0"),
    ),
    ("forward, 12", "?,?,,12", bench, FORWARD, "," * 201),
    ("forward, 13", "?,?,,13", bench, FORWARD, "X1,ga,-0,0,0,0,0"),
    ("forward, -0", "?,?,3,14", bench, FORWARD, "X1,ga,-0,0,0,0,0,0"),
    ("forward, minus before W(Al)", "?,?,8,14", bench, FORWARD, "X1,ga,0,0,0,0,0,-1"),
    (
        "A passes",
        "S1,A,pass,1500,0",
        *(bench, TOLERANCE, "S1,A,0,100058662249,100000000000"),
    ),
    (
        "A fails",
        "S1,A,fail,-1501,0",
        *(bench, TOLERANCE, "S1,A,0,99941374249,100000000000"),
    ),
    ("class in lower case", "S1,a,,,3", bench, TOLERANCE, "S1,a,8500001,0,0"),
    ("bath of A", "S1,A,,,9", bench, TOLERANCE, "S1,A,6500001,0,0"),
    ("bath of B", "S1,B,,,8", bench, TOLERANCE, "S1,B,-2000001,0,0"),
    ("R0 outside its limits", "S1,B,,,1", bench, TOLERANCE, "S1,B,0,1,1"),
    ("class, two letters", "?,?,2,,14", bench, TOLERANCE, "S1,AB,0,1,1"),
    ("class, a digit", "?,?,2,,14", bench, TOLERANCE, "S1,1,0,1,1"),
    ("class, none", "?,?,2,,14", bench, TOLERANCE, "S1,,0,1,1"),
    ("tolerance, 12", "?,?,,,12", bench, TOLERANCE, "S1,AB,0,1," + "1" * 200),
    ("tolerance, 13", "?,?,,,13", bench, TOLERANCE, "S1,AB,0,1"),
    ("serial at the mark", "refused 20", read_water, [entry(7, 2, 2)], 7),
    ("serial above it", IS_WATER, read_water, [entry(7, 3, 2)], 7),
    ("serial under it", "refused 20", read_water, [entry(7, 1, 2)], 7),
    ("serial 0, mark 0", "refused 20", read_water, [entry(7, 0)], 7),
    ("serial 1, mark 0", IS_WATER, read_water, [entry(7, 1)], 7),
    (
        "read by its own",
        ("in", 100),
        read_water,
        [entry(7, 1), entry(8, 1, 0, ZERO_IN)],
        8,
    ),
    ("none such to read", "refused 20", read_water, [FREE, entry(7, 1)], 8),
    ("number 0 to read", "refused 20", read_water, [FREE_SOUND, entry(7, 1)], 0),
    ("two free places", IS_WATER, read_water, [FREE, FREE, entry(7, 1)], 7),
    ("no place at all", "refused 20", read_water, [], 7),
    ("thermometer twice", "refused 23", read_water, TWICE, 7),
    (
        "unknown law held, withdrawn",
        "refused 23",
        read_water,
        [entry(7, 1), entry(8, 1, 1, UNKNOWN)],
        7,
    ),
    (
        "unsound certificate held, of serial 0",
        "refused 23",
        read_water,
        [entry(7, 1), entry(8, 0, 0, UNSOUND)],
        7,
    ),
    ("read, 23 before 20", "refused 23", read_water, TWICE, 8),
    ("read, 20 before 1", "refused 20", register.read, [entry(7, 1, 1)], 7, 0, 0),
    ("read, 1", "refused 1", register.read, [entry(7, 1)], 7, 0, 0),
    (
        "first free places in list order",
        (entry(9, 1), entry(5, 1), entry(8, 1), FREE),
        imports,
        [FREE, entry(5, 1), FREE_SOUND, FREE],
        entry(9, 1),
        entry(8, 1),
    ),
    (
        "as many as places left, with their marks",
        (entry(8, 1, 3), entry(7, 1), entry(9, 0, 0)),
        imports,
        [FREE, entry(7, 1), FREE],
        entry(8, 1, 3),
        entry(9, 0, 0),
    ),
    (
        "19: one more",
        "refused 19",
        imports,
        [FREE, entry(7, 1), FREE],
        *(entry(8, 1), entry(9, 1), entry(10, 1)),
    ),
    ("none left, none new", (entry(7, 2),), imports, [entry(7, 1)], entry(7, 2)),
    ("none left, one new", "refused 19", imports, [entry(7, 1)], entry(8, 1)),
    (
        "newer serial, lower mark",
        (entry(7, 2, 1, ZERO_IN),),
        imports,
        [entry(7, 1, 1)],
        entry(7, 2, 0, ZERO_IN),
    ),
    (
        "older serial, higher mark",
        (entry(7, 2, 3),),
        imports,
        [entry(7, 2, 1)],
        entry(7, 1, 3, ZERO_IN),
    ),
    ("same, higher mark", (entry(7, 2, 3),), imports, [entry(7, 2)], entry(7, 2, 3)),
    ("empty list", (entry(7, 1), FREE), imports, [entry(7, 1), FREE]),
    ("empty list, 23", "refused 23", imports, TWICE),
    ("18: another law", "refused 18", imports, [entry(7, 1)], entry(7, 1, 0, ZERO_IN)),
    (
        "18: another a",
        "refused 18",
        imports,
        [entry(7, 1, 0, ("ga", 1, 0, 0, 0, 0))],
        entry(7, 1),
    ),
    (
        "18: another W(Al), both withdrawn",
        "refused 18",
        imports,
        [entry(7, 1, 5, ZERO_AG)],
        entry(7, 1, 5, ("ag", 0, 0, 0, 0, W_AL + 1)),
    ),
    (
        "no 18 against another thermometer or a free place",
        (entry(7, 1), entry(8, 1, 0, ZERO_IN), entry(9, 1, 0, ZERO_AG)),
        imports,
        [entry(7, 1), FREE_SOUND, FREE_SOUND],
        entry(8, 1, 0, ZERO_IN),
        entry(9, 1, 0, ZERO_AG),
    ),
    ("23 before 3", "refused 23", imports, TWICE, entry(8, 1, 0, UNKNOWN)),
    (
        "3 before 7, over the whole list",
        "refused 3",
        imports,
        [FREE, FREE],
        entry(8, 1, 0, UNSOUND),
        entry(9, 1, 0, UNKNOWN),
    ),
    (
        "7 before 17",
        "refused 7",
        imports,
        [FREE] * 3,
        *(entry(8, 1), entry(8, 1), entry(9, 1, 0, UNSOUND)),
    ),
    ("7 for number 0", "refused 7", imports, [FREE], entry(0, 1, 0, UNSOUND)),
    ("17 for number 0", "refused 17", imports, [FREE] * 2, entry(8, 1), entry(0, 1)),
    ("17 for two alike", "refused 17", imports, [FREE, FREE], entry(8, 1), entry(8, 1)),
    (
        "17 before 18",
        "refused 17",
        imports,
        [entry(7, 1), FREE, FREE],
        *(entry(7, 1, 0, ZERO_IN), entry(8, 1), entry(8, 1)),
    ),
    (
        "one serial with two certificates in the list alone",
        "refused 17",
        imports,
        [FREE, FREE],
        *(entry(8, 1), entry(8, 1, 0, ZERO_IN)),
    ),
    (
        "18 before 19",
        "refused 18",
        imports,
        [entry(7, 1)],
        *(entry(8, 1), entry(7, 1, 0, ZERO_IN)),
    ),
    ("mark raised", (entry(7, 1, 3),), withdraws, [entry(7, 1, 1)], 7, 3),
    ("mark not lowered", (entry(7, 1, 3),), withdraws, [entry(7, 1, 3)], 7, 2),
    ("none such to withdraw", "refused 20", withdraws, [FREE, entry(7, 1)], 8, 1),
    ("number 0 to withdraw", "refused 20", withdraws, [FREE, entry(7, 1)], 0, 1),
    ("withdrawal, 23 before 20", "refused 23", withdraws, TWICE, 8, 1),
)


def self_check():
    for what, due, function, *arguments in SELF_CHECKS:
        found = outcome(function, arguments)
        if found != due:
            raise CheckFailed(f"{what}: {found}, due {due}")
    for one in LISTS.values():
        # Each of these lines is tested where it is given.
        for line in (*refused_lines(one), *limit_lines(one), *nearest_lines(one)):
            check_moved(one, line, one.answer_line(line), Survey())
        for damaged in damage.broken_cases(one, lambda: GOOD[one]):
            damage.check_damaged(one, damaged)


def compare(file, made):
    """None where the file holds what was made, else what is wrong with it."""
    if not file.is_file():
        return "missing"
    held = file.read_bytes()
    if held == made:
        return None
    lines = zip_longest(held.splitlines(True), made.splitlines(True))
    for number, (in_file, in_made) in enumerate(lines, 1):
        if in_file != in_made:
            return (
                f"line {number} differs\n"
                f"  file: {shown(in_file)}\n"
                f"  made: {shown(in_made)}"
            )


def check_all():
    good = True
    for label, make in MAKERS.items():
        wrong = compare(ROOT / label, make())
        print(f"{label}: {wrong or 'as made'}")
        good = good and wrong is None
    return good


def write_all():
    good = True
    for label, make in MAKERS.items():
        if (ROOT / label).parent.is_dir():
            (ROOT / label).write_bytes(make())
            print(f"{label}: written")
        else:
            print(f"{label}: no such folder, nothing written")
            good = False
    return good


def shown_by(arguments):
    """The maker of the one file to be printed, or None."""
    if len(arguments) != 2 or arguments[0] != "--show":
        return None
    name = arguments[1]
    return MAKERS.get(name) or MAKERS.get(f"crates/{name}/stdout")


def main(arguments):
    try:
        self_check()
        if arguments == []:
            good = check_all()
        elif arguments == ["--write"]:
            good = write_all()
        elif shown_by(arguments) is not None:
            sys.stdout.buffer.write(shown_by(arguments)())
            good = True
        else:
            sys.stderr.write(USAGE)
            return 2
    except CheckFailed as failed:
        print(f"second: check failed: {failed}", file=sys.stderr)
        return 1
    return 0 if good else 1


if __name__ == "__main__":
    sys.exit(main(sys.argv[1:]))
