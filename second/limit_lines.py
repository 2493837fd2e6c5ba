"""Lines about the limits of R and R0, by hand: each with the answer due to it and,
where that is another, the answer that it got before request 9.
"""

from typing import NamedTuple

from cases import CheckFailed
from lists import BEFORE, READINGS, RESISTANCES, TOLERANCE


class Edge(NamedTuple):
    """A line, the answer due, and the answer before where it is another."""

    line: str
    due: str
    before: str = None


# 1 kΩ and the most, with what lies about them; and the R0 of some Pt1000.
KILOHM = "1000000000000"
KILOHM_MORE = "1000000000001"
MOST = "10000000000000"
MOST_LESS = "9999999999999"
MOST_MORE = "10000000000001"
SOME = "1000186400000"

# A resistance with all its digits and with one too many, and so any other number.
FOURTEEN = "99999999999999"
FIFTEEN = "100000000000000"
LARGEST = "9999999999999"
TOO_LARGE = "10000000000000"


# Readings.


def read(r, r0, places="0,0,0,0,0", law="curve"):
    return f"L1,{law},{r},{r0},{places}"


def step(t, law="curve"):
    return f"L1,{law},{t},0"


def no_step(number, law="curve"):
    return f"L1,{law},,{number}"


def broken(field):
    return f"?,?,{field},14"


OF_PT1000 = (
    # 0 °C, 100 °C and -40 °C by their least R, and a nanoohm less; a unit is about
    # 1000 nanoohm here.
    Edge(read(KILOHM, KILOHM), step(0)),
    Edge(read("999999999500", KILOHM), step(0)),
    Edge(read("999999999499", KILOHM), step(-1)),
    Edge(read("1385054999500", KILOHM), step(1000000), no_step(1)),
    Edge(read("1385054999499", KILOHM), step(999999), no_step(1)),
    Edge(read("842706520500", KILOHM), step(-400000)),
    Edge(read("842706520499", KILOHM), step(-400001)),
    Edge(read(SOME, SOME), step(0), no_step(1)),
    Edge(read("1000186399500", SOME), step(0), no_step(1)),
    Edge(read("1000186399499", SOME), step(-1), no_step(1)),
    Edge(read("1385313173752", SOME), step(1000000), no_step(1)),
    Edge(read("1385313173751", SOME), step(999999), no_step(1)),
    Edge(read("842863600996", SOME), step(-400000), no_step(1)),
    Edge(read("842863600995", SOME), step(-400001), no_step(1)),
    # A nanoohm over the most of before.
    Edge(read(KILOHM_MORE, KILOHM), step(0), no_step(1)),
    Edge(read(KILOHM, KILOHM_MORE), step(0), no_step(1)),
    Edge(read(KILOHM_MORE, KILOHM_MORE), step(0), no_step(1)),
    Edge(read(KILOHM_MORE, "100000000"), no_step(2), no_step(1)),
    Edge(read("1", KILOHM_MORE), no_step(8), no_step(1)),
    Edge(read(MOST_LESS, KILOHM), no_step(2), no_step(1)),
)

AT_MOST = (
    Edge(read(MOST, MOST), step(0), broken(3)),
    Edge(read(MOST_LESS, MOST), step(0), broken(4)),
    Edge(read(MOST, MOST_LESS), step(0), broken(3)),
    Edge(read(MOST_LESS, MOST_LESS), step(0), no_step(1)),
    # 100 °C, bench cards 7 and 8, and 4.4 as in bench card 9.
    Edge(read(MOST, "7219929897087"), step(1000000), broken(3)),
    Edge(read(MOST, "7219929897088"), step(999999), broken(3)),
    Edge(read("1852007995000", MOST), step(-2000000), broken(4)),
    Edge(read("1852007994999", MOST), no_step(8), broken(4)),
    Edge(read(MOST, "2560943054783"), step(8500000), broken(3)),
    Edge(read(MOST, "2560943054782"), no_step(9), broken(3)),
    Edge(read(MOST, "2272727272470"), no_step(9), broken(3)),
    Edge(read(MOST, "2272727272469"), no_step(2), broken(3)),
    # A ratio of 10 and of 100000, and one that is rounded to 0.
    Edge(read(MOST, KILOHM), no_step(2), broken(3)),
    Edge(read(MOST, "100000000"), no_step(2), broken(3)),
    Edge(read("1", MOST), no_step(8), broken(4)),
    Edge(read("4999", MOST), no_step(8), broken(4)),
    # By certificates: W = 1, and bench card 3.
    Edge(read(MOST, MOST, law="ga"), step(100, "ga"), broken(3)),
    Edge(
        read("2781572540000", KILOHM, "0,0,0,0,3376008600", "ag"),
        *(step(4810000, "ag"), no_step(1, "ag")),
    ),
    Edge(
        read(MOST, "3595088698207", "0,0,0,0,3376008600", "ag"),
        *(step(4810000, "ag"), broken(3)),
    ),
)

PAST_MOST = (
    Edge(read(MOST_MORE, MOST), no_step(1), broken(3)),
    Edge(read(MOST, MOST_MORE), no_step(1), broken(3)),
    Edge(read(KILOHM, MOST_MORE), no_step(1), broken(4)),
    Edge(read(MOST_MORE, "100000000"), no_step(1), broken(3)),
    Edge(read(MOST, "99999999"), no_step(1), broken(3)),
    Edge(read(FOURTEEN, KILOHM), no_step(1), broken(3)),
    Edge(read(KILOHM, FOURTEEN), no_step(1), broken(4)),
    Edge(read(FIFTEEN, KILOHM), broken(3)),
    Edge(read(KILOHM, FIFTEEN), broken(4)),
    Edge(read(FIFTEEN, FOURTEEN), broken(3)),
    Edge(read(FOURTEEN, FIFTEEN), broken(4), broken(3)),
    Edge(read(MOST, "0" + MOST), broken(4), broken(3)),
    Edge(read("0" + MOST, MOST), broken(3)),
    # 3 and 7 go before 1, and 14 before both.
    Edge(read(MOST_MORE, MOST, law="pt"), no_step(3, "pt"), broken(3)),
    Edge(read(KILOHM_MORE, MOST_LESS, law="pt"), no_step(3, "pt")),
    Edge(read(MOST, MOST, "1,0,0,0,0"), no_step(7), broken(3)),
    Edge(read(KILOHM_MORE, KILOHM, "1,0,0,0,0"), no_step(7)),
    Edge(read(MOST, KILOHM, "-0,0,0,0,0"), broken(5), broken(3)),
    Edge(read(KILOHM, MOST, "0,0,0,0,00"), broken(9), broken(4)),
    Edge(read(MOST, MOST) + ",0", "?,?,,13"),
    Edge(read(MOST, MOST).ljust(201, "0"), "?,?,,12"),
)

# The other columns still have 13 digits.
OF_OTHERS = (
    Edge(read(KILOHM, KILOHM, f"-{LARGEST},0,0,0,0"), no_step(7)),
    Edge(read(KILOHM, KILOHM, f"-{TOO_LARGE},0,0,0,0"), broken(5)),
    Edge(read(KILOHM, KILOHM, f"0,{TOO_LARGE},0,0,0"), broken(6)),
    Edge(read(KILOHM, KILOHM, f"0,0,-{TOO_LARGE},0,0"), broken(7)),
    Edge(read(KILOHM, KILOHM, f"0,0,0,{TOO_LARGE},0"), broken(8)),
    Edge(read(KILOHM, KILOHM, f"0,0,0,0,{LARGEST}"), no_step(7)),
    Edge(read(KILOHM, KILOHM, f"0,0,0,0,{TOO_LARGE}"), broken(9)),
    Edge(read(MOST, MOST, f"{TOO_LARGE},0,0,0,0"), broken(5), broken(3)),
    Edge(read(KILOHM, MOST, f"0,0,0,0,{TOO_LARGE}"), broken(9), broken(4)),
)

# The longest row, of 129 bytes, and one with a digit more.
LONGEST_ROW = 129
LONGEST = (
    f"LONGEST-OF-LINES,lawlawla,{FOURTEEN},{FOURTEEN},"
    f"-{LARGEST},-{LARGEST},-{LARGEST},-{LARGEST},{LARGEST}"
)
OF_LENGTH = (
    Edge(LONGEST, "LONGEST-OF-LINES,lawlawla,,3", broken(3)),
    Edge(LONGEST + "9", broken(9), broken(3)),
)


# Tolerance tests.


def tested(letter, bath, r, r0):
    return f"S1,{letter},{bath},{r},{r0}"


def verdict(letter, result, error):
    return f"S1,{letter},{result},{error},0"


def no_verdict(letter, number):
    return f"S1,{letter},,,{number}"


def broken_test(field):
    return f"?,?,{field},,14"


OF_CLASSES = (
    # The limits of both classes at 0 °C by 1 kΩ, and a nanoohm past them.
    Edge(
        tested("A", 0, "1000586622499", KILOHM),
        *(verdict("A", "pass", 1500), no_verdict("A", 1)),
    ),
    Edge(
        tested("A", 0, "1000586622500", KILOHM),
        *(verdict("A", "fail", 1501), no_verdict("A", 1)),
    ),
    Edge(tested("A", 0, "999413742500", KILOHM), verdict("A", "pass", -1500)),
    Edge(tested("A", 0, "999413742499", KILOHM), verdict("A", "fail", -1501)),
    Edge(
        tested("B", 0, "1001172828499", KILOHM),
        *(verdict("B", "pass", 3000), no_verdict("B", 1)),
    ),
    Edge(
        tested("B", 0, "1001172828500", KILOHM),
        *(verdict("B", "fail", 3001), no_verdict("B", 1)),
    ),
    Edge(
        tested("A", 1000000, "1385055000000", KILOHM),
        *(verdict("A", "pass", 0), no_verdict("A", 1)),
    ),
    Edge(
        tested("B", -400000, "842863600996", SOME),
        *(verdict("B", "pass", 0), no_verdict("B", 1)),
    ),
    Edge(tested("B", 0, MOST, MOST), verdict("B", "pass", 0), broken_test(4)),
    Edge(tested("A", 0, MOST_LESS, MOST), verdict("A", "pass", 0), broken_test(5)),
    Edge(tested("A", 0, MOST, "100000000"), no_verdict("A", 2), broken_test(4)),
    Edge(tested("B", 0, MOST_MORE, MOST), no_verdict("B", 1), broken_test(4)),
    Edge(tested("B", 0, MOST, MOST_MORE), no_verdict("B", 1), broken_test(4)),
    Edge(tested("B", 0, KILOHM, MOST_MORE), no_verdict("B", 1), broken_test(5)),
    Edge(tested("B", 0, "1", MOST), no_verdict("B", 8), broken_test(5)),
    Edge(tested("B", 0, MOST, "2560943054782"), no_verdict("B", 9), broken_test(4)),
    Edge(tested("C", 0, MOST, MOST), no_verdict("C", 3), broken_test(4)),
    Edge(tested("A", -2000001, MOST, MOST), no_verdict("A", 8), broken_test(4)),
    Edge(tested("A", 6500001, KILOHM_MORE, KILOHM), no_verdict("A", 9)),
    Edge(tested("B", 0, FIFTEEN, KILOHM), broken_test(4)),
    Edge(tested("B", 0, KILOHM, FIFTEEN), broken_test(5)),
    Edge(tested("B", 0, FOURTEEN, FIFTEEN), broken_test(5), broken_test(4)),
    Edge(tested("B", TOO_LARGE, MOST, MOST), broken_test(3)),
    Edge(tested("B", f"-{LARGEST}", KILOHM, KILOHM), no_verdict("B", 8)),
)


# Records of resistances.


def record(name, cells, label="R1"):
    """A record of these cells by their numbers; the others were not measured."""
    numbers = [number for place in range(7) for number in cells.get(place, ("0", "0"))]
    return ",".join((label, name, *numbers))


def certified(name, *places):
    return ",".join(("R1", name, *map(str, places), "0"))


def uncertified(number, name="ga"):
    return f"R1,{name},,,,,,{number}"


def broken_record(field):
    return f"?,?,{field},,,,,14"


HG, GA, IN, SN, ZN, AL, AG = range(7)

# A sensor without deviation by 1.5 kΩ: each number has 13 digits.
OF_SENSOR = dict(
    enumerate(
        (r, "1500000000000")
        for r in (
            *("1266213165000", "1677208335000", "2414702775000", "2839196520000"),
            *("3853375950000", "5064012900000", "6429630795000"),
        )
    )
)

CARD_5 = certified("ga", -58346744, 0, 0, 0, 0)
CARD_6 = certified("in", -16401460, 0, 0, 0, 0)

OF_RECORDS = (
    # Bench cards 5 and 6 by 1 kΩ and by the most; a unit is 1000 nanoohm here.
    Edge(record("ga", {GA: ("1118069999500", KILOHM)}), CARD_5, uncertified(1)),
    Edge(record("ga", {GA: ("1118070000499", KILOHM)}), CARD_5, uncertified(1)),
    Edge(
        record("ga", {GA: ("1118069999499", KILOHM)}), uncertified(6), uncertified(1)
    ),
    Edge(record("ga", {GA: (MOST, "8943983833276")}), CARD_5, broken_record(5)),
    Edge(record("ga", {GA: (MOST, "8943983833277")}), uncertified(6), broken_record(5)),
    Edge(
        record("in", {GA: ("1118138890000", KILOHM), IN: ("1609701850000", KILOHM)}),
        *(CARD_6, uncertified(1, "in")),
    ),
    Edge(
        record("in", {GA: (MOST, "8943432782730"), IN: (MOST, "6212330564884")}),
        *(CARD_6, broken_record(5)),
    ),
    # Seven pairs of 13 digits fit with an id of one byte.
    Edge(record("ag", OF_SENSOR, "R"), "R,ag,0,0,0,0,3376008600,0", "R,ag,,,,,,1"),
    Edge(record("ag", OF_SENSOR), "?,?,,,,,,12"),
    Edge(record("ag", dict.fromkeys(range(7), (FOURTEEN, MOST))), "?,?,,,,,,12"),
    # At the most and past it, in a cell that is used or not.
    Edge(record("ga", {HG: (MOST, "100000000")}), uncertified(2), broken_record(3)),
    Edge(record("ga", {AG: (MOST_MORE, MOST)}), uncertified(1), broken_record(15)),
    Edge(record("ga", {AG: (MOST, MOST_MORE)}), uncertified(1), broken_record(15)),
    Edge(record("ga", {AG: ("1", MOST_MORE)}), uncertified(1), broken_record(16)),
    Edge(record("ga", {HG: ("0", MOST)}), uncertified(1), broken_record(4)),
    Edge(record("ga", {HG: (MOST, "0")}), uncertified(1), broken_record(3)),
    Edge(record("ga", {HG: (KILOHM_MORE, "0")}), uncertified(1)),
    # A ratio that is rounded to 0, and one unit.
    Edge(record("ga", {GA: ("4999", MOST)}), uncertified(4), broken_record(6)),
    Edge(record("ga", {GA: ("5000", MOST)}), uncertified(6), broken_record(6)),
    Edge(record("ga", {GA: ("500", KILOHM_MORE)}), uncertified(4), uncertified(1)),
    Edge(record("pt", {GA: (MOST, MOST)}), uncertified(3, "pt"), broken_record(5)),
    Edge(record("pt", {GA: (KILOHM_MORE, KILOHM)}), uncertified(3, "pt")),
    Edge(record("ga", {HG: (KILOHM, FIFTEEN)}), broken_record(4)),
    Edge(record("ga", {HG: (FOURTEEN, FIFTEEN)}), broken_record(4), broken_record(3)),
    Edge(
        record("ga", {HG: (FOURTEEN, MOST), AG: (FOURTEEN, FIFTEEN)}),
        *(broken_record(16), broken_record(3)),
    ),
)

EDGES = {
    READINGS: (*OF_PT1000, *AT_MOST, *PAST_MOST, *OF_OTHERS, *OF_LENGTH),
    RESISTANCES: OF_RECORDS,
    TOLERANCE: OF_CLASSES,
}


def checked_lines(one, edges, answer_before):
    """The lines, each tested to be answered as is due, now and, by that function of the
    list and the line, before."""
    for edge in edges:
        line = edge.line.encode("ascii")
        due = edge.due, edge.before or edge.due
        found = one.answer_line(line), answer_before(one, line)
        if found != tuple(answer.encode("ascii") for answer in due):
            raise CheckFailed(f"{line} of {one.name} gives {found}, due {due}")
        yield line


def answer_before(one, line):
    """The answer that a line got before request 9."""
    return BEFORE[one].answer_line(line)


def limit_lines(one):
    """The lines of a list."""
    return checked_lines(one, EDGES.get(one, ()), answer_before)
