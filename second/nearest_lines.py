"""Lines about half a unit of the ratio, by hand: each with the answer due to it and,
where that is another, the answer that it got before request 7, when a ratio was
rounded down.

By 100 ohm a unit is 100 nanoohm, by 1 kΩ 1000 and by 10 kΩ 10000, so that half a unit
is 50, 500 and 5000. By 25 ohm it is 12.5, which no R has: 12 nanoohm is less, and 13 is
more.
"""

from limit_lines import (
    AG,
    AL,
    CARD_5,
    CARD_6,
    GA,
    HG,
    IN,
    KILOHM,
    MOST,
    SN,
    ZN,
    Edge,
    certified,
    checked_lines,
    no_step,
    no_verdict,
    read,
    record,
    step,
    tested,
    uncertified,
    verdict,
)
from lists import READINGS, RESISTANCES, TOLERANCE
from moves import answer_before

LEAST = "100000000"
OHM = "1000000000"
TWO_OHMS = "2000000000"
OHMS_25 = "25000000000"
OHMS_100 = "100000000000"

ZERO_AG = ("0,0,0,0,3376008600", "ag")


# Readings.

# What the request names, by 100 ohm.
NAMED = (
    # 8 becomes the first step, and the last step 9.
    Edge(read("99996010949", OHMS_100, law="ga"), no_step(8, "ga")),
    Edge(read("99996010950", OHMS_100, law="ga"), step(0, "ga"), no_step(8, "ga")),
    Edge(read("390481154249", OHMS_100), step(8500000)),
    Edge(read("390481154250", OHMS_100), no_step(9), step(8500000)),
    # 9 becomes 2.
    Edge(read("440000000000", OHMS_100), no_step(9)),
    Edge(read("440000000049", OHMS_100), no_step(9)),
    Edge(read("440000000050", OHMS_100), no_step(2), no_step(9)),
    Edge(read("440000000099", OHMS_100), no_step(2), no_step(9)),
    Edge(read("440000000100", OHMS_100), no_step(2)),
    # A step becomes the next: 100 °C, and bench card 3.
    Edge(read("138505499949", OHMS_100), step(999999)),
    Edge(read("138505499950", OHMS_100), step(1000000), step(999999)),
    Edge(read("278157253949", OHMS_100, *ZERO_AG), step(4809999, "ag")),
    Edge(
        read("278157253950", OHMS_100, *ZERO_AG),
        *(step(4810000, "ag"), step(4809999, "ag")),
    ),
)

OF_HALVES = (
    # 0 °C: half a unit less, a nanoohm under that and over it; and W = 1.
    Edge(read("99999999949", OHMS_100), step(-1)),
    Edge(read("99999999950", OHMS_100), step(0), step(-1)),
    Edge(read("99999999951", OHMS_100), step(0), step(-1)),
    Edge(read("99999999999", OHMS_100), step(0), step(-1)),
    Edge(read("100000000000", OHMS_100), step(0)),
    # Half a unit more makes a unit more, and a step has 390.
    Edge(read("100000000050", OHMS_100), step(0)),
    # -40 °C by 1 kΩ.
    Edge(read("842706520499", KILOHM), step(-400001)),
    Edge(read("842706520500", KILOHM), step(-400000), step(-400001)),
    Edge(read("842706520501", KILOHM), step(-400000), step(-400001)),
    # By the largest R0: 0 °C, -200 °C, and 0 °C on the scale.
    Edge(read("9999999994999", MOST), step(-1)),
    Edge(read("9999999995000", MOST), step(0), step(-1)),
    Edge(read("9999999995001", MOST), step(0), step(-1)),
    Edge(read("1852007994999", MOST), no_step(8)),
    Edge(read("1852007995000", MOST), step(-2000000), no_step(8)),
    Edge(read("9999601094999", MOST, law="ga"), no_step(8, "ga")),
    Edge(read("9999601095000", MOST, law="ga"), step(0, "ga"), no_step(8, "ga")),
    # By the least a nanoohm is 10 units, and nothing is dropped.
    Edge(read("100000000", LEAST), step(0)),
    Edge(read("99999999", LEAST), step(-1)),
    # The least by which there are halves is 1024 times 97657: these are the odd
    # multiples of 97657, 587 and 1643 times it here.
    Edge(read("57324658", "100000768"), step(-1072207)),
    Edge(read("57324659", "100000768"), step(-1072206), step(-1072207)),
    Edge(read("57324660", "100000768"), step(-1072206)),
    Edge(read("160450450", "100000768", *ZERO_AG), step(1552018, "ag")),
    Edge(
        read("160450451", "100000768", *ZERO_AG),
        *(step(1552019, "ag"), step(1552018, "ag")),
    ),
    # By 0.4 ohm each fifth unit has one; the third step begins at 1.000 001 173.
    Edge(read("400000468", "400000000"), step(2)),
    Edge(read("400000469", "400000000"), step(3), step(2)),
    Edge(read("400000470", "400000000"), step(3)),
    # By 2 ohm each odd R is one.
    Edge(read("1999999998", TWO_OHMS), step(-1)),
    Edge(read("1999999999", TWO_OHMS), step(0), step(-1)),
    # 0 °C by 25 ohm.
    Edge(read("24999999987", OHMS_25), step(-1)),
    Edge(read("24999999988", OHMS_25), step(0), step(-1)),
    # By an odd R0 half of it is no whole number: next over half a unit, next under.
    Edge(read("99999999951", "100000000001"), step(0), step(-1)),
    Edge(read("99999999949", "99999999999"), step(-1)),
    Edge(read("9999999994999", "9999999999999"), step(-1)),
    Edge(read("9999999995000", "9999999999999"), step(0), step(-1)),
    # Certificates of the long example, and what it reads by them.
    Edge(
        read("25834663100", "25482319100", "-13483408,0,0,0,0", "ga"),
        *(step(34790, "ga"), step(34789, "ga")),
    ),
    Edge(
        read(
            *("26245822500", "25482311100"),
            *("-13420214,136876,-87492,-70541,3375685772", "ag"),
        ),
        *(step(75318, "ag"), step(75317, "ag")),
    ),
)

# The ends of the ranges.
OF_ENDS = (
    Edge(read("18520079949", OHMS_100), no_step(8)),
    Edge(read("18520079950", OHMS_100), step(-2000000), no_step(8)),
    Edge(read("97620288562", OHMS_25), step(8500000)),
    Edge(read("97620288563", OHMS_25), no_step(9), step(8500000)),
    Edge(read("24999002737", OHMS_25, law="ga"), no_step(8, "ga")),
    Edge(read("24999002738", OHMS_25, law="ga"), step(0, "ga"), no_step(8, "ga")),
    Edge(read("99996010949", OHMS_100, *ZERO_AG), no_step(8, "ag")),
    Edge(read("99996010950", OHMS_100, *ZERO_AG), step(0, "ag"), no_step(8, "ag")),
    # One step past the top the working values are 1.118 139 287 75 for ga and
    # 4.286 420 811 65 for ag.
    Edge(read("111813928749", OHMS_100, law="ga"), step(297646, "ga")),
    Edge(
        read("111813928750", OHMS_100, law="ga"), no_step(9, "ga"), step(297646, "ga")
    ),
    Edge(read("428642081149", OHMS_100, *ZERO_AG), step(9617800, "ag")),
    Edge(
        read("428642081150", OHMS_100, *ZERO_AG), no_step(9, "ag"), step(9617800, "ag")
    ),
)

# About 4.4.
OF_MOST = (
    Edge(read("110000000000", OHMS_25), no_step(9)),
    Edge(read("110000000012", OHMS_25), no_step(9)),
    Edge(read("110000000013", OHMS_25), no_step(2), no_step(9)),
    Edge(read("110000000024", OHMS_25), no_step(2), no_step(9)),
    Edge(read("110000000025", OHMS_25), no_step(2)),
    # Exactly half a unit over it.
    Edge(read("8800000000", TWO_OHMS), no_step(9)),
    Edge(read("8800000001", TWO_OHMS), no_step(2), no_step(9)),
    Edge(read("8800000001", TWO_OHMS, *ZERO_AG), no_step(2, "ag"), no_step(9, "ag")),
    Edge(read("4400000000499", KILOHM), no_step(9)),
    Edge(read("4400000000500", KILOHM), no_step(2), no_step(9)),
    # By 1 ohm and less nothing is dropped.
    Edge(read("4400000000", OHM), no_step(9)),
    Edge(read("4400000001", OHM), no_step(2)),
    Edge(read("440000000", LEAST), no_step(9)),
    Edge(read("440000001", LEAST), no_step(2)),
    # Next under half a unit over it, and next over that.
    Edge(read("5280000005", "1200000001"), no_step(9)),
    Edge(read("3519999996", "799999999"), no_step(2), no_step(9)),
    # The largest R; by the largest R0 there is none.
    Edge(read(MOST, "2272727272728"), no_step(9)),
    Edge(read(MOST, "2272727272470"), no_step(9)),
    Edge(read(MOST, "2272727272469"), no_step(2), no_step(9)),
    Edge(read(MOST, "2272727272211"), no_step(2), no_step(9)),
    Edge(read(MOST, "2272727272210"), no_step(2)),
    # 1 goes before 2.
    Edge(read("440000001", "99999999"), no_step(1)),
)

# What goes before the ratio is not moved by it, nor a ratio of half a unit itself.
OF_OTHERS = (
    Edge(read("99999999950", OHMS_100, law="pt"), no_step(3, "pt")),
    Edge(read("440000000050", OHMS_100, "1,0,0,0,0"), no_step(7)),
    Edge(read("1", TWO_OHMS), no_step(8)),
    Edge(read("1", "2000000001"), no_step(8)),
)


# Tolerance tests.

OF_CLASSES = (
    # The errors allowed at 0 °C: above, a pass becomes a fail, and below a fail a pass.
    Edge(tested("A", 0, "100058662249", OHMS_100), verdict("A", "pass", 1500)),
    Edge(
        tested("A", 0, "100058662250", OHMS_100),
        *(verdict("A", "fail", 1501), verdict("A", "pass", 1500)),
    ),
    Edge(tested("A", 0, "99941374249", OHMS_100), verdict("A", "fail", -1501)),
    Edge(
        tested("A", 0, "99941374250", OHMS_100),
        *(verdict("A", "pass", -1500), verdict("A", "fail", -1501)),
    ),
    Edge(tested("B", 0, "1001172828499", KILOHM), verdict("B", "pass", 3000)),
    Edge(
        tested("B", 0, "1001172828500", KILOHM),
        *(verdict("B", "fail", 3001), verdict("B", "pass", 3000)),
    ),
    Edge(tested("B", 0, "998827458499", KILOHM), verdict("B", "fail", -3001)),
    Edge(
        tested("B", 0, "998827458500", KILOHM),
        *(verdict("B", "pass", -3000), verdict("B", "fail", -3001)),
    ),
    # At -200 °C by 25 ohm, and at 650 °C.
    Edge(tested("A", -2000000, "4689463062", OHMS_25), verdict("A", "pass", 5500)),
    Edge(
        tested("A", -2000000, "4689463063", OHMS_25),
        *(verdict("A", "fail", 5501), verdict("A", "pass", 5500)),
    ),
    Edge(tested("A", 6500000, "329182158849", OHMS_100), verdict("A", "fail", -14501)),
    Edge(
        tested("A", 6500000, "329182158850", OHMS_100),
        *(verdict("A", "pass", -14500), verdict("A", "fail", -14501)),
    ),
    # An error of one step more, and the verdict stays.
    Edge(tested("A", 1000000, "138505499949", OHMS_100), verdict("A", "pass", -1)),
    Edge(
        tested("A", 1000000, "138505499950", OHMS_100),
        *(verdict("A", "pass", 0), verdict("A", "pass", -1)),
    ),
    Edge(
        tested("B", 0, "9999999995000", MOST),
        *(verdict("B", "pass", 0), verdict("B", "pass", -1)),
    ),
    Edge(
        tested("B", 0, "138505499950", OHMS_100),
        *(verdict("B", "fail", 1000000), verdict("B", "fail", 999999)),
    ),
    # The ends of the curve, and 4.4.
    Edge(tested("B", -2000000, "18520079949", OHMS_100), no_verdict("B", 8)),
    Edge(
        tested("B", -2000000, "18520079950", OHMS_100),
        *(verdict("B", "pass", 0), no_verdict("B", 8)),
    ),
    Edge(
        tested("A", 0, "18520079950", OHMS_100),
        *(verdict("A", "fail", -2000000), no_verdict("A", 8)),
    ),
    Edge(tested("B", 8500000, "390481154249", OHMS_100), verdict("B", "pass", 0)),
    Edge(
        tested("B", 8500000, "390481154250", OHMS_100),
        *(no_verdict("B", 9), verdict("B", "pass", 0)),
    ),
    Edge(
        tested("A", 6500000, "390481154250", OHMS_100),
        *(no_verdict("A", 9), verdict("A", "fail", 2000000)),
    ),
    Edge(tested("A", 0, "440000000049", OHMS_100), no_verdict("A", 9)),
    Edge(
        tested("A", 0, "440000000050", OHMS_100), no_verdict("A", 2), no_verdict("A", 9)
    ),
    Edge(
        tested("B", 0, "8800000001", TWO_OHMS), no_verdict("B", 2), no_verdict("B", 9)
    ),
    # What goes before the ratio.
    Edge(tested("C", 0, "440000000050", OHMS_100), no_verdict("C", 3)),
    Edge(tested("A", 6500001, "440000000050", OHMS_100), no_verdict("A", 9)),
    Edge(tested("A", -2000001, "99999999950", OHMS_100), no_verdict("A", 8)),
    Edge(tested("B", 0, "440000001", "99999999"), no_verdict("B", 1)),
)


# Records of resistances.

# A sensor without deviation by 100 ohm.
SENSOR = {
    HG: ("84414211000", OHMS_100),
    GA: ("111813889000", OHMS_100),
    IN: ("160980185000", OHMS_100),
    SN: ("189279768000", OHMS_100),
    ZN: ("256891730000", OHMS_100),
    AL: ("337600860000", OHMS_100),
    AG: ("428642053000", OHMS_100),
}


def sensor(name, changes, cells=SENSOR):
    """A record of that sensor, but for these cells."""
    return record(name, {**{cell: SENSOR[cell] for cell in cells}, **changes})


def without_deviation(name):
    return certified(name, 0, 0, 0, 0, 3376008600 if name == "ag" else 0)


# The cells that `in` needs, gallium for purity.
OF_IN = (GA, IN)

OF_RECORDS = (
    # Purity: bench card 5, the other relation, and silver. Where silver is pure, d is
    # over 0.001.
    Edge(record("ga", {GA: ("111806999949", OHMS_100)}), uncertified(6)),
    Edge(record("ga", {GA: ("111806999950", OHMS_100)}), CARD_5, uncertified(6)),
    Edge(record("ga", {GA: ("111807000049", OHMS_100)}), CARD_5),
    Edge(record("ga", {GA: ("27951749987", OHMS_25)}), uncertified(6)),
    Edge(record("ga", {GA: ("27951749988", OHMS_25)}), CARD_5, uncertified(6)),
    Edge(
        record("in", {HG: ("84423500049", OHMS_100), IN: SENSOR[IN]}),
        without_deviation("in"),
    ),
    Edge(
        record("in", {HG: ("84423500050", OHMS_100), IN: SENSOR[IN]}),
        *(uncertified(6, "in"), without_deviation("in")),
    ),
    Edge(sensor("ag", {AG: ("428439999949", OHMS_100)}), uncertified(6, "ag")),
    Edge(
        sensor("ag", {AG: ("428439999950", OHMS_100)}),
        *(uncertified(7, "ag"), uncertified(6, "ag")),
    ),
    # The limit of a deviation, of a cell that is not used: mercury's are 0.843 986 097
    # and 0.844 297 812.
    Edge(sensor("in", {HG: ("84398609649", OHMS_100)}, OF_IN), uncertified(7, "in")),
    Edge(
        sensor("in", {HG: ("84398609650", OHMS_100)}, OF_IN),
        *(without_deviation("in"), uncertified(7, "in")),
    ),
    Edge(sensor("in", {HG: ("84429781249", OHMS_100)}, OF_IN), without_deviation("in")),
    Edge(
        sensor("in", {HG: ("84429781250", OHMS_100)}, OF_IN),
        *(uncertified(7, "in"), without_deviation("in")),
    ),
    # The coefficients: bench card 6; tin, aluminium and silver a unit beside.
    Edge(
        sensor("in", {IN: ("160970184949", OHMS_100)}, OF_IN),
        certified("in", -16401624, 0, 0, 0, 0),
    ),
    Edge(
        sensor("in", {IN: ("160970184950", OHMS_100)}, OF_IN),
        *(CARD_6, certified("in", -16401624, 0, 0, 0, 0)),
    ),
    Edge(
        sensor("sn", {SN: ("189279767949", OHMS_100)}),
        certified("sn", 244, -400, 0, 0, 0),
    ),
    Edge(
        sensor("sn", {SN: ("189279767950", OHMS_100)}),
        *(without_deviation("sn"), certified("sn", 244, -400, 0, 0, 0)),
    ),
    Edge(
        sensor("ag", {AL: ("337600859949", OHMS_100)}),
        certified("ag", -51, 92, -37, 594, 3376008599),
    ),
    Edge(
        sensor("ag", {AL: ("337600859950", OHMS_100)}),
        *(without_deviation("ag"), certified("ag", -51, 92, -37, 594, 3376008599)),
    ),
    Edge(sensor("ag", {AG: ("428642053049", OHMS_100)}), without_deviation("ag")),
    Edge(
        sensor("ag", {AG: ("428642053050", OHMS_100)}),
        *(certified("ag", 0, 0, 0, 119, 3376008600), without_deviation("ag")),
    ),
    # A ratio that is rounded to 0 is not measured, and one of half a unit is: as pure
    # mercury it is, and it deviates; as gallium it is not pure.
    Edge(record("ga", {GA: ("49", OHMS_100)}), uncertified(4)),
    Edge(record("ga", {GA: ("50", OHMS_100)}), uncertified(6), uncertified(4)),
    Edge(record("ga", {GA: ("4999", MOST)}), uncertified(4)),
    Edge(record("ga", {GA: ("5000", MOST)}), uncertified(6), uncertified(4)),
    Edge(record("in", {GA: ("49", OHMS_100), IN: SENSOR[IN]}), uncertified(5, "in")),
    Edge(
        record("in", {GA: ("50", OHMS_100), IN: SENSOR[IN]}),
        *(uncertified(6, "in"), uncertified(5, "in")),
    ),
    Edge(sensor("in", {HG: ("1", "2000000001")}, OF_IN), without_deviation("in")),
    Edge(
        sensor("in", {HG: ("1", TWO_OHMS)}, OF_IN),
        *(uncertified(7, "in"), without_deviation("in")),
    ),
    Edge(sensor("zn", {ZN: ("49", OHMS_100)}), uncertified(4, "zn")),
    Edge(
        sensor("zn", {ZN: ("50", OHMS_100)}), uncertified(7, "zn"), uncertified(4, "zn")
    ),
    # Above 4.4, in a cell that is used or not.
    Edge(sensor("ag", {AG: ("440000000049", OHMS_100)}), uncertified(7, "ag")),
    Edge(
        sensor("ag", {AG: ("440000000050", OHMS_100)}),
        *(uncertified(2, "ag"), uncertified(7, "ag")),
    ),
    Edge(sensor("in", {HG: ("8800000000", TWO_OHMS)}, OF_IN), uncertified(7, "in")),
    Edge(
        sensor("in", {HG: ("8800000001", TWO_OHMS)}, OF_IN),
        *(uncertified(2, "in"), uncertified(7, "in")),
    ),
    Edge(sensor("in", {AL: (MOST, "2272727272470")}, OF_IN), uncertified(7, "in")),
    Edge(
        sensor("in", {AL: (MOST, "2272727272469")}, OF_IN),
        *(uncertified(2, "in"), uncertified(7, "in")),
    ),
    # 1 and 3 go before.
    Edge(
        sensor("in", {HG: ("8800000001", TWO_OHMS), AG: ("1", "0")}, OF_IN),
        uncertified(1, "in"),
    ),
    Edge(sensor("pt", {HG: ("8800000001", TWO_OHMS)}), uncertified(3, "pt")),
)

EDGES = {
    READINGS: (*NAMED, *OF_HALVES, *OF_ENDS, *OF_MOST, *OF_OTHERS),
    RESISTANCES: OF_RECORDS,
    TOLERANCE: OF_CLASSES,
}


def nearest_lines(one):
    """The lines of a list, each tested to be answered as is due, now and before."""
    return checked_lines(one, EDGES.get(one, ()), answer_before)


def named_lines():
    """Those of readings that the request names."""
    return checked_lines(READINGS, NAMED, answer_before)
