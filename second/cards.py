"""The bench cards of the scope document: the output of `cards`.

Each line has a card's number, what goes in, and what comes out, worked out here
and held to what the card states. A ratio is put as resistances over 1 ohm. A
tolerance test aims at a step by the ratio one unit above that of the step.
"""

import certificate
import curve
import quantity
import reading
from cases import CheckFailed
from quantity import Refused
from reference import working

ONE_OHM = 10**9

ZERO_AG = ("ag", 0, 0, 0, 0, 3_376_008_600)
ZERO_CURVE = ("curve", 0, 0, 0, 0, 0)


def refusal(number, function, *arguments):
    """The refusal, which must have that number."""
    try:
        found = function(*arguments)
    except Refused as refused:
        found = str(refused)
    if found != f"refused {number}":
        raise CheckFailed(f"{arguments}: {found}, not {number}")
    return found


def reading_of(law, w):
    """How a reading by a certificate of zeros is put."""
    name, *places = law
    return f"read {name} {' '.join(map(str, places))} ratio {w}"


def reads(law, w, step):
    if reading.read(*law, w, ONE_OHM) != (law[0], step):
        raise CheckFailed(f"{reading_of(law, w)}: not {step}")
    return f"{reading_of(law, w)} {law[0]} {step}"


def reads_none(law, w, number):
    return f"{reading_of(law, w)} {refusal(number, reading.read, *law, w, ONE_OHM)}"


def works(step, value):
    if working(step) != value:
        raise CheckFailed(f"working value at {step}")
    return f"working {step} {value}"


def record_of(name, gallium, indium):
    """How a record with gallium and indium alone is put."""
    return f"record {name} gallium {gallium} indium {indium}"


def gives(name, gallium, indium, a):
    """A certificate with a alone."""
    made = certificate.certify(name, {"Ga": gallium, "In": indium})
    if made != (name, a, 0, 0, 0, 0):
        raise CheckFailed(f"{record_of(name, gallium, indium)}: {made}")
    return f"{record_of(name, gallium, indium)} certificate {' '.join(map(str, made))}"


def gives_none(name, gallium, indium, number):
    given = refusal(number, certificate.certify, name, {"Ga": gallium, "In": indium})
    return f"{record_of(name, gallium, indium)} {given}"


def divides(r, r0, units):
    if quantity.ratio(r, r0) != units:
        raise CheckFailed(f"ratio of {r} and {r0}")
    return f"ratio {r} {r0} {units}"


def judges(bath, step, passes):
    """Class A."""
    r = curve.forward(step) + 1
    _, passed, error = reading.tolerance(ord("A"), bath, r, ONE_OHM)
    if (passed, error) != (passes, step - bath):
        raise CheckFailed(f"tolerance at {bath}: {passed} {error}")
    return f"tolerance A bath {bath} ratio {r} {'pass' if passed else 'fail'} {error}"


# Number, function, arguments; what a card states stands last.
CARDS = (
    (1, works, 0, 99_996_011_000),
    (2, works, 4_810_000, 278_157_254_000),
    (3, reads, ZERO_AG, 2_781_572_540, 4_810_000),
    (3, reads, ZERO_AG, 2_781_572_539, 4_809_999),
    (4, reads, ZERO_AG, 999_960_110, 0),
    (4, reads_none, ZERO_AG, 999_960_109, 8),
    (5, gives, "ga", 1_118_070_000, 0, -58_346_744),
    (5, gives_none, "ga", 1_118_069_999, 0, 6),
    (6, gives, "in", 1_118_138_890, 1_609_701_850, -16_401_460),
    (7, reads, ZERO_CURVE, 1_385_055_000, 1_000_000),
    (7, reads, ZERO_CURVE, 185_200_800, -2_000_000),
    (7, reads_none, ZERO_CURVE, 185_200_799, 8),
    (8, reads, ZERO_CURVE, 3_904_811_542, 8_500_000),
    (8, reads_none, ZERO_CURVE, 3_904_811_543, 9),
    (9, reads_none, ZERO_CURVE, 4_400_000_000, 9),
    (9, reads_none, ZERO_CURVE, 4_400_000_001, 2),
    (9, reads_none, ZERO_AG, 4_400_000_000, 9),
    (9, reads_none, ZERO_AG, 4_400_000_001, 2),
    (9, divides, 2, 3 * 10**8, 7),
    (10, judges, 0, 1_500, True),
    (10, judges, 0, 1_501, False),
    (10, judges, 0, -1_500, True),
    (10, judges, 0, -1_501, False),
    (10, judges, -2_000_000, -1_994_500, True),
    (10, judges, -2_000_000, -1_994_499, False),
)


def make():
    """The whole output."""
    lines = [
        f"card {number} {function(*arguments)}"
        for number, function, *arguments in CARDS
    ]
    return "".join(line + "\n" for line in lines).encode("ascii")


if __name__ == "__main__":
    print(make().decode("ascii"), end="")
