"""The published tables beside what is computed here: the output of `tables`.

Resistances and tolerances are those that IEC 60751 prints (IEC 751 with
Amendment 2, 1995): the table for R0 = 100 ohm, and the table of tolerances in
degrees. Wr at the fixed points is table 1 of the ITS-90 text (Metrologia 27,
3-10, 1990). The slips are: 234.3136 K for mercury in one line of source
document 001; 690.462 K, 932.54 K and 1234.94 K for Zn, Al and Ag in table 1
of 004, and there c2 = 0.014338 m K; the tolerances 0.5 °C at -200 °C and
1.5 °C at 650 °C for class A and 4.75 °C at 850 °C for class B in 002.
"""

from decimal import Decimal, localcontext
from fractions import Fraction
from math import floor

from cases import CheckFailed
from certificate import PRINTED as CELL_WR
from curve import DEGREE, exact_ratio, forward, read
from curve import tolerance as judged
from quantity import Refused, kelvin, ratio
from reading import PRINTED as CELL_DEGREES
from reference import inverse, units, working

# Ohms at -200, -190, .., 850 °C, ten to a line.
OHMS = """
18.52 22.83 27.10 31.34 35.54 39.72 43.88 48.00 52.11 56.19
60.26 64.30 68.33 72.33 76.33 80.31 84.27 88.22 92.16 96.09
100.00 103.90 107.79 111.67 115.54 119.40 123.24 127.08 130.90 134.71
138.51 142.29 146.07 149.83 153.58 157.33 161.05 164.77 168.48 172.17
175.86 179.53 183.19 186.84 190.47 194.10 197.71 201.31 204.90 208.48
212.05 215.61 219.15 222.68 226.21 229.72 233.21 236.70 240.18 243.64
247.09 250.53 253.96 257.38 260.78 264.18 267.56 270.93 274.29 277.64
280.98 284.30 287.62 290.92 294.21 297.49 300.75 304.01 307.25 310.49
313.71 316.92 320.12 323.30 326.48 329.64 332.79 335.93 339.06 342.18
345.28 348.38 351.46 354.53 357.59 360.64 363.67 366.70 369.71 372.71
375.70 378.68 381.65 384.60 387.55 390.48
""".split()

# Degrees of the bath and the tolerance in degrees; class A is printed to
# hundredths and class B to tenths.
TOLERANCES = {
    "A": "-200 0.55 -100 0.35 0 0.15 100 0.35 200 0.55 300 0.75 400 0.95 "
    "500 1.15 600 1.35 650 1.45",
    "B": "-200 1.30 -100 0.80 0 0.30 100 0.80 200 1.30 300 1.80 400 2.30 "
    "500 2.80 600 3.30 650 3.60 700 3.80 800 4.30 850 4.60",
}
PRINTED_TO = {"A": 100, "B": 1000}  # steps

FIXED_POINTS = (
    ("H2O", "0.01", "1.00000000"),
    ("Ga", "29.7646", "1.11813889"),
    ("In", "156.5985", "1.60980185"),
    ("Sn", "231.928", "1.89279768"),
    ("Zn", "419.527", "2.56891730"),
    ("Al", "660.323", "3.37600860"),
    ("Ag", "961.78", "4.28642053"),
)

MERCURY = "-38.8344"  # degrees in table 1
MERCURY_SLIP = "234.3136"
KELVIN_SLIPS = (("Zn", "690.462"), ("Al", "932.54"), ("Ag", "1234.94"))
TOLERANCE_SLIPS = (("A", -200, "0.5"), ("A", 650, "1.5"), ("B", 850, "4.75"))

MOST_ERROR = 65535


def shown(count, places):
    """A count of 10^-places with its decimal point."""
    return f"{Decimal(count).scaleb(-places):.{places}f}"


def count(printed, places):
    """A printed number in units of 10^-places."""
    value = Decimal(printed).scaleb(places)
    if value != int(value):
        raise ValueError(f"{printed} has more than {places} decimals")
    return int(value)


def half_up(n, unit):
    """The nearest multiple of the unit, half upward."""
    return (2 * n + unit) // (2 * unit) * unit


def outcome(function, *arguments):
    """What is answered, shown in degrees, or the refusal."""
    try:
        return shown(function(*arguments), 4)
    except Refused as refused:
        return str(refused)


def read_resistances(r, r0):
    return read(ratio(r, r0))


def resistance_lines():
    """The printed resistances."""
    yield (
        "# resistances of IEC 60751 at R0 = 100 ohm: degrees, printed ohms, "
        "the curve's ratio, its ohms, what the printed ohms read"
    )
    for place, printed in enumerate(OHMS):
        degrees = 10 * place - 200
        w = forward(degrees * DEGREE)
        ohms = shown(half_up(w, 10**5) // 10**5, 2)
        # The same by the exact ratio: no rounding down tips a hundredth.
        hundredths = exact_ratio(degrees * DEGREE) * 10**4
        if count(ohms, 2) != floor(hundredths + Fraction(1, 2)):
            raise CheckFailed(f"ohms at {degrees} °C")
        verdict = "agrees" if ohms == printed else "differs"
        reads = outcome(read_resistances, count(printed, 9), 100 * 10**9)
        yield f"iec {degrees} {printed} {shown(w, 9)} {ohms} {verdict} reads {reads}"


def largest_passing(letter, degrees):
    """The largest error in steps that the class lets pass at that bath."""
    bath = degrees * DEGREE
    side = -1 if degrees == 850 else 1

    def passes(error):
        """With the resistance over 100 ohm that reads the bath and the error."""
        try:
            r = (forward(bath + side * error) + 1) * 100
            passed, found = judged(ord(letter), bath, r, 100 * 10**9)
        except Refused:
            return False
        if found != side * error:
            raise CheckFailed(f"error {found} for {side * error}")
        return passed

    return max(error for error in near(letter, degrees) if passes(error))


def near(letter, degrees):
    """Errors to try: every one from 0.1 °C under the printed limit to 0.1 °C
    over it. That a smaller one passes and a larger one fails, the class says."""
    due = dict(zip(*[iter(TOLERANCES[letter].split())] * 2))[str(degrees)]
    middle = count(due, 4)
    return range(middle - 1000, min(middle + 1000, MOST_ERROR) + 1)


def tolerance_lines():
    """The printed tolerances."""
    yield (
        "# tolerances of IEC 60751: class, degrees, printed limit, "
        "the largest error that passes"
    )
    for letter, table in TOLERANCES.items():
        words = table.split()
        for degrees, printed in zip(map(int, words[::2]), words[1::2]):
            limit = largest_passing(letter, degrees)
            same = half_up(limit, PRINTED_TO[letter]) == count(printed, 4)
            verdict = "agrees" if same else "differs"
            yield f"tolerance {letter} {degrees} {printed} {shown(limit, 4)} {verdict}"


def fixed_point_lines():
    """Wr at the fixed points."""
    yield (
        "# Wr of ITS-90, table 1, at the fixed points: degrees, printed Wr, the "
        "working value, the difference in 10^-11, the printed value's inverse"
    )
    for name, degrees, printed in FIXED_POINTS:
        step = count(degrees, 4)
        value = working(step)
        due = units(printed)
        back = shown(inverse(due), 4)
        cell = ""
        if name in CELL_WR:
            same = (
                count(CELL_DEGREES[name], 4) == step and units(CELL_WR[name]) == due
            )
            cell = " cell" if same else " not-the-cell"
        yield (
            f"wr {name} {shown(step, 4)} {printed} {shown(value, 11)} "
            f"{value - due} inverse {back}{cell}"
        )


def kelvin_slip_lines():
    """Temperatures that two of the sources print wrongly."""
    yield (
        "# slips of the sources: kelvin as printed there, kelvin by the table, "
        "the difference"
    )
    wr = {name: units(printed) for name, _, printed in FIXED_POINTS}
    right = {name: inverse(value) for name, value in wr.items()}
    right["Hg"] = count(MERCURY, 4)
    for name, printed in (("Hg", MERCURY_SLIP), *KELVIN_SLIPS):
        slip = count(printed, 4)
        due = kelvin(right[name])
        yield f"slip {name} {shown(slip, 4)} {shown(due, 4)} {shown(slip - due, 4)}"


def tolerance_slip_lines():
    """Tolerances that one of the sources prints otherwise than the standard."""
    yield (
        "# slips of the sources: class, degrees, tolerance as printed there, "
        "the largest error that passes, the difference"
    )
    for letter, degrees, printed in TOLERANCE_SLIPS:
        limit = largest_passing(letter, degrees)
        slip = count(printed, 4)
        yield (
            f"slip {letter} {degrees} {shown(slip // 100, 2)} {shown(limit, 4)} "
            f"{shown(slip - limit, 4)}"
        )


# ---- slips that need an exponential or a logarithm, and so no program in whole
# numbers shows: tested at each run, in 30 decimals

# ITS-90 eq. (9a), the reference function below 273.16 K.
COLD = """
-2.13534729 3.18324720 -1.80143597 0.71727204 0.50344027 -0.61899395
-0.05332322 0.28021362 0.10715224 -0.29302865 0.04459872 0.11868632
-0.05248134
""".split()


def cold_wr(temperature):
    """Wr at a temperature in kelvin below the triple point of water."""
    x = ((Decimal(temperature) / Decimal("273.16")).ln() + Decimal("1.5")) / Decimal("1.5")
    return sum(Decimal(a) * x**i for i, a in enumerate(COLD)).exp()


# Source document 004: its filter's wavelength in metres, and what it measured
# at its Al and Ag temperatures.
WAVELENGTH = "912e-9"
SIGNALS = (("932.54", "24.871"), ("1234.94", "1564.84"))


def second_constant():
    """c2 from those signals, whose ratio is by Planck's law that of
    exp(-c2/(wavelength T)), the one in it being under 10^-7 here."""
    (cold, low), (hot, high) = SIGNALS
    inverses = 1 / Decimal(cold) - 1 / Decimal(hot)
    return (Decimal(high) / Decimal(low)).ln() * Decimal(WAVELENGTH) / inverses


def check_slips():
    """That mercury's 234.3156 K has its printed Wr and 234.3136 K has not, and
    that 004's own signals go with c2 = 0.014388 m K and not with its 0.014338."""
    with localcontext() as context:
        context.prec = 30
        due = Decimal("0.84414211")
        half = Decimal("5e-9")
        if abs(cold_wr(shown(kelvin(count(MERCURY, 4)), 4)) - due) > half:
            raise CheckFailed("Wr of mercury at its temperature")
        if abs(cold_wr(MERCURY_SLIP) - due) <= 100 * half:
            raise CheckFailed("Wr of mercury at the slip")
        c2 = second_constant()
        right, wrong = Decimal("0.014388"), Decimal("0.014338")
        if abs(c2 - right) * 10 > abs(c2 - wrong):
            raise CheckFailed("the second radiation constant")


def make():
    """The whole output."""
    check_slips()
    lines = [
        *resistance_lines(),
        *tolerance_lines(),
        *fixed_point_lines(),
        *kelvin_slip_lines(),
        *tolerance_slip_lines(),
    ]
    agree = sum(" agrees" in line for line in lines)
    differ = sum(" differs" in line for line in lines)
    lines.append(f"tables: {agree} agree, {differ} differ")
    return "".join(line + "\n" for line in lines).encode("ascii")


if __name__ == "__main__":
    print(make().decode("ascii"), end="")
