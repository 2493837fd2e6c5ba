"""Makes the lists that the programs are measured on.

    python3 bench/lists.py FOLDER

writes into FOLDER

    curve.csv       10,000 curve lines, four of five from -30 to 30 °C, the others over the whole curve
    curve-warm.csv  the same above 0 °C: four of five to 30 °C, the others to 850 °C
    ag.csv          10,000 ag lines by 40 certificates without a zero, from 0 to 961 °C
    degrees.csv     the curve at each even degree from 0 to 850 °C, where the exact temperature is a whole step
    header.csv      the header alone: what it costs to start

The lists are the same at every run. The temperatures here only place the resistances; what the right answer to a line is,
this program does not say.
"""

import pathlib
import random
import sys

LINES = 10_000
THERMOMETERS = 40
HEADER = "id,law,r,r0,a,b,c,d,wal"

# The reference function's coefficients, C9 first.
C_DOWNWARD = (
    0.00045724,
    -0.00046122,
    -0.00204472,
    0.00187982,
    0.00511868,
    -0.00234444,
    -0.00649767,
    -0.13714390,
    1.64650916,
    2.78157254,
)


def curve_ratio(t):
    """R/R0 of IEC 60751."""
    value = 1 + 3.9083e-3 * t - 5.775e-7 * t * t
    return value if t >= 0 else value - 4.183e-12 * (t - 100) * t * t * t


def reference(t):
    """Wr of ITS-90 from 0 °C up."""
    x = (t - 481) / 481
    value = 0.0
    for c in C_DOWNWARD:
        value = value * x + c
    return value


def between(draw, low, high):
    return low + (high - low) * draw.random()


def ohms(value):
    """A resistance in whole nanoohm."""
    return round(value * 1e9)


def curve_lines(draw, usual, whole):
    """Thermometers of 100 Ω to 0.06 Ω, four of five at a usual temperature."""
    for i in range(LINES):
        t = between(draw, *(whole if i % 5 == 4 else usual))
        r0 = ohms(between(draw, 99.94, 100.06))
        r = round(r0 * curve_ratio(t))
        yield f"F{i + 1},curve,{r},{r0},0,0,0,0,0"


def away(draw, low, high):
    """A coefficient in units of 10^-11, of either sign and never 0."""
    value = round(between(draw, low, high) * 1e11)
    return value if draw.random() < 0.5 else -value


def certificate(draw):
    """a, b, c, d in units of 10^-11, and W(Al) where a, b, c put it."""
    a, b, c, d = (away(draw, *size) for size in ((1e-5, 2e-4), (1e-6, 3e-5), (1e-7, 5e-6), (1e-6, 3e-5)))
    wal = 3.3760086
    for _ in range(5):
        x = wal - 1
        wal = 3.3760086 + x * (a + x * (b + x * c)) * 1e-11
    return a, b, c, d, round(wal * 1e9)


def measured(t, a, b, c, d, wal):
    """The ratio W whose Wr is that of the temperature."""
    wr = reference(t)
    w = wr
    for _ in range(5):
        x, z = w - 1, max(0.0, w - wal * 1e-9)
        w = wr + (x * (a + x * (b + x * c)) + d * z * z) * 1e-11
    return w


def ag_lines(draw):
    """Thermometers of 25 Ω, each with its certificate, read in turn."""
    held = [(ohms(between(draw, 24.9, 25.6)), certificate(draw)) for _ in range(THERMOMETERS)]
    for i in range(LINES):
        r0, places = held[i % THERMOMETERS]
        r = round(r0 * measured(between(draw, 0.01, 961.0), *places))
        yield f"T{i + 1},ag,{r},{r0}," + ",".join(map(str, places))


def degree_lines():
    """A thermometer of 100 Ω. 2 A and 4 B have nine decimals, and so has the ratio at an even degree."""
    for half in range(426):
        w = 1_000_000_000 + 2 * 3_908_300 * half - 2_310 * half * half
        yield f"D{2 * half},curve,{100 * w},100000000000,0,0,0,0,0"


LISTS = {
    "curve": lambda: curve_lines(random.Random(60751), (-30, 30), (-200, 850)),
    "curve-warm": lambda: curve_lines(random.Random(751), (0.001, 30), (0.001, 850)),
    "ag": lambda: ag_lines(random.Random(1990)),
    "degrees": degree_lines,
    "header": lambda: (),
}


def main():
    if len(sys.argv) != 2:
        sys.exit("usage: python3 bench/lists.py FOLDER")
    folder = pathlib.Path(sys.argv[1])
    for name, lines in LISTS.items():
        text = "".join(line + "\r\n" for line in (HEADER, *lines()))
        (folder / f"{name}.csv").write_bytes(text.encode("ascii"))


if __name__ == "__main__":
    main()
