"""Quantities of the scope document, section "Quantities".

Counts are whole numbers throughout: temperature in steps of 0.1 mK,
resistance in nanoohm, ratio in units of 10^-9, reference and deviation
values in units of 10^-11.
"""

KELVIN_OFFSET = 2_731_500

READING_LEAST = 1
DIVISOR_LEAST = 10**8
RESISTANCE_MOST = 10**13

# The most before request 9. With it only refusals by 1, and by 14 in lists, moved.
RESISTANCE_MOST_BEFORE = 10**12

RATIO_ONE = 10**9
RATIO_MOST = 4_400_000_000

UNITS_ONE = 10**11


class Refused(Exception):
    """No answer; `number` is the one of "Numbers given when there is no answer", and
    `cell`, in a record, the first cell at fault, where it is the fault of one."""

    def __init__(self, number, cell=None):
        super().__init__(f"refused {number}")
        self.number = number
        self.cell = cell


def quotient_down(z, d):
    """The largest whole number not above z/d: every rounding goes down, but for the
    ratio's."""
    # Floor division of whole numbers is defined for either sign of both.
    return z // d


def within_limits(r, r0, most=RESISTANCE_MOST):
    """Whether a reading R and a divisor R0 are inside their limits."""
    if not READING_LEAST <= r <= most:
        return False
    return DIVISOR_LEAST <= r0 <= most


def divided(r, r0):
    """W = R/R0 in units of 10^-9, rounded to the nearest, an exact half upward."""
    return quotient_down(2 * r * RATIO_ONE + r0, 2 * r0)


def ratio(r, r0, most=RESISTANCE_MOST):
    """W = R/R0 in units of 10^-9, or Refused 1, then 2."""
    if not within_limits(r, r0, most):
        raise Refused(1)
    w = divided(r, r0)
    # "The limit 4.4 is put to the ratio after its rounding."
    if w > RATIO_MOST:
        raise Refused(2)
    return w


def kelvin(celsius):
    """The one passage from a Celsius count to a kelvin count."""
    return celsius + KELVIN_OFFSET
