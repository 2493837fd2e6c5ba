"""The output of `register_story`: a certificate of the register, withdrawn, brought
back by an import and followed by a newer one, until the thermometer is retired.

Each part is a heading and its acts, each act with the outcome told of it, and
the serial, the mark and the law that thermometer 7 has in the end.
"""

import register
from cases import CheckFailed
from promises import outcome
from register import Entry

FREE_PLACE = Entry(0, 0, 0, ("?", 0, 0, 0, 0, 0))
PLACES = 4

ZN = ("zn", 100, -200, 0, 0, 0)
AL = ("al", 100000, -200000, 300000, 0, 0)

# W = 1.6 is about 154 °C: Wr rises by 0.003 8 a degree there and is 1.609 801 85
# at 156.5985 °C. The deviation of the second certificate exceeds a step.
R = 40_000_000_000
R0 = 25_000_000_000
DEGREES = range(1_530_000, 1_550_000)

# A serial has 64 bits.
HIGHEST = 2**64 - 1

STORY = (
    (
        "A certificate comes in.",
        (("import", 7, 1, 0, ZN, "made"), ("read", 7, "zn")),
        (1, 0, "zn"),
    ),
    (
        "In March it is withdrawn.",
        (("withdraw", 7, 1, "made"), ("read", 7, "refused 20")),
        (1, 1, "zn"),
    ),
    (
        "The other laboratory's import brings it back.",
        (("import", 7, 1, 0, ZN, "made"), ("read", 7, "refused 20")),
        (1, 1, "zn"),
    ),
    (
        "A lower serial is withdrawn, and the mark does not fall.",
        (("withdraw", 7, 0, "made"), ("read", 7, "refused 20")),
        (1, 1, "zn"),
    ),
    (
        "A newer certificate takes its place.",
        (("import", 7, 2, 0, AL, "made"), ("read", 7, "al")),
        (2, 1, "al"),
    ),
    (
        "The old one comes once more, and the newer one stays.",
        (("import", 7, 1, 0, ZN, "made"), ("read", 7, "al")),
        (2, 1, "al"),
    ),
    (
        "One serial with two certificates changes nothing.",
        (("import", 7, 2, 0, ZN, "refused 18"), ("read", 7, "al")),
        (2, 1, "al"),
    ),
    (
        "The highest serial is above every mark so far.",
        (("import", 7, HIGHEST, 0, ZN, "made"), ("read", 7, "zn")),
        (HIGHEST, 1, "zn"),
    ),
    (
        "The thermometer is retired, and no certificate revives it.",
        (
            ("withdraw", 7, HIGHEST, "made"),
            ("read", 7, "refused 20"),
            ("import", 7, HIGHEST, 0, ZN, "made"),
            ("read", 7, "refused 20"),
        ),
        (HIGHEST, HIGHEST, "zn"),
    ),
    (
        "A thermometer that is not in the register.",
        (("withdraw", 8, 1, "refused 20"), ("read", 8, "refused 20")),
        (HIGHEST, HIGHEST, "zn"),
    ),
)


def changed(function, *arguments):
    """How the outcome of an import or a withdrawal is put."""
    number = outcome(function, *arguments)
    return "made" if number is None else f"refused {number}"


def import_act(table, number, serial, mark, certificate):
    entry = Entry(number, serial, mark, certificate)
    act = f"import {number} serial {serial} mark {mark} {certificate[0]}"
    found = changed(register.import_list, table, [entry])
    return act, found, found


def withdrawal_act(table, number, serial):
    found = changed(register.withdraw, table, number, serial)
    return f"withdraw {number} up to {serial}", found, found


def reading_act(table, number):
    act = f"read {number}"
    answer = outcome(register.read, table, number, R, R0)
    if not isinstance(answer, tuple):
        return act, f"refused {answer}", f"refused {answer}"
    law, step = answer
    if step not in DEGREES:
        raise CheckFailed(f"{act}: step {step}")
    return act, law, f"{law} {step}"


# The act, what is told of its outcome, and its outcome as printed.
ACTS = {"import": import_act, "withdraw": withdrawal_act, "read": reading_act}


def make():
    """The whole output."""
    table = [FREE_PLACE] * PLACES
    lines = []
    for heading, acts, held in STORY:
        lines.append(heading)
        for kind, *arguments, told in acts:
            act, found, printed = ACTS[kind](table, *arguments)
            if found != told:
                raise CheckFailed(f"{heading} {act}: {found}, told {told}")
            lines.append(f"{act}: {printed}")
        # It took the first place, and the others are as they were.
        (number, serial, mark, certificate), *others = table
        if (number, serial, mark, certificate[0]) != (7, *held):
            raise CheckFailed(f"{heading} {table[0]}, told {held}")
        if others != [FREE_PLACE] * (PLACES - 1):
            raise CheckFailed(f"{heading} {others}")
    return "".join(line + "\n" for line in lines).encode("ascii")


if __name__ == "__main__":
    print(make().decode("ascii"), end="")
