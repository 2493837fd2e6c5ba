"""Cases of the program `register_cases`: request 6, "The register".

A case is one act, an import, a withdrawal or a reading; twenty acts on one table
of four places are a sequence. Its line ends with the table after the act, every
place of it, free ones with whatever they hold.

What the register does step by step is tested here by what a sequence has seen as
a whole: every certificate that came and every serial withdrawn.

    python3 -B second/register_cases.py  tells what the cases met
"""

from collections import Counter

import register
from cases import CheckFailed, family, fields
from certificate import LAWS
from promises import Survey as ReadingSurvey
from promises import check_seen, faultless, outcome, reading
from register import Entry

SEED = 601
SIZE = 40000
ACTS = 20
PLACES = 4

DIVISOR = 25000000000
RESISTANCES = (0, 27500000000, 69539313500, 112500000000, 24000000000, 100000000000)

SOUND = (
    ("curve", 0, 0, 0, 0, 0),
    ("ga", 0, 0, 0, 0, 0),
    ("ga", -58346744, 0, 0, 0, 0),
    ("zn", 100, -200, 0, 0, 0),
    ("ag", 0, 0, 0, 0, 3376008600),
    ("ag", 1, 2, 3, 4, 3376008600),
)
# Of no law, with a coefficient beyond its limit, with an unused place not 0.
BAD = (
    ("?", 0, 0, 0, 0, 0),
    ("ga", 100000001, 0, 0, 0, 0),
    ("curve", 0, 0, 0, 0, 1),
)

# Of a law that is not drawn, and a resistance in its range.
NEWER = ("in", 0, 0, 0, 0, 0)
NEWER_RESISTANCE = 27500000000


def rest_for(generator, number):
    """What stands in an entry beside its number; marks of 4 and more are made 0.

    Three certificates of forty are bad and seven are any; the others are that of
    the thermometer and serial, so that a serial mostly comes back as it was.
    """
    serial = generator.under(7)
    mark = generator.under(8)
    kind = generator.under(40)
    if kind < 3:
        certificate = BAD[kind]
    elif kind < 10:
        certificate = SOUND[kind % 6]
    else:
        certificate = SOUND[(number + serial) % 6]
    return serial, mark if mark < 4 else 0, certificate


def table_for(generator):
    """A table with about two places of three free, which keep what was drawn."""
    table = []
    for _ in range(PLACES):
        number = generator.under(7)
        rest = rest_for(generator, number)
        kept = generator.under(6)
        table.append(Entry(0 if kept < 4 else number, *rest))
    return table


def list_for(generator):
    """A list of up to four entries, of one thermometer or of neighbouring ones
    upward or downward; now and then one is of thermometer 0.

    Four are drawn, however many are used.
    """
    count = 1 + generator.under(4)
    base = generator.under(6)
    way = generator.under(8)
    stride = (0, 1, 1, 1, 1, 5, 5, 5)[way]
    entries = []
    for k in range(4):
        zero = generator.under(24)
        number = 1 + (base + k * stride) % 6
        rest = rest_for(generator, number)
        entries.append(Entry(0 if zero == 0 else number, *rest))
    return entries[:count]


def number_for(generator, table):
    """What a place of the table has, mostly; else 0, or a thermometer that never
    comes."""
    pick = generator.under(10)
    return table[pick % PLACES].number if pick < 8 else (0, 7)[pick - 8]


class Survey:
    """What the cases met."""

    def __init__(self):
        self.seen = Counter()
        # The readings by a live certificate, by law.
        self.readings = ReadingSurvey()
        # The list drawn before this one, in whatever sequence.
        self.earlier = []


# The tests put in another way than in register.py.


def held_in(table):
    """The entries of a table or a list that name a thermometer."""
    return [entry for entry in table if entry.number > 0]


def by_thermometer(table):
    return {entry.number: entry for entry in held_in(table)}


def held_twice(table):
    return len(by_thermometer(table)) != len(held_in(table))


def held_badly(table):
    """Whether the table holds a bad certificate."""
    certificates = [entry.certificate for entry in held_in(table)]
    return any(c[0] not in LAWS or not faultless(*c) for c in certificates)


def bad_table(table):
    return held_twice(table) or held_badly(table)


class Past:
    """What a sequence has seen of each thermometer, beginning with its first
    table. Where that is bad nothing is noted: it answers nothing and stays."""

    def __init__(self, table):
        self.start = list(table)
        self.bad = bad_table(table)
        self.came = {}  # the pairs of serial and certificate
        self.withdrawn = {}  # the serials up to which withdrawn, marks included
        self.arrivals = []  # who was not in the first table, in the order come
        # By withdrawals alone; who had a serial under one of these imported
        # after it, and who a newer certificate.
        self.ended = {}
        self.back = set()
        self.renewed = set()
        if not self.bad:
            for entry in held_in(table):
                self.add(entry)

    def add(self, entry):
        number, serial, mark, certificate = entry
        self.came.setdefault(number, set()).add((serial, certificate))
        self.withdrawn.setdefault(number, set()).add(mark)

    def imported(self, entries):
        for entry in entries:
            if entry.number not in self.came:
                self.arrivals.append(entry.number)
            elif entry.number in self.ended:
                if entry.serial <= self.ended[entry.number]:
                    self.back.add(entry.number)
                if entry.serial > self.newest(entry.number)[0]:
                    self.renewed.add(entry.number)
            self.add(entry)

    def withdrew(self, number, serial):
        self.ended[number] = max(serial, self.ended.get(number, 0))
        self.withdrawn[number].add(serial)

    def newest(self, number):
        """The highest serial that came and its certificate, of which there is one."""
        serial = max(serial for serial, _ in self.came[number])
        certificates = [c for came, c in self.came[number] if came == serial]
        if len(certificates) != 1:
            raise CheckFailed(f"thermometer {number}, serial {serial}: {certificates}")
        return serial, certificates[0]

    def live(self):
        """The thermometers of which some certificate that came is above all that
        was withdrawn; of a bad table, those with an entry that says so."""
        if self.bad:
            return {e.number for e in held_in(self.start) if e.serial > e.mark}
        return {
            number
            for number, came in self.came.items()
            if any(self.withdrawn[number] <= set(range(serial)) for serial, _ in came)
        }

    def entry(self, number):
        """The entry that a thermometer must have by now."""
        serial, certificate = self.newest(number)
        return number, serial, max(self.withdrawn[number]), certificate

    def table(self):
        """The table as it must be by now: who had a place keeps it, and those who
        came took the free ones in turn."""
        if self.bad:
            return self.start
        arrivals = iter(self.arrivals)
        numbers = [entry.number or next(arrivals, 0) for entry in self.start]
        return [
            self.entry(number) if number > 0 else entry
            for number, entry in zip(numbers, self.start)
        ]


def import_refusals(table, entries):
    """Every refusal of 23, 3, 7, 17, 18 and 19 with a cause, in this order."""
    names = {entry.certificate[0] for entry in entries}
    known = [entry for entry in entries if entry.certificate[0] in LAWS]
    held = {(e.number, e.serial): e.certificate for e in held_in(table)}
    listed = {(e.number, e.serial, e.certificate) for e in held_in(entries)}
    both = by_thermometer(table).keys() | by_thermometer(entries).keys()
    causes = {
        23: bad_table(table),
        3: not names <= set(LAWS),
        7: not all(faultless(*entry.certificate) for entry in known),
        # Fewer thermometers than entries.
        17: len(by_thermometer(entries)) < len(entries),
        18: any(held.get((n, serial), c) != c for n, serial, c in listed),
        # Each thermometer, of the table or the list, needs a place.
        19: len(both) > len(table),
    }
    return [number for number, cause in causes.items() if cause]


def early_refusals(table, thermometers, asked):
    """Every refusal of 23 and 20 with a cause, in this order; 20 for any but
    these thermometers."""
    causes = {23: bad_table(table), 20: asked not in thermometers}
    return [number for number, cause in causes.items() if cause]


def note_order(act, refusals, seen):
    """Counts which refusals had a cause too and were not given."""
    for later in refusals[1:]:
        seen[act, f"{refusals[0]} before {later}"] += 1


def note_bad(act, table, seen):
    """Counts why a table is refused by 23."""
    if held_twice(table):
        seen[act, "23 by a thermometer twice"] += 1
    if held_badly(table):
        seen[act, "23 by a bad certificate"] += 1


def check_marks(before, table):
    """That each thermometer is still there and no mark fell."""
    now = by_thermometer(table)
    for entry in held_in(before):
        if entry.number not in now or now[entry.number].mark < entry.mark:
            raise CheckFailed(f"{entry} has lost its mark in {table}")


def check_table(before, table, past, changing):
    """That the table is what it must be after the act, and as it was before
    where the act may change nothing."""
    if not changing and table != before:
        raise CheckFailed(f"{before} is changed to {table}")
    # A bad table, which stays, may have two marks for one thermometer.
    if not past.bad:
        check_marks(before, table)
    if table != past.table():
        raise CheckFailed(f"{before} becomes {table}, due {past.table()}")


def table_after(table, *lists):
    """The table after the imports, or None where one is refused."""
    made = list(table)
    for entries in lists:
        if outcome(register.import_list, made, entries) is not None:
            return None
    return made


def check_orders(table, one, other, what, seen):
    """That both orders, where they accept both imports, leave the same entry for
    each thermometer."""
    after = table_after(table, one, other)
    reverse = table_after(table, other, one)
    if after is None and reverse is None:
        return
    if after is None or reverse is None:
        seen["orders", f"{what}, one accepts both"] += 1
        return
    if by_thermometer(after) != by_thermometer(reverse):
        raise CheckFailed(f"{one} and {other} into {table}: {after}, {reverse}")
    seen["orders", f"{what}, both accept both"] += 1
    if after != reverse:
        seen["orders", f"{what}, other places"] += 1
    if by_thermometer(one).keys() & by_thermometer(other).keys():
        seen["orders", f"{what}, a thermometer in both"] += 1


def check_imported(before, table, entries, survey):
    """That the import once more is made and changes nothing, and that the order
    of two does not matter: of the list's first entry and the others, and of the
    list and the one drawn before it."""
    if table_after(table, entries) != table:
        raise CheckFailed(f"{entries} into {table} once more")
    if len(entries) > 1:
        check_orders(before, entries[:1], entries[1:], "parts", survey.seen)
    check_orders(before, entries, survey.earlier, "lists", survey.seen)


def note_made(before, entries, seen):
    """Counts what an import does that is made."""
    held = by_thermometer(before)
    after = held.keys() | by_thermometer(entries).keys()
    if len(held) < len(after) == PLACES:
        seen["import", "takes the last place"] += 1
    for entry in entries:
        if entry.number not in held:
            seen["import", "brings a new thermometer"] += 1
            continue
        _, serial, mark, _ = held[entry.number]
        age = (entry.serial > serial) - (entry.serial < serial)
        which = ("the same", "a newer", "an older")[age]
        moves = "a higher" if entry.mark > mark else "no higher"
        seen["import", f"brings {which} certificate and {moves} mark"] += 1


def note_refused(before, entries, answer, seen):
    """Counts what an import has that is refused."""
    if answer == 23:
        note_bad("import", before, seen)
    if answer == 17 and len(held_in(entries)) < len(entries):
        seen["import", "17 by thermometer 0"] += 1
    if answer == 17 and held_twice(entries):
        seen["import", "17 by a thermometer twice"] += 1
    both = by_thermometer(before).keys() | by_thermometer(entries).keys()
    if answer == 19 and len(both) == PLACES + 1:
        seen["import", "19 by one thermometer more than places left"] += 1


def said(act, answer, seen):
    """The answer of an import or a withdrawal as it stands on a line; counted."""
    seen[act, answer or "made"] += 1
    return ("made",) if answer is None else ("refused", answer)


def import_act(generator, table, past, survey):
    entries = list_for(generator)
    before = list(table)
    answer = outcome(register.import_list, table, entries)
    due = import_refusals(before, entries)
    if answer != (due[0] if due else None):
        raise CheckFailed(f"{entries} into {before} gives {answer}, due {due}")
    note_order("import", due, survey.seen)
    if answer is None:
        past.imported(entries)
        check_imported(before, table, entries, survey)
        note_made(before, entries, survey.seen)
    else:
        note_refused(before, entries, answer, survey.seen)
    check_table(before, table, past, answer is None)
    survey.earlier = entries
    return "import", len(entries), *said("import", answer, survey.seen)


def read_after(table, entry):
    """What the thermometer reads after the entry alone is imported."""
    after = table_after(table, [entry])
    if after is None:
        raise CheckFailed(f"{entry} is not taken into {table}")
    return outcome(register.read, after, entry.number, NEWER_RESISTANCE, DIVISOR)


def check_withdrawn(before, table, number, seen):
    """That the entry which a withdrawal found, imported again, changes nothing and
    is not read where its serial is withdrawn; and that a newer one is read."""
    found = by_thermometer(before)[number]
    if table_after(table, [found]) != table:
        raise CheckFailed(f"{found} imported again changes {table}")
    _, serial, mark, _ = by_thermometer(table)[number]
    if serial <= mark:
        if read_after(table, found) != 20:
            raise CheckFailed(f"{found} imported again into {table} is read")
        seen["withdraw", "the serial imported again, then 20"] += 1
    newer = Entry(number, max(serial, mark) + 1, 0, NEWER)
    answer = read_after(table, newer)
    if not isinstance(answer, tuple) or answer[0] != NEWER[0]:
        raise CheckFailed(f"{newer} imported into {table} gives {answer}")
    seen["withdraw", "a newer one imported, then read"] += 1


def withdrawal_act(generator, table, past, survey):
    number = number_for(generator, table)
    serial = generator.under(5)
    before = list(table)
    answer = outcome(register.withdraw, table, number, serial)
    due = early_refusals(before, by_thermometer(before), number)
    if answer != (due[0] if due else None):
        raise CheckFailed(f"{number} {serial} in {before} gives {answer}, due {due}")
    note_order("withdraw", due, survey.seen)
    if answer is None:
        past.withdrew(number, serial)
        check_withdrawn(before, table, number, survey.seen)
        moves = "no higher" if table == before else "a higher"
        survey.seen["withdraw", f"{moves} mark"] += 1
    elif answer == 23:
        note_bad("withdraw", before, survey.seen)
    elif number == 0:
        survey.seen["withdraw", "20 for number 0"] += 1
    check_table(before, table, past, answer is None)
    return "withdraw", number, serial, *said("withdraw", answer, survey.seen)


def check_live(number, past, answer):
    """That an answered reading is by the newest certificate, its serial above
    every one withdrawn, and names its law."""
    serial, certificate = past.newest(number)
    if serial <= max(past.withdrawn[number]):
        raise CheckFailed(f"thermometer {number}: serial {serial} is withdrawn")
    if answer[0] != certificate[0]:
        raise CheckFailed(f"thermometer {number}: {certificate} gives {answer}")


def note_reading(table, number, r, past, answer, seen):
    """Counts what a reading meets."""
    answered = isinstance(answer, tuple)
    seen["read", "answered" if answered else answer] += 1
    if answer == 23:
        note_bad("read", table, seen)
        return
    if answer == 20:
        if r == RESISTANCES[0]:
            seen["read", "20 before 1"] += 1
        if r == RESISTANCES[3]:
            seen["read", "20 before 2"] += 1
        if number not in past.came:
            which = "number 0" if number == 0 else "no such thermometer"
            seen["read", f"20 for {which}"] += 1
            return
        if number in past.back:
            seen["read", "20, a withdrawn serial imported again"] += 1
    elif number in past.renewed:
        seen["read", "newer certificate after a withdrawal"] += 1
        if answered:
            seen["read", "newer certificate after a withdrawal, answered"] += 1
    over = past.newest(number)[0] - max(past.withdrawn[number])
    if -1 <= over <= 1:
        where = ("at", "one above", "one under")[over]
        seen["read", f"serial {where} the mark"] += 1


def reading_act(generator, table, past, survey):
    number = number_for(generator, table)
    r = RESISTANCES[generator.under(6)]
    before = list(table)
    answer = outcome(register.read, table, number, r, DIVISOR)
    refusals = early_refusals(before, past.live(), number)
    if refusals:
        due = refusals[0]
        note_order("read", refusals, survey.seen)
    else:
        # The promises of a reading by this certificate are tested too.
        name, *places = past.newest(number)[1]
        due = reading(name, places, r, DIVISOR, survey.readings)
    if answer != due:
        raise CheckFailed(f"{number} {r} in {before} gives {answer}, due {due}")
    if isinstance(answer, tuple):
        check_live(number, past, answer)
    check_table(before, table, past, False)
    note_reading(before, number, r, past, answer, survey.seen)
    return "read", number, r, DIVISOR, *fields(answer)


ACT_KINDS = (import_act,) * 4 + (withdrawal_act,) * 2 + (reading_act,) * 2

IMPORT_ORDER = (23, 3, 7, 17, 18, 19)

# What must have been met by each act.
MET = {
    "import": (
        "made",
        *IMPORT_ORDER,
        *(
            f"{first} before {later}"
            for i, first in enumerate(IMPORT_ORDER)
            for later in IMPORT_ORDER[i + 1 :]
        ),
        "23 by a thermometer twice",
        "23 by a bad certificate",
        "17 by thermometer 0",
        "17 by a thermometer twice",
        "19 by one thermometer more than places left",
        "takes the last place",
        "brings a new thermometer",
        "brings a newer certificate and a higher mark",
        "brings a newer certificate and no higher mark",
        "brings the same certificate and a higher mark",
        "brings the same certificate and no higher mark",
        "brings an older certificate and a higher mark",
        "brings an older certificate and no higher mark",
    ),
    "orders": (
        "parts, both accept both",
        "parts, other places",
        "lists, both accept both",
        "lists, other places",
        "lists, a thermometer in both",
        "lists, one accepts both",
    ),
    "withdraw": (
        "made",
        23,
        20,
        "23 before 20",
        "23 by a thermometer twice",
        "23 by a bad certificate",
        "20 for number 0",
        "a higher mark",
        "no higher mark",
        "the serial imported again, then 20",
        "a newer one imported, then read",
    ),
    "read": (
        "answered",
        23,
        20,
        1,
        2,
        8,
        9,
        "23 before 20",
        "20 before 1",
        "20 before 2",
        "23 by a thermometer twice",
        "23 by a bad certificate",
        "20 for number 0",
        "20 for no such thermometer",
        "20, a withdrawn serial imported again",
        "newer certificate after a withdrawal",
        "newer certificate after a withdrawal, answered",
        "serial one under the mark",
        "serial at the mark",
        "serial one above the mark",
    ),
}

LEAST = {(act, what): 20 for act, whats in MET.items() for what in whats}
# Seldom drawn.
LEAST["orders", "lists, one accepts both"] = 5

# By the laws that are drawn.
LEAST_READINGS = {
    (law, what): 20
    for law in ("curve", "ga", "zn", "ag")
    for what in ("answered", 1, 2, 8, 9)
}
del LEAST_READINGS["curve", 8]  # no resistance lies below the curve
del LEAST_READINGS["ag", 9]  # and none above silver, but by 2


def acts_family(seed, survey):
    table = []
    past = None

    def case(generator, i):
        nonlocal table, past
        if i % ACTS == 0:
            table = table_for(generator)
            past = Past(table)
        act = ACT_KINDS[generator.under(8)]
        line = [*act(generator, table, past, survey)]
        for *numbers, certificate in table:
            line.extend((*numbers, *certificate))
        return line

    made = family("acts", seed, SIZE, case)
    check_seen("acts", survey.seen, LEAST)
    check_seen("acts", survey.readings.seen, LEAST_READINGS)
    return made


def make():
    return acts_family(SEED, Survey())


def tell():
    """Tells what the cases met."""
    survey = Survey()
    size = len(acts_family(SEED, survey))
    print(f"acts: {size} bytes")
    for (act, what), count in sorted(survey.seen.items(), key=str):
        print(f"  {act} {what}: {count}")
    for (law, what), count in sorted(survey.readings.seen.items(), key=str):
        print(f"  {law} {what}: {count}")


if __name__ == "__main__":
    tell()
