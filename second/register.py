"""The register, request 6 of the requests for later changes.

A table is a list of entries, one a place, changed in place by an import or a
withdrawal; a refusal leaves it as it was. A certificate stands in an entry as it
was given, sound or not: (name, a, b, c, d, W(Al)) with the name of its law.
"""

from typing import NamedTuple

import reading
from certificate import given
from quantity import Refused

FREE = 0  # the number of a free place; it names no thermometer


class Entry(NamedTuple):
    number: int
    serial: int
    mark: int  # the serial up to which certificates are withdrawn
    certificate: tuple


def live(entry):
    """Whether the certificate's serial is above the mark."""
    return entry.serial > entry.mark


def fault(certificate):
    """The number, 3 or 7, that refuses a certificate as given, or None."""
    try:
        given(*certificate)
    except Refused as refused:
        return refused.number
    return None


def twice(numbers):
    return len(set(numbers)) < len(numbers)


def place_of(table, number):
    """The first place with the number, or None."""
    for place, entry in enumerate(table):
        if entry.number == number:
            return place
    return None


def test_table(table):
    """Refused 23 for a thermometer twice or a bad certificate.

    Of a free place nothing else is looked at.
    """
    held = [entry for entry in table if entry.number != FREE]
    if twice([entry.number for entry in held]):
        raise Refused(23)
    if any(fault(entry.certificate) for entry in held):
        raise Refused(23)


def thermometer(table, number):
    """The place of a thermometer, or None; number 0 names none."""
    return None if number == FREE else place_of(table, number)


def two_certificates(held, entry):
    """Whether they are of one serial and differ, in law or in any place."""
    return held.serial == entry.serial and held.certificate != entry.certificate


def test_list(table, entries):
    """Refused 3, 7, 17, 18 or 19, each over the whole list before the next."""
    faults = [fault(entry.certificate) for entry in entries]
    for number in (3, 7):
        if number in faults:
            raise Refused(number)
    numbers = [entry.number for entry in entries]
    if FREE in numbers or twice(numbers):
        raise Refused(17)
    new = 0
    for entry in entries:
        place = thermometer(table, entry.number)
        if place is None:
            new += 1
        elif two_certificates(table[place], entry):
            raise Refused(18)
    if new > [entry.number for entry in table].count(FREE):
        raise Refused(19)


def merged(held, entry):
    """The higher serial with its certificate, and the higher mark."""
    newer = entry if entry.serial > held.serial else held
    return newer._replace(mark=max(held.mark, entry.mark))


def import_list(table, entries):
    """Takes the entries into the table, or Refused: 23, 3, 7, 17, 18, 19."""
    test_table(table)
    test_list(table, entries)
    for entry in entries:
        place = thermometer(table, entry.number)
        if place is None:
            table[place_of(table, FREE)] = entry
        else:
            table[place] = merged(table[place], entry)


def withdraw(table, number, serial):
    """Withdraws a thermometer's certificates up to a serial, or Refused: 23, 20."""
    test_table(table)
    place = thermometer(table, number)
    if place is None:
        raise Refused(20)
    held = table[place]
    table[place] = held._replace(mark=max(held.mark, serial))


def read(table, number, r, r0):
    """The law and the step of a reading by the thermometer's live certificate, or
    Refused: 23, 20, then as a reading by that certificate."""
    test_table(table)
    place = thermometer(table, number)
    if place is None or not live(table[place]):
        raise Refused(20)
    return reading.read(*table[place].certificate, r, r0)
