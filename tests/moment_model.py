"""A model of the times of document 01's section "The grammar" and of document 02's A12, written from those documents alone: the moment
that a Time shows, "as whole seconds from 0000-01-01 00:00:00 in the Gregorian calendar without leap seconds". The days are counted year by
year and month by month."""

import itertools
import re

import nest_model
from paper import NO_MOMENT, Answer

UTC_TIME, GENERALIZED_TIME = 0x17, 0x18
YEAR_DIGITS = {UTC_TIME: 2, GENERALIZED_TIME: 4}
FIRST_GENERALIZED = 2050  # "days through 2049 stand as UTCTime and later ones as GeneralizedTime"
LAST_YEAR = 9999


def leap(year):
    return year % 4 == 0 and (year % 100 != 0 or year % 400 == 0)


def month_lengths(year):
    return [31, 29 if leap(year) else 28, 31, 30, 31, 30, 31, 31, 30, 31, 30, 31]


DAYS_BEFORE = list(itertools.accumulate((sum(month_lengths(year)) for year in range(LAST_YEAR)), initial=0))  # each year


def seconds(year, month, day, hour, minute, second):
    """The moment of a day and hour; None if there is none such."""
    if not (1 <= month <= 12 and 1 <= day <= month_lengths(year)[month - 1] and hour <= 23 and minute <= 59 and second <= 59):
        return None
    days = DAYS_BEFORE[year] + sum(month_lengths(year)[:month - 1]) + day - 1
    return ((days * 24 + hour) * 60 + minute) * 60 + second


def moment(identifier, content):
    """The moment of a Time with this identifier, 17 or 18, and content: YYMMDDHHMMSSZ or YYYYMMDDHHMMSSZ; None if it breaks its rule."""
    match = re.fullmatch(rb"([0-9]{%d})" % YEAR_DIGITS[identifier] + rb"([0-9]{2})" * 5 + rb"Z", content)
    if not match:
        return None
    year, *rest = map(int, match.groups())
    if identifier == UTC_TIME:
        year += 1900 if year >= 50 else 2000
    elif year < FIRST_GENERALIZED:
        return None
    return seconds(year, *rest)


def shown(octets):
    """The moment that the element of a notBefore or of a notAfter shows, A0 or A1 around a Time; NO_MOMENT for any other octets."""
    if octets[:1] not in (b"\xA0", b"\xA1") or nest_model.nest(octets) != (Answer.ACCEPTED, len(octets)):
        return NO_MOMENT
    time = octets[nest_model.length(octets)[0]:]
    if not time or time[0] not in YEAR_DIGITS:
        return NO_MOMENT
    header, size, _ = nest_model.length(time)
    found = moment(time[0], time[header:]) if header + size == len(time) else None
    return NO_MOMENT if found is None else found
