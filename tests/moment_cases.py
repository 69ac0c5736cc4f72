"""The moments of document 02's A12: its readings' own, and elements of a notBefore or notAfter with the moment that each shows, checked
against the model; and the model's calendar checked against Python's. host_moments.py checks the plain C and the archive against the
elements."""

import datetime
import itertools

import moment_model
from paper import NO_MOMENT

FIRST_UTC = 1950  # two-digit years 50 to 99 are 19xx, others 20xx
PYTHON_FIRST = 366  # days before year 1, with which Python's calendar begins

# Days with the seconds before them, as the readings of document 02 have them
DAYS = {
    (0, 1, 1): 0,
    (1, 1, 1): 31_622_400,
    (1950, 1, 1): 61_536_067_200,
    (1970, 1, 1): 62_167_219_200,
    (2000, 2, 29): 63_119_001_600,
    (2050, 1, 1): 64_691_827_200,
}
LAST = 315_569_519_999  # of the last second of 9999

# Elements, each as octets in hex and a text after them, with the moment that it shows
ELEMENTS = [
    ("A0 0F 17 0D", "500101000000Z", 61_536_067_200),
    ("A1 0F 17 0D", "500101000000Z", 61_536_067_200),
    ("A0 0F 17 0D", "700101000000Z", 62_167_219_200),
    ("A0 0F 17 0D", "991231235959Z", 63_113_903_999),
    ("A1 0F 17 0D", "000101000000Z", 63_113_904_000),
    ("A1 0F 17 0D", "000229000000Z", 63_119_001_600),
    ("A1 0F 17 0D", "491231235959Z", 64_691_827_199),
    ("A0 11 18 0F", "20500101000000Z", 64_691_827_200),
    ("A1 11 18 0F", "20500101000000Z", 64_691_827_200),
    ("A1 11 18 0F", "21000228235959Z", 66_274_761_599),
    ("A1 11 18 0F", "21000301000000Z", 66_274_761_600),  # the next second
    ("A1 11 18 0F", "99991231235959Z", LAST),
    ("A0 11 18 0F", "20491231235959Z", NO_MOMENT),  # a day that stands as UTCTime
    ("A0 11 18 0F", "20000229000000Z", NO_MOMENT),
    ("A0 11 18 0F", "19500101000000Z", NO_MOMENT),
    ("A0 11 18 0F", "19491231235959Z", NO_MOMENT),  # none before 1950
    ("A0 11 18 0F", "00000101000000Z", NO_MOMENT),
    ("A0 11 18 0F", "21000229000000Z", NO_MOMENT),
    ("A0 0F 17 0D", "500229000000Z", NO_MOMENT),
    ("A0 0F 17 0D", "500101240000Z", NO_MOMENT),
    ("A0 0F 18 0D", "500101000000Z", NO_MOMENT),
    ("A0 11 17 0F", "20500101000000Z", NO_MOMENT),
    ("A0 0F 16 0D", "500101000000Z", NO_MOMENT),
    ("A2 0F 17 0D", "500101000000Z", NO_MOMENT),
    ("30 0F 17 0D", "500101000000Z", NO_MOMENT),
    ("A4 11 A0 0F 17 0D", "500101000000Z", NO_MOMENT),
    ("A0 11 A0 0F 17 0D", "500101000000Z", NO_MOMENT),
    ("17 0D", "500101000000Z", NO_MOMENT),
    ("A0 0D", "500101000000Z", NO_MOMENT),
    ("A0 0D 17 0D", "500101000000Z", NO_MOMENT),
    ("A0 11 17 0D", "500101000000Z", NO_MOMENT),
    ("A0 11 17 0D", "500101000000Z\x05\0", NO_MOMENT),
    ("A0 0F 17 0D", "500101000000Z\0", NO_MOMENT),
    ("A0 81 0F 17 0D", "500101000000Z", NO_MOMENT),
    ("A0 10 17 81 0D", "500101000000Z", NO_MOMENT),
    ("A0 80 17 0D", "500101000000Z\0\0", NO_MOMENT),
    ("A0 02 17 00", "", NO_MOMENT),
    ("A0 01 17", "", NO_MOMENT),
    ("A0 00", "", NO_MOMENT),
    ("A0", "", NO_MOMENT),
    ("", "", NO_MOMENT),
]

# The years from 2050 on whose months are tried: around each century, and some between
GENERALIZED_YEARS = sorted({year + by for year in range(2100, 10_000, 100) for by in (-1, 0, 4)} | set(range(2050, 10_000, 97)) | {9999})


def element(identifier, year, rest):
    """A0 or A1 around the Time that shows a day and hour of a year, given as digits."""
    utc = year < moment_model.FIRST_GENERALIZED
    written = f"{year % 100:02}{rest}Z".encode() if utc else f"{year:04}{rest}Z".encode()
    return bytes([identifier, len(written) + 2, moment_model.UTC_TIME if utc else moment_model.GENERALIZED_TIME, len(written)]) + written


def month_ends():
    """The first second and the last of each month of each year that UTCTime has and of some later ones, and the day after the last."""
    for year in [*range(FIRST_UTC, moment_model.FIRST_GENERALIZED), *GENERALIZED_YEARS]:
        for month, last in enumerate(moment_model.month_lengths(year), 1):
            for day, hour in (1, "000000"), (last, "235959"), (last + 1, "000000"):
                yield element(0xA0 + month % 2, year, f"{month:02}{day:02}{hour}")


def damaged():
    """An element with UTCTime and one with GeneralizedTime: each octet with every other value, and each cut short or longer."""
    for whole in element(0xA0, 2049, "1231235959"), element(0xA1, 2050, "0228000000"):
        for at in range(len(whole)):
            yield whole[:at]
            yield from (whole[:at] + bytes([octet]) + whole[at + 1:] for octet in range(256))
        yield from (whole + more for more in (b"\0", b"Z", b"0", whole))


def by_table():
    """The octets of the table, each with the moment that it shows or NO_MOMENT."""
    return [(bytes.fromhex(octets) + text.encode(), right) for octets, text, right in ELEMENTS]


def elements():
    """The octets that are tried, likewise: those of the table, and others with their moment by the model."""
    return by_table() + [(octets, moment_model.shown(octets)) for octets in itertools.chain(month_ends(), damaged())]


def other_than_table():
    """Where the model shows another moment than the papers or the table."""
    found = [f"{day}: {right} expected" for day, right in DAYS.items() if moment_model.seconds(*day, 0, 0, 0) != right]
    if moment_model.seconds(moment_model.LAST_YEAR, 12, 31, 23, 59, 59) != LAST:
        found.append(f"the last second of 9999: {LAST} expected")
    for octets, right in by_table():
        if moment_model.shown(octets) != right:
            found.append(f"{octets.hex()}: the table has {right}, the model {moment_model.shown(octets)}")
    return found


def other_than_python():
    """The months, from year 1 on, whose first day or last is another by Python's calendar."""
    found = []
    for year, month in itertools.product(range(1, moment_model.LAST_YEAR + 1), range(1, 13)):
        first = moment_model.seconds(year, month, 1, 0, 0, 0)
        last = moment_model.seconds(year, month, moment_model.month_lengths(year)[month - 1], 0, 0, 0)
        days = PYTHON_FIRST + datetime.date(year, month, 1).toordinal() - 1
        if first != days * 86_400 or datetime.date.fromordinal(last // 86_400 - PYTHON_FIRST + 1).month != month:
            found.append(f"{year}-{month}")
    return found


TESTS = [
    ("moment_cases: the model of moments gives the papers' and the table's", other_than_table),
    ("moment_cases: the model's months are those of Python's calendar", other_than_python),
]
