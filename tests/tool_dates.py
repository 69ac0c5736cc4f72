"""Dates in the tool: notBefore and notAfter as read and compare show them, how far apart two of them are, and where they come from."""

import datetime
import itertools
import json
import os
import re

import host
import tool
from paper import EDITIONS, NO_MOMENT, Kind
from tool_joining import element

UTC_TIME, GENERALIZED_TIME, SEQUENCE, VALIDITY = 0x17, 0x18, 0x30, 0xA4
TIMES = NOT_BEFORE, NOT_AFTER = 0xA0, 0xA1
NAMES = {NOT_BEFORE: "notBefore", NOT_AFTER: "notAfter"}
KINDS = Kind.NOT_BEFORE, Kind.NOT_AFTER
CERT_REQ_ID = b"\x02\x01\0"
PATH = "message at position 0 / certReq / template / validity / notBefore"
FIRST_GENERALIZED = 2050  # the first year that isn't written as UTCTime
BEFORE_YEAR_1 = 366 * 86_400  # seconds of the year 0000, with which moments begin; Python's calendar begins after it
DATE = re.compile(r"\d{4}-\d\d-\d\d \d\d:\d\d:\d\d UTC")
DIFFERENT = 1  # the exit status of compare

# Days of which the first and the last second are shown: the ends of both forms and of months, and leap days
DAYS = [(1950, 1, 1), (1970, 1, 1), (1999, 12, 31), (2000, 2, 29), (2000, 12, 31), (2023, 2, 28), (2024, 2, 29), (2049, 12, 31),
        (2050, 1, 1), (2099, 12, 31), (2100, 2, 28), (2100, 3, 1), (2400, 2, 29), (2400, 12, 31), (9996, 2, 29), (9999, 12, 31),
        *((2025, month, day) for month in range(1, 13) for day in (1, 28))]

# Two dates, and how far apart they are
INTERVALS = [
    ("2049-12-31 23:59:59", "2050-01-01 00:00:00", "1 second"), ("2024-02-29 12:00:00", "2024-02-29 12:00:02", "2 seconds"),
    ("2024-02-29 12:00:00", "2024-02-29 12:00:59", "59 seconds"), ("2024-02-29 12:00:00", "2024-02-29 12:01:00", "1 minute"),
    ("2024-02-29 12:00:00", "2024-02-29 12:02:01", "2 minutes 1 second"), ("2024-02-29 12:00:00", "2024-02-29 13:00:00", "1 hour"),
    ("2024-02-29 12:00:00", "2024-02-29 14:00:01", "2 hours 1 second"),
    ("2024-02-28 23:59:59", "2024-02-29 23:59:58", "23 hours 59 minutes 59 seconds"),
    ("2024-02-28 00:00:00", "2024-02-29 00:00:00", "1 day"), ("2024-02-28 00:00:00", "2024-03-01 00:00:00", "2 days"),
    ("2100-02-28 00:00:00", "2100-03-01 00:00:00", "1 day"), ("2024-02-27 09:00:00", "2024-02-29 12:00:00", "2 days 3 hours"),
    ("2025-01-01 00:00:00", "2026-01-02 01:01:01", "366 days 1 hour 1 minute 1 second"),
    ("2025-01-01 00:00:00", "2026-01-01 00:01:00", "365 days 1 minute"),
    ("1950-01-01 00:00:00", "9999-12-31 23:59:59", "2940201 days 23 hours 59 minutes 59 seconds"),
]

# Moments with their dates, the first of them earlier than those of any batch
MOMENTS = {
    0: "0000-01-01 00:00:00", 86_399: "0000-01-01 23:59:59", 86_400: "0000-01-02 00:00:00", 5_097_600: "0000-02-29 00:00:00",
    31_622_399: "0000-12-31 23:59:59", 31_622_400: "0001-01-01 00:00:00", 61_536_067_200: "1950-01-01 00:00:00",
    62_167_219_200: "1970-01-01 00:00:00", 63_119_001_600: "2000-02-29 00:00:00", 64_691_827_200: "2050-01-01 00:00:00",
    315_569_519_999: "9999-12-31 23:59:59",
}

# What the tool is linked with in the place of phagundro_moment
OTHER_MOMENT = """
#include "{header}"
#include <stdlib.h>

int64_t __wrap_phagundro_moment(const uint8_t *bytes, size_t length);

int64_t __wrap_phagundro_moment(const uint8_t *bytes, size_t length)
{{
    return bytes != NULL && length > 0 ? strtoll(getenv("MOMENT"), NULL, 10) : PHAGUNDRO_NO_MOMENT;
}}
"""


def moment(date):
    """The seconds from the beginning of the year 0000 to a date."""
    return BEFORE_YEAR_1 + (date - datetime.datetime.min) // datetime.timedelta(seconds=1)


def shown(date):
    return f"{date:%Y-%m-%d %H:%M:%S} UTC"


def interval(seconds):
    """How much later or earlier a moment is, by the seconds from the other to it."""
    left, words = abs(seconds), []
    for unit, length in ("day", 86_400), ("hour", 3_600), ("minute", 60), ("second", 1):
        count, left = divmod(left, length)
        words += [f"{count} {unit}{'' if count == 1 else 's'}"] if count else []
    return " ".join([*words, "earlier" if seconds < 0 else "later"])


def time(date):
    """A Time: UTCTime through 2049, and GeneralizedTime from then on."""
    utc = date.year < FIRST_GENERALIZED
    digits = f"{date:%Y%m%d%H%M%S}Z".encode()
    return element(UTC_TIME, digits[2:]) if utc else element(GENERALIZED_TIME, digits)


def message(limits):
    """A message whose validity has these of notBefore and notAfter, by their identifiers."""
    validity = element(VALIDITY, b"".join(element(identifier, time(date)) for identifier, date in limits.items()))
    return element(SEQUENCE, element(SEQUENCE, CERT_REQ_ID + element(SEQUENCE, validity)))


def batch(*validities):
    """A batch of a message for each validity."""
    return element(SEQUENCE, b"".join(map(message, validities)))


def some_dates():
    """The first and the last second of each of the days, and a time of day between."""
    for day, hour in itertools.product(DAYS, ((0, 0, 0), (23, 59, 59), (9, 8, 7))):
        yield datetime.datetime(*day, *hour)


def other_dates():
    """Dates that read shows wrongly, or for rows that are no notBefore and no notAfter; in words and as JSON, with the moments."""
    dates, wrong = list(some_dates()), []
    validities = [limits for date in dates for limits in ({NOT_BEFORE: date}, {NOT_AFTER: date}, dict.fromkeys(TIMES, date))]
    octets = batch(*validities)
    wanted = [(NAMES[identifier], date) for limits in validities for identifier, date in limits.items()]
    for edition in EDITIONS:
        lines = tool.call("read", "--edition", edition, octets=octets)[1].decode().splitlines()
        found = [line.split(None, 5)[4:] for line in lines if DATE.search(line) or any(name in line for name in NAMES.values())]
        if found != [[name, shown(date)] for name, date in wanted]:
            wrong.append(f"edition {edition}: read shows {found[:5]}")
        rows = json.loads(tool.call("read", "--edition", edition, "--json", octets=octets)[1])["rows"]
        found = [(row["name"], row["text"], row["moment"]) for row in rows if row.keys() & {"text", "moment"}]
        if found != [(name, shown(date), moment(date)) for name, date in wanted]:
            wrong.append(f"edition {edition}: read --json shows {found[:5]}")
    return wrong


def differing(folder, *dates):
    """What compare says of two batches whose notBefore is the first of these dates in one and the second in the other, and what --json
    says of that entry."""
    files = [folder / name for name in ("first", "second")]
    for path, date in zip(files, dates, strict=True):
        path.write_bytes(batch({NOT_BEFORE: date}))
    status, words, _ = tool.call("compare", "--edition", 2, *files)
    answer = json.loads(tool.call("compare", "--edition", 2, "--json", *files)[1])
    return status, words.decode().replace(f"{folder}/", "").splitlines()[1:], answer["entries"][0]


@tool.scratch
def other_intervals(folder):
    """Two dates that compare doesn't show, or between which it shows another interval, in words or in seconds; either way round."""
    wrong = []
    for *texts, words in INTERVALS:
        dates = list(map(datetime.datetime.fromisoformat, texts))
        for (one, other), said in ((dates, "later"), (dates[::-1], "earlier")):
            status, lines, entry = differing(folder, one, other)
            if (status, lines[0]) != (DIFFERENT, f"{PATH}: differs, {words} {said} in second"):
                wrong.append(f"{one} and {other}: {lines[0]}")
            if [line.rpartition(" byte 13: ")[2] for line in lines[1::2]] != [shown(one), shown(other)]:
                wrong.append(f"{one} and {other}: {lines}")
            sides = [(entry[side]["text"], entry[side]["moment"]) for side in ("first", "second")]
            if entry["seconds"] != moment(other) - moment(one) or sides != [(shown(date), moment(date)) for date in (one, other)]:
                wrong.append(f"{one} and {other}: {entry}")
            if interval(entry["seconds"]) != f"{words} {said}":
                wrong.append(f"{entry['seconds']}: {interval(entry['seconds'])} expected")
    return wrong


@tool.scratch
def other_sources(folder):
    """Where the tool shows another date than that of the moment which it is given, so that it takes it from the bytes itself. It is linked
    with another phagundro_moment."""
    (folder / "moment.c").write_text(OTHER_MOMENT.format(header=host.HEADER))
    tool.made(f"BUILD={folder}", f"LDFLAGS=-Wl,--wrap=phagundro_moment {folder / 'moment.c'}")
    files = [folder / name for name in ("first", "second")]
    for path, year in zip(files, (2024, 2060), strict=True):
        path.write_bytes(batch(dict.fromkeys(TIMES, datetime.datetime(year, 2, 29, 12))))
    calls = [["read", files[0]], ["read", "--json", files[0]], ["compare", *files], ["compare", "--json", *files]]
    wrong = []
    for (command, *words), (seconds, date) in itertools.product(calls, {**MOMENTS, NO_MOMENT: None}.items()):
        environment = {**os.environ, "MOMENT": str(seconds)}
        out = tool.call(command, "--edition", 2, *words, program=folder / "phagundro", env=environment)[1].decode()
        found = DATE.findall(out)
        wanted = [f"{date} UTC"] * (2 if command == "read" else 4) if date else []
        if found != wanted or '"moment": ' in out and f'"moment": {seconds}' not in out:
            wrong.append(f"{command} {words}, {seconds}: {found}")
        if command == "compare" and not date and "240229120000Z" not in out:
            wrong.append(f"{words}: no date and no characters")
    return wrong


TESTS = [
    ("phagundro read shows notBefore and notAfter as dates, in words and as JSON", other_dates),
    ("phagundro compare shows both dates of a time that differs and how much later or earlier the second is", other_intervals),
    ("phagundro shows the dates of the library's moments and takes none from the bytes", other_sources),
]
