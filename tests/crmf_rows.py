"""The stored files of the program crmf_rows, built from the table crmf_rows.txt, and the table checked against the model."""

import functools
import pathlib
import re

import cases
import crmf_cases
import grammar_model
import nest_model
from paper import EDITIONS, ROW_NUMBERS, Kind, Row

TABLE = pathlib.Path(__file__).with_name("crmf_rows.txt")
ROW = re.compile(r"\d+" + r" \d+" * (ROW_NUMBERS - 1))
REPEATED = re.compile(r"(\d+) times, (\d+) bytes and (\d+) rows further each time: (.*)")
NO_BATCH, TOO_SHORT = "-", "too short, the table unchanged"


def repeated(times, size, count, rows):
    """Rows again and again, each time `size` bytes and `count` rows further; row 0 stays the parent that it is."""
    for turn in range(times):
        for row in rows:
            moved = {"first": row.first + turn * size, "content": row.content + turn * size}
            yield str(row._replace(parent=row.parent + turn * count if row.parent else 0, **moved))


def answered(line):
    """The lines of the program's answer that a line of the table stands for."""
    many = REPEATED.fullmatch(line)
    if many:
        rows = [Row(*map(int, row.split())) for row in many[4].split(";")]
        return list(repeated(*map(int, many.groups()[:3]), rows))
    if ROW.fullmatch(line) or line in (NO_BATCH, TOO_SHORT):
        return [line]
    raise ValueError(f"{TABLE.name}: neither a case nor an answer: {line}")


@functools.cache
def table():
    """The cases, as (room, batch as written, the lines of the answer)."""
    found = []
    for line in TABLE.read_text().splitlines():
        line = line.partition("#")[0].rstrip()
        case = re.fullmatch(r"(\d+): (.*)", line)
        if case:
            found.append((int(case[1]), case[2].strip(), []))
        elif line:
            found[-1][2].extend(answered(line.strip()))
    return found


def files():
    """What the crate's folder has to hold."""
    found = []
    for room, batch, lines in table():
        octets, written = crmf_cases.built(batch)
        found.append((octets, f"{room:04X} {written}", "".join(line + "\n" for line in lines)))
    return cases.files(found)


def modelled(room, octets):
    """The lines of the model's answer."""
    met = next((met for stop, met in (grammar_model.walk(octets, {edition}) for edition in EDITIONS) if not stop), None)
    if met is None:
        return [NO_BATCH]
    if room < ROW_NUMBERS * len(met.rows):
        return [TOO_SHORT]
    return [str(row) for row in met.rows]


def disagreements():
    """The cases at which the model answers something else than the table, or whose nest isn't sound; and the kinds that no case shows."""
    found, shown = [], set()
    for room, batch, lines in table():
        octets = crmf_cases.built(batch)[0]
        shown |= {int(line.split()[0]) for line in lines if ROW.fullmatch(line)}
        if nest_model.nest(octets)[0]:
            found.append(f"{batch[:100]}: the nest has a fault")
        elif modelled(room, octets) != lines:
            found.append(f"{room}: {batch[:100]}: the table has {lines[:9]}, the model {modelled(room, octets)[:9]}")
    return found + [f"no case has a row of kind {kind}" for kind in sorted(set(Kind) - shown)]


TESTS = [("crmf_rows: the table of cases and the model of the grammar agree, and every row kind is shown", disagreements)]
