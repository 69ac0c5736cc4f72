"""The cases of what changed between two batches, the table changes_cases.txt, checked against the model; and what document 02's A5 says of
the list beside its entries, checked of the model on the corpus. host_changes.py checks the plain C and the archive against the table."""

import functools
import itertools
import pathlib
import re

import changes_model
import crmf_cases
import joining_cases
from paper import EDITIONS, Answer, Entry, File, What

TABLE = pathlib.Path(__file__).with_name("changes_cases.txt")
ROOM = 100_000  # numbers of a list, unless a case says otherwise
PAST = Answer.NO_SUCH_MESSAGE, 0, File.NEITHER, 0, b""  # the part of an entry past the last one

ENTRY = r"\([-\d,]+\)(?:\*\d+ by \d+)?"
PART = r"(?:first|second) \d+: [^/]*[^/ ]"
ANSWER = rf"\d+@\d+(?: first| second)?|no entry|{ENTRY}(?: {ENTRY})*|{PART}"
CASE = re.compile(
    rf"(?:(?P<edition>\d+)?(?:/(?P<room>\d+))?:)? *(?P<first>.*?) *\bagainst *(?P<second>.*?) *(?:\bat (?P<entry>\d+) *)?"
    rf"-> (?P<one>{ANSWER})(?: / (?P<two>{ANSWER}))?"
)


class Case:
    """A line of the table: two batches, perhaps with an entry's number, and the answer of each edition."""

    def __init__(self, match):
        self.line = match[0][:120]
        self.first, self.second = octets(match["first"]), octets(match["second"])
        self.room = int(match["room"] or ROOM)
        self.entry = match["entry"] and int(match["entry"])
        self.answers = joining_cases.by_edition(match, listed if self.entry is None else handed)
        self.parts = []  # of each entry, if the table has them

    def questions(self):
        """What is asked of it, with the answer: (edition, the entry whose part is asked for or None for the list, answer)."""
        for edition, answer in self.answers.items():
            yield edition, self.entry, answer
            if self.entry is None and answer[0] == Answer.ACCEPTED:
                yield from ((edition, entry, part) for entry, part in enumerate(self.parts))
                yield edition, len(answer[3]), PAST


def octets(written):
    return crmf_cases.built(written, names())[0]


def listed(written):
    """What the answer to a comparison stands for: (number, place, file, entries)."""
    refused = joining_cases.refusal(written)
    if refused:
        return *refused, []
    found = []
    for numbers, count, by in re.findall(r"\(([-\d,]+)\)(?:\*(\d+) by (\d+))?", written):
        entry, further = Entry(*map(int, numbers.split(","))), int(by or 0)
        for nth in range(int(count or 1)):
            moved = (row and row + further * nth for row in (entry.first, entry.second))
            found.append(Entry(entry.what, *moved, entry.seconds))
    return Answer.ACCEPTED, 0, File.NEITHER, found


def handed(written):
    """What the answer to a question for a part stands for: (number, place, file, from, octets)."""
    refused = joining_cases.refusal(written)
    if refused:
        return *refused, 0, b""
    file, place, part = re.fullmatch(r"(\w+) (\d+): (.*)", written).groups()
    return Answer.ACCEPTED, 0, joining_cases.FILES[file], int(place), octets(part)


@functools.cache
def names():
    """The names of octets with what they stand for, those of joining_cases among them."""
    return {**joining_cases.names(), **crmf_cases.parsed(TABLE, CASE, lambda case: None, lambda case, line: None)[0]}


@functools.cache
def table():
    """The cases."""
    found = crmf_cases.parsed(TABLE, CASE, Case, lambda case, line: case.parts.append(handed(line)))[1]
    for case in found:
        if case.parts and any(len(answer[3]) != len(case.parts) for answer in case.answers.values()):
            raise ValueError(f"not as many parts as entries: {case.line}")
    return found


def told(answer):
    """An answer in a few words."""
    return f"{answer[0]}@{answer[1]} of file {answer[2]}, {' '.join(map(str, answer[3:]))[:200]}"


def disagreements():
    """The cases at which the model answers something else than the table."""
    found = []
    for case in table():
        for edition, entry, right in case.questions():
            said = modelled(edition, case.first, case.second, case.room, entry)
            if said != right:
                found.append(f"{case.line}, edition {edition}, entry {entry}: the table has {told(right)}, the model {told(said)}")
    return found


def modelled(edition, first, second, room, entry):
    """The model's list of two batches, or its part of an entry."""
    if entry is None:
        return changes_model.compare(edition, first, second, room)
    return changes_model.part(edition, first, second, entry)


SWAPPED = {What.ONLY_FIRST: What.ONLY_SECOND, What.ONLY_SECOND: What.ONLY_FIRST, What.LEAVES_DIFFER: What.LEAVES_DIFFER}


def left_over(fields, rows):
    """The kinds of a batch's fields, and the octets of its leaves, without the fields of these rows and what is below them."""
    spoken_of, found = {fields[row] for row in rows}, []
    for field in fields:
        if field in spoken_of:
            spoken_of.update(field.below.values())
        else:
            found.append((field.kind, b"" if field.kind in changes_model.CONTAINERS else field.octets))
    return found


def unlawful():
    """The pairs of short files of the corpus of which the model's list says too much or too little, or says something else the other way
    round."""
    found = []
    for edition in EDITIONS:
        batches = [(octets, changes_model.fields(edition, octets)) for octets in joining_cases.accepted(edition)]
        for (first, one), (second, two) in [*itertools.pairwise(batches), *zip(batches, batches)]:
            entries = changes_model.entries(one, two)
            turned = {Entry(SWAPPED[what], second, first, -seconds) for what, first, second, seconds in changes_model.entries(two, one)}
            rows = [[entry.first for entry in entries if entry.first], [entry.second for entry in entries if entry.second]]
            if (entries == []) != (first == second) or set(entries) != turned or rows != [sorted(set(some)) for some in rows]:
                found.append(f"{first[:60].hex()} and {second[:60].hex()}, edition {edition}: {entries}")
            elif left_over(one, rows[0]) != left_over(two, rows[1]):
                found.append(f"{first[:60].hex()} and {second[:60].hex()}, edition {edition}: the list isn't complete")
    return found


TESTS = [
    ("changes_cases: the table of cases and the model of what changed agree", disagreements),
    ("changes_cases: a list is empty for equal bytes alone, complete, and the same the other way round, in the model", unlawful),
]
