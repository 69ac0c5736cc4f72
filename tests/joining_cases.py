"""The cases of joining and cutting, the table joining_cases.txt, checked against the model; and what document 02's A13 says of joining and
cutting beside the answers, checked of the model on the corpus. host_joining.py checks the plain C and the archive against the table."""

import functools
import itertools
import pathlib
import re

import corpus
import crmf_cases
import editions_cases
import grammar_model
import joining_model
from paper import EDITIONS, LONGEST, Answer, File, Row

TABLE = pathlib.Path(__file__).with_name("joining_cases.txt")
OUTPUT = 70000  # octets of output, unless a case says otherwise
SHORT = 3000  # bytes of a file of the corpus that is short, since the model takes its time; some of these have ten messages

ANSWER = r"\d+@\d+(?: first| second)?|0 \d+: [^/]*[^/ ]"
CASE = re.compile(
    rf"(?:(?P<edition>\d+)?(?:/(?P<room>\d+))?:)? *(?P<batch>.*?) *(?:\+ *(?P<second>.*?)|\bat (?P<position>\d+)) *"
    rf"-> (?P<one>{ANSWER})(?: / (?P<two>{ANSWER}))?"
)
FILES = {None: File.NEITHER, "first": File.FIRST, "second": File.SECOND}


class Case:
    """A line of the table: the batch, with a second one or a position, and the answer of each edition."""

    def __init__(self, match):
        self.line = match[0]
        self.room = int(match["room"] or OUTPUT)
        self.octets = octets(match["batch"])
        self.second = None if match["second"] is None else octets(match["second"])
        self.position = int(match["position"] or 0)
        self.answers = by_edition(match, answer)
        self.rows = []  # of the batch that is written, if the table has them

    def modelled(self, edition):
        """The answer of the model; of cutting too as (number, place, file, batch)."""
        if self.second is not None:
            return joining_model.join(edition, self.octets, self.second, self.room)
        number, place, batch = joining_model.cut(edition, self.octets, self.position, self.room)
        return number, place, File.NEITHER, batch


def octets(written):
    return crmf_cases.built(written, names())[0]


def by_edition(match, meant):
    """What the answers of a line stand for, by edition: that of the edition that it names, or of each."""
    if match["edition"]:
        return {int(match["edition"]): meant(match["one"])}
    return {1: meant(match["one"]), 2: meant(match["two"] or match["one"])}


def refusal(written):
    """The (number, place, file) of a refusal; None if the answer is another."""
    refused = re.fullmatch(r"(\d+)@(\d+)(?: (\w+))?", written)
    return refused and (int(refused[1]), int(refused[2]), FILES[refused[3]])


def answer(written):
    """What an answer of the table stands for: (number, place, file, batch)."""
    if refusal(written):
        return *refusal(written), b""
    length, batch = re.fullmatch(r"0 (\d+): (.*)", written).groups()
    if len(octets(batch)) != int(length):
        raise ValueError(f"the batch has {len(octets(batch))} octets: {written[:100]}")
    return Answer.ACCEPTED, 0, File.NEITHER, octets(batch)


@functools.cache
def names():
    """The names of octets with what they stand for."""
    own, _ = crmf_cases.parsed(TABLE, CASE, lambda case: None, lambda case, line: None)
    return {**editions_cases.table()[0], **own}


@functools.cache
def table():
    """The cases."""
    return crmf_cases.parsed(TABLE, CASE, Case, lambda case, line: case.rows.append(Row(*map(int, line.split()))))[1]


def told(number, place, file, batch):
    """An answer in a few words."""
    return f"{number}@{place} of file {file}, {len(batch)} octets"


def disagreements():
    """The cases at which the model answers something else than the table, or the batch that is written has other rows."""
    found = []
    for case in table():
        for edition, expected in case.answers.items():
            said = case.modelled(edition)
            if said != expected:
                found.append(f"{case.line[:120]}, edition {edition}: the table has {told(*expected)}, the model {told(*said)}")
            elif case.rows and grammar_model.read(edition, said[3])[2] != case.rows:
                found.append(f"{case.line[:120]}, edition {edition}: the model of the grammar has other rows")
    return found


def unlike_their_parts():
    """The joins of the table, and those of two short files of the corpus, whose rows aren't those of their parts."""
    found = []
    pairs = [(case.octets, case.second, edition) for case in table() if case.second is not None for edition in case.answers]
    pairs += [(first, second, edition) for edition in EDITIONS for first, second in itertools.pairwise(accepted(edition))]
    for first, second, edition in pairs:
        number, _, _, joined = joining_model.join(edition, first, second, LONGEST)
        if number == Answer.ACCEPTED:
            rows = joining_model.joined_rows(edition, first, second, joined)
            if grammar_model.read(edition, joined) != (Answer.ACCEPTED, 0, rows):
                found.append(f"{first[:60].hex()} and {second[:60].hex()}, edition {edition}: other rows")
    return found


def accepted(edition):
    """The short files of the corpus that an edition accepts."""
    return [octets for octets in map(corpus.octets, corpus.names())
            if len(octets) <= SHORT and grammar_model.read(edition, octets)[0] == Answer.ACCEPTED]


def joined(edition, *batches):
    """Batches joined from left to right."""
    return functools.reduce(lambda first, second: joining_model.join(edition, first, second, LONGEST)[3], batches)


def unlawful():
    """The short files of the corpus that grouping changes, or that cutting at every position and joining again doesn't give."""
    found = []
    for edition in EDITIONS:
        batches = accepted(edition)
        for first, second, third in zip(batches, batches[1:], batches[2:]):
            if joined(edition, joined(edition, first, second), third) != joined(edition, first, joined(edition, second, third)):
                found.append(f"{first[:60].hex()} and two more, edition {edition}: the grouping gives other bytes")
        for octets in batches:
            positions = range(len(joining_model.messages(octets)))
            if joined(edition, *(joining_model.cut(edition, octets, position, LONGEST)[2] for position in positions)) != octets:
                found.append(f"{octets[:60].hex()}, edition {edition}: cut and joined again it is another batch")
    return found


TESTS = [
    ("joining_cases: the table of cases and the model of joining and cutting agree", disagreements),
    ("joining_cases: the rows of a join are those of its parts, moved and renumbered, in the model", unlike_their_parts),
    ("joining_cases: grouping makes no difference, and cutting and joining again gives the original, in the model", unlawful),
]
