"""The stored files of the program editions_cases: the cases of the table editions_cases.txt, the messages of corpus/, and those with two
attributes of a name swapped; and the table checked against the model."""

import functools
import pathlib
import re

import cases
import corpus
import crmf_cases
import grammar_model
from paper import EDITIONS, ROW_NUMBERS, Answer, Row, told

TABLE = pathlib.Path(__file__).with_name("editions_cases.txt")
SHOWN = corpus.SHOWN  # rows that it prints, at most

ANSWER = r"(?:\d+@\d+|0 \d+)(?:, accept 0 \d+)?"
CASE = re.compile(rf"(?:(?P<edition>\d+)?(?:/(?P<numbers>\d+))?:)? *(?P<batch>.*?) *-> (?P<one>{ANSWER})(?: / (?P<two>{ANSWER}))?")


class Case:
    """A line of the table: the editions with the answer of each, and the rows of those that accept."""

    def __init__(self, match):
        self.heading = (match["edition"] or "") + ("/" + match["numbers"] if match["numbers"] else "")
        self.numbers = int(match["numbers"] or cases.NUMBERS)
        self.batch = match["batch"]
        self.answers = {1: match["one"], 2: match["two"] or match["one"]}
        if match["edition"]:
            self.answers = {int(match["edition"]): match["one"]}
        self.rows = []

    def built(self):
        return crmf_cases.built(self.batch, table()[0])

    def printed(self):
        return "\n".join(shown(answer, self.rows) for answer in self.answers.values())


@functools.cache
def table():
    """The names with what they stand for, those of crmf_cases among them, and the cases."""
    names, found = crmf_cases.parsed(TABLE, CASE, Case, lambda case, line: case.rows.append(Row(*map(int, line.split()))))
    return {**crmf_cases.table()[0], **names}, found


def shown(answer, rows):
    """An answer as the program prints it, with the rows that belong to it."""
    accepted = re.fullmatch(r"0 (\d+)", answer)
    if not accepted or int(accepted[1]) > SHOWN:
        return answer
    if len(rows) != int(accepted[1]):
        raise ValueError(f"{answer}, and {len(rows)} rows")
    return "\n".join([answer] + [str(row) for row in rows])


def message(name):
    """What the program has to print for a message of the corpus, in each edition."""
    said = []
    for edition in EDITIONS:
        number, place, count = corpus.expected()[name, edition]
        few = number == Answer.ACCEPTED and count <= SHOWN
        said.append(shown(told(number, place, count), corpus.rows(name) if few else []))
    return "\n".join(said)


def files():
    """What the crate's folder has to hold."""
    found = []
    for case in table()[1]:
        octets, written = case.built()
        found.append((octets, f"{case.heading}:{written}", case.printed()))
    for name in corpus.names():
        octets = corpus.octets(name)
        found.append((octets, ":" + octets.hex().upper(), message(name)))
    for _, octets, place in corpus.swapped():
        found.append((octets, ":" + octets.hex().upper(), "\n".join(told(Answer.BAD_CONTENT, place, 0) for _ in EDITIONS)))
    return cases.files(found, None)


def modelled(edition, octets, numbers):
    """The answer of the model, and the rows."""
    number, place, rows = grammar_model.read(edition, octets)
    said = told(number, place, len(rows))
    if numbers < ROW_NUMBERS * len(rows):
        return f"{told(Answer.NO_ROOM, 0, 0)}, accept {said}", []
    return said, rows


def disagreements():
    """The cases at which the model answers something else than the table."""
    found = []
    for case in table()[1]:
        octets = case.built()[0]
        if case.rows and case.printed().count("\n") < len(case.rows):
            found.append(f"{case.heading}:{case.batch[:100]}: rows, and no edition that accepts")
        for edition, answer in case.answers.items():
            said, rows = modelled(edition, octets, case.numbers)
            if said != answer:
                found.append(f"{case.heading}:{case.batch[:100]}, edition {edition}: the table has {answer}, the model {said}")
            elif shown(said, rows) != shown(answer, case.rows):
                found.append(f"{case.heading}:{case.batch[:100]}, edition {edition}: the model has other rows")
    return found


TESTS = [("editions_cases: the table of cases and the model of the grammar agree", disagreements)]
