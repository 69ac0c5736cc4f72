"""The stored files of the program writer_cases: the drafts of the table writer_cases.txt, and batches that are read and written again; and
the table checked against the model of writing."""

import functools
import pathlib
import re
import zlib

import cases
import corpus
import crmf_cases
import crmf_rows
import editions_cases
import grammar_model
import writer_model
from paper import EDITIONS, KINDS_ALONE, ROW_NUMBERS, Answer, Kind, Row, numbers_of, told

TABLE = pathlib.Path(__file__).with_name("writer_cases.txt")
OUTPUT = 70000  # octets of its output

ANSWER = r"1[123]|0 \d+(?:: [^/]*[^/ ])?"
CASE = re.compile(
    rf"(?:(?P<edition>\d+)?(?:/(?P<room>\d+))?:)? *(?P<octets>[^;]*?); *(?P<draft>.*?) *-> (?P<one>{ANSWER})(?: / (?P<two>{ANSWER}))?"
)


class Case:
    """A line of the table: the slice, the draft over it, and the answer of each edition."""

    def __init__(self, match):
        self.line = match[0]
        self.heading = (match["edition"] or "") + ("/" + match["room"] if match["room"] else "")
        self.room = int(match["room"] or OUTPUT)
        self.octets, self.written = crmf_cases.built(match["octets"], names())
        self.numbers = drafted(match["draft"], self.octets)
        self.answers = {1: match["one"], 2: match["two"] or match["one"]}
        if match["edition"]:
            self.answers = {int(match["edition"]): match["one"]}

    def expected(self, edition):
        """The number and the batch, as the table has them."""
        number, length, batch = re.fullmatch(r"(\d+)(?: (\d+))?(?:: (.*))?", self.answers[edition]).groups()
        octets = b"" if int(number) != Answer.ACCEPTED else crmf_cases.built(batch, names())[0] if batch else self.octets
        if len(octets) != int(length or 0):
            raise ValueError(f"the batch has {len(octets)} octets: {self.line}")
        return int(number), octets


@functools.cache
def names():
    """The names of octets with what they stand for."""
    own, _ = crmf_cases.parsed(TABLE, CASE, lambda case: None)
    return {**editions_cases.table()[0], **own}


def shown(octets):
    """The rows that octets show as a batch, by the model of the grammar."""
    for edition in EDITIONS:
        number, _, rows = grammar_model.read(edition, octets)
        if number == Answer.ACCEPTED:
            return rows
    raise ValueError(f"no batch: {octets[:60].hex()}")


def changed(numbers, change):
    """Numbers with one of the table's changes."""
    rows = [numbers[i:i + ROW_NUMBERS] for i in range(0, len(numbers), ROW_NUMBERS)]
    words = change.split()
    if words[0] == "and":
        return numbers + list(map(int, words[1:]))
    if words[0] == "without":
        del rows[int(words[1])]
    elif words[1] == "numbers":
        return numbers[:int(words[0])]
    elif words[1] == "twice":
        rows.insert(int(words[0]), rows[int(words[0])])
    elif words[3:] == ["swapped"]:
        one, two = int(words[0]), int(words[2])
        rows[one], rows[two] = rows[two], rows[one]
    else:
        row = list(rows[int(words[0])])
        row[Row._fields.index(words[1])] = int(words[2])
        rows[int(words[0])] = row
    return numbers_of(rows)


def drafted(draft, octets):
    """The numbers of a draft as the table writes it."""
    head, *changes = draft.split(",")
    if head != "rows":
        return list(map(int, draft.split()))
    return functools.reduce(changed, changes, numbers_of(shown(octets)))


@functools.cache
def table():
    """The cases."""
    return crmf_cases.parsed(TABLE, CASE, Case)[1]


def accepted(answer):
    """Whether an answer, as told, is that a batch is accepted."""
    return answer.startswith(f"{Answer.ACCEPTED} ")


def printed(number, batch):
    """An answer as the program prints it: of a batch its length and its Adler-32 sum."""
    return told(number, 0, f"{len(batch)} {zlib.adler32(batch)}")


@functools.cache
def again():
    """What is read and written again: octets, as the program reads them, and the answers of reading, which are expected elsewhere."""
    found = []
    for case in editions_cases.table()[1]:
        answers = [answer.partition(",")[0] for answer in case.answers.values()]
        if any(map(accepted, answers)) and len(answers) == 2 and not case.heading:
            found.append((*case.built(), answers))
    for _, batch, said in crmf_rows.table():
        octets, written = crmf_cases.built(batch)
        if said[:1] not in ([], [crmf_rows.NO_BATCH], [crmf_rows.TOO_SHORT]) and len(said) <= editions_cases.SHOWN:
            found.append((octets, written, [editions_cases.modelled(edition, octets, cases.NUMBERS)[0] for edition in EDITIONS]))
    for name in corpus.names():
        octets = corpus.octets(name)
        found.append((octets, octets.hex().upper(), [told(*corpus.expected()[name, edition]) for edition in EDITIONS]))
    return found


def files():
    """What the crate's folder has to hold."""
    found = []
    for case in table():
        draft = "".join(f";{number}" for number in case.numbers)
        answers = [printed(*case.expected(edition)) for edition in case.answers]
        found.append((case.octets, f"{case.heading}={draft}:{case.written}", "\n".join(answers)))
    for octets, written, answers in again():
        said = [printed(Answer.ACCEPTED, octets) if accepted(answer) else answer for answer in answers]
        found.append((octets, ":" + written, "\n".join(said)))
    return cases.files(found, None)


def disagreements():
    """The cases at which the model answers something else than the table; batches that it doesn't write again; kinds that are never
    written."""
    found, kinds = [], set()
    for case in table():
        for edition in case.answers:
            number, batch = writer_model.write(edition, case.numbers, case.octets, case.room)
            if (number, batch) != case.expected(edition):
                found.append(f"{case.line[:200]}, edition {edition}: the model has {number} with {len(batch)} octets")
    for octets, written, answers in again():
        for edition, answer in zip(EDITIONS, answers, strict=True):
            if accepted(answer):
                rows = grammar_model.read(edition, octets)[2]
                kinds |= {(edition, row.kind) for row in rows}
                if writer_model.write(edition, numbers_of(rows), octets, len(octets)) != (Answer.ACCEPTED, octets):
                    found.append(f"{written[:100]}, edition {edition}: the model doesn't write it again")
    should = {(edition, kind) for edition in EDITIONS for kind in Kind if KINDS_ALONE.get(kind, edition) == edition}
    return found + [f"nothing of kind {kind} is written again in edition {edition}" for edition, kind in sorted(should - kinds)]


TESTS = [("writer_cases: the table of cases and the model of writing agree, and every row kind is written", disagreements)]
