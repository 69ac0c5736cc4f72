"""The reading in plain C, host/reference.c, checked against the corpus, host/examples.txt and the model of the grammar; and
the archive checked against the examples, and against the reading in plain C by host/compare_reading.c, on inputs that host/inputs.c makes."""

import functools
import itertools
import re

import corpus
import crmf_cases
import der_cases
import grammar_model
import host
from paper import EDITIONS, Answer, rows_of

INPUTS = 100_000  # that the archive is compared on
MODELLED = 4_500  # inputs that the model is asked about, which takes its time
LONGEST_MODELLED = 2_000  # bytes of them
FAULTS = ("SUBJECT_IS_NAME", "FALSE_ACCEPTED", "LAST_DIFFERENCE", "BYTE_OF_MESSAGES", "OWN_IDS", "ORDER_BEFORE_INSIDE", "CONTENTS_ORDERED",
    "TAGGED_ORDERED", "FIRST_PAIR_ORDERED", "EQUALS_REFUSED", "SHORT_HEADERS", "VERSION_2_MARKED", "CARRIED_FREE_OF_D4", "TEMPLATE_PLACE",
    "SIGNING_ALG_ENTERED", "SERIAL_NUMBER_READABLE", "NO_CENTURY_RULE", "GENERALIZED_2049", "BEFORE_1950_TAKEN", "BACKWARDS_BEFORE_INSIDE",
    "EQUAL_MOMENTS_REFUSED", "TEXTS_COMPARED", "NOT_AFTER_PLACE")


def answered(lines):
    """From the lines of the program `answers_reading`: octets, and by edition (number, place, rows)."""
    for line in lines:
        written, *answers = line.split(",")
        found = {}
        for edition, answer in zip(EDITIONS, answers, strict=True):
            number, place, count, *numbers = map(int, answer.split())
            found[edition] = number, place, rows_of(numbers)
            if len(found[edition][2]) != count:
                raise ValueError(f"{count} rows counted, {len(found[edition][2])} shown")
        yield bytes.fromhex(written), found


def answers(inputs):
    """The reference's answers for these inputs."""
    return [found for _, found in answered(host.answered_lines("answers_reading", (octets.hex() for octets in inputs)))]


def archive_answers(inputs):
    """The archive's answers for these inputs."""
    lines = host.answered_lines("archive_reading", (octets.hex() for octets in inputs), host.archive())
    return [found for _, found in answered(lines)]


def other_than_corpus():
    """Where the reference differs from what is expected of the corpus."""
    wrong = corpus.missing()
    for name, answer in zip(corpus.names(), answers(map(corpus.octets, corpus.names())), strict=True):
        for edition, (number, place, rows) in answer.items():
            expected, found = corpus.expected()[name, edition], (number, place, len(rows))
            if found != expected:
                wrong.append(f"{name}, edition {edition}: {expected} expected, the reference has {found}")
            elif number == Answer.ACCEPTED and len(rows) <= corpus.SHOWN and rows != corpus.rows(name):
                wrong.append(f"{name}, edition {edition}: other rows")
    return wrong


def other_than_refused(read):
    """Where a reading doesn't refuse the corpus's names with two attributes swapped, at their RDN."""
    wrong, asked = corpus.unswapped(), list(corpus.swapped())
    for (name, _, place), answer in zip(asked, read(octets for _, octets, _ in asked), strict=True):
        for edition, (number, found, _) in answer.items():
            if (number, found) != (Answer.BAD_CONTENT, place):
                wrong.append(f"{name}, swapped at {place}, edition {edition}: found {number}@{found}")
    return wrong


def examples():
    """The lines of examples.txt, as (octets as written, by edition the answer as written)."""
    form = r"(\d+@\d+|count \d+|rows(?: \d+)+)"
    found = []
    for number, line in enumerate((host.FOLDER / "examples.txt").read_text().splitlines(), 1):
        line = line.partition("#")[0].strip()
        match = re.fullmatch(rf"(?:(.*\S) )?-> {form}(?: / {form})?", line)
        if match:
            found.append((match[1] or "", dict(zip(EDITIONS, (match[2], match[3] or match[2])))))
        elif line:
            raise ValueError(f"examples.txt:{number}: not an example: {line}")
    return found


def as_written(expected, number, place, rows):
    """An answer in the form of the expected one."""
    if number != Answer.ACCEPTED:
        return f"{number}@{place}"
    return f"count {len(rows)}" if expected.startswith("count") else " ".join(["rows", *map(str, itertools.chain(*rows))])


def other_than_examples(read):
    """Where a reading answers something else than the examples."""
    wrong = []
    found = read(der_cases.expand(written) for written, _ in examples())
    for (written, expected), answer in zip(examples(), found, strict=True):
        for edition in EDITIONS:
            shown = as_written(expected[edition], *answer[edition])
            if shown != expected[edition]:
                wrong.append(f"{written[:100]}, edition {edition}: {expected[edition]} expected, found {shown[:200]}")
    return wrong


def other_than_model():
    """Where the reference differs from the model of the grammar: on the tables of cases and on the comparison's own inputs."""
    cases = [der_cases.expand(written) for written, _ in der_cases.table()]
    cases += [crmf_cases.built(batch)[0] for batch, _ in crmf_cases.table()[1]]
    read = list(zip(cases, answers(cases), strict=True))
    made = answered(host.made_lines("answers_reading", MODELLED))
    read += [(octets, answer) for octets, answer in made if len(octets) <= LONGEST_MODELLED]
    wrong = []
    for octets, answer in read:
        for edition, found in answer.items():
            modelled = grammar_model.read(edition, octets)
            if found != tuple(modelled):
                wrong.append(f"{octets[:100].hex()}, edition {edition}: the model {modelled[:2]}, the reference {found[:2]}")
    if len(read) < MODELLED:
        wrong.append(f"only {len(read)} inputs")
    return wrong


TESTS = [
    ("the reading in C gives the expected answers and rows of the corpus", other_than_corpus),
    ("the reading in C gives the answers of the examples", functools.partial(other_than_examples, answers)),
    ("the archive gives the answers of the examples", functools.partial(other_than_examples, archive_answers)),
    ("the reading in C refuses the corpus's names with two attributes swapped", functools.partial(other_than_refused, answers)),
    ("the archive refuses the corpus's names with two attributes swapped", functools.partial(other_than_refused, archive_answers)),
    ("the reading in C and the model of the grammar agree", other_than_model),
] + host.comparison_tests("compare_reading", "reading", INPUTS, "inputs", FAULTS)
