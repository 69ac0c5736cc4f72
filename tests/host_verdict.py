"""The verdict and the duplicate search in plain C, host/reference_verdict.c, checked against the corpus, the table of cases and
the model; and the archive checked against it by host/compare_verdict.c, on the inputs of the reading and on batches that host/requests.c
makes."""

import corpus
import host
import verdict_cases
import verdict_model
from paper import EDITIONS

INPUTS = 20_000  # that the archive is compared on
MODELLED = 3_000  # inputs that the model is asked about, half of them batches of requests.c
LEAST_ASKED = 2_500
LONGEST_MODELLED = 1_000  # bytes of them
FAULTS = ("EITHER_NAMES", "BYTE_OF_POSITIONS", "CARRIED_IDS", "LEAST_EARLIER", "LAST_OCTETS")


def answered(lines):
    """From the lines of the program `answers_verdict`: octets, and by edition the search and the verdict at each position."""
    for line in lines:
        written, *answers = line.split(",")
        found = {}
        for edition, answer in zip(EDITIONS, answers, strict=True):
            search, *verdicts = [tuple(map(int, five.split())) for five in answer.split(";")]
            found[edition] = search, verdicts
        yield bytes.fromhex(written), found


def expected():
    """What is expected of the reference: (name, octets, edition, position, answer), of the table of cases and of the corpus."""
    for case in verdict_cases.table():
        for edition in set(EDITIONS) & case.answers.keys():
            yield case.line[:100], case.octets, edition, case.position, case.answers[edition]
    for name, edition in corpus.expected():
        yield name, corpus.octets(name), edition, 0, verdict_cases.message(name, edition)


def other_than_cases():
    """Where the reference differs from the table of cases or from what is expected of the corpus."""
    cases = list(expected())
    lines = host.answered_lines("answers_verdict", (octets.hex() for _, octets, *_ in cases))
    wrong = []
    for (name, _, edition, position, answer), (_, found) in zip(cases, answered(lines), strict=True):
        search, verdicts = found[edition]
        said = verdicts[min(position, len(verdicts) - 1)], search  # the verdict is the same at every position past the last message
        if said != answer:
            wrong.append(f"{name}, edition {edition}: {answer} expected, the reference has {said}")
    return wrong


def other_than_model():
    """Where the reference differs from the model, on the comparison's own inputs."""
    wrong, asked = [], 0
    for octets, answer in answered(host.made_lines("answers_verdict", MODELLED)):
        if len(octets) > LONGEST_MODELLED:
            continue
        asked += 1
        for edition, (search, verdicts) in answer.items():
            modelled = [verdict_model.verdict(edition, octets, position) for position in range(len(verdicts))]
            if (search, verdicts) != (verdict_model.duplicates(edition, octets), modelled):
                wrong.append(f"{octets[:100].hex()}, edition {edition}: the model has {modelled}, the reference {verdicts}, {search}")
    return wrong + ([] if asked >= LEAST_ASKED else [f"only {asked} inputs"])


TESTS = [
    ("the verdict and the search in C give the answers of the cases and of the corpus", other_than_cases),
    ("the verdict and the search in C and the model agree", other_than_model),
] + host.comparison_tests("compare_verdict", "verdict and the search", INPUTS, "inputs", FAULTS)
