"""The moments in plain C, host/reference_times.c, and those of the archive, checked against the elements of moment_cases.py; the plain C
checked against the model, and the archive against the plain C by host/compare_moments.c, on bytes that host/limits.c makes."""

import functools

import host
import moment_cases
import moment_model
from paper import NO_MOMENT

MADE = 100_000  # bytes that the archive is compared on
MODELLED = 10_000  # of which the model is asked too


def answered(lines):
    """From the lines of the programs `answers_moments` and `archive_moments`: octets, and their moment."""
    for line in lines:
        octets, moment = line.split(",")
        yield bytes.fromhex(octets), int(moment)


def other_than_elements(program, *more):
    """Where a program shows another moment than the elements have."""
    asked = moment_cases.elements()
    lines = host.answered_lines(program, (octets.hex() for octets, _ in asked), *more)
    return [f"{octets.hex()}: {right} expected, found {found}"
            for (octets, right), (_, found) in zip(asked, answered(lines), strict=True) if found != right]


def archive_other_than_elements():
    return other_than_elements("archive_moments", host.archive())


def other_than_model():
    """Where the plain C differs from the model, on the comparison's own bytes; and that too few of them show a moment, or too many."""
    read = list(answered(host.made_lines("answers_moments", MODELLED)))
    wrong = [f"{octets[:100].hex()}: the model has {moment_model.shown(octets)}, the plain C {found}"
             for octets, found in read if found != moment_model.shown(octets)]
    shown = sum(found != NO_MOMENT for _, found in read)
    return wrong if MODELLED / 4 < shown < MODELLED * 3 / 4 else wrong + [f"{shown} of {len(read)} show a moment"]


TESTS = [
    ("the moments in C are those of the elements", functools.partial(other_than_elements, "answers_moments")),
    ("the archive's moments are those of the elements", archive_other_than_elements),
    ("the moments in C and the model agree", other_than_model),
] + host.comparison_tests("compare_moments", "moments", MADE, "elements", ("NO_CENTURY_RULE", "GENERALIZED_2049", "BEFORE_1950_TAKEN"))
