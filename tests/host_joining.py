"""Joining and cutting in plain C, host/reference_joining.c, checked against the cases of joining_cases.txt and the model; the archive
checked against those cases, and against the plain C by host/compare_joining.c, on batches that host/trios.c makes; and what document 02's
A13 says beside the answers, checked of the archive by host/laws_joining.c."""

import functools

import host
import host_reading
import joining_cases
import joining_model
from paper import Answer, File

TRIOS = 50_000  # that the archive is compared on
MODELLED = 4_000  # questions that the model is asked, which takes its time
LONGEST_MODELLED = 2_000  # bytes of them
LEAST_MODELLED = 3_500
SANITIZED = 10_000  # trios on which the programs run under AddressSanitizer
FAULTS = ("SECOND_WHOLE", "FIRST_HEADER_SKIPPED", "FIRST_LENGTH_KEPT", "HEADER_NOT_GROWN", "OTHER_ORDER", "LENGTH_BEFORE_SECOND",
    "LENGTHS_ADDED", "ROOM_BEFORE_LENGTH", "EDITION_OF_NEITHER", "ROOM_BEFORE_POSITION", "NEXT_POSITION", "BYTE_OF_POSITIONS",
    "SHORT_OUTPUT_FILLED")
UNLAWFUL = ("SECOND_WHOLE", "FIRST_HEADER_SKIPPED", "FIRST_LENGTH_KEPT", "HEADER_NOT_GROWN", "OTHER_ORDER", "LENGTHS_ADDED",
    "NEXT_POSITION", "BYTE_OF_POSITIONS")


def answered(lines):
    """From the lines of the programs `answers_joining` and `archive_joining`: what is asked, as its words and octets; the answer as
    (number, place, file, batch); and how many octets of the output after the batch changed."""
    for asked, octets, (number, place, file, count), batch, changed in host.told(lines):
        if len(batch) != 2 * count:
            raise ValueError(f"{count} octets counted, {len(batch) // 2} shown")
        yield asked, octets, (number, place, file, bytes.fromhex(batch)), changed


def question(case, edition):
    """A case of the table as a line of these programs."""
    if case.second is None:
        return f"cut {edition} {case.room} {case.position},{case.octets.hex()}"
    return f"join {edition} {case.room} {len(case.octets)},{case.octets.hex()}{case.second.hex()}"


def modelled(asked, octets):
    """The model's answer to what such a line asks."""
    edition, room, where = map(int, asked[1:])
    if asked[0] == "join":
        return joining_model.join(edition, octets[:where], octets[where:], room)
    number, place, batch = joining_model.cut(edition, octets, where, room)
    return number, place, File.NEITHER, batch


def other_than_cases(program, read, *more):
    """Where a program answers something else than the table, changes other octets, or its reading shows other rows of what it wrote."""
    asked = [(case, edition) for case in joining_cases.table() for edition in case.answers]
    lines = host.answered_lines(program, (question(case, edition) for case, edition in asked), *more)
    wrong, shown = [], []
    for (case, edition), (_, _, answer, changed) in zip(asked, answered(lines), strict=True):
        if answer != case.answers[edition] or changed:
            wrong.append(f"{case.line[:120]}, edition {edition}: found {joining_cases.told(*answer)}, {changed} other octets changed")
        elif case.rows:
            shown.append((case, edition, answer[3]))
    for (case, edition, batch), rows in zip(shown, read(batch for _, _, batch in shown), strict=True):
        if rows[edition] != (Answer.ACCEPTED, 0, case.rows):
            wrong.append(f"{case.line[:120]}, edition {edition}: other rows")
    return wrong if shown else wrong + ["no rows were compared"]


def archive_other_than_cases():
    return other_than_cases("archive_joining", host_reading.archive_answers, host.archive())


def other_than_model():
    """Where the plain C differs from the model, on the comparison's own batches."""
    answers = [one for one in answered(host.made_lines("answers_joining", MODELLED)) if len(one[1]) <= LONGEST_MODELLED]
    wanted = [("join", Answer.ACCEPTED), ("join", Answer.NO_ROOM), ("cut", Answer.ACCEPTED), ("cut", Answer.NO_SUCH_MESSAGE)]
    return host.other_than_model(answers, modelled, wanted, LEAST_MODELLED)


TESTS = [
    ("joining and cutting in C give the answers of the cases",
        functools.partial(other_than_cases, "answers_joining", host_reading.answers)),
    ("the archive gives the answers of the cases", archive_other_than_cases),
    ("joining and cutting in C and the model agree", other_than_model),
    *host.comparison_tests("compare_joining", "joining and cutting", TRIOS, "pairs", FAULTS),
    *host.law_tests("laws_joining", "grouping, of cutting and joining again and of a join's rows", TRIOS, "trios", UNLAWFUL),
    (f"joining and cutting are sound under AddressSanitizer on {SANITIZED:,} trios",
        functools.partial(host.unsound, ("compare_joining", "laws_joining"), SANITIZED)),
]
