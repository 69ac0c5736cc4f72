"""What changed between two batches in plain C, host/reference_changes.c, checked against the cases of changes_cases.txt and the model; the
archive checked against those cases, and against the plain C by host/compare_changes.c, on batches that host/pairs.c makes; and what
document 02's A5 and A12 say of any list, checked of the archive by host/laws_changes.c."""

import functools

import changes_cases
import host
from paper import Answer, entries_of

PAIRS = 50_000  # that the archive is compared on
LAWFUL = 20_000  # whose lists are checked by themselves
MODELLED = 3_000  # questions that the model is asked, which takes its time
LONGEST_MODELLED = 2_000  # bytes of both batches
LEAST_MODELLED = 2_000
SANITIZED = 10_000  # pairs on which the programs run under AddressSanitizer
LISTED_WRONGLY = ("CONTROLS_BY_KIND", "REG_INFO_BY_KIND", "BELOW_LISTED", "CONTAINERS_DIFFER", "CARRIED_AS_LEAF", "LENGTHS_COMPARED",
    "FIRST_MESSAGE_LISTED", "COMMON_POSITIONS", "SECOND_PART", "PART_OF_NEITHER", "PART_CUT_SHORT", "PART_OF_CONTENT", "BYTE_OF_ENTRIES",
    "FIRST_LESS_SECOND", "SECONDS_IN_32_BITS")
FAULTS = LISTED_WRONGLY + ("EXTENSIONS_FROM_LAST", "PROOFS_AT_ONE_SPOT", "CHOICES_AT_ONE_SPOT", "SECOND_BEFORE_FIRST", "EDITION_OF_NEITHER",
    "ROOM_BEFORE_SECOND", "ROOM_OF_ENTRIES", "SHORT_OUTPUT_FILLED", "ENTRY_BEFORE_REFUSALS")


def answered(lines):
    """From the lines of the programs `answers_changes` and `archive_changes`: what is asked, as its words and octets; the answer as the
    cases have it, of a list or of a part; and how many numbers of the list after its entries changed."""
    for asked, octets, (number, place, file, *more), shown, changed in host.told(lines):
        if asked[0] == "compare":
            found = [entries_of(map(int, shown.split()))]
            counted = more == [len(found[0])]
        else:
            found = [more[0], bytes.fromhex(shown)]
            counted = more[1] == len(found[1])
        if not counted:
            raise ValueError(f"{more} counted, {shown[:100]} shown")
        yield asked, octets, (number, place, file, *found), changed


def question(case, edition, entry):
    """What a case asks, as a line of these programs: the list, or the part of an entry."""
    word = f"compare {edition} {case.room}" if entry is None else f"part {edition} {entry}"
    return f"{word} {len(case.first)},{case.first.hex()}{case.second.hex()}"


def modelled(asked, octets):
    """The model's answer to what such a line asks."""
    edition, amount, where = map(int, asked[1:])
    entry = None if asked[0] == "compare" else amount
    return changes_cases.modelled(edition, octets[:where], octets[where:], amount, entry)


def other_than_cases(program, *more):
    """Where a program answers something else than the table, or changes other numbers."""
    wrong, asked = [], [(case, *one) for case in changes_cases.table() for one in case.questions()]
    lines = host.answered_lines(program, (question(case, edition, entry) for case, edition, entry, _ in asked), *more)
    for (case, edition, entry, right), (_, _, answer, changed) in zip(asked, answered(lines), strict=True):
        if answer != right or changed:
            told = changes_cases.told(answer)
            wrong.append(f"{case.line}, edition {edition}, entry {entry}: found {told}, {changed} other numbers changed")
    return wrong


def archive_other_than_cases():
    return other_than_cases("archive_changes", host.archive())


def other_than_model():
    """Where the plain C differs from the model, on the comparison's own batches."""
    answers = (one for one in answered(host.made_lines("answers_changes", MODELLED)) if len(one[1]) <= LONGEST_MODELLED)
    wanted = [("compare", Answer.ACCEPTED), ("compare", Answer.NO_ROOM), ("part", Answer.ACCEPTED), ("part", Answer.NO_SUCH_MESSAGE)]
    return host.other_than_model(answers, modelled, wanted, LEAST_MODELLED)


AGAINST_CASES = [
    ("the list of changes in C gives the answers of the cases", functools.partial(other_than_cases, "answers_changes")),
    ("the archive gives the answers of the cases", archive_other_than_cases),
    ("the list of changes in C and the model agree", other_than_model),
]
SOUND = functools.partial(host.unsound, ("compare_changes", "laws_changes"), SANITIZED)
TESTS = (
    AGAINST_CASES
    + host.comparison_tests("compare_changes", "list of changes", PAIRS, "pairs", FAULTS)
    + host.law_tests("laws_changes", "any list of changes", LAWFUL, "pairs", LISTED_WRONGLY)
    + [(f"comparing is sound under AddressSanitizer on {SANITIZED:,} pairs", SOUND)]
)
