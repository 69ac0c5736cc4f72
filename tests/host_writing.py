"""The writing in plain C, host/reference_writing.c, checked against the cases of writer_cases.txt and the model of writing; and the
archive checked against it by host/compare_writing.c, on drafts that host/drafts.c makes."""

import host
import writer_cases
import writer_model
from paper import EDITIONS, Answer

DRAFTS = 50_000  # that the archive is compared on
MODELLED = 4_000  # drafts that the model is asked about, which takes its time
LONGEST_MODELLED = 2_000  # bytes of their slices, and numbers of them
LEAST_CASES = 200
FAULTS = ("LEAVES_UNCOMPARED", "CONTAINERS_MEASURED", "SHORT_OUTPUT_FILLED", "CONTENTS_UNCOMPARED", "CONTAINER_CONTENTS", "BATCH_CONTENTS",
    "DRAFTS_OF_EDITION_1", "GENERALIZED_2049", "EQUAL_MOMENTS_REFUSED", "TEXTS_COMPARED")


def answered(lines):
    """From the lines of the program `answers_writing`: numbers, octets, and by edition (number, batch)."""
    for line in lines:
        numbers, octets, *answers = line.split(",")
        found = {}
        for edition, answer in zip(EDITIONS, answers, strict=True):
            number, length, batch = answer.split(" ")
            found[edition] = int(number), bytes.fromhex(batch)
            if len(found[edition][1]) != int(length):
                raise ValueError(f"a batch of {length} octets, {len(batch) // 2} shown")
        yield list(map(int, numbers.split())), bytes.fromhex(octets), found


def other_than_cases():
    """Where the reference differs from the table of writer_cases, in which both editions have all the room that they need."""
    cases = [case for case in writer_cases.table() if case.room == writer_cases.OUTPUT]
    lines = host.answered_lines("answers_writing", (f"{' '.join(map(str, case.numbers))},{case.octets.hex()}" for case in cases))
    wrong = []
    for case, (_, _, found) in zip(cases, answered(lines), strict=True):
        for edition in set(EDITIONS) & case.answers.keys():
            if found[edition] != case.expected(edition):
                wrong.append(f"{case.line[:200]}, edition {edition}: the reference has {found[edition][0]}")
    return wrong if len(cases) > LEAST_CASES else wrong + [f"only {len(cases)} cases"]


def other_than_model():
    """Where the reference differs from the model of writing, on the comparison's own drafts."""
    wrong, told = [], []
    for numbers, octets, found in answered(host.made_lines("answers_writing", MODELLED)):
        if len(octets) > LONGEST_MODELLED or len(numbers) > LONGEST_MODELLED:
            continue
        for edition, answer in found.items():
            modelled = writer_model.write(edition, numbers, octets, writer_cases.OUTPUT)
            told.append(answer[0])
            if answer != modelled:
                wrong.append(f"{numbers[:40]} over {octets[:60].hex()}, edition {edition}: the model {modelled[0]}, "
                             f"the reference {answer[0]}")
    written, refused = told.count(Answer.ACCEPTED), told.count(Answer.NO_SUCH_BATCH)
    return wrong if min(written, refused) > MODELLED / 4 else wrong + [f"only {written} written and {refused} refused"]


TESTS = [
    ("the writing in C gives the answers of the cases", other_than_cases),
    ("the writing in C and the model of writing agree", other_than_model),
] + host.comparison_tests("compare_writing", "writing", DRAFTS, "drafts", FAULTS)
