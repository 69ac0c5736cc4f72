"""The fuzz target of fuzz/, built with clang's libFuzzer and run for a while on mutations of the corpus and of the tables' batches.

What it can find is shown by planted faults, which it meets at its starts. In 20 s it doesn't find OWN_IDS, which needs a carried certReqId
of 9 octets; nor can it find BYTE_OF_MESSAGES, BYTE_OF_POSITIONS and BYTE_OF_ENTRIES, which need more messages or entries than its inputs
have, nor the faults about drafts and about joins that are too long. The comparisons of host_reading.py, host_writing.py, host_verdict.py,
host_joining.py and host_changes.py find all of these. Of the faults in what changed and in times it is tried on one of each sort.

By hand and longer: `python3 tests/fuzz.py SECONDS`, where the archive is built.
"""

import functools
import os
import pathlib
import re
import sys
import tempfile

import changes_cases
import corpus
import crmf_cases
import editions_cases
import host
import joining_cases
import moment_cases
import verdict_cases

TARGET = pathlib.Path(__file__).with_name("fuzz") / "batches.c"
SECONDS = 20
LONGEST = 1024  # bytes of an input
LEAST = 2_000  # inputs, or it was no run
FINDS = ("SUBJECT_IS_NAME", "FALSE_ACCEPTED", "LAST_DIFFERENCE", "EITHER_NAMES", "CARRIED_IDS", "LEAST_EARLIER", "LAST_OCTETS",
    "ORDER_BEFORE_INSIDE", "CONTENTS_ORDERED", "TAGGED_ORDERED", "FIRST_PAIR_ORDERED", "EQUALS_REFUSED", "SHORT_HEADERS", "SECOND_WHOLE",
    "FIRST_HEADER_SKIPPED", "FIRST_LENGTH_KEPT", "HEADER_NOT_GROWN", "OTHER_ORDER", "ROOM_BEFORE_POSITION", "NEXT_POSITION",
    "REG_INFO_BY_KIND", "EXTENSIONS_FROM_LAST", "CHOICES_AT_ONE_SPOT", "CARRIED_AS_LEAF", "SECOND_PART", "VERSION_2_MARKED",
    "CARRIED_FREE_OF_D4", "TEMPLATE_PLACE", "SIGNING_ALG_ENTERED", "SERIAL_NUMBER_READABLE", "GENERALIZED_2049",
    "BACKWARDS_BEFORE_INSIDE", "FIRST_LESS_SECOND")


@functools.cache
def built(archive):
    host.BUILT.mkdir(parents=True, exist_ok=True)
    program = host.BUILT / "fuzz"
    references = sorted(host.FOLDER.glob("reference*.c"))
    flags = ["-std=c11", *host.WARNINGS, "-O1", "-g", "-fsanitize=fuzzer,address,undefined"]
    host.did(["clang", *flags, "-o", program, TARGET, *references, archive])
    return program


def starts():
    """What the fuzzer starts from: the corpus, also with names out of order, and the batches of the tables of cases, as far as they are
    short."""
    found = [path.read_bytes() for path in corpus.files()] + [octets for _, octets, _ in corpus.swapped()]
    found += [crmf_cases.built(batch)[0] for batch, _ in crmf_cases.table()[1]]
    found += [case.built()[0] for case in editions_cases.table()[1]]
    found += [case.octets for case in verdict_cases.table()] + [case.octets for case in joining_cases.table()]
    found += [case.first + case.second for case in changes_cases.table()] + [octets for octets, _ in moment_cases.by_table()]
    return [octets for octets in found if len(octets) <= LONGEST]


def fuzzed(archive, seconds, fault=None):
    """How a run ended, and what it wrote; the fault, if any, is planted in the plain C.

    An input on which they differ is kept in target/host, but for a planted fault."""
    with tempfile.TemporaryDirectory() as folder:
        seeds, kept = pathlib.Path(folder) / "seeds", pathlib.Path(folder) / "kept"
        seeds.mkdir()
        kept.mkdir()
        for number, octets in enumerate(starts()):
            (seeds / str(number)).write_bytes(octets)
        words = [f"-max_total_time={seconds}", f"-seed={host.SEED}", f"-max_len={LONGEST}", "-print_final_stats=1"]
        words.append(f"-artifact_prefix={folder if fault else host.BUILT}/")
        number = host.faults()[fault][0] if fault else 0
        return host.run([built(archive), *words, kept, seeds], env=dict(os.environ, REFERENCE_FAULT=str(number)))


def differences(archive=None, seconds=SECONDS):
    """What the fuzzer finds, or that it tried too little."""
    ended = fuzzed(archive or host.archive(), seconds)
    if ended.returncode != 0:
        return ended.stdout.splitlines()[-30:] or [f"the fuzzer ended with status {ended.returncode}"]
    tried = int(re.search(r"number_of_executed_units: (\d+)", ended.stdout)[1])
    print(f"{tried:,} inputs fuzzed in {seconds} s")
    return [] if tried >= LEAST else [f"only {tried} inputs"]


def overlooked(fault):
    """Whether the fuzzer is blind to a planted fault."""
    ended = fuzzed(host.archive(), SECONDS, fault)
    found = ended.returncode != 0 and "difference: edition " in ended.stdout
    return [] if found else [f"no difference is reported, status {ended.returncode}"]


TESTS = [
    (f"the fuzzer finds no difference between the archive and the plain C, nor between the editions, in {SECONDS} s", differences),
] + [
    (f"the fuzzer finds {host.planted_fault(fault)}", functools.partial(overlooked, fault)) for fault in FINDS
]


if __name__ == "__main__":
    wrong = differences(host.ARCHIVE, int(sys.argv[1]))
    print("\n".join(wrong))
    sys.exit(bool(wrong))
