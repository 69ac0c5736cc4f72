"""The programs of host/, compiled and run: what the tests of the C boundary have in common.

host/reference*.c is document 01 with document 02's A3, A4, A5, A11, A12 and A13 in plain C, written from those papers alone;
host/compare*.c check the archive against it, on inputs at random. A fault can be planted in the plain C, to show that a comparison finds
it.
"""

import functools
import pathlib
import re
import subprocess

import corpus
from layout import ROOT

FOLDER = pathlib.Path(__file__).with_name("host")
HEADER = ROOT / "include/phagundro.h"
BUILT = ROOT / "target/host"
ARCHIVE = ROOT / "crates/capi/out/libcapi.a"
WARNINGS = ["-Wall", "-Wextra", "-Werror"]
C11 = ["gcc", "-std=c11", *WARNINGS]
CPP17 = ["g++", "-std=c++17", *WARNINGS]
OPTIMISED = ("-O2",)
SANITIZED = ("-g", "-O1", "-fsanitize=address,undefined", "-fno-sanitize-recover=all")
SEED = 1

# The exit statuses of a comparison
SAME, DIFFERENT = 0, 1


def run(words, **more):
    return subprocess.run(list(map(str, words)), cwd=ROOT, stdout=subprocess.PIPE, stderr=subprocess.STDOUT, text=True, **more)


def did(words, **more):
    """What a command writes; one that ends with another status than 0 is a failure of the test."""
    ended = run(words, **more)
    if ended.returncode != 0:
        raise RuntimeError(f"{words[0]} ended with status {ended.returncode}: {ended.stdout[-3000:]}")
    return ended.stdout


@functools.cache
def parts(folder, flags):
    """The object files, in this folder, of those files of host/ that are no programs."""
    folder.mkdir(parents=True, exist_ok=True)
    sources = [path for path in sorted(FOLDER.glob("*.c")) if "int main(" not in path.read_text()]
    for source in sources:
        did([*C11, *flags, "-c", "-o", folder / f"{source.stem}.o", source])
    return [folder / f"{source.stem}.o" for source in sources]


@functools.cache
def built(name, *more, folder=BUILT, flags=OPTIMISED):
    """The program of host/NAME.c."""
    did([*C11, *flags, "-o", folder / name, FOLDER / f"{name}.c", *parts(folder, flags), *more])
    return folder / name


def sanitized(name, *more):
    """The program of host/NAME.c with AddressSanitizer and UndefinedBehaviorSanitizer."""
    return built(name, *more, folder=BUILT / "sanitized", flags=SANITIZED)


@functools.cache
def archive():
    ARCHIVE.unlink(missing_ok=True)
    did(["make", ARCHIVE.relative_to(ROOT)])
    return ARCHIVE


def answered_lines(program, lines, *more):
    """What a program that shows answers writes for these lines."""
    return did([built(program, *more)], input="".join(line + "\n" for line in lines)).splitlines()


def made_lines(program, count):
    """What it writes for inputs at random."""
    return did([built(program), count, SEED, *corpus.files()]).splitlines()


def told(lines):
    """From the lines of a program that answers questions about one batch or two: what is asked, as its words and octets; the answer's
    numbers; what is shown beside them; and how much else changed."""
    for line in lines:
        asked, octets, numbers, shown, changed = line.split(",")
        yield asked.split(), bytes.fromhex(octets), list(map(int, numbers.split())), shown, int(changed)


def other_than_model(answers, modelled, wanted, least):
    """Where answers, each with what is asked before it and how much else changed after it, differ from a model's; and which of the wanted
    words and numbers, or how many answers, are too few."""
    wrong, met = [], []
    for asked, octets, answer, changed in answers:
        met.append((asked[0], answer[0]))
        right = modelled(asked, octets)
        if answer != right or changed:
            said = f"the model {right}, the plain C {answer}, {changed} more changed"
            wrong.append(f"{' '.join(asked)} of {octets[:100].hex()}: {said}"[:1000])
    wrong += [f"only {met.count(one)} times: {one}" for one in wanted if met.count(one) < least / 40]
    return wrong if len(met) >= least else wrong + [f"only {len(met)} questions"]


@functools.cache
def faults():
    """The faults that can be planted: by name, the number and what the fault is."""
    found = re.findall(r"(\w+) = (\d+),? +/\* (.*) \*/", (FOLDER / "reference.h").read_text())
    return {name: (int(number), words) for name, number, words in found}


def planted_fault(fault):
    """A fault as the tests' names tell it."""
    return f"the planted fault {fault}: {faults()[fault][1]}"


def compared(program, *words, build=built):
    """How a comparison of the archive ended, and what it wrote."""
    return run([build(program, archive()), "--seed", SEED, *words, *corpus.files()])


def other_than_archive(program, count, build=built):
    """The comparison's difference, or what never occurred in it."""
    ended = compared(program, "--count", count, build=build)
    if ended.returncode == SAME:
        print(ended.stdout, end="")
        return []
    return [line[:1000] for line in ended.stdout.splitlines()] + [f"the comparison ended with status {ended.returncode}"]


def overlooked(program, count, fault):
    """Whether the comparison is blind to a planted fault."""
    ended = compared(program, "--count", count, "--fault", faults()[fault][0])
    if ended.returncode == DIFFERENT and "\ndifference: " in "\n" + ended.stdout:
        return []
    return [f"no difference is reported, status {ended.returncode}", *ended.stdout.splitlines()[:5]]


def unsound(programs, count):
    """What comparisons of two batches report under AddressSanitizer, with the archive or within themselves."""
    return [line[:1000] for program in programs for line in other_than_archive(program, count, sanitized)]


def law_tests(program, said, count, inputs, planted):
    """The tests of a program that checks what document 02 says: that nothing is against it, and that the program finds each planted
    fault."""
    says = f"what document 02 says of {said}"
    keeps = f"the archive keeps {says}, on {count:,} {inputs}", functools.partial(other_than_archive, program, count)
    finds = {f"the check of {says} finds {planted_fault(fault)}": functools.partial(overlooked, program, count, fault) for fault in planted}
    return [keeps, *finds.items()]


def comparison_tests(program, what, count, inputs, planted):
    """The tests of a comparison on `count` inputs: that it finds no difference, and that it finds each planted fault."""
    return [(f"the archive and the {what} in C agree on {count:,} {inputs}", functools.partial(other_than_archive, program, count))] + [
        (f"the comparison of the {what} finds {planted_fault(fault)}", functools.partial(overlooked, program, count, fault))
        for fault in planted
    ]
