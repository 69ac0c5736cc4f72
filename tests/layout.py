"""The repository as a whole: the list of crates, and what no text speaks of. That the files of crates are as `rt fmt` lays them out is seen
by `rt ci`."""

import functools
import pathlib
import re

ROOT = pathlib.Path(__file__).resolve().parent.parent
CRATES = ROOT / "crates"

# A path on somebody's machine, or a word about the work that made the text; spelled so that this line is not one of them.
ELSEWHERE = re.compile(r"/(?:home|mnt|opt|root|tmp|work)/|\bsess(?:ion)s?\b", re.IGNORECASE)


@functools.cache
def crate_lines():
    """The lines of crates.txt without comments, by the crate that each is of."""
    every = [line.partition("#")[0].strip() for line in (ROOT / "crates.txt").read_text().splitlines()]
    return {line.partition(":")[0].split()[0]: line for line in every if line}


def listed():
    """The crates that crates.txt names."""
    return sorted(crate_lines())


def beneath(name):
    """The crates of this repository that a crate stands on, lowest first."""
    found = {}
    for used in crate_lines()[name].partition(":")[2].split():
        if used in crate_lines():
            found |= dict.fromkeys([*beneath(used), used])
    return list(found)


@functools.cache
def folders():
    return sorted(path.name for path in CRATES.iterdir())


def programs():
    return [name for name in folders() if (CRATES / name / "src/main.rt").exists()]


def unlisted():
    return [f"crates/{name} is not in crates.txt" for name in folders() if name not in listed()] + [
        f"crates.txt lists {name}, and there is no crates/{name}" for name in listed() if name not in folders()
    ]


def kept():
    """Every file of the repository but those that are built."""
    for path in sorted(ROOT.rglob("*")):
        if path.is_file() and not {".git", "target", "out", "__pycache__"} & set(path.relative_to(ROOT).parts):
            yield path


def elsewhere():
    return [
        f"{path.relative_to(ROOT)}:{number}: {line.strip()[:100]}"
        for path in kept()
        for number, line in enumerate(path.read_text(errors="replace").splitlines(), 1)
        if ELSEWHERE.search(line)
    ]


TESTS = [
    ("crates.txt lists every crate folder, and nothing else", unlisted),
    ("no text has a machine's paths or speaks of the work that made it", elsewhere),
]
