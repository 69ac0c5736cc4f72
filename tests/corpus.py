"""The messages of independent encoders in corpus/, and the model checked against the expected answer for each; and their names with two
attributes swapped, which A3 of document 02 refuses."""

import pathlib
import re

import grammar_model
import nest_model
from paper import EDITIONS, Answer, Row

FOLDER = pathlib.Path(__file__).with_name("corpus") / "crmf"
FILES = 64
SHOWN = 60  # rows of a file that has them stored, at most

SWAPPED = {"bc-template-all-fields", "bc-reg-certReq-nested"}  # the files with an RDN of several attributes
ATTRIBUTE = rb"\x30[\x00-\x7F]\x06"  # how an attribute of a name begins
SET_TAG = 17

JUDGED = r"; verdict at 0: (\d), part of (\d+) bytes; (?:no duplicate ids|duplicate ids at (\d+) and (\d+))"
LINE = re.compile(rf"(\S+)\.der edition ([12]): number (\d+) place (\d+) count (\d+)(?:{JUDGED})?")


def lines():
    return [LINE.fullmatch(line).groups() for line in (FOLDER / "expected.txt").read_text().splitlines()]


def expected():
    """The expected answers: (name, edition) with (number, place, count)."""
    return {(name, int(edition)): tuple(map(int, answer[:3])) for name, edition, *answer in lines()}


def judged():
    """For each that is accepted, (name, edition) with the first message's verdict, its part's length, and the equal pair or None."""
    found = {}
    for name, edition, *_, verdict, length, earlier, later in lines():
        if verdict:
            found[name, int(edition)] = int(verdict), int(length), (int(earlier), int(later)) if earlier else None
    return found


def names():
    return sorted({name for name, _ in expected()})


def files():
    return sorted(FOLDER.glob("*.der"))


def octets(name):
    return (FOLDER / f"{name}.der").read_bytes()


def rows(name):
    return [Row(*map(int, line.split())) for line in (FOLDER / f"{name}.rows").read_text().splitlines()]


def missing():
    """Files that are missing, and files that nothing expects."""
    shown = {name for (name, _), (number, _, count) in expected().items() if number == Answer.ACCEPTED and count <= SHOWN}
    should = {"expected.txt"} | {f"{name}.der" for name in names()} | {f"{name}.rows" for name in shown}
    there = {path.name for path in FOLDER.iterdir()}
    found = [f"{name} is not there" for name in should - there] + [f"{name} is not expected" for name in there - should]
    found += [f"{name}: not in both editions" for name in names() if not {(name, edition) for edition in EDITIONS} <= expected().keys()]
    return sorted(found) + ([] if len(names()) == FILES else [f"{len(names())} files instead of {FILES}"])


def disagreements():
    """Where the model and the expected answers differ."""
    if missing():
        return missing()
    found = []
    for (name, edition), answer in expected().items():
        number, place, read = grammar_model.read(edition, octets(name))
        if (number, place, len(read)) != answer:
            found.append(f"{name}, edition {edition}: {answer} expected, the model has {(number, place, len(read))}")
        elif number == Answer.ACCEPTED and len(read) <= SHOWN and read != rows(name):
            found.append(f"{name}, edition {edition}: other rows")
    return found


def attributes(content):
    """The attributes that octets are, one after another, or an empty list if they aren't such."""
    found = []
    while content:
        end = 2 + content[1] if re.match(ATTRIBUTE, content) else len(content) + 1
        if end > len(content):
            return []
        found.append(content[:end])
        content = content[end:]
    return found


def swapped():
    """Each file with two neighbours swapped in an RDN, which then descends: (name, octets, place of the RDN). The RDN is found by a search
    for its octets alone."""
    for name in names():
        octets_of = octets(name)
        for match in re.finditer(rb"\x31[\x00-\x7F](?=" + ATTRIBUTE + rb")", octets_of, re.DOTALL):
            start, end = match.end(), match.end() + octets_of[match.start() + 1]
            members = attributes(octets_of[start:end])
            for i in range(len(members) - 1):
                if members[i] != members[i + 1]:
                    other = [*members[:i], members[i + 1], members[i], *members[i + 2:]]
                    yield name, octets_of[:start] + b"".join(other) + octets_of[end:], match.start()


def unswapped():
    """The files in which nothing could be swapped and should have been, and the reverse."""
    found = {name for name, _, _ in swapped()}
    return [f"{name}: no RDN found" for name in SWAPPED - found] + [f"{name}: an RDN that isn't expected" for name in found - SWAPPED]


def order_accepted():
    """Where the models answer something else than BAD_CONTENT, at the RDN, for names with two attributes swapped."""
    found = unswapped()
    for name, octets_of, place in swapped():
        if nest_model.nest(octets_of) != (Answer.BAD_CONTENT, place, SET_TAG):
            found.append(f"{name}, swapped at {place}: the model of the nest has {nest_model.nest(octets_of)}")
        for edition in EDITIONS:
            if grammar_model.read(edition, octets_of)[:2] != (Answer.BAD_CONTENT, place):
                found.append(f"{name}, swapped at {place}, edition {edition}: {grammar_model.read(edition, octets_of)[:2]}")
    return found


TESTS = [
    ("corpus: the model of the grammar gives the expected answers and rows", disagreements),
    ("corpus: the models refuse a name with two attributes swapped, at its RDN", order_accepted),
]
