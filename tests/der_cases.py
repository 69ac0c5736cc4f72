"""The stored files of the program der_cases: the cases of the table der_cases.txt, and messages of corpus/ with two attributes of a name
swapped; and the table checked against the model."""

import pathlib
import re

import cases
import corpus
import nest_model
from paper import Answer

TABLE = pathlib.Path(__file__).with_name("der_cases.txt")


def table():
    """The table's lines, as (octets as written, answer)."""
    found = []
    for number, line in enumerate(TABLE.read_text().splitlines(), 1):
        line = line.partition("#")[0].strip()
        if line:
            match = re.fullmatch(r"(?:(.*\S) )?-> (0 \d+|\d+@\d+ \d+)", line)
            if not match:
                raise ValueError(f"{TABLE.name}:{number}: not a case: {line}")
            found.append((match[1] or "", match[2]))
    return found


def expand(written):
    """The octets of a case."""
    octets = b""
    for token in written.split():
        match = re.fullmatch(r"((?:[0-9A-F]{2})+)(?:\*([1-9][0-9]*))?", token)
        if not match:
            raise ValueError(f"not a token: {token}")
        octets += bytes.fromhex(match[1]) * int(match[2] or 1)
    return octets


def files():
    """What the crate's folder has to hold."""
    found = [(expand(written), written, answer) for written, answer in table()]
    for _, octets, place in corpus.swapped():
        found.append((octets, octets.hex().upper(), shown((Answer.BAD_CONTENT, place, corpus.SET_TAG))))
    return cases.files(found)


def shown(answer):
    return "{} {}".format(*answer) if answer[0] == Answer.ACCEPTED else "{}@{} {}".format(*answer)


def disagreements():
    """The cases at which the model answers something else than the table."""
    found = []
    for written, answer in table():
        modelled = shown(nest_model.nest(expand(written)))
        if modelled != answer:
            found.append(f"{written[:80]}: the table has {answer}, the model {modelled}")
    return found


TESTS = [("der_cases: the table of cases and the model of the nest agree", disagreements)]
