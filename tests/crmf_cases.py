"""The stored files of the program crmf_cases, built from the table crmf_cases.txt, and the table checked against the model."""

import functools
import pathlib
import re

import cases
import grammar_model
import nest_model
from paper import EDITIONS, Answer

TABLE = pathlib.Path(__file__).with_name("crmf_cases.txt")
TOKEN = re.compile(r'"[^"]*"|\*[0-9]+|[A-Za-z0-9]+\{?|[_}]|\S')
INDENT = "    "
NAME = re.compile(r"([a-z0-9]+(?:\{_\})?) = (.*)")
ANSWER = re.compile(r"(.*\S) -> ((?:0 \d+|8@\d+ [1-4])(?: (?:-|D[1-4]@\d+)){2})")


def parsed(table, form, made, below=None):
    """The names of a table with what they stand for, and its cases, each made of what the form of a case matches. `below` takes a case and
    a line that is indented below it."""
    names, found = {}, []
    for number, line in enumerate(table.read_text().splitlines(), 1):
        line = line.partition("#")[0].rstrip()
        case, name = form.fullmatch(line.strip()), NAME.fullmatch(line.strip())
        if below and line.startswith(INDENT):
            below(found[-1], line.strip())
        elif case:
            found.append(made(case))
        elif name:
            names[name[1]] = name[2]
        elif line:
            raise ValueError(f"{table.name}:{number}: neither a case nor a name: {line}")
    return names, found


@functools.cache
def table():
    """The names with what they stand for, and the cases, as (batch as written, answer)."""
    return parsed(TABLE, ANSWER, lambda case: (case[1], case[2]))


def element(identifier, content):
    """Octets and how they are written for the program, of an element around such a content."""
    size = len(content[0])
    number = size.to_bytes((size.bit_length() + 7) // 8, "big")
    header = identifier + (bytes([size]) if size < 128 else bytes([0x80 + len(number)]) + number)
    return header + content[0], header.hex().upper() + content[1]


def sequence(tokens, within, names):
    """What the tokens up to a closing brace stand for; `within` is what _ stands for."""
    parts = []
    while tokens and tokens[0] != "}":
        token = tokens.pop(0)
        if token[0] == "*":
            octets = parts.pop()[0]
            parts.append((octets * int(token[1:]), f" {octets.hex().upper()}{token} "))
        elif token == "_":
            parts.append(within)
        elif token[0] == '"':
            parts.append((token[1:-1].encode(), token[1:-1].encode().hex().upper()))
        elif token[-1] == "{":
            inside = sequence(tokens, within, names)
            if tokens.pop(0) != "}":
                raise ValueError("a brace stays open")
            name = names.get(token + "_}")
            parts.append(expanded(name, names, inside) if name else element(bytes.fromhex(token[:-1]), inside))
        else:
            name = names.get(token)
            parts.append(expanded(name, names) if name else (bytes.fromhex(token), token))
    return b"".join(octets for octets, _ in parts), "".join(text for _, text in parts)


def expanded(written, names, within=None):
    """What is written stands for; a repetition has a space on either side of it."""
    tokens = TOKEN.findall(written)
    found = sequence(tokens, within, names)
    if tokens:
        raise ValueError(f"a brace too many: {written}")
    return found


def built(written, names=None):
    """The octets of a batch, and how the program reads them; without names those of the table count."""
    octets, text = expanded(written, names or table()[0])
    return octets, " ".join(text.split())


def files():
    """What the crate's folder has to hold."""
    return cases.files([(*built(batch), answer) for batch, answer in table()[1]])


def first(differences, edition):
    """The first form of an edition alone, as an answer shows it."""
    return next((f"D{number}@{place}" for place, alone, number in differences if alone == edition), "-")


def modelled(octets):
    """The answer of the model."""
    stop, met = grammar_model.walk(octets, set(EDITIONS))
    said = "{}@{} {}".format(Answer.NOT_IN_GRAMMAR, *stop) if stop else f"{Answer.ACCEPTED} {len(met.rows)}"
    return " ".join([said, *(first(met.differences, edition) for edition in EDITIONS)])


def disagreements():
    """The cases at which the model answers something else than the table, or whose nest isn't sound."""
    found = []
    for batch, answer in table()[1]:
        octets = built(batch)[0]
        if nest_model.nest(octets)[0]:
            found.append(f"{batch[:100]}: the nest has a fault")
        elif modelled(octets) != answer:
            found.append(f"{batch[:100]}: the table has {answer}, the model {modelled(octets)}")
    return found


TESTS = [("crmf_cases: the table of cases and the model of the grammar agree", disagreements)]
