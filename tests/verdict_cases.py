"""The stored files of the program verdict_cases: the cases of the table verdict_cases.txt and the messages of corpus/; and the table
checked against the model of verdict and duplicates."""

import functools
import pathlib
import re

import cases
import corpus
import crmf_cases
import editions_cases
import grammar_model
import verdict_model
from paper import EDITIONS, Answer, Kind, Verdict

TABLE = pathlib.Path(__file__).with_name("verdict_cases.txt")
ANSWER = r"\d+@\d+(?:; (?:none|\d+ and \d+))?|[0-7](?: from \d+ of \d+)?; (?:none|\d+ and \d+)"
CASE = re.compile(
    rf"(?:(?P<edition>\d+)?(?:/(?P<position>\d+))?:)? *(?P<batch>.*?) *-> (?P<one>{ANSWER})(?: / (?P<two>{ANSWER}))?"
)


def numbers(answer):
    """The five numbers of the verdict and the five of the search that an answer of the table stands for."""
    verdict, _, search = answer.partition("; ")
    refused, judged = re.fullmatch(r"(\d+)@(\d+)", verdict), re.fullmatch(r"(\d)(?: from (\d+) of (\d+))?", verdict)
    pair = re.fullmatch(r"(\d+) and (\d+)", search)
    first = (int(refused[1]), int(refused[2]), 0, 0, 0) if refused else (0, 0, *(int(number or 0) for number in judged.groups()))
    second = first if not search else (0, 0, 1, int(pair[1]), int(pair[2])) if pair else (0, 0, 0, 0, 0)
    return first, second


def identified(written):
    """The octets of a batch of messages with these certReqIds."""
    messages = b""
    for word in written.split():
        first, _, last = word.partition("..")
        for number in range(int(first), int(last or first) + 1):
            size = 1
            while not -(1 << 8 * size - 1) <= number < 1 << 8 * size - 1:
                size += 1
            messages += bytes([0x30, size + 6, 0x30, size + 4, 0x02, size, *number.to_bytes(size, "big", signed=True), 0x30, 0x00])
    return crmf_cases.element(b"\x30", (messages, messages.hex().upper()))


class Case:
    """A line of the table: the batch, the position, and the answer of each edition."""

    def __init__(self, match):
        self.line = match[0]
        self.heading = (match["edition"] or "") + ("/" + match["position"] if match["position"] else "")
        self.position = int(match["position"] or 0)
        written = match["batch"]
        self.octets, self.written = identified(written[4:]) if written.startswith("ids ") else crmf_cases.built(written, names())
        self.answers = {1: numbers(match["one"]), 2: numbers(match["two"] or match["one"])}
        if match["edition"]:
            self.answers = {int(match["edition"]): numbers(match["one"])}


@functools.cache
def names():
    """The names of octets with what they stand for."""
    own, _ = crmf_cases.parsed(TABLE, CASE, lambda case: None)
    return {**editions_cases.table()[0], **own}


@functools.cache
def table():
    """The cases."""
    return crmf_cases.parsed(TABLE, CASE, Case)[1]


def printed(verdict, search):
    """What the program prints of a case in an edition."""
    return " / ".join(" ".join(map(str, answer)) for answer in (verdict, search))


def signed_from(octets, edition, verdict):
    """Where the signed part of the first message begins, by the rows: its certReq, or its poposkInput."""
    kind = {Verdict.SIGNED_CERT_REQ: Kind.CERT_REQ, Verdict.SIGNED_POPOSK_INPUT: Kind.POPOSK_INPUT}.get(verdict)
    rows = grammar_model.read(edition, octets)[2]
    return next(row.first for row in rows if row.kind == kind) if kind else 0


def message(name, edition):
    """The expected answer for a message of the corpus, at position 0."""
    number, place, _ = corpus.expected()[name, edition]
    if number != Answer.ACCEPTED:
        return ((number, place, 0, 0, 0),) * 2
    verdict, length, pair = corpus.judged()[name, edition]
    judged = 0, 0, verdict, signed_from(corpus.octets(name), edition, verdict), length
    return judged, (0, 0, 1, *pair) if pair else (0, 0, 0, 0, 0)


def files():
    """What the crate's folder has to hold."""
    found = []
    for case in table():
        found.append((case.octets, f"{case.heading}:{case.written}", "\n".join(printed(*answer) for answer in case.answers.values())))
    for name in corpus.names():
        octets = corpus.octets(name)
        found.append((octets, ":" + octets.hex().upper(), "\n".join(printed(*message(name, edition)) for edition in EDITIONS)))
    return cases.files(found, None)


def modelled(edition, octets, position):
    return verdict_model.verdict(edition, octets, position), verdict_model.duplicates(edition, octets)


def disagreements():
    """The cases at which the model answers something else than the table, or than is expected of the corpus."""
    found = []
    for case in table():
        for edition, answer in case.answers.items():
            said = modelled(edition, case.octets, case.position)
            if said != answer:
                found.append(f"{case.line[:120]}, edition {edition}: the table has {printed(*answer)}, the model {printed(*said)}")
    for name, edition in corpus.expected():
        answer, said = message(name, edition), modelled(edition, corpus.octets(name), 0)
        if said != answer:
            found.append(f"{name}, edition {edition}: {printed(*answer)} expected, the model has {printed(*said)}")
    return found


TESTS = [("verdict_cases: the table of cases, the corpus and the model of verdict and duplicates agree", disagreements)]
