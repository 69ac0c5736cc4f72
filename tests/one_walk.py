"""One walk that reads the forms of both editions decides each edition's answer. It is checked against document 01's own words, by
which NOT_IN_GRAMMAR is this edition's own stop and OTHER_EDITION needs the opposite edition's grammar. An own stop at a form of the other
edition has a detail that the one walk doesn't show: those of the model are checked against the papers."""

import corpus
import crmf_cases
import grammar_model
from paper import EDITIONS, Answer, GrammarDetail

DECIDED = (Answer.ACCEPTED, Answer.NOT_IN_GRAMMAR, Answer.OTHER_EDITION)

UNFIT, MISSING, BROKEN, LOCATION = GrammarDetail

# Batches, written as in crmf_cases.txt, that neither edition has; with the place and the detail of edition 1's stop and of edition 2's,
# which are the papers' or worked out from them
STOPS = [
    ("proof{A2{A4{}} 05{}}", (13, UNFIT), (15, UNFIT)),  # D1
    ("infos{textpairs 05{}}", (26, UNFIT), (28, UNFIT)),  # D2
    ("infos{octetpairs 05{}}", (28, UNFIT), (26, UNFIT)),
    ("published{30{02{00} 86{} 86{}}}", (40, UNFIT), (38, LOCATION)),  # D3
    ("template{80{0002}}", (11, BROKEN), (11, BROKEN)),  # D4
    ("template{81{}}", (11, BROKEN), (11, UNFIT)),
    ("template{A2{}}", (11, MISSING), (11, UNFIT)),
    ("template{A2{05{}}}", (13, UNFIT), (11, UNFIT)),
    ("template{87{01}}", (11, BROKEN), (11, UNFIT)),
    ("template{88{}}", (11, BROKEN), (11, UNFIT)),
    ("template{81{01} 80{02}}", (14, UNFIT), (11, UNFIT)),
    ("30{30{30{02{00} 30{80{00}}} A2{A4{}}}}", (16, UNFIT), (11, BROKEN)),
    ("carried{87{}}", (33, BROKEN), (33, UNFIT)),
    ("carried{80{01} 80{02}}", (36, UNFIT), (33, BROKEN)),
    ("template{backwards}", (11, BROKEN), (11, BROKEN)),  # A12
    ("template{81{01} backwards}", (14, BROKEN), (11, UNFIT)),
    ("template{81{01} A4{latebegin{\"20491231235959Z\"}}}", (18, BROKEN), (11, UNFIT)),
    ("30{30{request A2{A4{}}} 30{30{02{00} 30{backwards}}}}", (13, UNFIT), (24, BROKEN)),
    ("carried{A4{begin{\"000101000001Z\"} end{\"000101000000Z\"} 05{}}}", (69, UNFIT), (69, UNFIT)),
]


def decided(edition, octets):
    """The number, one of DECIDED, and the place, from the one walk alone."""
    stop, met = grammar_model.walk(octets, set(EDITIONS))
    other = [place for place, alone, _ in met.differences if alone != edition]
    mine = [place for place, alone, _ in met.differences if alone == edition]
    if other:
        return Answer.NOT_IN_GRAMMAR if stop or mine else Answer.OTHER_EDITION, other[0]
    return (Answer.NOT_IN_GRAMMAR, stop[0]) if stop else (Answer.ACCEPTED, 0)


def disagreements():
    batches = [crmf_cases.built(batch)[0] for batch, _ in crmf_cases.table()[1]]
    batches += [corpus.octets(name) for name, edition in corpus.expected() if edition == EDITIONS[0]]
    found = []
    for octets in batches:
        for edition in EDITIONS:
            number, place, _ = grammar_model.read(edition, octets)
            if number == Answer.LONG_CERT_REQ_ID:  # it is judged after the grammar
                number, place = Answer.ACCEPTED, 0
            if number in DECIDED and decided(edition, octets) != (number, place):
                found.append(f"{octets[:60].hex()}, edition {edition}: {number}@{place}, the one walk {decided(edition, octets)}")
    return found


def other_stops():
    """The stops that have another place or detail."""
    found = []
    for batch, *stops in STOPS:
        for edition, right in zip(EDITIONS, stops, strict=True):
            stop, _ = grammar_model.walk(crmf_cases.built(batch)[0], {edition})
            if stop != right:
                found.append(f"{batch}, edition {edition}: the walk stops at {stop}, and should at {right}")
    return found


TESTS = [
    ("one walk over both editions' forms decides each edition's answer", disagreements),
    ("each edition's own walk stops with the papers' detail at a form of the other", other_stops),
]
