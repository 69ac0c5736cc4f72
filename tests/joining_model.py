"""A model of document 02's A13, joining and cutting, written from that document alone: a batch is taken apart into its messages' octets,
and put together from such."""

import itertools

import grammar_model
import writer_model
from paper import LONGEST, Answer, File


def refusal(edition, first, second):
    """What refuses two batches, "the first's, the second's", as (number, place, file); None if both are accepted."""
    for file, octets in (File.FIRST, first), (File.SECOND, second):
        number, place, _ = grammar_model.read(edition, octets)
        if number:
            return number, place, file
    return None


def messages(octets):
    """The octets of each message of an accepted batch."""
    return [octets[message.place:message.place + message.whole] for message in grammar_model.Element(octets, 0, len(octets)).inside]


def batch(parts):
    """The batch of these messages."""
    return writer_model.element(0x30, b"".join(parts))


def join(edition, first, second, room):
    """The joining of two batches: (number, place, file, batch); a refusal has no batch."""
    refused = refusal(edition, first, second)
    if refused:
        return *refused, b""
    joined = batch(messages(first) + messages(second))
    if len(joined) > LONGEST:
        return Answer.TOO_LONG, 0, File.NEITHER, b""
    return (Answer.ACCEPTED, 0, File.NEITHER, joined) if len(joined) <= room else (Answer.NO_ROOM, 0, File.NEITHER, b"")


def cut(edition, octets, position, room):
    """The cutting of the message at a position: (number, place, batch); a refusal has no batch."""
    number, place, _ = grammar_model.read(edition, octets)
    if number:
        return number, place, b""
    there = messages(octets)
    if position >= len(there):
        return Answer.NO_SUCH_MESSAGE, 0, b""
    alone = batch([there[position]])
    return (Answer.ACCEPTED, 0, alone) if len(alone) <= room else (Answer.NO_ROOM, 0, b"")


def header(octets):
    """The length of a batch's header."""
    return grammar_model.Element(octets, 0, len(octets)).content_place


def moved(row, by, renumbered):
    """A row below the batch's, elsewhere: "parent 0 stays"."""
    parent = row.parent and row.parent + renumbered
    return row._replace(first=row.first + by, content=row.content + by, parent=parent)


def joined_rows(edition, first, second, joined):
    """The rows of a join by those of its parts: "the first's places move by the growth of the batch's header, the second's by the join's
    header and the first's content less its own header, and its row numbers by the first's count less one (parent 0 stays)"."""
    (own, *one), (_, *two) = (grammar_model.read(edition, octets)[2] for octets in (first, second))
    grown = header(joined) - header(first)
    further = header(joined) + len(first) - header(first) - header(second)
    below = itertools.chain((moved(row, grown, 0) for row in one), (moved(row, further, len(one)) for row in two))
    return [own._replace(whole=len(joined), content=header(joined)), *below]
