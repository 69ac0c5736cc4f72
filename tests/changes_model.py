"""A model of document 02's A5, what changed between two batches, with A12's fourth number, written from that document alone: the rows of
each batch become a tree of fields, each at its spot below its parent, and one walk goes over both trees."""

import grammar_model
import joining_model
import moment_model
from paper import ENTRY_NUMBERS, Answer, Entry, File, Kind, What
from writer_model import CONTAINERS

BY_POSITION = (Kind.BATCH, Kind.CONTROLS, Kind.REG_INFO)
TIMES = (Kind.NOT_BEFORE, Kind.NOT_AFTER)


class Field:
    """A field of a batch: its row, where it begins, its octets and, by their spots, the fields below it."""

    def __init__(self, number, row, octets):
        self.number, self.kind, self.place = number, row.kind, row.first
        self.octets = octets[row.first:row.first + row.whole]
        self.below = {}

    def put(self, child):
        """Adds the next field below it. "Messages are matched by position; items in controls and regInfo by position if of one kind; other
        children by kind and occurrence"."""
        occurrence = sum(child.kind == other.kind for other in self.below.values())
        spot = len(self.below) if self.kind in BY_POSITION else (child.kind, occurrence)
        self.below[spot] = child


def fields(edition, octets):
    """The fields of an accepted batch, in the order of the rows."""
    found = []
    for number, row in enumerate(grammar_model.read(edition, octets)[2]):
        found.append(Field(number, row, octets))
        if number:
            found[row.parent].put(found[-1])
    return found


def below(first, second):
    """The entries below two fields that are matched: "children by position or by kind number"."""
    for spot in sorted(first.below.keys() | second.below.keys()):
        yield from at_a_spot(first.below.get(spot), second.below.get(spot))


def seconds_between(first, second):
    """The fourth number for two leaves that differ: "for two times that differ, second less first in seconds, else 0"."""
    return moment_model.shown(second.octets) - moment_model.shown(first.octets) if first.kind in TIMES else 0


def at_a_spot(first, second):
    """The entries at a spot: "at one spot the first file's before the second's"."""
    if first and second and first.kind == second.kind:
        if first.kind in CONTAINERS:
            yield from below(first, second)
        elif first.octets != second.octets:
            yield Entry(What.LEAVES_DIFFER, first.number, second.number, seconds_between(first, second))
    else:
        if first:
            yield Entry(What.ONLY_FIRST, first.number, 0)
        if second:
            yield Entry(What.ONLY_SECOND, 0, second.number)


def entries(first, second):
    """What changed between two batches, by their fields."""
    return list(below(first[0], second[0]))


def compare(edition, first, second, room):
    """The comparison of two batches: (number, place, file, entries); a refusal has no entries."""
    refused = joining_model.refusal(edition, first, second)
    if refused:
        return *refused, []
    found = entries(fields(edition, first), fields(edition, second))
    if ENTRY_NUMBERS * len(found) > room:
        return Answer.NO_ROOM, 0, File.NEITHER, []
    return Answer.ACCEPTED, 0, File.NEITHER, found


def part(edition, first, second, number):
    """The part that an entry speaks of, "the first where both have it": (number, place, file, from, octets); a refusal has no part."""
    refused = joining_model.refusal(edition, first, second)
    if refused:
        return *refused, 0, b""
    one, two = fields(edition, first), fields(edition, second)
    found = entries(one, two)
    if number >= len(found):
        return Answer.NO_SUCH_MESSAGE, 0, File.NEITHER, 0, b""
    entry = found[number]
    file, field = (File.FIRST, one[entry.first]) if entry.first else (File.SECOND, two[entry.second])
    return Answer.ACCEPTED, 0, file, field.place, field.octets
