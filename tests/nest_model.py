"""A model of document 01's section "The nest of elements" with document 02's A3, written from those documents alone.

It takes the text at its word: every rule is judged by itself, as far as there are octets to judge, and all the faults are collected, each
with the byte at which it is decided. That is the element's first byte, but for the order of a SET's members, which is decided at the
SET's last byte. Of all the faults the one that is decided first is answered; of those decided at the same byte the one of the innermost
element; and within one element the first in the document's order. The answer is (number, place, detail), or (ACCEPTED, end) if there is
no fault: end is the place past the first element. TRUNCATED has a TruncatedDetail, BAD_CONTENT the tag number, and any other fault 0.
"""

import itertools

from paper import DEEPEST, LONGEST, Answer, TruncatedDetail, Type

PRIMITIVE_TYPES = {1, 2, 3, 4, 5, 6, 10, 12, *range(18, 29), 30}
CONSTRUCTED_TYPES = {16, 17}

# "within one element in this order": each fault with its number and its detail (None: the tag number)
ORDER = [
    ("too deep", Answer.TOO_DEEP, 0),
    ("no identifier", Answer.TRUNCATED, TruncatedDetail.IDENTIFIER_MISSING),
    ("identifier", Answer.BAD_IDENTIFIER, 0),
    ("no length", Answer.TRUNCATED, TruncatedDetail.LENGTH_MISSING),
    ("length", Answer.BAD_LENGTH, 0),
    ("past the end", Answer.TRUNCATED, TruncatedDetail.PAST_THE_END),
    ("content", Answer.BAD_CONTENT, None),
    ("order", Answer.BAD_CONTENT, None),
]
RANK = {name: rank for rank, (name, _, _) in enumerate(ORDER)}


def nest(octets):
    if len(octets) > LONGEST:
        return (Answer.TOO_LONG, 0, 0)
    faults = set()
    end = element(octets, 0, len(octets), 1, faults)
    if not faults:
        return (Answer.ACCEPTED, end)
    _, place, name = min(faults, key=lambda fault: (fault[0], -fault[1], RANK[fault[2]]))
    _, number, detail = ORDER[RANK[name]]
    return (number, place, octets[place] % 32 if detail is None else detail)


def element(octets, place, parent_end, depth, faults):
    """Adds the faults of an element and of those inside it, as (byte at which it is decided, first byte, name); answers the element's
    end, or None if it can't be told."""
    own = octets[place:parent_end]
    broken, end = set(), None
    if depth > DEEPEST:
        broken.add("too deep")
    if len(own) == 0:
        broken.add("no identifier")
    elif not allowed(own[0]):
        broken.add("identifier")
    if len(own) == 1:
        broken.add("no length")
    elif len(own) > 1:
        header, size, wrong = length(own)
        if wrong:
            broken.add("length")
        if size is None:
            broken.add("no length")
        elif header + size > len(own):
            broken.add("past the end")
        else:
            end = place + header + size
        if size is not None and not content_rule(own[0], own[header:header + size]):
            broken.add("content")
    faults |= {(place, place, name) for name in broken}
    if end is not None and own[0] & 0x20 and depth <= DEEPEST:
        members = elements(octets, place + header, end, depth + 1, faults)
        if own[0] == Type.SET and any(itertools.starmap(descends, itertools.pairwise(members))):
            faults.add((end - 1, place, "order"))
    return end


def elements(octets, place, parent_end, depth, faults):
    """The octets of each element from a place on, as far as they can be told apart; adds their faults."""
    found = []
    while place is not None and place < parent_end:
        end = element(octets, place, parent_end, depth, faults)
        if end is not None:
            found.append(octets[place:end])
        place = end
    return found


def descends(first, second):
    """Whether the second octet string is less than the first, the shorter one padded with zero octets (X.690 11.6)."""
    longer = max(len(first), len(second))
    return second.ljust(longer, b"\0") < first.ljust(longer, b"\0")


def allowed(identifier):
    tag, constructed, universal = identifier & 0x1F, identifier & 0x20, identifier & 0xC0 == 0
    return tag < 31 and (not universal or tag in (CONSTRUCTED_TYPES if constructed else PRIMITIVE_TYPES))


def length(own):
    """The octets before the content, its length (None if length octets are missing), and whether it is a BAD_LENGTH."""
    first = own[1]
    if first < 0x80:
        return 2, first, False
    if first in (0x80, 0xFF):
        return 2, 0, True
    count = first & 0x7F
    number = own[2:2 + count]
    wrong = number[:1] == b"\x00" or count == 1 and number < b"\x80"
    return 2 + count, int.from_bytes(number, "big") if len(number) == count else None, wrong


def bits(octets):
    return "".join(f"{octet:08b}" for octet in octets)


def content_rule(identifier, content):
    """Whether an element's content keeps its type's rule; most types have none."""
    if identifier == Type.BOOLEAN:
        return content in (b"\x00", b"\xff")
    if identifier in (Type.INTEGER, Type.ENUMERATED):
        return len(content) == 1 or len(content) > 1 and len(set(bits(content)[:9])) == 2
    if identifier == Type.BIT_STRING:
        if len(content) < 2:
            return content == b"\x00"
        return content[0] <= 7 and bits(content).endswith("0" * content[0])
    if identifier == Type.NULL:
        return content == b""
    if identifier == Type.OBJECT_IDENTIFIER:
        starts = [i for i in range(len(content)) if i == 0 or content[i - 1] < 0x80]
        return content != b"" and content[-1] < 0x80 and all(content[i] != 0x80 for i in starts)
    if identifier == Type.UTF8_STRING:
        try:
            content.decode("utf-8", "strict")
        except UnicodeDecodeError:
            return False
    return True
