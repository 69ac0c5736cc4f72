"""A model of writing, from the second paragraph of document 01's section "Rows" and from document 02's A11, written from those documents
alone.

At most one batch can have a draft's rows: a container's kind fixes its identifier, and its content is what the rows below it stand for.
`write` puts that batch together, has it read by the model of the grammar, compares what it shows with the draft, and looks whether the
draft says of each leaf where its content begins.
"""

import grammar_model
import nest_model
from paper import EDITIONS, LONGEST, ROW_NUMBERS, Answer, Kind, rows_of

# The containers, each with its identifier
CONTAINERS = {
    Kind.BATCH: 0x30,
    Kind.MESSAGE: 0x30,
    Kind.CERT_REQ: 0x30,
    Kind.CERT_TEMPLATE: 0x30,
    Kind.VALIDITY: 0xA4,
    Kind.EXTENSIONS: 0xA9,
    Kind.CONTROLS: 0x30,
    Kind.SIGNATURE: 0xA1,
    Kind.KEY_ENCIPHERMENT: 0xA2,
    Kind.KEY_AGREEMENT: 0xA3,
    Kind.REG_INFO: 0x30,
    Kind.REG_INFO_CERT_REQ: 0x30,
}
IMPLIED = {Kind.REG_INFO_CERT_REQ: bytes([0x06, 9]) + grammar_model.INFO + b"\x02"}  # "its type is implied"


def element(identifier, content):
    """An element in DER: the length in the shortest form."""
    size = len(content)
    number = size.to_bytes((size.bit_length() + 7) // 8, "big")
    return bytes([identifier]) + (bytes([size]) if size < 0x80 else bytes([0x80 + len(number)]) + number) + content


def candidate(rows, octets):
    """The only batch that can have these rows, put together from the last row to the first; None if there can be none."""
    below = [[] for _ in rows]  # the elements below each row, the last first
    for row in reversed(range(len(rows))):
        kind, first, whole, parent, _ = rows[row]
        if kind in CONTAINERS:
            own = element(CONTAINERS[kind], IMPLIED.get(kind, b"") + b"".join(reversed(below[row])))
        elif first + whole <= len(octets):
            own = octets[first:first + whole]
        else:
            return None  # "a leaf leaves the slice"
        if len(own) > LONGEST:
            return None
        if row == 0:
            return own
        if parent >= row:
            return None
        below[parent].append(own)
    return None


def shows(row, octets):
    """What the rows of a batch and of its draft have to have in common; "containers' place and length are ignored"."""
    kind, first, whole, parent, _ = row
    return (kind, parent) if kind in CONTAINERS else (kind, parent, whole, octets[first:first + whole])


def content_right(row, octets):
    """Whether a draft's row says where its content begins: "ignored in containers of a draft but must be right in its leaves, by the
    slice's own places". The row is one of a batch's, so that a leaf's octets in the slice are an element."""
    kind, first, whole, _, content = row
    return kind in CONTAINERS or content == first + nest_model.length(octets[first:first + whole])[0]


def describes(edition, numbers, octets):
    """The batch that a draft describes in an edition, or None."""
    if len(numbers) == 0 or len(numbers) % ROW_NUMBERS:
        return None
    rows = rows_of(numbers)
    batch = candidate(rows, octets)
    if batch is None:
        return None
    number, _, own = grammar_model.read(edition, batch)
    alike = [shows(row, octets) for row in rows] == [shows(row, batch) for row in own]
    if number != Answer.ACCEPTED or not alike:
        return None
    return batch if all(content_right(row, octets) for row in rows) else None


def write(edition, numbers, octets, room):
    """The writing of a draft over a slice of octets: the number, and the batch; a refusal has none."""
    if edition not in EDITIONS:
        return Answer.UNKNOWN_EDITION, b""
    batch = describes(edition, numbers, octets)
    if batch is None:
        return Answer.NO_SUCH_BATCH, b""
    return (Answer.ACCEPTED, batch) if len(batch) <= room else (Answer.NO_ROOM, b"")
