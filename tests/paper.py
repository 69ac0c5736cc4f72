"""The papers' numbers, each named once: the answers, the row kinds, the verdicts, the columns of a row and the limits of document 01, and
of document 02 the difference D4 (A4), the fifth number of a row (A11), the columns of an entry (A5, A12) and the details of request A9;
and whose refusal or part it is, of two batches. The models and the tests use these names, and a test checks the C header against them."""

import enum
import typing

EDITIONS = (1, 2)
LONGEST = 65535  # bytes of a batch
DEEPEST = 20  # the depth of an element
LONGEST_ID = 8  # content octets of a certReqId
NO_MOMENT = -1  # instead of the moment of a time, where there is none


class Number(enum.IntEnum):
    """A number with a name, which is printed in digits."""

    __str__ = __repr__ = int.__repr__


class Answer(Number):
    """Numbers that come back."""

    ACCEPTED = 0
    TOO_LONG = 1
    TRUNCATED = 2
    BAD_IDENTIFIER = 3
    BAD_LENGTH = 4
    BAD_CONTENT = 5
    TOO_DEEP = 6
    TRAILING_BYTES = 7
    NOT_IN_GRAMMAR = 8
    OTHER_EDITION = 9
    LONG_CERT_REQ_ID = 10
    NO_ROOM = 11
    NO_SUCH_BATCH = 12
    UNKNOWN_EDITION = 13
    NO_SUCH_MESSAGE = 14


class Kind(Number):
    """Kinds of rows."""

    BATCH = 1
    MESSAGE = 2
    CERT_REQ = 3
    CERT_REQ_ID = 4
    CERT_TEMPLATE = 5
    VERSION = 10
    SERIAL_NUMBER = 11
    SIGNING_ALG = 12
    ISSUER = 13
    VALIDITY = 14
    SUBJECT = 15
    PUBLIC_KEY = 16
    ISSUER_UID = 17
    SUBJECT_UID = 18
    EXTENSIONS = 19
    NOT_BEFORE = 20
    NOT_AFTER = 21
    EXTENSION = 22
    CONTROLS = 30
    UNKNOWN_CONTROL = 31
    REG_TOKEN = 41
    AUTHENTICATOR = 42
    PKI_PUBLICATION_INFO = 43
    PKI_ARCHIVE_OPTIONS = 44
    OLD_CERT_ID = 45
    PROTOCOL_ENCR_KEY = 46
    RA_VERIFIED = 50
    SIGNATURE = 51
    KEY_ENCIPHERMENT = 52
    KEY_AGREEMENT = 53
    POPOSK_INPUT = 54
    SIGNATURE_ALGORITHM = 55
    SIGNATURE_BITS = 56
    THIS_MESSAGE = 60
    SUBSEQUENT_MESSAGE = 61
    DH_MAC = 62
    AGREE_MAC = 63
    ENCRYPTED_KEY = 64
    REG_INFO = 70
    UNKNOWN_REG_INFO = 71
    OCTET_PAIRS = 72
    UTF8_PAIRS = 73
    REG_INFO_CERT_REQ = 74


# Each kind that one edition alone has, with that edition
KINDS_ALONE = {
    Kind.SERIAL_NUMBER: 1,
    Kind.SIGNING_ALG: 1,
    Kind.ISSUER_UID: 1,
    Kind.SUBJECT_UID: 1,
    Kind.AGREE_MAC: 2,
    Kind.ENCRYPTED_KEY: 2,
    Kind.OCTET_PAIRS: 1,
    Kind.UTF8_PAIRS: 2,
}


class Row(typing.NamedTuple):
    """A row of a table or of a draft."""

    kind: int
    first: int
    whole: int
    parent: int
    content: int  # the content's first byte

    def __str__(self):
        return " ".join(map(str, self))


ROW_NUMBERS = len(Row._fields)


def rows_of(numbers):
    """The rows that the numbers of a table are."""
    return [Row(*some) for some in zip(*[iter(numbers)] * ROW_NUMBERS)]


def numbers_of(rows):
    """The numbers of a table that has these rows."""
    return [number for row in rows for number in row]


class File(Number):
    """Of the two batches of a call, the one that a refusal is about, or that a part is of."""

    NEITHER = 0
    FIRST = 1
    SECOND = 2


class What(Number):
    """What an entry says of what changed between two batches."""

    ONLY_FIRST = 1
    ONLY_SECOND = 2
    LEAVES_DIFFER = 3


class Entry(typing.NamedTuple):
    """An entry of what changed between two batches."""

    what: int
    first: int  # its row in the first batch, 0 where none
    second: int  # its row in the second batch, 0 where none
    seconds: int = 0  # of two times that differ the second's moment less the first's, 0 in any other entry


ENTRY_NUMBERS = len(Entry._fields)


def entries_of(numbers):
    """The entries that the numbers of a list are."""
    return [Entry(*some) for some in zip(*[iter(numbers)] * ENTRY_NUMBERS)]


class Difference(Number):
    """The listed differences between the editions."""

    CHOICE = 1  # D1
    PAIRS = 2  # D2
    LOCATION = 3  # D3
    TEMPLATE_FIELD = 4  # D4


class Verdict(Number):
    """Verdicts on a proof of possession."""

    NO_PROOF = 0
    RA_VERIFIED = 1
    SIGNED_CERT_REQ = 2
    SIGNED_POPOSK_INPUT = 3
    OTHER_SIGNATURE = 4
    KEY_ENCIPHERMENT = 5
    KEY_AGREEMENT = 6
    MISPLACED_DH_MAC = 7


class TruncatedDetail(Number):
    """What is missing of an element that is TRUNCATED."""

    IDENTIFIER_MISSING = 1
    LENGTH_MISSING = 2
    PAST_THE_END = 3


class GrammarDetail(Number):
    """What makes a batch NOT_IN_GRAMMAR."""

    FITS_NO_PART = 1
    PART_MISSING = 2
    VALUE_BREAKS_RULE = 3
    LIST_OR_LOCATION = 4


class Type(Number):
    """Identifiers of the universal types of X.690 that have a rule for their content."""

    BOOLEAN = 0x01
    INTEGER = 0x02
    BIT_STRING = 0x03
    NULL = 0x05
    OBJECT_IDENTIFIER = 0x06
    ENUMERATED = 0x0A
    UTF8_STRING = 0x0C
    SET = 0x31


def told(number, place, count):
    """An answer as the programs print it: the number and the place of a refusal, or the count of what is accepted."""
    return f"{number}@{place}" if number else f"{Answer.ACCEPTED} {count}"
