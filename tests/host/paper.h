/* The papers' numbers, named for the references. They are written from documents 01 and 02 alone, and not taken from phagundro.h. */
#ifndef PAPER_H
#define PAPER_H

enum { LONGEST = 65535, DEEPEST = 20, LONGEST_ID = 8, MOST_ROWS = LONGEST / 2 + 1 };

enum { EDITION_1 = 1, EDITION_2 = 2 };

/* Numbers that come back. */
enum {
    ACCEPTED = 0,
    TOO_LONG = 1,
    TRUNCATED = 2,
    BAD_IDENTIFIER = 3,
    BAD_LENGTH = 4,
    BAD_CONTENT = 5,
    TOO_DEEP = 6,
    TRAILING_BYTES = 7,
    NOT_IN_GRAMMAR = 8,
    OTHER_EDITION = 9,
    LONG_CERT_REQ_ID = 10,
    NO_ROOM = 11,
    NO_SUCH_BATCH = 12,
    UNKNOWN_EDITION = 13,
    NO_SUCH_MESSAGE = 14
};

/* A row: document 01's numbers, and document 02's A11. */
enum { ROW_KIND, ROW_FIRST, ROW_LENGTH, ROW_PARENT, ROW_CONTENT, ROW_NUMBERS };

/* An entry of what changed between two batches, and what it says: document 02's A5 and A12. */
enum { ENTRY_WHAT, ENTRY_FIRST, ENTRY_SECOND, ENTRY_SECONDS, ENTRY_NUMBERS };
enum { ONLY_FIRST = 1, ONLY_SECOND = 2, LEAVES_DIFFER = 3 };

enum { NO_MOMENT = -1 }; /* instead of a time's moment: document 02's A12 */

/* Kinds of containers. */
enum {
    KIND_BATCH = 1,
    KIND_MESSAGE = 2,
    KIND_CERT_REQ = 3,
    KIND_CERT_TEMPLATE = 5,
    KIND_VALIDITY = 14,
    KIND_EXTENSIONS = 19,
    KIND_CONTROLS = 30,
    KIND_SIGNATURE = 51,
    KIND_KEY_ENCIPHERMENT = 52,
    KIND_KEY_AGREEMENT = 53,
    KIND_REG_INFO = 70,
    KIND_REG_INFO_CERT_REQ = 74
};

/* The template's tags. */
enum {
    TAG_VERSION,
    TAG_SERIAL_NUMBER,
    TAG_SIGNING_ALG,
    TAG_ISSUER,
    TAG_VALIDITY,
    TAG_SUBJECT,
    TAG_PUBLIC_KEY,
    TAG_ISSUER_UID,
    TAG_SUBJECT_UID,
    TAG_EXTENSIONS,
    TEMPLATE_TAGS
};

enum { VERSION_2 = 0x02 }; /* the version that edition 2 allows: document 02's A4 */

/* The last octets of the types that are known, of controls and of regInfo. */
enum { REG_TOKEN = 1, AUTHENTICATOR, PKI_PUBLICATION_INFO, PKI_ARCHIVE_OPTIONS, OLD_CERT_ID, PROTOCOL_ENCR_KEY };
enum { PAIRS = 1, CARRIED_CERT_REQ };

/* Kinds of leaves. */
enum {
    KIND_CERT_REQ_ID = 4,
    KIND_TEMPLATE_FIELD = 10, /* plus the tag */
    KIND_SERIAL_NUMBER = KIND_TEMPLATE_FIELD + TAG_SERIAL_NUMBER,
    KIND_SIGNING_ALG = KIND_TEMPLATE_FIELD + TAG_SIGNING_ALG,
    KIND_SUBJECT = KIND_TEMPLATE_FIELD + TAG_SUBJECT,
    KIND_PUBLIC_KEY = KIND_TEMPLATE_FIELD + TAG_PUBLIC_KEY,
    KIND_ISSUER_UID = KIND_TEMPLATE_FIELD + TAG_ISSUER_UID,
    KIND_SUBJECT_UID = KIND_TEMPLATE_FIELD + TAG_SUBJECT_UID,
    KIND_NOT_BEFORE = 20,
    KIND_NOT_AFTER = 21,
    KIND_EXTENSION = 22,
    KIND_UNKNOWN_CONTROL = 31,
    KIND_CONTROL = 40, /* plus the last octet of its type */
    KIND_RA_VERIFIED = 50,
    KIND_POPOSK_INPUT = 54,
    KIND_SIGNATURE_ALGORITHM = 55,
    KIND_SIGNATURE_BITS = 56,
    KIND_CHOICE = 60, /* plus the tag, 0 to 4 */
    KIND_DH_MAC = KIND_CHOICE + 2,
    KIND_UNKNOWN_REG_INFO = 71,
    KIND_OCTET_PAIRS = 72,
    KIND_UTF8_PAIRS = 73
};

enum {
    VERDICT_NO_PROOF = 0,
    VERDICT_RA_VERIFIED = 1,
    VERDICT_SIGNED_CERT_REQ = 2,
    VERDICT_SIGNED_POPOSK_INPUT = 3,
    VERDICT_OTHER_SIGNATURE = 4,
    VERDICT_KEY_ENCIPHERMENT = 5,
    VERDICT_KEY_AGREEMENT = 6,
    VERDICT_MISPLACED_DH_MAC = 7
};

#endif
