/* Phagundro reads, writes, judges, joins, cuts and compares batches of certificate requests: CertReqMessages in DER, in one of two
 * editions.
 *
 * This file is the manual of the C calls. The library keeps no state, allocates no memory and opens no file: a call looks at the bytes and
 * numbers that it is lent and returns its answer. Any bytes and any numbers may be given.
 *
 *     size_t table[PHAGUNDRO_ROW_NUMBERS * 100];
 *     phagundro_answer answer = phagundro_read(PHAGUNDRO_RFC4211, bytes, length, table, PHAGUNDRO_ROW_NUMBERS * 100);
 *     if (answer.number == PHAGUNDRO_ACCEPTED)
 *         for (size_t i = 0; i < answer.count; i++) {
 *             const size_t *row = table + PHAGUNDRO_ROW_NUMBERS * i;
 *             size_t end = row[PHAGUNDRO_ROW_FIRST] + row[PHAGUNDRO_ROW_LENGTH];
 *             show(row[PHAGUNDRO_ROW_KIND], bytes + row[PHAGUNDRO_ROW_CONTENT], end - row[PHAGUNDRO_ROW_CONTENT]);
 *         }
 *
 * What a caller owes, in every call:
 *   - a pointer points at as many bytes or numbers as the length, count or room beside it says; all of them can be read, and those of a
 *     table, an output or a list of entries can be written too;
 *   - NULL is passed only where the number beside it is 0;
 *   - what is written overlaps nothing that is read, and nothing else writes to any of them during the call;
 *   - the stack has as many free bytes as PHAGUNDRO_STACK and the names after it say.
 * Several threads may call at once, on tables, outputs and lists that do not overlap.
 *
 * Link with libphagundro.a, as it is named once installed, built for x86-64, which calls nothing outside itself but memset.
 * C11 and C++17.
 */
#ifndef PHAGUNDRO_H
#define PHAGUNDRO_H

#include <stddef.h>
#include <stdint.h>

#ifdef __cplusplus
extern "C" {
#endif

#define PHAGUNDRO_VERSION "0.3"

/* Limits. */
enum {
    PHAGUNDRO_LONGEST      = 65535,                  /* bytes of a batch, at most */
    PHAGUNDRO_DEEPEST      = 20,                     /* the depth of an element, at most; the batch is at depth 1 */
    PHAGUNDRO_MOST_ROWS    = PHAGUNDRO_LONGEST / 2,  /* rows of a batch: no batch has more */
    PHAGUNDRO_MOST_ENTRIES = 2 * PHAGUNDRO_MOST_ROWS /* entries of a comparison: no two batches have more */
};

/* Bytes of stack that a call needs. A thread with 128 KB can make every call but the two that compare, if it writes only drafts of at most
 * PHAGUNDRO_FEW_ROWS rows. */
enum {
    PHAGUNDRO_STACK                = 16000,  /* each call but those of the next lines */
    PHAGUNDRO_STACK_DUPLICATES     = 80000,  /* phagundro_duplicates on a batch of more than PHAGUNDRO_FEW_MESSAGES messages */
    PHAGUNDRO_STACK_WRITE_SMALL    = 32000,  /* phagundro_write of a draft that describes a batch of at most PHAGUNDRO_SMALL_BATCH bytes */
    PHAGUNDRO_STACK_WRITE_FEW_ROWS = 120000, /* phagundro_write of any other draft of at most PHAGUNDRO_FEW_ROWS rows */
    PHAGUNDRO_STACK_WRITE          = 400000, /* phagundro_write of any draft */
    PHAGUNDRO_STACK_COMPARE        = 600000, /* phagundro_compare and phagundro_compare_part */
    PHAGUNDRO_SMALL_BATCH          = 4096,
    PHAGUNDRO_FEW_ROWS             = 4096,
    PHAGUNDRO_FEW_MESSAGES         = 1024
};

/* An edition: the grammar that a batch is read or written in. Any other number is refused with PHAGUNDRO_UNKNOWN_EDITION.
 *
 * The differences between the two, of which D3 and D4 may also be in a carried certReq:
 *     D1  agreeMAC or encryptedKey in a proof: edition 2 only
 *     D2  pairs as octets in regInfo: edition 1 only; pairs as UTF-8 in regInfo: edition 2 only
 *     D3  location beside method 0 in pkiPublicationInfo: edition 1 only
 *     D4  serialNumber, signingAlg, issuerUID, subjectUID or a version other than 2 in a template: edition 1 only
 * A batch with a form of the other edition alone is refused with PHAGUNDRO_OTHER_EDITION if it is in the other's grammar, and else with
 * PHAGUNDRO_NOT_IN_GRAMMAR; a draft with one is refused with PHAGUNDRO_NO_SUCH_BATCH. */
enum {
    PHAGUNDRO_RFC2511 = 1, /* edition 1, of 1999 */
    PHAGUNDRO_RFC4211 = 2  /* edition 2, of 2005 */
};

/* The number of an answer, with its meaning and the place that stands beside it: an offset in the batch, counted from 0.
 *
 * Where several refusals apply, the answer is the first of these, here without their prefix:
 *     reading     UNKNOWN_EDITION; TOO_LONG; TRUNCATED to TOO_DEEP, over all elements; TRAILING_BYTES; NOT_IN_GRAMMAR or OTHER_EDITION;
 *                 LONG_CERT_REQ_ID; NO_ROOM
 *     writing     UNKNOWN_EDITION; NO_SUCH_BATCH; NO_ROOM
 *     verdict     those of reading without NO_ROOM; NO_SUCH_MESSAGE
 *     duplicates  those of reading without NO_ROOM
 *     joining     those of reading without NO_ROOM, for the first batch; the same for the second; TOO_LONG, for the join; NO_ROOM
 *     cutting     those of reading without NO_ROOM; NO_SUCH_MESSAGE; NO_ROOM
 *     comparing   those of reading without NO_ROOM, for the first batch; the same for the second; NO_ROOM
 *     its parts   those of reading without NO_ROOM, for the first batch; the same for the second; NO_SUCH_MESSAGE
 * Of several faults from TRUNCATED to TOO_DEEP the answer is the one that is decided first. A fault is decided at its element's first byte;
 * only the order of a SET's members is decided at the SET's last byte, after every fault inside it and before every fault after it. Of two
 * SETs that end together the inner one is decided first. Within one element the order is TOO_DEEP; TRUNCATED, if the identifier is missing;
 * BAD_IDENTIFIER; TRUNCATED, if length octets are missing; BAD_LENGTH; TRUNCATED, if the content goes past the end; BAD_CONTENT. */
enum {
    PHAGUNDRO_ACCEPTED         = 0,  /* accepted; place 0 */
    PHAGUNDRO_TOO_LONG         = 1,  /* the input is longer than 65,535 bytes, or a join would be; place 0 */
    PHAGUNDRO_TRUNCATED        = 2,  /* an element is cut short or goes past its parent's end; its first byte */
    PHAGUNDRO_BAD_IDENTIFIER   = 3,  /* an identifier is not allowed; its element's first byte */
    PHAGUNDRO_BAD_LENGTH       = 4,  /* a length is indefinite or not the shortest; its element's first byte */
    PHAGUNDRO_BAD_CONTENT      = 5,  /* an element's content breaks DER, or a SET's members descend; its first byte */
    PHAGUNDRO_TOO_DEEP         = 6,  /* an element is deeper than 20, the batch being at depth 1; its first byte */
    PHAGUNDRO_TRAILING_BYTES   = 7,  /* there are bytes after the batch; the first of them */
    PHAGUNDRO_NOT_IN_GRAMMAR   = 8,  /* not in the grammar of either edition; the element at which reading in this edition stops */
    PHAGUNDRO_OTHER_EDITION    = 9,  /* not in this edition's grammar, but in the other's; the first element in a form of the other alone */
    PHAGUNDRO_LONG_CERT_REQ_ID = 10, /* a certReqId of more than 8 content octets; the first such */
    PHAGUNDRO_NO_ROOM          = 11, /* the room is not enough for the rows, the batch or the entries; place 0 */
    PHAGUNDRO_NO_SUCH_BATCH    = 12, /* a draft describes no batch that is accepted in this edition; place 0 */
    PHAGUNDRO_UNKNOWN_EDITION  = 13, /* the edition is neither 1 nor 2; place 0 */
    PHAGUNDRO_NO_SUCH_MESSAGE  = 14  /* the batch has no message at that position, or the comparison no entry of that number; place 0 */
};

/* The answer of a reading, a writing or a cut. */
typedef struct {
    size_t number; /* PHAGUNDRO_ACCEPTED, or the refusal */
    size_t place;  /* as said beside the number */
    size_t count;  /* the rows of the batch that was read, or the bytes of the one that was written; 0 with a refusal */
} phagundro_answer;

/* Accepts or refuses a batch in an edition. Answers PHAGUNDRO_ACCEPTED or the refusal's number: the number of phagundro_read, given room.
 * So it is never PHAGUNDRO_NO_ROOM. */
size_t phagundro_accept(size_t edition, const uint8_t *bytes, size_t length);

/* A row: the numbers that a table has of each field. There are five of them since version 0.2; version 0.1 had the first four alone.
 *
 * An element's content is what follows its identifier and length octets: bytes[content .. first + length). An empty content starts one past
 * its element. */
enum {
    PHAGUNDRO_ROW_KIND    = 0, /* what the field is, one of PHAGUNDRO_KIND_ .. */
    PHAGUNDRO_ROW_FIRST   = 1, /* the first byte of its element, as an offset in the batch */
    PHAGUNDRO_ROW_LENGTH  = 2, /* the length of its whole element in bytes, identifier and length octets included */
    PHAGUNDRO_ROW_PARENT  = 3, /* the row of the field that it belongs to, counted from 0 */
    PHAGUNDRO_ROW_CONTENT = 4, /* the first byte of its element's content, as an offset in the batch; since 0.2 */
    PHAGUNDRO_ROW_NUMBERS = 5  /* the numbers of a row; 4 in 0.1 */
};

/* The kind of a row: the name of its field. */
enum {
    /* Containers, whose parts are rows below them */
    PHAGUNDRO_KIND_BATCH             = 1,  /* batch */
    PHAGUNDRO_KIND_MESSAGE           = 2,  /* message */
    PHAGUNDRO_KIND_CERT_REQ          = 3,  /* certReq, of a message or carried in regInfo */
    PHAGUNDRO_KIND_CERT_TEMPLATE     = 5,  /* template, which may have no rows below it */
    PHAGUNDRO_KIND_VALIDITY          = 14, /* validity, in which notAfter is not earlier than notBefore */
    PHAGUNDRO_KIND_EXTENSIONS        = 19, /* extensions */
    PHAGUNDRO_KIND_CONTROLS          = 30, /* controls */
    PHAGUNDRO_KIND_SIGNATURE         = 51, /* signature */
    PHAGUNDRO_KIND_KEY_ENCIPHERMENT  = 52, /* keyEncipherment */
    PHAGUNDRO_KIND_KEY_AGREEMENT     = 53, /* keyAgreement */
    PHAGUNDRO_KIND_REG_INFO          = 70, /* regInfo */
    PHAGUNDRO_KIND_REG_INFO_CERT_REQ = 74, /* item that carries a certReq, its one row below; in regInfo */

    /* Leaves: of a certReq */
    PHAGUNDRO_KIND_CERT_REQ_ID = 4, /* certReqId, a signed whole number */

    /* of a template */
    PHAGUNDRO_KIND_VERSION       = 10, /* version, in edition 2 always 2 */
    PHAGUNDRO_KIND_SERIAL_NUMBER = 11, /* serialNumber, edition 1 only */
    PHAGUNDRO_KIND_SIGNING_ALG   = 12, /* signingAlg, edition 1 only */
    PHAGUNDRO_KIND_ISSUER        = 13, /* issuer */
    PHAGUNDRO_KIND_SUBJECT       = 15, /* subject */
    PHAGUNDRO_KIND_PUBLIC_KEY    = 16, /* publicKey */
    PHAGUNDRO_KIND_ISSUER_UID    = 17, /* issuerUID, edition 1 only */
    PHAGUNDRO_KIND_SUBJECT_UID   = 18, /* subjectUID, edition 1 only */
    PHAGUNDRO_KIND_NOT_BEFORE    = 20, /* notBefore, in validity; phagundro_moment tells when it is */
    PHAGUNDRO_KIND_NOT_AFTER     = 21, /* notAfter, in validity; likewise */
    PHAGUNDRO_KIND_EXTENSION     = 22, /* extension, one of extensions */

    /* of controls */
    PHAGUNDRO_KIND_UNKNOWN_CONTROL      = 31, /* control of an unknown type */
    PHAGUNDRO_KIND_REG_TOKEN            = 41, /* regToken */
    PHAGUNDRO_KIND_AUTHENTICATOR        = 42, /* authenticator */
    PHAGUNDRO_KIND_PKI_PUBLICATION_INFO = 43, /* pkiPublicationInfo */
    PHAGUNDRO_KIND_PKI_ARCHIVE_OPTIONS  = 44, /* pkiArchiveOptions */
    PHAGUNDRO_KIND_OLD_CERT_ID          = 45, /* oldCertID */
    PHAGUNDRO_KIND_PROTOCOL_ENCR_KEY    = 46, /* protocolEncrKey */

    /* of a proof of possession */
    PHAGUNDRO_KIND_RA_VERIFIED         = 50, /* raVerified */
    PHAGUNDRO_KIND_POPOSK_INPUT        = 54, /* poposkInput, in a signature */
    PHAGUNDRO_KIND_SIGNATURE_ALGORITHM = 55, /* algorithm, of a signature */
    PHAGUNDRO_KIND_SIGNATURE_BITS      = 56, /* bits, of a signature */
    PHAGUNDRO_KIND_THIS_MESSAGE        = 60, /* thisMessage, the first choice of keyEncipherment and keyAgreement */
    PHAGUNDRO_KIND_SUBSEQUENT_MESSAGE  = 61, /* subsequentMessage */
    PHAGUNDRO_KIND_DH_MAC              = 62, /* dhMAC, the choice 82 */
    PHAGUNDRO_KIND_AGREE_MAC           = 63, /* agreeMAC, edition 2 only */
    PHAGUNDRO_KIND_ENCRYPTED_KEY       = 64, /* encryptedKey, edition 2 only */

    /* of regInfo */
    PHAGUNDRO_KIND_UNKNOWN_REG_INFO = 71, /* item of an unknown type */
    PHAGUNDRO_KIND_OCTET_PAIRS      = 72, /* pairs as octets, edition 1 only */
    PHAGUNDRO_KIND_UTF8_PAIRS       = 73  /* pairs as UTF-8, edition 2 only */
};

/* Reads a batch in an edition and shows its fields as rows. The rows are in the order of their first bytes. Row 0 is the batch, which is
 * its own parent. `room` counts numbers; the room is enough exactly when it is at least PHAGUNDRO_ROW_NUMBERS times count.
 *
 * Accepted: the first PHAGUNDRO_ROW_NUMBERS times count numbers of the table are the rows, and the numbers after them are as they were.
 * Refused: count is 0, and the whole table is as it was. */
phagundro_answer phagundro_read(size_t edition, const uint8_t *bytes, size_t length, size_t *table, size_t room);

/* Answered by phagundro_moment for bytes that show no moment; every moment is greater. */
enum { PHAGUNDRO_NO_MOMENT = -1 };

/* Tells the moment that a notBefore or a notAfter shows, given the bytes of its row: its whole element, A0 or A1 around a time. A moment
 * is the number of seconds since 0000-01-01 00:00:00, in the Gregorian calendar without leap seconds.
 *
 * The time is a UTCTime, whose two-digit years are those from 1950 to 2049, or a GeneralizedTime of a year from 2050 on. So the moments of
 * an accepted batch are from 61536067200, 1950-01-01 00:00:00, to 315569519999, 9999-12-31 23:59:59. Answers PHAGUNDRO_NO_MOMENT for any
 * other bytes, the row's with a byte more or less included. */
int64_t phagundro_moment(const uint8_t *bytes, size_t length);

/* Writes the batch that a draft describes in an edition.
 *
 * A draft is rows, as phagundro_read shows them, over a slice of bytes; `numbers` is PHAGUNDRO_ROW_NUMBERS times the count of rows. The
 * first byte and length of a leaf point at its element in the slice. Leaves may be there in any order and overlap, and the slice may have
 * other bytes too. A leaf's row must also say rightly where its content begins, counted in the slice like its first byte: after the
 * identifier and length octets that stand there. The first byte, the length and the content's first byte of a container are ignored: its
 * element is made around the elements of the rows below it.
 *
 * The draft describes the batch that is accepted in this edition, and whose own rows have the same kinds and parents in the same order and,
 * in each leaf, the same length and the bytes that the draft points at. At most one batch is such. The answer is PHAGUNDRO_NO_SUCH_BATCH
 * where there is none, where `numbers` is 0 or no multiple of PHAGUNDRO_ROW_NUMBERS, where a leaf leaves the slice, and where a leaf's
 * row says wrongly where its content begins.
 *
 * Accepted: the first `count` bytes of the output are the batch, and the bytes after them are as they were. `room` counts bytes; the room
 * is enough exactly when it is at least the batch's length, which is never more than PHAGUNDRO_LONGEST. Refused: count is 0, and the
 * whole output is as it was.
 *
 * The rows that phagundro_read shows of a batch, over the batch's own bytes, are a draft that gives these bytes again. */
phagundro_answer phagundro_write(size_t edition, const size_t *draft, size_t numbers, const uint8_t *slice, size_t length, uint8_t *output,
    size_t room);

/* The verdict on a message's proof of possession: what there is to check. It depends only on which fields are present. */
enum {
    PHAGUNDRO_VERDICT_NO_PROOF            = 0, /* no proof */
    PHAGUNDRO_VERDICT_RA_VERIFIED         = 1, /* raVerified */
    PHAGUNDRO_VERDICT_SIGNED_CERT_REQ     = 2, /* signature over the certReq: no poposkInput; subject and publicKey both in the template */
    PHAGUNDRO_VERDICT_SIGNED_POPOSK_INPUT = 3, /* signature over poposkInput, which is present; subject or publicKey is missing */
    PHAGUNDRO_VERDICT_OTHER_SIGNATURE     = 4, /* any other signature */
    PHAGUNDRO_VERDICT_KEY_ENCIPHERMENT    = 5, /* keyEncipherment with another choice than 82 */
    PHAGUNDRO_VERDICT_KEY_AGREEMENT       = 6, /* keyAgreement with another choice than 82, or with it and both subject and publicKey */
    PHAGUNDRO_VERDICT_MISPLACED_DH_MAC    = 7  /* choice 82 under keyEncipherment, or without both subject and publicKey */
};

/* The answer of a verdict. With a refusal the verdict, from and length are 0; with any verdict but PHAGUNDRO_VERDICT_SIGNED_CERT_REQ and
 * PHAGUNDRO_VERDICT_SIGNED_POPOSK_INPUT, from and length are 0. */
typedef struct {
    size_t number;  /* PHAGUNDRO_ACCEPTED, or the refusal */
    size_t place;   /* as said beside the number */
    size_t verdict; /* one of PHAGUNDRO_VERDICT_ .. */
    size_t from;    /* the signed part is bytes[from .. from + length) */
    size_t length;
} phagundro_verdict_answer;

/* Judges the proof of the message at a position of the batch, counted from 0. A certReqId is never a position.
 *
 * The signed part is in the batch as it was sent: the certReq with PHAGUNDRO_VERDICT_SIGNED_CERT_REQ, and poposkInput from its A0 with
 * PHAGUNDRO_VERDICT_SIGNED_POPOSK_INPUT. Whether that A0 is read as 30 before the signature is checked is the server's to settle. */
phagundro_verdict_answer phagundro_verdict(size_t edition, const uint8_t *bytes, size_t length, size_t position);

/* Added to the number of a refusal by phagundro_verdict_number; every verdict is less. */
enum { PHAGUNDRO_VERDICT_REFUSED = 256 };

/* Judges as phagundro_verdict does, in one number: the verdict, or PHAGUNDRO_VERDICT_REFUSED plus the refusal's number. */
size_t phagundro_verdict_number(size_t edition, const uint8_t *bytes, size_t length, size_t position);

/* The answer of a search for duplicates. Where no pair is found, and with a refusal, earlier and later are 0. */
typedef struct {
    size_t number;  /* PHAGUNDRO_ACCEPTED, or the refusal */
    size_t place;   /* as said beside the number */
    size_t found;   /* 1 where there is a pair; 0 where there is none, and with a refusal */
    size_t earlier; /* the positions of the pair's messages, counted from 0 */
    size_t later;
} phagundro_duplicate_answer;

/* Searches a batch for two messages whose own certReqIds are the same signed whole number; those that a regInfo carries don't count. Of
 * several pairs it answers the one with the least later position, and of these the one with the least earlier. */
phagundro_duplicate_answer phagundro_duplicates(size_t edition, const uint8_t *bytes, size_t length);

/* Of the two batches of a call, the one that a refusal is about, or that a part is of. */
enum {
    PHAGUNDRO_FILE_NEITHER = 0, /* neither: both are accepted */
    PHAGUNDRO_FILE_FIRST   = 1, /* the first batch, or the edition */
    PHAGUNDRO_FILE_SECOND  = 2  /* the second batch, and the first is accepted */
};

/* The answer of a call that takes two batches. */
typedef struct {
    size_t number; /* PHAGUNDRO_ACCEPTED, or the refusal */
    size_t place;  /* as said beside the number: an offset in the batch that `file` names */
    size_t file;   /* one of PHAGUNDRO_FILE_ .. */
    size_t count;  /* the bytes of the batch that was written, or the entries that were listed; 0 with a refusal */
} phagundro_pair_answer;

/* Joins two batches of one edition: writes the batch that has the first's messages and then the second's, as they were sent. Messages with
 * the same certReqId are no fault. The two batches may overlap or be the same; the output overlaps neither.
 *
 * What phagundro_read would refuse of the first batch, given room, is refused with PHAGUNDRO_FILE_FIRST, and then what it would refuse of
 * the second with PHAGUNDRO_FILE_SECOND. If both are accepted, the answer has PHAGUNDRO_FILE_NEITHER: it is PHAGUNDRO_TOO_LONG where the
 * join would be longer than PHAGUNDRO_LONGEST, whatever the room is, and else PHAGUNDRO_NO_ROOM where the room is not enough.
 *
 * Accepted: the first `count` bytes of the output are the join, and the bytes after them are as they were. `room` counts bytes; the room
 * is enough exactly when it is at least the join's length, which is never more than PHAGUNDRO_LONGEST, nor than both lengths together.
 * Refused: count is 0, and the whole output is as it was.
 *
 * Several batches give the same bytes in whatever grouping they are joined, if the whole is no longer than PHAGUNDRO_LONGEST; then every
 * smaller join fits too. A join's rows after row 0 are those of the first batch and then those of the second, moved and renumbered:
 *   - of the first, each first byte and each content's first byte grows by the join's header less the first's header;
 *   - of the second, each grows by the join's header and the first's content less the second's header; each row's number, and each parent
 *     but 0, grows by the count of the first's rows less one.
 * A batch's header is its identifier and length octets, as many bytes as PHAGUNDRO_ROW_CONTENT of row 0 says. */
phagundro_pair_answer phagundro_join(size_t edition, const uint8_t *first, size_t first_length, const uint8_t *second,
    size_t second_length, uint8_t *output, size_t room);

/* Cuts a message out of a batch: writes the batch whose only message is the one at a position of the given batch, counted from 0, as it was
 * sent. A certReqId is never a position.
 *
 * The answer is PHAGUNDRO_NO_SUCH_MESSAGE where the batch is accepted and has no message at the position, whatever the room is.
 *
 * Accepted: the first `count` bytes of the output are the batch with that message, and the bytes after them are as they were. `room` counts
 * bytes; the room is enough exactly when it is at least that batch's length, which is never more than `length`. Refused: count is 0, and
 * the whole output is as it was.
 *
 * Cutting at every position and joining what comes back, in order, gives the batch's bytes again. */
phagundro_answer phagundro_cut(size_t edition, const uint8_t *bytes, size_t length, size_t position, uint8_t *output, size_t room);

/* An entry: the numbers that a comparison has of each difference. There are four of them since version 0.3; version 0.2 had the first three
 * alone. A row is counted as phagundro_read shows it; row 0, the batch, is in no entry. The seconds may be negative. */
enum {
    PHAGUNDRO_ENTRY_WHAT    = 0, /* what the difference is: one of the next three names */
    PHAGUNDRO_ENTRY_FIRST   = 1, /* the field's row in the first batch; 0 where it has none */
    PHAGUNDRO_ENTRY_SECOND  = 2, /* the field's row in the second batch; 0 where it has none */
    PHAGUNDRO_ENTRY_SECONDS = 3, /* for a notBefore or notAfter that differs: the second's moment less the first's, in seconds; else 0 */
    PHAGUNDRO_ENTRY_NUMBERS = 4  /* the numbers of an entry; 3 in 0.2 */
};

/* What the difference of an entry is. */
enum {
    PHAGUNDRO_ONLY_FIRST    = 1, /* the field is in the first batch alone; if it is a container, with all that is below it */
    PHAGUNDRO_ONLY_SECOND   = 2, /* the field is in the second batch alone, likewise */
    PHAGUNDRO_LEAVES_DIFFER = 3  /* the field is a leaf of both batches, and its bytes differ */
};

/* Compares two batches of one edition: lists every difference between their fields, and is empty exactly when their bytes are equal. The
 * two batches may overlap or be the same; the list overlaps neither.
 *
 *     static int64_t list[PHAGUNDRO_ENTRY_NUMBERS * PHAGUNDRO_MOST_ENTRIES];
 *     phagundro_pair_answer answer = phagundro_compare(PHAGUNDRO_RFC4211, first, first_length, second, second_length, list,
 *         PHAGUNDRO_ENTRY_NUMBERS * PHAGUNDRO_MOST_ENTRIES);
 *     for (size_t i = 0; i < answer.count; i++) {
 *         phagundro_part part = phagundro_compare_part(PHAGUNDRO_RFC4211, first, first_length, second, second_length, i);
 *         const uint8_t *batch = part.file == PHAGUNDRO_FILE_FIRST ? first : second;
 *         show(list[PHAGUNDRO_ENTRY_NUMBERS * i + PHAGUNDRO_ENTRY_WHAT], batch + part.from, part.length);
 *     }
 *
 * The spot of a message in its batch, and of an item in controls or regInfo, is its position there. The spot of any other field is its
 * kind, and which of that kind it is below its parent. A field's counterpart is the field of the same kind at the same spot below the
 * counterpart of its parent; the two batches are each other's. So nothing is shifted: where a message was put in front, every message is
 * compared with the one that has its position now. Items of different kinds at one position are no counterparts.
 *
 * A field whose parent has a counterpart and that has none itself is an entry; what is below it is none. A leaf that has a counterpart is
 * an entry, together with it, exactly when their bytes differ. There are no other entries, so that no row is in two of them.
 *
 * The entries are in the order of one walk from the batch downwards, which goes through all that is below a field before it goes on: the
 * messages of a batch, and the items of controls and of regInfo, by position; the children of any other field by the number of their kind,
 * and those of one kind by position. At one spot the first batch's entry is before the second's.
 *
 * What phagundro_read would refuse of the first batch, given room, is refused with PHAGUNDRO_FILE_FIRST, and then what it would refuse of
 * the second with PHAGUNDRO_FILE_SECOND. If both are accepted, the answer has PHAGUNDRO_FILE_NEITHER; it is PHAGUNDRO_NO_ROOM where the
 * room is not enough.
 *
 * Accepted: the first PHAGUNDRO_ENTRY_NUMBERS times count numbers of the list are the entries, and the numbers after them are as they were.
 * `room` counts numbers; the room is enough exactly when it is at least PHAGUNDRO_ENTRY_NUMBERS times count, and count is never more than
 * PHAGUNDRO_MOST_ENTRIES, nor than the rows of both batches together. Refused: count is 0, and the whole list is as it was. */
phagundro_pair_answer phagundro_compare(size_t edition, const uint8_t *first, size_t first_length, const uint8_t *second,
    size_t second_length, int64_t *entries, size_t room);

/* The answer of a call that hands back a part of one of two batches. With a refusal, from and length are 0. */
typedef struct {
    size_t number; /* PHAGUNDRO_ACCEPTED, or the refusal */
    size_t place;  /* as said beside the number: an offset in the batch that `file` names */
    size_t file;   /* one of PHAGUNDRO_FILE_ ..: with a refusal whose it is, else whose bytes the part is of */
    size_t from;   /* the part is bytes[from .. from + length) of that batch, as it was lent: nothing is copied */
    size_t length;
} phagundro_part;

/* Hands back the part of a batch that an entry of phagundro_compare speaks of, by the entry's number, counted from 0: the whole element of
 * the field's row, in the first batch where the field is in both.
 *
 * What either batch is refused for is refused as in phagundro_compare. If both are accepted, the answer is PHAGUNDRO_NO_SUCH_MESSAGE, with
 * PHAGUNDRO_FILE_NEITHER, where the comparison has no entry of that number. No list is lent, so it is never PHAGUNDRO_NO_ROOM, and nothing
 * is written. Each call compares the batches again: a caller who wants many parts takes them from the rows of both batches. */
phagundro_part phagundro_compare_part(size_t edition, const uint8_t *first, size_t first_length, const uint8_t *second,
    size_t second_length, size_t entry);

#ifdef __cplusplus
}
#endif

#endif
