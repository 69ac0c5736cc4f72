/* The reading, the writing, the verdict and the duplicate search by document 01 and by document 02's A3, A4, A11 and A12, and by document
 * 02 the joining and the cutting (A13), what changed between two batches (A5) and the moments of times (A12), written from those papers
 * alone. The comparisons check the archive against them. */
#ifndef REFERENCE_H
#define REFERENCE_H

#include <stddef.h>
#include <stdint.h>

typedef struct {
    size_t number, place, count;
} reference_answer;

reference_answer reference_read(size_t edition, const uint8_t *bytes, size_t length, size_t *table, size_t room);

/* The count is the batch's length. */
reference_answer reference_write(size_t edition, const size_t *numbers, size_t count, const uint8_t *slice, size_t length, uint8_t *output,
    size_t room);

/* The verdict on the message at a position, and the part of the bytes that is signed. */
typedef struct {
    size_t number, place, verdict, from, length;
} reference_verdict_answer;

reference_verdict_answer reference_verdict(size_t edition, const uint8_t *bytes, size_t length, size_t position);

/* The first two messages with the same certReqId. */
typedef struct {
    size_t number, place, found, earlier, later;
} reference_duplicate_answer;

reference_duplicate_answer reference_duplicates(size_t edition, const uint8_t *bytes, size_t length);

/* The batch of the first's messages and then the second's. The file says whose refusal it is: 1, 2, or 0 for neither's. */
typedef struct {
    size_t number, place, file, count;
} reference_pair_answer;

reference_pair_answer reference_join(size_t edition, const uint8_t *first, size_t first_length, const uint8_t *second, size_t second_length,
    uint8_t *output, size_t room);

/* The batch of the one message at a position. */
reference_answer reference_cut(size_t edition, const uint8_t *bytes, size_t length, size_t position, uint8_t *output, size_t room);

/* What changed between two batches, as a list of entries; the room counts numbers, and the count entries. */
reference_pair_answer reference_compare(size_t edition, const uint8_t *first, size_t first_length, const uint8_t *second,
    size_t second_length, int64_t *entries, size_t room);

/* The part of one of the batches that an entry speaks of. The file says whose part or whose refusal it is. */
typedef struct {
    size_t number, place, file, from, length;
} reference_part;

reference_part reference_compare_part(size_t edition, const uint8_t *first, size_t first_length, const uint8_t *second,
    size_t second_length, size_t entry);

/* The moment that the element of a notBefore or a notAfter shows, in whole seconds from 0000-01-01 00:00:00; -1 for any other bytes. */
int64_t reference_moment(const uint8_t *bytes, size_t length);

/* A fault planted in them, to show that a comparison finds it; 0 for none. */
enum {
    /* in the reading */
    SUBJECT_IS_NAME = 1,  /* the template's A5 taken as the Name itself */
    FALSE_ACCEPTED = 2,   /* an Extension's BOOLEAN 00 accepted */
    LAST_DIFFERENCE = 3,  /* OTHER_EDITION at the last difference instead of the first */
    BYTE_OF_MESSAGES = 4, /* messages counted in a byte: the rows of those past 255 are lost */
    OWN_IDS = 5,          /* LONG_CERT_REQ_ID for the messages' own certReqIds alone */

    /* in the writing */
    LEAVES_UNCOMPARED = 6,   /* a draft's leaves not compared with the batch's rows */
    CONTAINERS_MEASURED = 7, /* the lengths of a draft's containers not ignored */
    SHORT_OUTPUT_FILLED = 8, /* an output that is too short filled with what fits */

    /* in the verdict and the duplicate search */
    EITHER_NAMES = 9,       /* subject or publicKey alone taken for both */
    BYTE_OF_POSITIONS = 10, /* a position kept in a byte */
    CARRIED_IDS = 11,       /* carried certReqIds counted among the messages' own */
    LEAST_EARLIER = 12,     /* the pair with the least earlier position */
    LAST_OCTETS = 13,       /* certReqIds compared by their last octet */

    /* in the order of a SET's members */
    ORDER_BEFORE_INSIDE = 14, /* a SET's order judged before what is inside it */
    CONTENTS_ORDERED = 15,    /* a SET's members compared by their contents */
    TAGGED_ORDERED = 16,      /* elements of other classes with a SET's tag number judged too */
    FIRST_PAIR_ORDERED = 17,  /* only the first two members of a SET compared */
    EQUALS_REFUSED = 18,      /* equal members of a SET refused */

    /* in a row's fifth number */
    SHORT_HEADERS = 19,       /* each content taken to begin two bytes after its element */
    CONTENTS_UNCOMPARED = 20, /* the content's first byte ignored in a draft's leaves too */
    CONTAINER_CONTENTS = 21,  /* the content's first byte not ignored in a draft's containers */
    BATCH_CONTENTS = 22,      /* the content's first byte of a draft's leaves taken as a place in the batch */

    /* in joining and cutting */
    SECOND_WHOLE = 23,         /* the second batch's octets joined from its first byte, header included */
    FIRST_HEADER_SKIPPED = 24, /* as many octets of the second batch skipped as the first's header has */
    FIRST_LENGTH_KEPT = 25,    /* the first batch's length octets kept in the join */
    HEADER_NOT_GROWN = 26,     /* the join's length written in as many octets as the first batch's */
    OTHER_ORDER = 27,          /* the second batch's messages joined before the first's */
    LENGTH_BEFORE_SECOND = 28, /* TOO_LONG for the join before the second batch's refusal */
    LENGTHS_ADDED = 29,        /* TOO_LONG where the two batches' lengths pass 65,535 together */
    ROOM_BEFORE_LENGTH = 30,   /* NO_ROOM before TOO_LONG */
    EDITION_OF_NEITHER = 31,   /* UNKNOWN_EDITION said to be neither file's */
    ROOM_BEFORE_POSITION = 32, /* NO_ROOM before NO_SUCH_MESSAGE */
    NEXT_POSITION = 33,        /* the message at the next position cut */

    /* in what changed between two batches */
    CONTROLS_BY_KIND = 34,      /* items in controls matched by kind and occurrence */
    REG_INFO_BY_KIND = 35,      /* items in regInfo matched by kind and occurrence */
    EXTENSIONS_FROM_LAST = 36,  /* extensions matched from the last one, as if one in front had shifted them */
    PROOFS_AT_ONE_SPOT = 37,    /* proofs of two kinds taken to be at one spot */
    CHOICES_AT_ONE_SPOT = 38,   /* choices of two kinds taken to be at one spot */
    SECOND_BEFORE_FIRST = 39,   /* at one spot the second batch's entry before the first's */
    BELOW_LISTED = 40,          /* what is below a container that one batch alone has listed too */
    CONTAINERS_DIFFER = 41,     /* an entry for containers whose bytes differ too */
    CARRIED_AS_LEAF = 42,       /* an item that carries a certReq not entered, but compared as a leaf */
    LENGTHS_COMPARED = 43,      /* leaves of one length taken to be equal */
    FIRST_MESSAGE_LISTED = 44,  /* the list ended after the first message */
    COMMON_POSITIONS = 45,      /* messages at a position that one batch alone has not listed */
    ROOM_BEFORE_SECOND = 46,    /* NO_ROOM before the second batch's refusal */
    ROOM_OF_ENTRIES = 47,       /* the room for the list counted in entries instead of numbers */
    ENTRY_BEFORE_REFUSALS = 48, /* NO_SUCH_MESSAGE, for an entry past any list, before the batches' refusals */
    SECOND_PART = 49,           /* the second batch's part where both have the row */
    PART_OF_NEITHER = 50,       /* the part said to be neither batch's where both have the row */
    PART_CUT_SHORT = 51,        /* a part one byte shorter than its row */
    PART_OF_CONTENT = 52,       /* a part without its identifier and length octets */
    BYTE_OF_ENTRIES = 53,       /* an entry's number kept in a byte */

    /* in the template's fields that edition 1 alone allows */
    VERSION_2_MARKED = 54,       /* version 2 refused in edition 2 as well */
    CARRIED_FREE_OF_D4 = 55,     /* a field of edition 1 alone not seen inside a carried certReq */
    TEMPLATE_PLACE = 56,         /* OTHER_EDITION for a template's field at the template */
    SIGNING_ALG_ENTERED = 57,    /* signingAlg entered in edition 2 before it is refused */
    SERIAL_NUMBER_READABLE = 58, /* serialNumber read in edition 2 */
    DRAFTS_OF_EDITION_1 = 59,    /* drafts with fields that edition 2 omits written there as in edition 1 */

    /* in times and their moments */
    NO_CENTURY_RULE = 60,         /* every fourth year taken as a leap year */
    GENERALIZED_2049 = 61,        /* the year 2049 taken as GeneralizedTime */
    BEFORE_1950_TAKEN = 62,       /* years before 1950 taken as GeneralizedTime */
    BACKWARDS_BEFORE_INSIDE = 63, /* a validity that runs backwards refused before the rest of its inside is judged */
    EQUAL_MOMENTS_REFUSED = 64,   /* a notAfter at the moment of notBefore refused */
    TEXTS_COMPARED = 65,          /* notBefore and notAfter compared by their octets */
    NOT_AFTER_PLACE = 66,         /* a validity that runs backwards refused at its notAfter */
    FIRST_LESS_SECOND = 67,       /* of two times that differ the first's moment less the second's */
    SECONDS_IN_32_BITS = 68       /* the seconds between two times kept in 32 bits */
};
extern int reference_fault;

#endif
