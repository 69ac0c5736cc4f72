/* The verdict and the duplicate search by document 01, on the rows that the reading shows of a batch. */
#include "reference.h"

#include "paper.h"

#include <stdbool.h>

#define NONE SIZE_MAX /* instead of a row's number */

static size_t rows[ROW_NUMBERS * MOST_ROWS], count;

static reference_answer shown(size_t edition, const uint8_t *bytes, size_t length)
{
    reference_answer answer = reference_read(edition, bytes, length, rows, ROW_NUMBERS * MOST_ROWS);
    count = answer.count;
    return answer;
}

static size_t field(size_t row, size_t which)
{
    return rows[ROW_NUMBERS * row + which];
}

/* The first row of a kind that belongs to a row. */
static size_t part(size_t kind, size_t of)
{
    for (size_t row = of + 1; of != NONE && row < count; row++) {
        if (field(row, ROW_FIRST) >= field(of, ROW_FIRST) + field(of, ROW_LENGTH))
            break; /* past what it could belong to */
        if (field(row, ROW_KIND) == kind && field(row, ROW_PARENT) == of)
            return row;
    }
    return NONE;
}

static bool has(size_t kind, size_t of)
{
    return part(kind, of) != NONE;
}

/* The row of the message at a position. */
static size_t message_at(size_t position)
{
    if (reference_fault == BYTE_OF_POSITIONS)
        position = (uint8_t)position;
    for (size_t row = 0; row < count; row++)
        if (field(row, ROW_KIND) == KIND_MESSAGE && position-- == 0)
            return row;
    return NONE;
}

/* "subject and publicKey both in the template" */
static bool both(size_t message)
{
    size_t template = part(KIND_CERT_TEMPLATE, part(KIND_CERT_REQ, message));
    bool subject = has(KIND_SUBJECT, template), key = has(KIND_PUBLIC_KEY, template);
    return reference_fault == EITHER_NAMES ? subject || key : subject && key;
}

/* The verdict on the message of a row. */
static size_t judged(size_t message)
{
    size_t signature = part(KIND_SIGNATURE, message);
    size_t encipherment = part(KIND_KEY_ENCIPHERMENT, message), agreement = part(KIND_KEY_AGREEMENT, message);
    bool named = both(message), input = has(KIND_POPOSK_INPUT, signature);
    if (has(KIND_RA_VERIFIED, message))
        return VERDICT_RA_VERIFIED;
    if (signature != NONE && input)
        return named ? VERDICT_OTHER_SIGNATURE : VERDICT_SIGNED_POPOSK_INPUT;
    if (signature != NONE)
        return named ? VERDICT_SIGNED_CERT_REQ : VERDICT_OTHER_SIGNATURE;
    if (encipherment != NONE)
        return has(KIND_DH_MAC, encipherment) ? VERDICT_MISPLACED_DH_MAC : VERDICT_KEY_ENCIPHERMENT;
    if (agreement != NONE)
        return has(KIND_DH_MAC, agreement) && !named ? VERDICT_MISPLACED_DH_MAC : VERDICT_KEY_AGREEMENT;
    return VERDICT_NO_PROOF;
}

/* The row of the element that is signed by this verdict, or NONE. */
static size_t signed_row(size_t verdict, size_t message)
{
    switch (verdict) {
    case VERDICT_SIGNED_CERT_REQ: return part(KIND_CERT_REQ, message);
    case VERDICT_SIGNED_POPOSK_INPUT: return part(KIND_POPOSK_INPUT, part(KIND_SIGNATURE, message));
    default: return NONE;
    }
}

reference_verdict_answer reference_verdict(size_t edition, const uint8_t *bytes, size_t length, size_t position)
{
    reference_answer read = shown(edition, bytes, length);
    if (read.number != ACCEPTED)
        return (reference_verdict_answer){.number = read.number, .place = read.place};
    size_t message = message_at(position);
    if (message == NONE)
        return (reference_verdict_answer){.number = NO_SUCH_MESSAGE};
    reference_verdict_answer answer = {.verdict = judged(message)};
    size_t covered = signed_row(answer.verdict, message);
    if (covered != NONE) {
        answer.from = field(covered, ROW_FIRST);
        answer.length = field(covered, ROW_LENGTH);
    }
    return answer;
}

/* The signed whole number that the INTEGER of a row has. */
static int64_t number_of(size_t row, const uint8_t *bytes)
{
    const uint8_t *element = bytes + field(row, ROW_FIRST); /* identifier, one length octet, at most 8 octets of content */
    uint64_t number = element[2] >= 0x80 ? UINT64_MAX : 0;
    for (size_t i = 2; i < field(row, ROW_LENGTH); i++)
        number = number << 8 | element[i];
    return reference_fault == LAST_OCTETS ? (int64_t)(number & 0xFF) : (int64_t)number;
}

/* Whether a row is a certReqId of a message, and not a carried one. */
static bool counts(size_t row)
{
    size_t holder = field(field(row, ROW_PARENT), ROW_PARENT); /* of the certReq */
    bool own = field(holder, ROW_KIND) == KIND_MESSAGE || reference_fault == CARRIED_IDS;
    return field(row, ROW_KIND) == KIND_CERT_REQ_ID && own;
}

static reference_duplicate_answer pair(size_t earlier, size_t later)
{
    return (reference_duplicate_answer){.found = 1, .earlier = earlier, .later = later};
}

/* "the first equal pair (least later position, then least earlier)" */
static reference_duplicate_answer first_pair(const int64_t *ids, size_t found)
{
    if (reference_fault == LEAST_EARLIER)
        for (size_t earlier = 0; earlier < found; earlier++)
            for (size_t later = earlier + 1; later < found; later++)
                if (ids[earlier] == ids[later])
                    return pair(earlier, later);
    for (size_t later = 0; later < found; later++)
        for (size_t earlier = 0; earlier < later; earlier++)
            if (ids[earlier] == ids[later])
                return pair(earlier, later);
    return (reference_duplicate_answer){0};
}

reference_duplicate_answer reference_duplicates(size_t edition, const uint8_t *bytes, size_t length)
{
    static int64_t ids[MOST_ROWS];
    size_t found = 0;
    reference_answer read = shown(edition, bytes, length);
    if (read.number != ACCEPTED)
        return (reference_duplicate_answer){.number = read.number, .place = read.place};
    for (size_t row = 0; row < count; row++)
        if (counts(row))
            ids[found++] = number_of(row, bytes);
    return first_pair(ids, found);
}
