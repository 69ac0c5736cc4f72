/* The writing of a draft by document 01, with document 02's A11: the one batch that can have a draft's rows is built by recursion over the
 * rows, each with those that name it as their parent; then it is read, what its own rows show is compared with the draft, and the draft's
 * leaves are looked at in the slice for where their contents begin. */
#include "reference.h"

#include "paper.h"
#include "reference_kinds.h"
#include "reference_nest.h"

#include <stdbool.h>
#include <string.h>

#define NOTHING SIZE_MAX /* instead of a row's number: no batch can be built */

typedef struct {
    const size_t *numbers;
    size_t count; /* of rows */
    const uint8_t *slice;
    size_t slice_length;
    uint8_t batch[LONGEST];
    size_t length; /* of the batch so far */
} Draft;

static const size_t *row(const Draft *draft, size_t i)
{
    return draft->numbers + ROW_NUMBERS * i;
}

static bool append(Draft *draft, const uint8_t *octets, size_t size)
{
    if (LONGEST - draft->length < size)
        return false;
    memcpy(draft->batch + draft->length, octets, size);
    draft->length += size;
    return true;
}

/* Puts an identifier and a shortest length before what has been appended since the batch had `start` octets. */
static bool enclose(Draft *draft, size_t start, uint8_t id)
{
    size_t size = draft->length - start, used = 0;
    uint8_t octets[4];
    octets[used++] = id;
    if (size > 0xFF)
        octets[used++] = 0x82;
    else if (size > 0x7F)
        octets[used++] = 0x81;
    if (size > 0xFF)
        octets[used++] = (uint8_t)(size >> 8);
    octets[used++] = (uint8_t)size;
    if (LONGEST - draft->length < used)
        return false;
    memmove(draft->batch + start + used, draft->batch + start, size);
    memcpy(draft->batch + start, octets, used);
    draft->length += used;
    return true;
}

/* Appends the octets of a row and of the rows below it; answers the number of the first row after them, or NOTHING. */
static size_t build(Draft *draft, size_t i, int depth)
{
    static const uint8_t carried_type[] = {0x06, 0x09, 0x2B, 0x06, 0x01, 0x05, 0x05, 0x07, 0x05, 0x02, 0x02};
    size_t kind = row(draft, i)[ROW_KIND], first = row(draft, i)[ROW_FIRST], whole = row(draft, i)[ROW_LENGTH];
    size_t start = draft->length, next = i + 1;
    if (container_identifier(kind) == 0) {
        bool within = first <= draft->slice_length && whole <= draft->slice_length - first;
        return within && append(draft, draft->slice + first, whole) ? next : NOTHING;
    }
    if (depth > DEEPEST || (kind == KIND_REG_INFO_CERT_REQ && !append(draft, carried_type, sizeof carried_type)))
        return NOTHING;
    while (next < draft->count && row(draft, next)[ROW_PARENT] == i)
        next = build(draft, next, depth + 1);
    return next != NOTHING && enclose(draft, start, container_identifier(kind)) ? next : NOTHING;
}

/* Whether the other numbers of a container's row pass: they are ignored, but for two planted faults. */
static bool container_passes(const size_t *ours, const size_t *theirs)
{
    if (reference_fault == CONTAINERS_MEASURED)
        return ours[ROW_LENGTH] == theirs[ROW_LENGTH];
    return reference_fault != CONTAINER_CONTENTS || ours[ROW_CONTENT] == theirs[ROW_CONTENT];
}

/* Whether the row of a leaf, whose octets in the slice are the batch's, says where its content begins in the slice. */
static bool content_right(const Draft *draft, const size_t *ours, const size_t *theirs)
{
    Element leaf;
    if (reference_fault == CONTENTS_UNCOMPARED)
        return true;
    if (reference_fault == BATCH_CONTENTS)
        return ours[ROW_CONTENT] == theirs[ROW_CONTENT];
    return header(draft->slice, ours[ROW_FIRST], ours[ROW_FIRST] + ours[ROW_LENGTH], &leaf) == ACCEPTED &&
        leaf.inside == ours[ROW_CONTENT];
}

/* Whether the batch's own row shows what the draft's row does. */
static bool alike(const Draft *draft, const size_t *ours, const size_t *theirs)
{
    if (ours[ROW_KIND] != theirs[ROW_KIND] || ours[ROW_PARENT] != theirs[ROW_PARENT])
        return false;
    if (container_identifier(ours[ROW_KIND]) != 0)
        return container_passes(ours, theirs);
    if (reference_fault == LEAVES_UNCOMPARED)
        return true;
    size_t length = ours[ROW_LENGTH];
    return length == theirs[ROW_LENGTH] && memcmp(draft->slice + ours[ROW_FIRST], draft->batch + theirs[ROW_FIRST], length) == 0 &&
        content_right(draft, ours, theirs);
}

static bool omitted_in_edition_2(size_t kind)
{
    return kind == KIND_SERIAL_NUMBER || kind == KIND_SIGNING_ALG || kind == KIND_ISSUER_UID || kind == KIND_SUBJECT_UID;
}

/* The edition in which the batch is read: the one that is asked for, but for a planted fault. */
static size_t edition_of(const Draft *draft, size_t asked)
{
    size_t i = 0;
    while (i < draft->count && !omitted_in_edition_2(row(draft, i)[ROW_KIND]))
        i++;
    return reference_fault == DRAFTS_OF_EDITION_1 && i < draft->count ? EDITION_1 : asked;
}

/* Whether the draft describes an acceptable batch, which is then built. */
static bool describes(Draft *draft, size_t edition, size_t numbers)
{
    static size_t table[ROW_NUMBERS * MOST_ROWS];
    if (numbers == 0 || numbers % ROW_NUMBERS != 0 || build(draft, 0, 1) != draft->count)
        return false;
    edition = edition_of(draft, edition);
    reference_answer shown = reference_read(edition, draft->batch, draft->length, table, ROW_NUMBERS * MOST_ROWS);
    if (shown.number != ACCEPTED || shown.count != draft->count)
        return false;
    for (size_t i = 0; i < shown.count; i++)
        if (!alike(draft, row(draft, i), table + ROW_NUMBERS * i))
            return false;
    return true;
}

static reference_answer refused(size_t number)
{
    return (reference_answer){number, 0, 0};
}

reference_answer reference_write(size_t edition, const size_t *numbers, size_t count, const uint8_t *slice, size_t length, uint8_t *output,
    size_t room)
{
    static Draft draft;
    draft.numbers = numbers;
    draft.count = count / ROW_NUMBERS;
    draft.slice = slice;
    draft.slice_length = length;
    draft.length = 0;
    if (edition != EDITION_1 && edition != EDITION_2)
        return refused(UNKNOWN_EDITION);
    if (!describes(&draft, edition, count))
        return refused(NO_SUCH_BATCH);
    bool fits = draft.length <= room;
    if (fits || reference_fault == SHORT_OUTPUT_FILLED)
        memcpy(output, draft.batch, fits ? draft.length : room);
    return fits ? (reference_answer){ACCEPTED, 0, draft.length} : refused(NO_ROOM);
}
