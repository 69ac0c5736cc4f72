/* Joining and cutting by document 02's A13, on the rows that the reading shows of a batch. The messages of a batch are the octets of its
 * content, and a batch is made around such octets. */
#include "reference.h"

#include "paper.h"
#include "reference_pair.h"

#include <stdbool.h>
#include <string.h>

#define NONE SIZE_MAX /* instead of a row's number */

enum { SHORT_HEADER = 2, LONGEST_HEADER = 5 };

static size_t rows[ROW_NUMBERS * MOST_ROWS], count; /* of the batch that was read last */

typedef struct {
    const uint8_t *start;
    size_t size;
} Octets;

static size_t field(size_t row, size_t which)
{
    return rows[ROW_NUMBERS * row + which];
}

/* A batch's own answer, "without 11". */
static reference_answer shown(size_t edition, Octets batch)
{
    reference_answer answer = reference_read(edition, batch.start, batch.size, rows, ROW_NUMBERS * MOST_ROWS);
    count = answer.count;
    return answer;
}

static Octets without(Octets octets, size_t skipped)
{
    return (Octets){octets.start + skipped, octets.size - skipped};
}

/* -- The batch that is made -- */

static uint8_t made[LONGEST_HEADER + 2 * LONGEST];
static size_t length;

static void append(Octets octets)
{
    memcpy(made + length, octets.start, octets.size);
    length += octets.size;
}

/* The octets that a length needs beside the first one. */
static size_t further_octets(size_t size)
{
    return size < 0x80 ? 0 : size <= 0xFF ? 1 : size <= 0xFFFF ? 2 : 3;
}

/* Begins with 30 and the length of a content of `size` octets, with `further` octets beside the first. */
static void begin(size_t size, size_t further)
{
    length = 0;
    made[length++] = 0x30;
    if (further > 0)
        made[length++] = (uint8_t)(0x80 + further);
    for (size_t left = further > 0 ? further : 1; left > 0; left--)
        made[length++] = (uint8_t)(size >> 8 * (left - 1));
}

/* Writes it if there is room, and answers whether there is. */
static bool written(uint8_t *output, size_t room)
{
    bool fits = length <= room;
    size_t filled = fits ? length : reference_fault == SHORT_OUTPUT_FILLED ? room : 0;
    if (filled > 0)
        memcpy(output, made, filled);
    return fits;
}

/* -- Joining -- */

/* "the batch with the first's messages and then the second's"; each is given with its header's length. */
static void join(Octets first, size_t header, Octets second, size_t second_header)
{
    size_t skipped = reference_fault == SECOND_WHOLE ? 0 : reference_fault == FIRST_HEADER_SKIPPED ? header : second_header;
    Octets one = without(first, header), two = without(second, skipped);
    size_t size = one.size + two.size;
    begin(size, reference_fault == HEADER_NOT_GROWN ? header - SHORT_HEADER : further_octets(size));
    if (reference_fault == FIRST_LENGTH_KEPT) {
        length = 0;
        append((Octets){first.start, header});
    }
    append(reference_fault == OTHER_ORDER ? two : one);
    append(reference_fault == OTHER_ORDER ? one : two);
}

/* Whether the join that is made is longer than a batch can be. */
static bool too_long(Octets first, Octets second)
{
    return reference_fault == LENGTHS_ADDED ? first.size + second.size > LONGEST : length > LONGEST;
}

reference_pair_answer reference_join(size_t edition, const uint8_t *first, size_t first_length, const uint8_t *second, size_t second_length,
    uint8_t *output, size_t room)
{
    Octets one = {first, first_length}, two = {second, second_length};
    reference_answer read = shown(edition, one);
    if (read.number != ACCEPTED)
        return refused_file(read, FIRST);
    size_t header = field(0, ROW_CONTENT);
    if (reference_fault == LENGTH_BEFORE_SECOND && first_length + second_length > LONGEST + LONGEST_HEADER)
        return refused_pair(TOO_LONG);
    read = shown(edition, two);
    if (read.number != ACCEPTED)
        return refused_file(read, SECOND);
    join(one, header, two, field(0, ROW_CONTENT));
    if (reference_fault == ROOM_BEFORE_LENGTH && length > room)
        return refused_pair(NO_ROOM);
    if (too_long(one, two))
        return refused_pair(TOO_LONG);
    return written(output, room) ? (reference_pair_answer){ACCEPTED, 0, NEITHER, length} : refused_pair(NO_ROOM);
}

/* -- Cutting -- */

static reference_answer refused_cut(size_t number)
{
    return (reference_answer){number, 0, 0};
}

/* The row of the message at a position. */
static size_t message_at(size_t position)
{
    if (reference_fault == BYTE_OF_POSITIONS)
        position = (uint8_t)position;
    if (reference_fault == NEXT_POSITION)
        position++;
    for (size_t row = 0; row < count; row++)
        if (field(row, ROW_KIND) == KIND_MESSAGE && position-- == 0)
            return row;
    return NONE;
}

reference_answer reference_cut(size_t edition, const uint8_t *bytes, size_t size, size_t position, uint8_t *output, size_t room)
{
    reference_answer read = shown(edition, (Octets){bytes, size});
    if (read.number != ACCEPTED)
        return read;
    size_t row = message_at(position);
    if (row == NONE)
        return refused_cut(reference_fault == ROOM_BEFORE_POSITION && room == 0 ? NO_ROOM : NO_SUCH_MESSAGE);
    Octets message = {bytes + field(row, ROW_FIRST), field(row, ROW_LENGTH)};
    begin(message.size, further_octets(message.size));
    append(message);
    return written(output, room) ? (reference_answer){ACCEPTED, 0, length} : refused_cut(NO_ROOM);
}
