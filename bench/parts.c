// Takes batches apart by their rows, and puts headers around the parts; and changes an octet of a batch.
#include "parts.h"
#include "encoding.h"
#include "rounds.h"

#include <string.h>

static const uint8_t smallest[] = {0x30, 0x09, 0x30, 0x07, 0x30, 0x05, 0x02, 0x01, 0x00, 0x30, 0x00};
enum { SMALLEST_HEADER = 2 };

static size_t message_at(const input *of, size_t position)
{
    size_t row = 1;
    for (; position > 0 || row_of(of, row)[PHAGUNDRO_ROW_KIND] != PHAGUNDRO_KIND_MESSAGE; row++)
        position -= row_of(of, row)[PHAGUNDRO_ROW_KIND] == PHAGUNDRO_KIND_MESSAGE;
    return row;
}

// The batch with these messages, which are one after another.
static void make_batch(const uint8_t *messages, size_t length, batch *made)
{
    begin_encoding();
    put(messages, length);
    put_header(0x30, 0);
    made->length = take_encoding(made->bytes);
}

static void copy_batch(const uint8_t *bytes, size_t length, batch *copy)
{
    memcpy(copy->bytes, bytes, length);
    copy->length = length;
}

static void take_halves(const input *of, size_t middle, parts *taken)
{
    size_t content = row_of(of, 0)[PHAGUNDRO_ROW_CONTENT];
    make_batch(of->bytes + content, middle - content, &taken->first);
    make_batch(of->bytes + middle, of->length - middle, &taken->second);
    copy_batch(of->bytes, of->length, &taken->join);
}

static void take_one(const input *of, parts *taken)
{
    size_t content = row_of(of, 0)[PHAGUNDRO_ROW_CONTENT];
    if (of->length + sizeof smallest - SMALLEST_HEADER > PHAGUNDRO_LONGEST)
        fail("has one message and no room for another", of->name);
    copy_batch(of->bytes, of->length, &taken->first);
    copy_batch(smallest, sizeof smallest, &taken->second);
    begin_encoding();
    put(smallest + SMALLEST_HEADER, sizeof smallest - SMALLEST_HEADER);
    put(of->bytes + content, of->length - content);
    put_header(0x30, 0);
    taken->join.length = take_encoding(taken->join.bytes);
}

// Changes the certReqId of a message, which is the first leaf below it.
static void change_id(const input *of, size_t message, parts *taken)
{
    size_t row = message;
    while (row_of(of, row)[PHAGUNDRO_ROW_KIND] != PHAGUNDRO_KIND_CERT_REQ_ID)
        row++;
    taken->changed_row = row;
    copy_batch(of->bytes, of->length, &taken->changed);
    taken->changed.bytes[row_of(of, row)[PHAGUNDRO_ROW_FIRST] + row_of(of, row)[PHAGUNDRO_ROW_LENGTH] - 1] ^= 1;
}

void take_parts(const input *of, parts *taken)
{
    taken->position = of->messages / 2;
    size_t row = message_at(of, taken->position);
    size_t middle = row_of(of, row)[PHAGUNDRO_ROW_FIRST];
    make_batch(of->bytes + middle, row_of(of, row)[PHAGUNDRO_ROW_LENGTH], &taken->message);
    change_id(of, row, taken);
    if (of->messages > 1)
        take_halves(of, middle, taken);
    else
        take_one(of, taken);
}
