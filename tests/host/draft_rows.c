/* The rows and the slice of a draft. */
#include "draft_rows.h"

#include "kinds.h"
#include "random.h"

#include <stdlib.h>
#include <string.h>

size_t *row(Draft *draft, size_t i)
{
    return draft->numbers + WIDTH * i;
}

size_t rows(const Draft *draft)
{
    return draft->count / WIDTH;
}

size_t any_kind(void)
{
    static const uint8_t none[] = {0, 6, 9, 23, 40, 47, 57, 65, 75, 255};
    bool past_a_byte = chance(20);
    size_t i = below(kinds_count + sizeof none);
    return (i < kinds_count ? kinds[i] : none[i - kinds_count]) + (past_a_byte ? UINT8_MAX + 1 : 0);
}

size_t some_row(Draft *draft)
{
    return 1 + below(rows(draft) - 1);
}

size_t some_leaf(Draft *draft)
{
    size_t i = some_row(draft);
    while (is_container(row(draft, i)[KIND]))
        i = i + 1 < rows(draft) ? i + 1 : 1;
    return i;
}

size_t after(Draft *draft, size_t i)
{
    size_t j = i + 1;
    while (j < rows(draft) && row(draft, j)[PARENT] >= i)
        j++;
    return j;
}

void move_row(size_t *numbers, size_t first)
{
    numbers[CONTENT] += first - numbers[FIRST];
    numbers[FIRST] = first;
}

void insert_rows(Draft *draft, size_t at, const size_t *numbers, size_t count)
{
    if (DRAFT_NUMBERS - draft->count < WIDTH * count)
        abort();
    memmove(row(draft, at + count), row(draft, at), (rows(draft) - at) * WIDTH * sizeof(size_t));
    memmove(row(draft, at), numbers, count * WIDTH * sizeof(size_t));
    draft->count += WIDTH * count;
}

void remove_rows(Draft *draft, size_t at, size_t count)
{
    memmove(row(draft, at), row(draft, at + count), (rows(draft) - at - count) * WIDTH * sizeof(size_t));
    draft->count -= WIDTH * count;
}

void move_parents(Draft *draft, size_t from, size_t to, size_t least, size_t by)
{
    for (size_t i = from; i < to; i++)
        if (row(draft, i)[PARENT] >= least)
            row(draft, i)[PARENT] += by;
}

/* The first byte after the identifier and length octets of the element at a place of the slice. */
static size_t after_header(const Draft *draft, size_t first)
{
    uint8_t octet = first + 1 < draft->length ? draft->slice[first + 1] : 0;
    return first + 2 + (octet > 0x80 ? octet - 0x80 : 0);
}

void add_row(Draft *draft, size_t kind, size_t first, size_t whole, size_t parent)
{
    size_t content = is_container(kind) ? far_off() : after_header(draft, first);
    size_t numbers[WIDTH] = {kind, first, whole, parent, content};
    insert_rows(draft, rows(draft), numbers, 1);
}

/* -- The slice -- */

size_t add_octets(Draft *draft, const void *octets, size_t size)
{
    if (SLICE_ROOM - draft->length < size)
        abort();
    memcpy(draft->slice + draft->length, octets, size);
    draft->length += size;
    return draft->length - size;
}

void add_garbage(Draft *draft, size_t size)
{
    for (; size > 0; size--)
        add_octets(draft, &(uint8_t){(uint8_t)below(256)}, 1);
}

size_t far_off(void)
{
    static const size_t numbers[] = {0, 1, 255, 256, 65535, 65536, 0x7FFFFFFF, 0xFFFFFFFF, 0x100000000, 0x7FFFFFFFFFFFFFFF,
        0x8000000000000000, SIZE_MAX - 1, SIZE_MAX};
    return numbers[below(sizeof numbers / sizeof *numbers)];
}
