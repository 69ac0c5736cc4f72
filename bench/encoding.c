// An encoding that is put together from its end.
#include "encoding.h"
#include "phagundro.h"

#include <string.h>

static uint8_t room[PHAGUNDRO_LONGEST];
static size_t start; // of what is there so far

void begin_encoding(void)
{
    start = sizeof room;
}

void put(const void *bytes, size_t length)
{
    start -= length;
    memcpy(room + start, bytes, length);
}

static void put_octet(size_t octet)
{
    put(&(uint8_t){(uint8_t)octet}, 1);
}

size_t put_so_far(void)
{
    return sizeof room - start;
}

void put_header(uint8_t identifier, size_t before)
{
    size_t length = put_so_far() - before;
    put_octet(length);
    if (length > 0xFF)
        put_octet(length >> 8);
    if (length > 0x7F)
        put_octet(length > 0xFF ? 0x82 : 0x81);
    put_octet(identifier);
}

size_t header_length(size_t content)
{
    return content > 0xFF ? 4 : content > 0x7F ? 3 : 2;
}

size_t take_encoding(uint8_t *to)
{
    memcpy(to, room + start, put_so_far());
    return put_so_far();
}
