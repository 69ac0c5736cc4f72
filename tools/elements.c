/* Headers decoded, as X.690 8.1 has them with the lengths that 10.1 asks for; and INTEGERs, as 8.3 has them. */
#include "elements.h"

enum { CONSTRUCTED = 0x20, LONG_LENGTH = 0x80, SHORT_HEADER = 2 };

bool is_constructed(uint8_t identifier)
{
    return identifier & CONSTRUCTED;
}

bool next_element(span *rest, element *found)
{
    if (rest->length < SHORT_HEADER)
        return false;
    size_t header = SHORT_HEADER, length = rest->bytes[1];
    if (length >= LONG_LENGTH) {
        header += length - LONG_LENGTH;
        if (header > rest->length || header > SHORT_HEADER + sizeof length)
            return false;
        length = 0;
        for (size_t at = SHORT_HEADER; at < header; at++)
            length = length << 8 | rest->bytes[at];
    }
    if (length > rest->length - header)
        return false;
    *found = (element){rest->bytes[0], {rest->bytes, header + length}, {rest->bytes + header, length}};
    *rest = (span){rest->bytes + header + length, rest->length - header - length};
    return true;
}

int64_t signed_number(span content)
{
    uint64_t value = content.bytes[0] & 0x80 ? UINT64_MAX : 0;
    for (size_t at = 0; at < content.length; at++)
        value = value << 8 | content.bytes[at];
    return (int64_t)value;
}
