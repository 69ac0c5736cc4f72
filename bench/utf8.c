// UTF-8 (RFC 3629) in plain C: octet by octet, and with eight octets below 80 at once.
#include "subjects.h"

#include <string.h>

// How many octets the character at the start of the text has, 0 if no character stands there.
static size_t character(const uint8_t *text, size_t length)
{
    uint8_t lead = text[0], low = 0x80, high = 0xBF;
    if (lead < 0x80)
        return 1;
    size_t octets = lead >= 0xF0 ? 4 : lead >= 0xE0 ? 3 : 2;
    if (lead < 0xC2 || lead > 0xF4 || length < octets)
        return 0;
    if (lead == 0xE0)
        low = 0xA0;
    if (lead == 0xED)
        high = 0x9F;
    if (lead == 0xF0)
        low = 0x90;
    if (lead == 0xF4)
        high = 0x8F;
    if (text[1] < low || text[1] > high)
        return 0;
    for (size_t i = 2; i < octets; i++)
        if (text[i] < 0x80 || text[i] > 0xBF)
            return 0;
    return octets;
}

bool utf8_by_octets(const uint8_t *text, size_t length)
{
    for (size_t i = 0, octets; i < length; i += octets)
        if ((octets = character(text + i, length - i)) == 0)
            return false;
    return true;
}

// Whether eight octets are all below 80.
static bool eight_below_80(const uint8_t *text)
{
    uint64_t eight;
    memcpy(&eight, text, sizeof eight);
    return (eight & 0x8080808080808080) == 0;
}

bool utf8_by_eights(const uint8_t *text, size_t length)
{
    for (size_t i = 0, octets; i < length; i += octets) {
        while (i + 8 <= length && eight_below_80(text + i))
            i += 8;
        if (i == length)
            break;
        if ((octets = character(text + i, length - i)) == 0)
            return false;
    }
    return true;
}
