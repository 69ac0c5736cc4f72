// A plain walk of the nest, the least that any reader of DER does.
#include "subjects.h"

static bool walk(const uint8_t *at, const uint8_t *end)
{
    while (at < end) {
        if (end - at < 2)
            return false;
        uint8_t identifier = *at++;
        size_t length = *at++;
        if (length >= 0x80) {
            size_t octets = length & 0x7F;
            if (octets == 0 || octets > 2 || (size_t)(end - at) < octets)
                return false;
            for (length = 0; octets > 0; octets--)
                length = length << 8 | *at++;
        }
        if ((size_t)(end - at) < length)
            return false;
        if ((identifier & 0x20) && !walk(at, at + length))
            return false;
        at += length;
    }
    return true;
}

bool floor_walk(const uint8_t *bytes, size_t length)
{
    return walk(bytes, bytes + length);
}
