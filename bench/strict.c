// The strict walk of the nest: every rule that the specification's section 2 has for its elements, and neither grammar nor rows.
#include "phagundro.h"
#include "subjects.h"

#include <string.h>

enum { CONSTRUCTED = 0x20, SET = 0x31 };

static bool allowed(uint8_t identifier)
{
    // A bit for each identifier of the universal class; 01 to 06, 0A, 0C, 12 to 1C, 1E, 30 and 31 are allowed.
    static const uint64_t universal = 0x000300005FFC147E;
    return identifier < 0x40 ? universal >> identifier & 1 : (identifier & 0x1F) != 0x1F;
}

static bool boolean(const uint8_t *content, size_t length)
{
    return length == 1 && (content[0] == 0x00 || content[0] == 0xFF);
}

// The first nine bits are neither all 0 nor all 1.
static bool integer(const uint8_t *content, size_t length)
{
    if (length < 2)
        return length == 1;
    bool zeros = content[0] == 0x00 && content[1] < 0x80, ones = content[0] == 0xFF && content[1] >= 0x80;
    return !zeros && !ones;
}

// The first octet says how many bits of the last are unused; these are 0.
static bool bit_string(const uint8_t *content, size_t length)
{
    if (length == 0 || content[0] > 7)
        return false;
    if (length == 1)
        return content[0] == 0;
    return (content[length - 1] & ((1 << content[0]) - 1)) == 0;
}

// Each number ends with an octet below 80, and none begins with 80.
static bool object_identifier(const uint8_t *content, size_t length)
{
    if (length == 0 || content[length - 1] >= 0x80)
        return false;
    for (size_t i = 0; i < length; i++)
        if (content[i] == 0x80 && (i == 0 || content[i - 1] < 0x80))
            return false;
    return true;
}

static bool primitive(uint8_t identifier, const uint8_t *content, size_t length)
{
    switch (identifier) {
    case 0x01:
        return boolean(content, length);
    case 0x02: // INTEGER
    case 0x0A: // ENUMERATED
        return integer(content, length);
    case 0x03:
        return bit_string(content, length);
    case 0x05: // NULL
        return length == 0;
    case 0x06:
        return object_identifier(content, length);
    case 0x0C: // UTF8String
        return utf8_by_eights(content, length);
    default:
        return true;
    }
}

static const uint8_t *element(const uint8_t *at, const uint8_t *end, int depth);

// Whether elements stand up to the end.
static bool members(const uint8_t *at, const uint8_t *end, int depth)
{
    while (at < end)
        if ((at = element(at, end, depth)) == NULL)
            return false;
    return true;
}

// Whether a member of a SET, from `now` to `end`, precedes the one that stands directly before it. No element is the beginning of a longer
// one, so they never differ in their lengths alone.
static bool precedes(const uint8_t *before, const uint8_t *now, const uint8_t *end)
{
    size_t length_before = (size_t)(now - before), length = (size_t)(end - now);
    return memcmp(now, before, length < length_before ? length : length_before) < 0;
}

// Whether elements stand up to the end, none of which precedes the one before it.
static bool ascending_members(const uint8_t *at, const uint8_t *end, int depth)
{
    const uint8_t *before = NULL;
    while (at < end) {
        const uint8_t *next = element(at, end, depth);
        if (next == NULL || (before != NULL && precedes(before, at, next)))
            return false;
        before = at;
        at = next;
    }
    return true;
}

static bool content_right(uint8_t identifier, const uint8_t *content, size_t length, int depth)
{
    if (identifier == SET)
        return ascending_members(content, content + length, depth + 1);
    if (identifier & CONSTRUCTED)
        return members(content, content + length, depth + 1);
    return primitive(identifier, content, length);
}

// The end of the element that stands here, or NULL if it breaks a rule.
static const uint8_t *element(const uint8_t *at, const uint8_t *end, int depth)
{
    if (depth > PHAGUNDRO_DEEPEST || end - at < 2)
        return NULL;
    uint8_t identifier = *at++;
    size_t length = *at++;
    if (length >= 0x80) {
        size_t octets = length & 0x7F;
        if (octets == 0 || octets > 2 || (size_t)(end - at) < octets) // no batch has room for a length of three octets
            return NULL;
        if (at[0] < (octets == 1 ? 0x80 : 0x01)) // not the shortest
            return NULL;
        for (length = 0; octets > 0; octets--)
            length = length << 8 | *at++;
    }
    if (!allowed(identifier) || (size_t)(end - at) < length)
        return NULL;
    return content_right(identifier, at, length, depth) ? at + length : NULL;
}

bool strict_walk(const uint8_t *bytes, size_t length)
{
    const uint8_t *end = bytes + length, *next = element(bytes, end, 1);
    return next != NULL && next == end;
}
