/* The nest of elements by document 01 and by document 02's A3. Identifiers are in hex, as the papers write them. */
#include "reference_nest.h"

#include "paper.h"
#include "reference.h"

static bool identifier_allowed(uint8_t id)
{
    unsigned tag = id & 0x1F;
    bool constructed = id & 0x20;
    if (tag == 31)
        return false;
    if (id >> 6 != 0)
        return true;
    if (constructed)
        return tag == 16 || tag == 17;
    return (tag >= 1 && tag <= 6) || tag == 10 || tag == 12 || (tag >= 18 && tag <= 28) || tag == 30;
}

int header(const uint8_t *bytes, size_t at, size_t end, Element *element)
{
    size_t next = at, length = 0;
    element->at = at;
    if (next == end)
        return TRUNCATED;
    element->id = bytes[next++];
    if (!identifier_allowed(element->id))
        return BAD_IDENTIFIER;
    if (next == end)
        return TRUNCATED;
    uint8_t first = bytes[next++];
    if (first == 0x80 || first == 0xFF)
        return BAD_LENGTH;
    if (first < 0x80) {
        length = first;
    } else {
        size_t octets = first & 0x7F;
        if (end - next < octets)
            return TRUNCATED;
        if (bytes[next] == 0 || (octets == 1 && bytes[next] < 0x80))
            return BAD_LENGTH;
        for (size_t i = 0; i < octets; i++)
            length = length > LONGEST ? length : length << 8 | bytes[next + i];
        next += octets;
    }
    if (end - next < length)
        return TRUNCATED;
    element->inside = next;
    element->end = next + length;
    return ACCEPTED;
}

bool integer_holds(const uint8_t *content, size_t size)
{
    if (size == 0)
        return false;
    if (size == 1)
        return true;
    return !(content[0] == 0x00 && content[1] < 0x80) && !(content[0] == 0xFF && content[1] >= 0x80);
}

bool boolean_holds(const uint8_t *content, size_t size)
{
    return size == 1 && (content[0] == 0x00 || content[0] == 0xFF);
}

bool bits_hold(const uint8_t *content, size_t size)
{
    if (size == 0 || content[0] > 7)
        return false;
    if (size == 1)
        return content[0] == 0;
    return content[size - 1] % (1u << content[0]) == 0;
}

static bool object_identifier_holds(const uint8_t *content, size_t size)
{
    bool starts = true; /* whether the next octet is the first of a part */
    for (size_t i = 0; i < size; i++) {
        if (starts && content[i] == 0x80)
            return false;
        starts = content[i] < 0x80;
    }
    return size > 0 && starts;
}

/* RFC 3629 by what it is for: each sequence gives a character's number, in the fewest octets, that is no surrogate and at most 10FFFF. */
static bool utf8_holds(const uint8_t *content, size_t size)
{
    for (size_t i = 0; i < size;) {
        uint8_t lead = content[i++];
        int more = lead < 0x80 ? 0 : lead >> 5 == 6 ? 1 : lead >> 4 == 14 ? 2 : lead >> 3 == 30 ? 3 : -1;
        static const uint32_t least[] = {0, 0x80, 0x800, 0x10000};
        if (more < 0)
            return false;
        uint32_t number = more == 0 ? lead : lead & (0x3Fu >> more);
        for (int k = 0; k < more; k++, i++) {
            if (i == size || content[i] >> 6 != 2)
                return false;
            number = number << 6 | (content[i] & 0x3F);
        }
        if (number < least[more] || number > 0x10FFFF || (number >= 0xD800 && number <= 0xDFFF))
            return false;
    }
    return true;
}

static bool content_holds(uint8_t id, const uint8_t *content, size_t size)
{
    switch (id) {
    case 0x01: return boolean_holds(content, size);
    case 0x02: return integer_holds(content, size);
    case 0x03: return bits_hold(content, size);
    case 0x05: return size == 0;
    case 0x06: return object_identifier_holds(content, size);
    case 0x0A: return integer_holds(content, size);
    case 0x0C: return utf8_holds(content, size);
    default: return true;
    }
}

/* Whether the octets of one element come after those of the next; past its end each has zero octets (X.690 11.6). */
static bool comes_after(const uint8_t *bytes, Element one, Element next)
{
    bool whole = reference_fault != CONTENTS_ORDERED;
    size_t i = whole ? one.at : one.inside, k = whole ? next.at : next.inside;
    for (; i < one.end || k < next.end; i++, k++) {
        int octet = i < one.end ? bytes[i] : 0, other = k < next.end ? bytes[k] : 0;
        if (octet != other)
            return octet > other;
    }
    return reference_fault == EQUALS_REFUSED;
}

/* Whether the members are in order of an element that has to have them so: a SET, and no other that is tagged as one. */
static bool order_holds(const uint8_t *bytes, Element set)
{
    Element member, next;
    if (reference_fault == TAGGED_ORDERED ? (set.id & 0x3F) != 0x31 : set.id != 0x31)
        return true;
    if (set.inside == set.end || header(bytes, set.inside, set.end, &member) != ACCEPTED)
        return true;
    for (; member.end < set.end && header(bytes, member.end, set.end, &next) == ACCEPTED; member = next) {
        if (comes_after(bytes, member, next))
            return false;
        if (reference_fault == FIRST_PAIR_ORDERED)
            break;
    }
    return true;
}

int nest(const uint8_t *bytes, size_t at, size_t end, int depth, Element *element, size_t *place)
{
    *place = at;
    if (depth > DEEPEST)
        return TOO_DEEP;
    int fault = header(bytes, at, end, element);
    if (fault != ACCEPTED)
        return fault;
    if (!(element->id & 0x20))
        return content_holds(element->id, bytes + element->inside, element->end - element->inside) ? ACCEPTED : BAD_CONTENT;
    if (reference_fault == ORDER_BEFORE_INSIDE && !order_holds(bytes, *element))
        return BAD_CONTENT;
    Element inner;
    for (size_t next = element->inside; next < element->end; next = inner.end) {
        fault = nest(bytes, next, element->end, depth + 1, &inner, place);
        if (fault != ACCEPTED)
            return fault;
    }
    *place = at;
    return order_holds(bytes, *element) ? ACCEPTED : BAD_CONTENT;
}
