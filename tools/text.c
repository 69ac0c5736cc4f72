/* Numbers, types and characters as text. */
#include "text.h"

#include "identifiers.h"

#include <inttypes.h>
#include <stdio.h>
#include <string.h>

/* Characters that steer a terminal, turn the direction of writing or can't be seen, from the first to the last of each range. */
static const uint32_t hidden[][2] = {
    {0x0000, 0x001F}, {0x007F, 0x009F}, {0x00AD, 0x00AD}, {0x061C, 0x061C}, {0x200B, 0x200F}, {0x2028, 0x202E}, {0x2060, 0x206F},
    {0xFEFF, 0xFEFF},
};

enum { RANGES = sizeof hidden / sizeof *hidden };

static void put(text *out, const void *chars, size_t length)
{
    out->cut |= out->length + length > LONGEST_TEXT;
    if (out->cut)
        return;
    memcpy(out->chars + out->length, chars, length);
    out->length += length;
}

void put_words(text *out, const char *words)
{
    put(out, words, strlen(words));
}

void end_text(text *out)
{
    if (!out->cut)
        return;
    memcpy(out->chars + out->length, "..", sizeof "..");
    out->length += strlen("..");
}

void put_hex(text *out, span whole)
{
    char digits[sizeof "00"];
    put_words(out, "#");
    for (size_t at = 0; at < whole.length && !out->cut; at++) {
        snprintf(digits, sizeof digits, "%02X", whole.bytes[at]);
        put_words(out, digits);
    }
}

void put_number(text *out, element of)
{
    char digits[sizeof "-9223372036854775808"];
    if (of.content.length == 0 || of.content.length > sizeof(int64_t)) {
        put_hex(out, of.whole);
        return;
    }
    snprintf(digits, sizeof digits, "%" PRId64, signed_number(of.content));
    put_words(out, digits);
}

/* The number at a place of a type's content, which moves past it. False if it isn't one of at most 63 bits. */
static bool next_arc(span content, size_t *at, uint64_t *arc)
{
    enum { MOST_OCTETS = 63 / 7 };
    *arc = 0;
    for (size_t octets = 0; octets < MOST_OCTETS && *at < content.length; octets++) {
        uint8_t octet = content.bytes[(*at)++];
        *arc = *arc << 7 | (octet & 0x7F);
        if (octet < 0x80)
            return true;
    }
    return false;
}

/* The first two arcs are in one number (X.690 8.19.4). */
text type_text(element of)
{
    char digits[sizeof "2.9223372036854775807"];
    text out = {0}, in_hex = {0};
    uint64_t arc;
    for (size_t at = 0; at < of.content.length; put_words(&out, digits)) {
        if (!next_arc(of.content, &at, &arc)) {
            put_hex(&in_hex, of.whole);
            end_text(&in_hex);
            return in_hex;
        }
        uint64_t top = arc < 80 ? arc / 40 : 2;
        if (out.length == 0)
            snprintf(digits, sizeof digits, "%" PRIu64 ".%" PRIu64, top, arc - 40 * top);
        else
            snprintf(digits, sizeof digits, ".%" PRIu64, arc);
    }
    end_text(&out);
    return out;
}

/* The length of the UTF-8 character at a place, whose code point is found too; 0 if there is none (RFC 3629 3). */
static size_t character_at(span of, size_t at, uint32_t *point)
{
    static const uint32_t least[] = {0, 0, 0x80, 0x800, 0x10000}; /* code points, by the length */
    uint8_t lead = of.bytes[at];
    size_t length = lead < 0x80 ? 1 : lead < 0xC0 ? 0 : lead < 0xE0 ? 2 : lead < 0xF0 ? 3 : lead < 0xF8 ? 4 : 0;
    if (length > of.length - at)
        return 0;
    *point = length == 1 ? lead : lead & (0x7F >> length);
    for (size_t next = at + 1; next < at + length; next++) {
        if ((of.bytes[next] & 0xC0) != 0x80)
            return 0;
        *point = *point << 6 | (of.bytes[next] & 0x3F);
    }
    bool surrogate = *point >= 0xD800 && *point <= 0xDFFF;
    return *point < least[length] || *point > 0x10FFFF || surrogate ? 0 : length;
}

static bool is_hidden(uint32_t point)
{
    size_t range = 0;
    while (range < RANGES && (point < hidden[range][0] || point > hidden[range][1]))
        range++;
    return range < RANGES;
}

static bool is_marked(uint32_t point, bool at_an_end, const char *marks)
{
    return point < 0x80 && strchr(marks, (int)point) != NULL && (point != ' ' || at_an_end);
}

void put_characters(text *out, element of, const char *marks)
{
    char escaped[sizeof "\\u10FFFF"];
    uint32_t point;
    for (size_t at = 0, length; at < of.content.length && !out->cut; at += length) {
        length = character_at(of.content, at, &point);
        if (length == 0 || (length > 1 && of.identifier != UTF8_STRING)) {
            length = 1;
            snprintf(escaped, sizeof escaped, "\\x%02X", of.content.bytes[at]);
            put_words(out, escaped);
        } else if (is_hidden(point)) {
            snprintf(escaped, sizeof escaped, "\\u%04X", (unsigned)point);
            put_words(out, escaped);
        } else {
            if (is_marked(point, at == 0 || at + length == of.content.length, marks))
                put_words(out, "\\");
            put(out, of.content.bytes + at, length);
        }
    }
}
