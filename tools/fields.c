/* Fields as text: each element that can be shown, from left to right. */
#include "fields.h"

#include "../include/phagundro.h"
#include "dates.h"
#include "identifiers.h"

#include <string.h>

/* Attributes with a short name: those of RFC 4514, and two that devices have. */
static const struct {
    const char *type, *name;
} attributes[] = {
    {"2.5.4.3", "CN"}, {"2.5.4.5", "serialNumber"}, {"2.5.4.6", "C"}, {"2.5.4.7", "L"}, {"2.5.4.8", "ST"}, {"2.5.4.9", "STREET"},
    {"2.5.4.10", "O"}, {"2.5.4.11", "OU"}, {"0.9.2342.19200300.100.1.1", "UID"}, {"0.9.2342.19200300.100.1.25", "DC"},
    {"1.2.840.113549.1.9.1", "emailAddress"},
};

enum { ATTRIBUTES = sizeof attributes / sizeof *attributes };

/* Characters that get a backslash before them: in a name, and in a text. */
static const char name_marks[] = " ,+\\", text_marks[] = "\"\\";

static void put_truth(text *out, element of)
{
    put_words(out, of.content.length == 1 && of.content.bytes[0] == 0 ? "FALSE" : "TRUE");
}

static void put_type(text *out, element of)
{
    put_words(out, type_text(of).chars);
}

static void put_time(text *out, element of)
{
    put_characters(out, of, text_marks);
}

static void put_quoted(text *out, element of)
{
    put_words(out, "\"");
    put_characters(out, of, text_marks);
    put_words(out, "\"");
}

/* How an element is shown, by its identifier. */
static void (*const shown[])(text *out, element of) = {
    [BOOLEAN] = put_truth,
    [INTEGER] = put_number,
    [OBJECT_IDENTIFIER] = put_type,
    [ENUMERATED] = put_number,
    [UTF8_STRING] = put_quoted,
    [NUMERIC_STRING] = put_quoted,
    [PRINTABLE_STRING] = put_quoted,
    [IA5_STRING] = put_quoted,
    [UTC_TIME] = put_time,
    [GENERALIZED_TIME] = put_time,
    [VISIBLE_STRING] = put_quoted,
};

static bool is_shown(uint8_t identifier)
{
    return identifier < sizeof shown / sizeof *shown && shown[identifier] != NULL;
}

/* Whether an element is a type and a value, as the attributes of a name and the items of controls and regInfo are. */
static bool is_attribute(element of, element *type, element *value)
{
    span rest = of.content;
    return of.identifier == SEQUENCE && next_element(&rest, type) && type->identifier == OBJECT_IDENTIFIER && next_element(&rest, value)
        && rest.length == 0;
}

static void put_attribute(text *out, element type, element value)
{
    text number = type_text(type);
    size_t known = 0;
    while (known < ATTRIBUTES && strcmp(attributes[known].type, number.chars) != 0)
        known++;
    put_words(out, known < ATTRIBUTES ? attributes[known].name : number.chars);
    put_words(out, "=");
    if (is_shown(value.identifier) && shown[value.identifier] == put_quoted)
        put_characters(out, value, name_marks);
    else
        put_hex(out, value.whole);
}

/* Whether an element is an RDN: a SET of attributes. */
static bool is_rdn(element of)
{
    element member, type, value;
    span rest = of.content;
    if (of.identifier != SET || rest.length == 0)
        return false;
    while (next_element(&rest, &member))
        if (!is_attribute(member, &type, &value))
            return false;
    return true;
}

static void put_rdn(text *out, element of)
{
    element member, type, value;
    const char *before = "";
    for (span rest = of.content; next_element(&rest, &member) && is_attribute(member, &type, &value); before = " + ") {
        put_words(out, before);
        put_attribute(out, type, value);
    }
}

/* A text that is being made, and whether it ends with an RDN, so that another one is of the same name. */
typedef struct {
    text *out;
    bool after_rdn;
} making;

static void put_element(making *to, element of)
{
    bool rdn = is_rdn(of);
    element inside;
    if (!rdn && is_constructed(of.identifier)) {
        for (span rest = of.content; next_element(&rest, &inside);)
            put_element(to, inside);
        return;
    }
    if (!rdn && !is_shown(of.identifier))
        return;
    if (to->out->length > 0)
        put_words(to->out, rdn && to->after_rdn ? ", " : "; ");
    if (rdn)
        put_rdn(to->out, of);
    else
        shown[of.identifier](to->out, of);
    to->after_rdn = rdn;
}

static bool tells_type(size_t kind)
{
    return (kind >= PHAGUNDRO_KIND_REG_TOKEN && kind <= PHAGUNDRO_KIND_PROTOCOL_ENCR_KEY) || kind == PHAGUNDRO_KIND_OCTET_PAIRS
        || kind == PHAGUNDRO_KIND_UTF8_PAIRS;
}

/* As what a field is shown whose identifier doesn't tell: under an implicit tag, or UTF-8 in an OCTET STRING (RFC 2511, appendix B). */
static uint8_t shown_as(size_t kind, uint8_t identifier)
{
    switch (kind) {
    case PHAGUNDRO_KIND_VERSION:
    case PHAGUNDRO_KIND_SERIAL_NUMBER:
    case PHAGUNDRO_KIND_SUBSEQUENT_MESSAGE: return INTEGER;
    case PHAGUNDRO_KIND_OCTET_PAIRS: return UTF8_STRING;
    default: return identifier;
    }
}

int64_t field_moment(size_t kind, span whole)
{
    bool shows = kind == PHAGUNDRO_KIND_NOT_BEFORE || kind == PHAGUNDRO_KIND_NOT_AFTER;
    return shows ? phagundro_moment(whole.bytes, whole.length) : PHAGUNDRO_NO_MOMENT;
}

text field_text(size_t kind, span whole)
{
    text out = {0};
    element field, type, value;
    int64_t moment = field_moment(kind, whole);
    if (moment != PHAGUNDRO_NO_MOMENT) {
        put_date(&out, moment);
        return out;
    }
    if (!next_element(&whole, &field))
        return out;
    if (tells_type(kind) && is_attribute(field, &type, &value))
        field = value;
    field.identifier = shown_as(kind, field.identifier);
    put_element(&(making){&out, false}, field);
    end_text(&out);
    return out;
}
