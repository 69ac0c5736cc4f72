/* The reading of a batch by document 01, with document 02's A4, A11 and A12: one function for each construct of its grammar, which takes
 * the elements inside from left to right, judges each before the next, and says where it stops. Identifiers are in hex, as the papers
 * write them. */
#include "reference.h"

#include "paper.h"
#include "reference_nest.h"
#include "reference_times.h"

#include <stdlib.h>
#include <string.h>

int reference_fault = 0;

#define NOWHERE SIZE_MAX

/* -- Taking the parts of a container -- */

typedef struct {
    const uint8_t *bytes;
    size_t edition;
    size_t stop;       /* where the walk stopped */
    size_t difference; /* the first form that this edition alone allows, or NOWHERE */
    size_t long_id;    /* the first certReqId that is too long, or NOWHERE */
    size_t count;
    bool silent;       /* rows are not kept: of a planted fault */
    size_t rows[MOST_ROWS][ROW_NUMBERS];
} Walk;

typedef struct {
    size_t container, next, end;
} Parts;

static bool stop(Walk *walk, size_t place)
{
    walk->stop = place;
    return false;
}

static Parts inside(Element container)
{
    return (Parts){container.at, container.inside, container.end};
}

static bool more(const Parts *parts)
{
    return parts->next < parts->end;
}

/* Whether the next element has this identifier. */
static bool ahead(const Walk *walk, const Parts *parts, uint8_t id)
{
    return more(parts) && walk->bytes[parts->next] == id;
}

static Element take(const Walk *walk, Parts *parts)
{
    Element element;
    if (header(walk->bytes, parts->next, parts->end, &element) != ACCEPTED)
        abort(); /* the nest was found sound */
    parts->next = element.end;
    return element;
}

/* The next element fits no part, or a needed part is missing at the end. */
static bool unfit(Walk *walk, const Parts *parts)
{
    return stop(walk, more(parts) ? parts->next : parts->container);
}

static bool need(Walk *walk, Parts *parts, uint8_t id, Element *element)
{
    if (!ahead(walk, parts, id))
        return unfit(walk, parts);
    *element = take(walk, parts);
    return true;
}

static bool need_any(Walk *walk, Parts *parts, Element *element)
{
    if (!more(parts))
        return unfit(walk, parts);
    *element = take(walk, parts);
    return true;
}

static bool done(Walk *walk, const Parts *parts)
{
    return !more(parts) || unfit(walk, parts);
}

static size_t size_of(Element element)
{
    return element.end - element.inside;
}

static const uint8_t *content_of(const Walk *walk, Element element)
{
    return walk->bytes + element.inside;
}

static int64_t moment_of(const Walk *walk, Element time)
{
    return time_moment(time.id, content_of(walk, time), size_of(time));
}

/* A rule on an element's value. */
static bool holds(Walk *walk, Element element, bool (*rule)(const uint8_t *, size_t))
{
    return rule(content_of(walk, element), size_of(element)) || stop(walk, element.at);
}

/* An INTEGER from 0 to `most`, at most 127. */
static bool at_most(Walk *walk, Element element, uint8_t most)
{
    return (size_of(element) == 1 && content_of(walk, element)[0] <= most) || stop(walk, element.at);
}

static size_t row(Walk *walk, size_t kind, Element element, size_t parent)
{
    if (walk->silent)
        return 0;
    size_t *numbers = walk->rows[walk->count];
    numbers[ROW_KIND] = kind;
    numbers[ROW_FIRST] = element.at;
    numbers[ROW_LENGTH] = element.end - element.at;
    numbers[ROW_PARENT] = parent;
    numbers[ROW_CONTENT] = reference_fault == SHORT_HEADERS ? element.at + 2 : element.inside;
    return walk->count++;
}

/* An element is in a form that this edition alone allows. */
static void alone(Walk *walk, Element element)
{
    bool later = walk->difference != NOWHERE && element.at > walk->difference;
    if (!later || reference_fault == LAST_DIFFERENCE)
        walk->difference = element.at;
}

/* -- What other standards define -- */

static bool alg_id(Walk *walk, Element whole)
{
    Parts parts = inside(whole);
    Element part;
    if (!need(walk, &parts, 0x06, &part))
        return false;
    if (more(&parts))
        take(walk, &parts);
    return done(walk, &parts);
}

/* AlgId, 03: an Spki, a PkMac, and how a signature ends. */
static bool alg_and_bits(Walk *walk, Parts *parts, Element *alg, Element *bits)
{
    return need(walk, parts, 0x30, alg) && alg_id(walk, *alg) && need(walk, parts, 0x03, bits) && done(walk, parts);
}

static bool spki(Walk *walk, Element whole)
{
    Parts parts = inside(whole);
    Element alg, bits;
    return alg_and_bits(walk, &parts, &alg, &bits);
}

static bool pk_mac(Walk *walk, Element whole)
{
    Parts parts = inside(whole);
    Element alg, bits;
    return alg_and_bits(walk, &parts, &alg, &bits);
}

/* The names of one level, one or more. */
static bool relative_name(Walk *walk, Element whole)
{
    Parts parts = inside(whole);
    do {
        Element pair, part;
        if (!need(walk, &parts, 0x30, &pair))
            return false;
        Parts two = inside(pair);
        if (!need(walk, &two, 0x06, &part) || !need_any(walk, &two, &part) || !done(walk, &two))
            return false;
    } while (more(&parts));
    return true;
}

static bool name(Walk *walk, Element whole)
{
    Parts parts = inside(whole);
    while (more(&parts)) {
        Element level;
        if (!need(walk, &parts, 0x31, &level) || !relative_name(walk, level))
            return false;
    }
    return true;
}

/* A tag around a Name. */
static bool tagged_name(Walk *walk, Element tag)
{
    Parts parts = inside(tag);
    Element whole;
    return need(walk, &parts, 0x30, &whole) && name(walk, whole) && done(walk, &parts);
}

static bool general_name_ahead(const Walk *walk, const Parts *parts)
{
    static const uint8_t ids[] = {0xA0, 0x81, 0x82, 0xA3, 0xA4, 0xA5, 0x86, 0x87, 0x88};
    return more(parts) && memchr(ids, walk->bytes[parts->next], sizeof ids) != NULL;
}

static bool general_name(Walk *walk, Parts *parts)
{
    if (!general_name_ahead(walk, parts))
        return unfit(walk, parts);
    take(walk, parts);
    return true;
}

static bool extension(Walk *walk, Element whole)
{
    Parts parts = inside(whole);
    Element part;
    if (!need(walk, &parts, 0x06, &part))
        return false;
    if (ahead(walk, &parts, 0x01)) {
        part = take(walk, &parts);
        if (content_of(walk, part)[0] != 0xFF && reference_fault != FALSE_ACCEPTED)
            return stop(walk, part.at);
    }
    return need(walk, &parts, 0x04, &part) && done(walk, &parts);
}

/* -- Times -- */

/* A tag around a Time. */
static bool tagged_time(Walk *walk, Element tag, Element *time)
{
    Parts parts = inside(tag);
    if (!ahead(walk, &parts, 0x17) && !ahead(walk, &parts, 0x18))
        return unfit(walk, &parts);
    *time = take(walk, &parts);
    if (moment_of(walk, *time) == NO_MOMENT)
        return stop(walk, time->at);
    return done(walk, &parts);
}

/* -- The template -- */

/* Whether notAfter is earlier than notBefore. */
static bool backwards(const Walk *walk, Element not_before, Element not_after)
{
    enum { SHORTER = 13 };
    if (reference_fault == TEXTS_COMPARED)
        return memcmp(content_of(walk, not_after), content_of(walk, not_before), SHORTER) < 0;
    int64_t from = moment_of(walk, not_before), to = moment_of(walk, not_after);
    return to < from || (to == from && reference_fault == EQUAL_MOMENTS_REFUSED);
}

static bool validity(Walk *walk, Element whole, size_t self)
{
    Parts parts = inside(whole);
    Element times[2];
    bool there[2] = {false, false};
    if (!ahead(walk, &parts, 0xA0) && !ahead(walk, &parts, 0xA1))
        return unfit(walk, &parts);
    for (uint8_t tag = 0; tag < 2; tag++) {
        if (!ahead(walk, &parts, 0xA0 + tag))
            continue;
        Element limit = take(walk, &parts);
        row(walk, tag == 0 ? KIND_NOT_BEFORE : KIND_NOT_AFTER, limit, self);
        if (!tagged_time(walk, limit, &times[tag]))
            return false;
        there[tag] = true;
    }
    if (!there[0] || !there[1] || !backwards(walk, times[0], times[1]))
        return done(walk, &parts);
    if (reference_fault != BACKWARDS_BEFORE_INSIDE && !done(walk, &parts))
        return false;
    return stop(walk, reference_fault == NOT_AFTER_PLACE ? times[1].at - 2 : whole.at);
}

static bool extensions(Walk *walk, Element whole, size_t self)
{
    Parts parts = inside(whole);
    do {
        Element one;
        if (!need(walk, &parts, 0x30, &one))
            return false;
        row(walk, KIND_EXTENSION, one, self);
        if (!extension(walk, one))
            return false;
    } while (more(&parts));
    return true;
}

static bool template_field(Walk *walk, int tag, Element field, size_t self)
{
    switch (tag) {
    case TAG_VERSION: case TAG_SERIAL_NUMBER: return holds(walk, field, integer_holds);
    case TAG_SIGNING_ALG: return alg_id(walk, field);
    case TAG_ISSUER: return tagged_name(walk, field);
    case TAG_VALIDITY: return validity(walk, field, self);
    case TAG_SUBJECT: return reference_fault == SUBJECT_IS_NAME ? name(walk, field) : tagged_name(walk, field);
    case TAG_PUBLIC_KEY: return spki(walk, field);
    case TAG_ISSUER_UID: case TAG_SUBJECT_UID: return holds(walk, field, bits_hold);
    default: return extensions(walk, field, self);
    }
}

/* Whether edition 1 alone allows a field: document 02's A4. */
static bool of_edition_1(const Walk *walk, int tag, Element field)
{
    switch (tag) {
    case TAG_VERSION:
        return size_of(field) != 1 || content_of(walk, field)[0] != VERSION_2 || reference_fault == VERSION_2_MARKED;
    case TAG_SERIAL_NUMBER: return reference_fault != SERIAL_NUMBER_READABLE;
    case TAG_SIGNING_ALG: case TAG_ISSUER_UID: case TAG_SUBJECT_UID: return true;
    default: return false;
    }
}

/* Whether the edition allows a field of a template; edition 2 doesn't enter one that it refuses. */
static bool allows(Walk *walk, int tag, Element field, Element template, bool carried)
{
    if (!of_edition_1(walk, tag, field) || (carried && reference_fault == CARRIED_FREE_OF_D4))
        return true;
    if (walk->edition == EDITION_1) {
        alone(walk, reference_fault == TEMPLATE_PLACE ? template : field);
        return true;
    }
    bool entered = tag == TAG_SIGNING_ALG && reference_fault == SIGNING_ALG_ENTERED;
    return (!entered || alg_id(walk, field)) && stop(walk, field.at);
}

static bool template(Walk *walk, Element whole, size_t parent, bool carried)
{
    static const uint8_t ids[TEMPLATE_TAGS] = {0x80, 0x81, 0xA2, 0xA3, 0xA4, 0xA5, 0xA6, 0x87, 0x88, 0xA9};
    size_t self = row(walk, KIND_CERT_TEMPLATE, whole, parent);
    Parts parts = inside(whole);
    for (int tag = 0; tag < TEMPLATE_TAGS; tag++) {
        if (!ahead(walk, &parts, ids[tag]))
            continue;
        Element field = take(walk, &parts);
        if (!allows(walk, tag, field, whole, carried))
            return false;
        if (!template_field(walk, tag, field, row(walk, KIND_TEMPLATE_FIELD + (size_t)tag, field, self)))
            return false;
    }
    return done(walk, &parts);
}

/* -- Items: controls and regInfo -- */

/* One way of publishing: its location beside method 0 is of edition 1 alone. */
static bool publication(Walk *walk, Element whole)
{
    Parts parts = inside(whole);
    Element method;
    if (!need(walk, &parts, 0x02, &method) || !at_most(walk, method, 3))
        return false;
    if (general_name_ahead(walk, &parts)) {
        bool dont_care = content_of(walk, method)[0] == 0;
        if (dont_care && walk->edition == EDITION_2)
            return unfit(walk, &parts);
        Element location = take(walk, &parts);
        if (dont_care)
            alone(walk, location);
    }
    return done(walk, &parts);
}

static bool publication_info(Walk *walk, Element whole)
{
    Parts parts = inside(whole);
    Element action;
    if (!need(walk, &parts, 0x02, &action) || !at_most(walk, action, 1))
        return false;
    if (ahead(walk, &parts, 0x30)) {
        Element list = take(walk, &parts);
        Parts ways = inside(list);
        do {
            Element way;
            if (!need(walk, &ways, 0x30, &way) || !publication(walk, way))
                return false;
        } while (more(&ways));
        if (content_of(walk, action)[0] == 0)
            return stop(walk, list.at);
    }
    return done(walk, &parts);
}

/* The value of pkiArchiveOptions, which the caller sees ahead to be A0. */
static bool encrypted_key(Walk *walk, Element whole)
{
    Parts parts = inside(whole);
    if (!ahead(walk, &parts, 0x30) && !ahead(walk, &parts, 0xA0))
        return unfit(walk, &parts);
    take(walk, &parts);
    return done(walk, &parts);
}

static bool old_cert(Walk *walk, Element whole)
{
    Parts parts = inside(whole);
    Element serial;
    return general_name(walk, &parts) && need(walk, &parts, 0x02, &serial) && done(walk, &parts);
}

/* The value of a control by the last octet of its type. */
static bool control_value(Walk *walk, uint8_t n, Parts *item)
{
    Element value;
    switch (n) {
    case REG_TOKEN: case AUTHENTICATOR:
        return need(walk, item, 0x0C, &value);
    case PKI_PUBLICATION_INFO:
        return need(walk, item, 0x30, &value) && publication_info(walk, value);
    case PKI_ARCHIVE_OPTIONS:
        if (ahead(walk, item, 0xA0))
            return encrypted_key(walk, take(walk, item));
        if (ahead(walk, item, 0x82))
            return holds(walk, take(walk, item), boolean_holds);
        return need(walk, item, 0x81, &value);
    case OLD_CERT_ID:
        return need(walk, item, 0x30, &value) && old_cert(walk, value);
    case PROTOCOL_ENCR_KEY:
        return need(walk, item, 0x30, &value) && spki(walk, value);
    default:
        return need_any(walk, item, &value);
    }
}

/* The n of a type 2B 06 01 05 05 07 05 `arc` n, or 0. */
static uint8_t known(const Walk *walk, Element type, uint8_t arc, uint8_t most)
{
    const uint8_t stem[] = {0x2B, 0x06, 0x01, 0x05, 0x05, 0x07, 0x05, arc};
    const uint8_t *content = content_of(walk, type);
    if (size_of(type) != sizeof stem + 1 || memcmp(content, stem, sizeof stem) != 0)
        return 0;
    return content[sizeof stem] <= most ? content[sizeof stem] : 0;
}

static bool controls(Walk *walk, Element whole, size_t parent)
{
    size_t self = row(walk, KIND_CONTROLS, whole, parent);
    Parts parts = inside(whole);
    do {
        Element item, type;
        if (!need(walk, &parts, 0x30, &item))
            return false;
        Parts two = inside(item);
        if (!need(walk, &two, 0x06, &type))
            return false;
        uint8_t n = known(walk, type, 0x01, PROTOCOL_ENCR_KEY);
        row(walk, n ? KIND_CONTROL + (size_t)n : KIND_UNKNOWN_CONTROL, item, self);
        if (!control_value(walk, n, &two) || !done(walk, &two))
            return false;
    } while (more(&parts));
    return true;
}

static bool cert_req(Walk *walk, Element whole, size_t parent, bool carried)
{
    size_t self = row(walk, KIND_CERT_REQ, whole, parent);
    Parts parts = inside(whole);
    Element id, part;
    if (!need(walk, &parts, 0x02, &id))
        return false;
    row(walk, KIND_CERT_REQ_ID, id, self);
    if (size_of(id) > LONGEST_ID && walk->long_id == NOWHERE && !(carried && reference_fault == OWN_IDS))
        walk->long_id = id.at;
    if (!need(walk, &parts, 0x30, &part) || !template(walk, part, self, carried))
        return false;
    if (ahead(walk, &parts, 0x30) && !controls(walk, take(walk, &parts), self))
        return false;
    return done(walk, &parts);
}

/* Pairs are octets in edition 1 and text in edition 2, and each form is its edition's alone. */
static bool pairs(Walk *walk, Parts *item, Element whole, size_t parent)
{
    Element value;
    if (!need(walk, item, walk->edition == EDITION_1 ? 0x04 : 0x0C, &value))
        return false;
    row(walk, walk->edition == EDITION_1 ? KIND_OCTET_PAIRS : KIND_UTF8_PAIRS, whole, parent);
    alone(walk, value);
    return true;
}

static bool reg_info(Walk *walk, Element whole, size_t parent)
{
    size_t self = row(walk, KIND_REG_INFO, whole, parent);
    Parts parts = inside(whole);
    do {
        Element item, type, value;
        if (!need(walk, &parts, 0x30, &item))
            return false;
        Parts two = inside(item);
        if (!need(walk, &two, 0x06, &type))
            return false;
        switch (known(walk, type, 0x02, CARRIED_CERT_REQ)) {
        case PAIRS:
            if (!pairs(walk, &two, item, self))
                return false;
            break;
        case CARRIED_CERT_REQ:
            if (!need(walk, &two, 0x30, &value) || !cert_req(walk, value, row(walk, KIND_REG_INFO_CERT_REQ, item, self), true))
                return false;
            break;
        default:
            row(walk, KIND_UNKNOWN_REG_INFO, item, self);
            if (!need_any(walk, &two, &value))
                return false;
        }
        if (!done(walk, &two))
            return false;
    } while (more(&parts));
    return true;
}

/* -- The proof -- */

static bool poposk_input(Walk *walk, Element whole)
{
    Parts parts = inside(whole);
    Element key;
    if (ahead(walk, &parts, 0xA0)) {
        Parts sender = inside(take(walk, &parts));
        if (!general_name(walk, &sender) || !done(walk, &sender))
            return false;
    } else {
        Element mac;
        if (!need(walk, &parts, 0x30, &mac) || !pk_mac(walk, mac))
            return false;
    }
    return need(walk, &parts, 0x30, &key) && spki(walk, key) && done(walk, &parts);
}

static bool signature(Walk *walk, Element whole, size_t parent)
{
    size_t self = row(walk, KIND_SIGNATURE, whole, parent);
    Parts parts = inside(whole);
    if (ahead(walk, &parts, 0xA0)) {
        Element input = take(walk, &parts);
        row(walk, KIND_POPOSK_INPUT, input, self);
        if (!poposk_input(walk, input))
            return false;
    }
    Element alg, bits;
    if (!alg_and_bits(walk, &parts, &alg, &bits))
        return false;
    row(walk, KIND_SIGNATURE_ALGORITHM, alg, self);
    row(walk, KIND_SIGNATURE_BITS, bits, self);
    return true;
}

/* keyEncipherment or keyAgreement: a tag around one choice, two of which are of edition 2 alone. */
static bool key_proof(Walk *walk, size_t kind, Element whole, size_t parent)
{
    size_t self = row(walk, kind, whole, parent);
    Parts parts = inside(whole);
    bool old = ahead(walk, &parts, 0x80) || ahead(walk, &parts, 0x81) || ahead(walk, &parts, 0x82);
    bool new = ahead(walk, &parts, 0xA3) || ahead(walk, &parts, 0xA4);
    if (!old && !(new && walk->edition == EDITION_2))
        return unfit(walk, &parts);
    Element choice = take(walk, &parts);
    row(walk, KIND_CHOICE + (choice.id & 0x1Fu), choice, self);
    if (new)
        alone(walk, choice);
    bool judged = true;
    if (choice.id == 0x80 || choice.id == 0x82)
        judged = holds(walk, choice, bits_hold);
    else if (choice.id == 0x81)
        judged = at_most(walk, choice, 1);
    else if (choice.id == 0xA3)
        judged = pk_mac(walk, choice);
    return judged && done(walk, &parts);
}

static bool proof(Walk *walk, Element whole, size_t parent)
{
    switch (whole.id) {
    case 0x80:
        row(walk, KIND_RA_VERIFIED, whole, parent);
        return size_of(whole) == 0 || stop(walk, whole.at);
    case 0xA1:
        return signature(walk, whole, parent);
    default:
        return key_proof(walk, whole.id == 0xA2 ? KIND_KEY_ENCIPHERMENT : KIND_KEY_AGREEMENT, whole, parent);
    }
}

/* -- The batch -- */

static bool message(Walk *walk, Element whole, size_t parent)
{
    size_t self = row(walk, KIND_MESSAGE, whole, parent);
    Parts parts = inside(whole);
    Element request;
    if (!need(walk, &parts, 0x30, &request) || !cert_req(walk, request, self, false))
        return false;
    if (ahead(walk, &parts, 0x80) || ahead(walk, &parts, 0xA1) || ahead(walk, &parts, 0xA2) || ahead(walk, &parts, 0xA3))
        if (!proof(walk, take(walk, &parts), self))
            return false;
    if (ahead(walk, &parts, 0x30) && !reg_info(walk, take(walk, &parts), self))
        return false;
    return done(walk, &parts);
}

/* Whether a nest that is sound is a batch in the edition; the walk has what was met, or where it stopped. */
static bool batch(Walk *walk, const uint8_t *bytes, Element whole, size_t edition)
{
    walk->bytes = bytes;
    walk->edition = edition;
    walk->stop = walk->difference = walk->long_id = NOWHERE;
    walk->count = 0;
    walk->silent = false;
    if (whole.id != 0x30)
        return stop(walk, whole.at);
    size_t self = row(walk, KIND_BATCH, whole, 0);
    Parts parts = inside(whole);
    size_t messages = 0;
    do {
        Element one;
        if (!need(walk, &parts, 0x30, &one))
            return false;
        messages++;
        walk->silent = reference_fault == BYTE_OF_MESSAGES && messages > 255;
        if (!message(walk, one, self))
            return false;
    } while (more(&parts));
    return true;
}

static reference_answer refused(int number, size_t place)
{
    return (reference_answer){(size_t)number, place, 0};
}

reference_answer reference_read(size_t edition, const uint8_t *bytes, size_t length, size_t *table, size_t room)
{
    static Walk own, opposite;
    Element whole;
    size_t place;
    if (edition != EDITION_1 && edition != EDITION_2)
        return refused(UNKNOWN_EDITION, 0);
    if (length > LONGEST)
        return refused(TOO_LONG, 0);
    int fault = nest(bytes, 0, length, 1, &whole, &place);
    if (fault != ACCEPTED)
        return refused(fault, place);
    if (whole.end < length)
        return refused(TRAILING_BYTES, whole.end);
    if (!batch(&own, bytes, whole, edition)) {
        size_t other = edition == EDITION_1 ? EDITION_2 : EDITION_1;
        bool elsewhere = batch(&opposite, bytes, whole, other);
        return elsewhere ? refused(OTHER_EDITION, opposite.difference) : refused(NOT_IN_GRAMMAR, own.stop);
    }
    if (own.long_id != NOWHERE)
        return refused(LONG_CERT_REQ_ID, own.long_id);
    if (room / ROW_NUMBERS < own.count)
        return refused(NO_ROOM, 0);
    memcpy(table, own.rows, own.count * sizeof own.rows[0]);
    return (reference_answer){ACCEPTED, 0, own.count};
}
