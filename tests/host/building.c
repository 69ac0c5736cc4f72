/* Elements of a batch, built at random. Identifiers are in hex, as document 01 writes them. */
#include "building.h"

#include "paper.h"
#include "random.h"

#include <stdio.h>
#include <string.h>

static unsigned forms;
static size_t slips;
static bool long_ids;

void building_start(unsigned allowed, size_t wrong, bool with_long_ids)
{
    forms = allowed;
    slips = wrong;
    long_ids = with_long_ids;
}

static bool slip(void)
{
    return slips && chance(slips);
}

static Node *random_octets(uint8_t id, size_t most)
{
    size_t size = below(most + 1);
    uint8_t *content = keep(NULL, size);
    for (size_t i = 0; i < size; i++)
        content[i] = chance(4) ? (uint8_t[]){0x00, 0xFF, 0x80, 0x7F}[below(4)] : (uint8_t)below(256);
    return leaf(id, content, size);
}

Node *integer_of(uint8_t id, size_t size)
{
    uint8_t *content = keep(NULL, size);
    for (size_t i = 0; i < size; i++)
        content[i] = chance(4) ? (uint8_t[]){0x00, 0xFF, 0x80, 0x7F}[below(4)] : (uint8_t)below(256);
    if (size > 1 && !slip()) {
        if (content[0] == 0x00 && content[1] < 0x80)
            content[0] = 0x01;
        if (content[0] == 0xFF && content[1] >= 0x80)
            content[0] = 0x80;
    }
    return leaf(id, content, size);
}

static Node *integer(uint8_t id)
{
    return integer_of(id, slip() ? 0 : chance(2) ? 1 : 1 + below(20));
}

/* A number of one octet that should be at most `most`. */
static Node *small(uint8_t id, size_t value, size_t most)
{
    if (slip())
        value = chance(2) ? most + 1 : below(256);
    uint8_t content[] = {(uint8_t)value, 0};
    return leaf(id, content, slip() ? 2 * below(2) : 1);
}

static Node *request_id(void)
{
    static const uint8_t sizes[] = {1, 1, 1, 1, 1, 2, 3, 4, 7, 8};
    return integer_of(0x02, long_ids && chance(3) ? 9 + below(3) : sizes[below(sizeof sizes)]);
}

static Node *object_identifier(void)
{
    size_t size = 1 + below(8);
    uint8_t *content = keep(NULL, size);
    for (size_t i = 0; i < size; i++) {
        content[i] = (uint8_t)below(256);
        if (content[i] == 0x80 && (i == 0 || content[i - 1] < 0x80) && !slip())
            content[i] = 0x81;
    }
    if (!slip())
        content[size - 1] &= 0x7F;
    return leaf(0x06, content, slip() ? 0 : size);
}

static Node *bits(uint8_t id)
{
    size_t size = chance(8) ? 1 : 2 + below(12);
    uint8_t *content = keep(NULL, size), unused = (uint8_t)(chance(2) ? 0 : below(8));
    for (size_t i = 1; i < size; i++)
        content[i] = (uint8_t)below(256);
    content[0] = size == 1 && !slip() ? 0 : slip() ? (uint8_t)(8 + below(248)) : unused;
    if (!slip())
        content[size - 1] &= (uint8_t)(0xFF << (size == 1 ? 0 : unused));
    return leaf(id, content, slip() ? 0 : size);
}

static Node *text(uint8_t id)
{
    static const uint32_t edges[] = {0x00, 0x7F, 0x80, 0x7FF, 0x800, 0xFFF, 0x1000, 0xCFFF, 0xD000, 0xD7FF, 0xE000, 0xFFFD, 0xFFFF,
        0x10000, 0x3FFFF, 0x40000, 0xFFFFF, 0x100000, 0x10FFFF};
    static const uint32_t wrong[] = {0xD800, 0xDBFF, 0xDFFF, 0x110000, 0x13FFFF, 0x1FFFFF};
    uint8_t content[64];
    size_t size = 0;
    for (size_t left = below(8); left > 0; left--) {
        uint32_t number = chance(3) ? edges[below(sizeof edges / sizeof *edges)] : (uint32_t)(0x20 + below(0x60));
        if (slip())
            number = wrong[below(sizeof wrong / sizeof *wrong)];
        size_t more = number < 0x80 ? 0 : number < 0x800 ? 1 : number < 0x10000 ? 2 : 3;
        if (slip() && more < 3)
            more++; /* one octet more than needed */
        if (more == 0)
            content[size++] = (uint8_t)number;
        else
            content[size++] = (uint8_t)((0xF0 << (3 - more) & 0xFF) | number >> 6 * more);
        for (size_t k = more; k-- > 0;)
            content[size++] = (uint8_t)(0x80 | (number >> 6 * k & 0x3F));
        if (slip())
            content[size - 1] ^= (uint8_t)(1 << below(8));
    }
    return leaf(id, content, size - (size > 0 && slip()));
}

/* A SET with its members in order, or a list that is tagged like one, whose order is free. */
static Node *ordered(Node *set)
{
    return set->id != 0x31 || slip() ? set : in_order(set);
}

/* A SET, or a list that is tagged like one: members that differ early or late, equal ones, and SETs again. */
static Node *set(int levels)
{
    static const uint8_t ids[] = {0x31, 0x31, 0x31, 0x31, 0xB1, 0xA0, 0x71};
    Node *node = box(ids[below(sizeof ids)]);
    for (size_t left = below(5); left > 0; left--)
        if (node->last && chance(6))
            add(node, copy(node->last));
        else if (levels > 0 && chance(3))
            add(node, set(levels - 1));
        else if (chance(12))
            add(node, random_octets(0x04, 300));
        else
            add(node, leaf((uint8_t[]){0x04, 0x04, 0x13, 0x80}[below(4)], "aaaaaaaaaaab\0\0" + below(12), below(4)));
    return ordered(node);
}

static Node *key_proof(uint8_t id);

Node *any(int levels)
{
    static const uint8_t plain[] = {0x04, 0x12, 0x13, 0x14, 0x15, 0x16, 0x17, 0x18, 0x19, 0x1A, 0x1B, 0x1C, 0x1E, 0x80, 0x81, 0x82, 0x83,
        0x86, 0x9E, 0x41, 0x5E, 0xC0, 0xDE};
    static const uint8_t boxes[] = {0x30, 0x30, 0x31, 0xA0, 0xA1, 0xA2, 0xA3, 0xA4, 0xBE, 0x60, 0x7E, 0xE0, 0xFE};
    if (levels > 0 && chance(16))
        return set((int)below(4));
    if (levels > 0 && chance(3)) {
        Node *node = box(boxes[below(sizeof boxes)]);
        for (size_t left = below(4); left > 0; left--)
            add(node, any(levels - 1));
        return ordered(node);
    }
    switch (below(levels > 0 && !chance(3) ? 8 : 12)) {
    case 0: return leaf(0x05, "\0", slip());
    case 1: return integer(chance(4) ? 0x0A : 0x02);
    case 2: return object_identifier();
    case 3: return text(0x0C);
    case 4: return bits(0x03);
    case 5: return leaf(0x01, (uint8_t[]){slip() ? 1 : chance(2) ? 0x00 : 0xFF}, 1);
    case 8: return levels > 1 && chance(8) ? message() : random_octets(0x04, 6);
    case 9: return levels > 1 && chance(4) ? reg_info() : random_octets(0x13, 6);
    case 10: return levels > 1 && chance(4) ? controls() : random_octets(0x80, 6);
    case 11: return levels > 1 && chance(4) ? key_proof(0xA2) : random_octets(0x1E, 6);
    default: return random_octets(plain[below(sizeof plain)], 12);
    }
}

Node *chain(size_t depth)
{
    Node *node = chance(2) ? box(0x30) : leaf(0x05, NULL, 0);
    for (; depth > 1; depth--)
        node = around(chance(2) ? 0x30 : 0xA0, node);
    return node;
}

static Node *general_name(void)
{
    static const uint8_t ids[] = {0xA0, 0x81, 0x82, 0xA3, 0xA4, 0xA5, 0x86, 0x87, 0x88};
    uint8_t id = slip() ? (uint8_t[]){0xA1, 0x80, 0xA6, 0xA8, 0x89, 0x05, 0x30}[below(7)] : ids[below(sizeof ids)];
    if (!(id & 0x20))
        return random_octets(id, 10);
    Node *node = box(id);
    for (size_t left = below(3); left > 0; left--)
        add(node, any(2));
    return node;
}

/* Puts what an AlgorithmIdentifier has into an element. */
static Node *alg_in(Node *node)
{
    if (!slip())
        add(node, object_identifier());
    if (chance(2))
        add(node, any(2));
    if (slip())
        add(node, any(1));
    return node;
}

static Node *key_in(Node *node)
{
    if (!slip())
        add(node, alg_in(box(0x30)));
    if (!slip())
        add(node, bits(0x03));
    if (slip())
        add(node, any(1));
    return node;
}

static Node *attribute(void)
{
    Node *node = box(0x30);
    bool usual = chance(2); /* a type that others have too, and a value like theirs but for its length or a letter */
    if (!slip())
        add(node, usual ? leaf(0x06, (uint8_t[]){0x55, 0x04, (uint8_t[]){0x03, 0x05, 0x0A}[below(3)]}, 3) : object_identifier());
    if (!slip())
        add(node, usual ? leaf(0x13, "Meier & SonsMeier & Sans" + 12 * below(2), below(13)) : any(1));
    if (slip())
        add(node, any(1));
    return node;
}

static Node *name(void)
{
    Node *node = box(0x30);
    for (size_t left = below(4); left > 0; left--) {
        Node *level = box(slip() ? 0x30 : 0x31);
        for (size_t attributes = slip() ? 0 : chance(2) ? 1 : 1 + below(4); attributes > 0; attributes--)
            add(level, level->last && chance(6) ? copy(level->last) : attribute());
        add(node, ordered(level));
    }
    return node;
}

/* A tag around one element, or wrongly around none or two. */
static Node *tagged(uint8_t id, Node *inner)
{
    Node *node = box(id);
    if (!slip())
        add(node, inner);
    if (slip())
        add(node, chance(2) ? copy(inner) : any(1));
    return node;
}

typedef struct {
    int year, month, day, hour, minute, second;
} Time;

/* A real day and hour from 1950 to 9999, often at an end of a month or of a year. */
static Time some_time(void)
{
    static const int years[] = {1950, 1951, 1996, 1999, 2000, 2004, 2023, 2024, 2048, 2049, 2050, 2051, 2052, 2099, 2100, 2400, 9996, 9999};
    static const int days[] = {31, 28, 31, 30, 31, 30, 31, 31, 30, 31, 30, 31};
    Time time = {1950 + (int)below(chance(2) ? 200 : 8050), 1 + (int)below(12), 1 + (int)below(28), (int)below(24), (int)below(60),
        (int)below(60)};
    if (chance(2))
        time.year = years[below(sizeof years / sizeof *years)];
    if (chance(3)) {
        bool leap = (time.year % 4 == 0 && time.year % 100 != 0) || time.year % 400 == 0;
        if (chance(2))
            time.month = 2;
        time.day = days[time.month - 1] + (time.month == 2 && leap);
    }
    if (chance(6))
        return (Time){time.year, 1, 1, 0, 0, 0};
    return chance(6) ? (Time){time.year, 12, 31, 23, 59, 59} : time;
}

/* The same, or with one part of it another. */
static Time near_time(Time time)
{
    switch (below(6)) {
    case 0: time.day = 1 + (int)below(28); break;
    case 1: time.hour = (int)below(24); break;
    case 2: time.minute = (int)below(60); break;
    case 3: time.second = (int)below(60); break;
    default: break;
    }
    return time;
}

static Time spoiled_time(Time time)
{
    switch (below(8)) {
    case 0: time.month = 13 * (int)below(2); break;
    case 1: time.day = chance(2) ? 0 : 29 + (int)below(4); break;
    case 2: time.hour = 24; break;
    case 3: time.minute = 60; break;
    case 4: time.second = 60; break;
    case 5: time = (Time){chance(2) ? 2100 : 2050 + (int)below(50), 2, 29, 23, 59, 59}; break;
    case 6: time.year = (int[]){0, 1, 400, 1600, 1900, 1949}[below(6)]; break;
    default: time.year = (int)below(1950);
    }
    return time;
}

static Node *time_node(Time time)
{
    char written[80];
    if (slip())
        time = spoiled_time(time);
    bool utc = (time.year >= 1950 && time.year <= 2049) != slip();
    int size = utc ? snprintf(written, sizeof written, "%02d", time.year % 100) : snprintf(written, sizeof written, "%04d", time.year);
    size += snprintf(written + size, sizeof written - (size_t)size, "%02d%02d%02d%02d%02dZ", time.month, time.day, time.hour, time.minute,
        time.second);
    if (slip())
        written[below((size_t)size)] = "/:zZ+-. 0"[below(9)];
    if (slip())
        size--;
    if (slip())
        written[size++] = '0';
    return leaf((utc != slip()) ? 0x17 : 0x18, written, (size_t)size);
}

/* The larger, the later it is. */
static int64_t rank(Time time)
{
    return ((((time.year * 100LL + time.month) * 100 + time.day) * 100 + time.hour) * 100 + time.minute) * 100 + time.second;
}

Node *limit(void)
{
    return tagged((uint8_t)(0xA0 + below(2)), time_node(some_time()));
}

static Node *validity(void)
{
    Node *node = box(0xA4);
    size_t which = slip() ? 0 : 1 + below(3);
    Time from = some_time(), to = chance(3) ? near_time(from) : some_time();
    bool exchanged = which == 3 && (rank(to) < rank(from)) != slip();
    if (which & 1)
        add(node, tagged(0xA0, time_node(exchanged ? to : from)));
    if (which & 2)
        add(node, tagged(0xA1, time_node(exchanged ? from : to)));
    if (slip())
        add(node, tagged((uint8_t)(0xA0 + below(4)), time_node(some_time())));
    return node;
}

Node *extensions(void)
{
    Node *node = box(0xA9);
    for (size_t left = slip() ? 0 : 1 + below(3); left > 0; left--) {
        Node *one = add(node, box(0x30))->last;
        if (!slip())
            add(one, object_identifier());
        if (chance(3))
            add(one, leaf(0x01, (uint8_t[]){slip() ? 0x00 : 0xFF}, 1));
        if (!slip())
            add(one, random_octets(0x04, 12));
        if (slip())
            add(one, any(1));
    }
    return node;
}

/* A version: 2, or if others are allowed too one that is near, or any. */
static Node *version(bool others)
{
    static const uint8_t near[][2] = {{0x00}, {0x01}, {0x03}, {0x82}, {0xFE}, {0xFF}, {0x02, 0x00}, {0x02, 0x02}};
    size_t i = below(sizeof near / sizeof *near);
    if (slip())
        return leaf(0x80, "\x00\x02", 2);
    if (!others || chance(4))
        return leaf(0x80, (uint8_t[]){VERSION_2}, 1);
    return chance(2) ? leaf(0x80, near[i], near[i][0] == VERSION_2 ? 2 : 1) : integer(0x80);
}

Node *template(void)
{
    enum { OMITTED = 1 << TAG_SERIAL_NUMBER | 1 << TAG_SIGNING_ALG | 1 << TAG_ISSUER_UID | 1 << TAG_SUBJECT_UID }; /* in edition 2 */
    Node *node = box(0x30);
    size_t wanted = chance(4) ? 0 : chance(4) ? (1 << TEMPLATE_TAGS) - 1 : below(1 << TEMPLATE_TAGS);
    bool of_1 = (forms & FORMS_OF_1 && chance(3)) || slip();
    if (!of_1)
        wanted &= ~(size_t)OMITTED;
    for (int tag = 0; tag < TEMPLATE_TAGS; tag++) {
        if (!(wanted >> tag & 1))
            continue;
        switch (tag) {
        case TAG_VERSION: add(node, version(of_1)); break;
        case TAG_SERIAL_NUMBER: add(node, integer(0x81)); break;
        case TAG_SIGNING_ALG: add(node, alg_in(box(0xA2))); break;
        case TAG_ISSUER: add(node, tagged(0xA3, name())); break;
        case TAG_VALIDITY: add(node, validity()); break;
        case TAG_SUBJECT: add(node, slip() ? tagged(0xA5, name()->first ? name() : box(0x31)) : tagged(0xA5, name())); break;
        case TAG_PUBLIC_KEY: add(node, key_in(box(0xA6))); break;
        case TAG_ISSUER_UID: add(node, bits(0x87)); break;
        case TAG_SUBJECT_UID: add(node, bits(0x88)); break;
        default: add(node, extensions());
        }
        if (tag == TAG_SUBJECT && slip())
            node->last->first = name()->first; /* the Name's content without the Name */
        if (slip())
            add(node, copy(node->last));
    }
    return node;
}

static Node *publication_info(void)
{
    size_t action = below(4) > 0;
    Node *node = add(box(0x30), small(0x02, action, 1));
    if (action == 0 ? !slip() : chance(3))
        return node;
    Node *list = add(node, box(0x30))->last;
    for (size_t left = slip() ? 0 : 1 + below(3); left > 0; left--) {
        Node *way = add(list, box(0x30))->last;
        size_t method = below(4);
        add(way, small(0x02, method, 3));
        if (method == 0 ? (forms & FORMS_OF_1 && chance(2)) : chance(2))
            add(way, general_name());
        if (slip())
            add(way, general_name());
    }
    if (slip())
        add(node, any(1));
    return node;
}

static Node *control_value(size_t n)
{
    switch (n) {
    case REG_TOKEN: case AUTHENTICATOR: return text(0x0C);
    case PKI_PUBLICATION_INFO: return publication_info();
    case PKI_ARCHIVE_OPTIONS:
        switch (below(4)) {
        case 0: return tagged(0xA0, slip() ? any(1) : around(0x30, any(2)));
        case 1: return tagged(0xA0, around(0xA0, any(2)));
        case 2: return random_octets(0x81, 12);
        default: return leaf(0x82, (uint8_t[]){slip() ? 0x01 : chance(2) ? 0x00 : 0xFF, 0}, slip() ? 2 * below(2) : 1);
        }
    case OLD_CERT_ID: {
        Node *node = box(0x30);
        if (!slip())
            add(node, general_name());
        if (!slip())
            add(node, integer(0x02));
        return node;
    }
    default: return key_in(box(0x30));
    }
}

/* The type 2B 06 01 05 05 07 05 arc n. */
static Node *type(size_t arc, size_t n)
{
    uint8_t content[10] = {0x2B, 0x06, 0x01, 0x05, 0x05, 0x07, 0x05, (uint8_t)arc, (uint8_t)n, 0x00};
    size_t size = slip() ? 8 + 2 * below(2) : 9;
    if (slip())
        content[below(9)] ^= (uint8_t)(1 << below(7));
    return leaf(0x06, content, size);
}

static Node *unknown_item(size_t arc)
{
    Node *item = box(0x30);
    switch (below(4)) {
    case 0: return add(add(item, type(3 - arc, 1 + below(6))), any(3)); /* a type of the other place */
    case 1: return add(add(item, type(arc, chance(2) ? 0 : (arc == 1 ? 7 : 3) + below(100))), any(3));
    default: return add(add(item, object_identifier()), any(3));
    }
}

Node *controls(void)
{
    Node *node = box(0x30);
    for (size_t left = slip() ? 0 : 1 + below(3); left > 0; left--) {
        size_t n = below(1 + PROTOCOL_ENCR_KEY);
        Node *item = n == 0 ? unknown_item(1) : add(box(0x30), type(1, n));
        if (n > 0 && !slip())
            add(item, slip() ? control_value(1 + below(PROTOCOL_ENCR_KEY)) : control_value(n));
        if (slip())
            add(item, any(1));
        add(node, item);
    }
    return node;
}

Node *cert_req(void)
{
    Node *node = box(0x30);
    if (!slip())
        add(node, request_id());
    if (!slip())
        add(node, template());
    if (chance(2))
        add(node, controls());
    if (slip())
        add(node, any(1));
    return node;
}

static int carried; /* how deep a certReq is carried in another */

Node *reg_info(void)
{
    Node *node = box(0x30);
    for (size_t left = slip() ? 0 : 1 + below(3); left > 0; left--) {
        size_t which = below(1 + CARRIED_CERT_REQ);
        if (which == PAIRS && !forms)
            which = CARRIED_CERT_REQ;
        if (which == CARRIED_CERT_REQ && carried > 0)
            which = 0;
        Node *item = which == 0 ? unknown_item(2) : add(box(0x30), type(2, which));
        if (which == PAIRS)
            add(item, forms == FORMS_OF_1 || (forms == (FORMS_OF_1 | FORMS_OF_2) && chance(2)) ? random_octets(0x04, 12) : text(0x0C));
        if (which == CARRIED_CERT_REQ) {
            carried++;
            add(item, cert_req());
            carried--;
        }
        if (slip())
            add(item, any(1));
        add(node, item);
    }
    return node;
}

static Node *key_proof(uint8_t id)
{
    switch (below(forms & FORMS_OF_2 ? 5 : 3)) {
    case 0: return tagged(id, bits(0x80));
    case 1: return tagged(id, small(0x81, below(2), 1));
    case 2: return tagged(id, bits(0x82));
    case 3: return tagged(id, key_in(box(0xA3)));
    default: {
        Node *choice = box(0xA4);
        for (size_t left = below(3); left > 0; left--)
            add(choice, any(3));
        return tagged(id, choice);
    }
    }
}

Node *proof(void)
{
    switch (below(5)) {
    case 0:
        return leaf(0x80, "\0", slip());
    case 1: {
        Node *node = box(0xA1);
        if (chance(2)) {
            Node *input = add(node, box(0xA0))->last;
            if (!slip())
                add(input, chance(2) ? tagged(0xA0, general_name()) : key_in(box(0x30)));
            if (!slip())
                add(input, key_in(box(0x30)));
            if (slip())
                add(input, any(1));
        }
        return key_in(node);
    }
    default:
        return key_proof(chance(2) ? 0xA2 : 0xA3);
    }
}

Node *message(void)
{
    Node *node = box(0x30);
    if (!slip())
        add(node, cert_req());
    if (!chance(3))
        add(node, proof());
    if (chance(2))
        add(node, reg_info());
    if (slip())
        add(node, any(1));
    return node;
}

Node *batch(size_t messages)
{
    Node *node = box(0x30);
    for (; messages > 0; messages--)
        add(node, message());
    return node;
}

Node *least_message(void)
{
    return around(0x30, add(add(box(0x30), leaf(0x02, "\0", 1)), box(0x30)));
}

Node *message_around(Node *value)
{
    Node *item = add(add(box(0x30), leaf(0x06, "\x2A", 1)), value);
    return add(least_message(), around(0x30, item));
}

Node *fill(Node *node, size_t target)
{
    Node *value = leaf(0x04, NULL, 0);
    add(node, message_around(value));
    for (int again = 0; again < 3; again++) {
        size_t now = measure(node);
        if (now == target || value->size + target < now)
            break;
        value->size += target - now;
        value->content = keep(NULL, value->size);
        memset((uint8_t *)value->content, 0x41, value->size);
    }
    return node;
}
