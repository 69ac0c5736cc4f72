/* A batch is written from its last octet to its first, so that each length is known when it is written. */
#include "requests.h"

#include "../../include/phagundro.h"
#include "inputs.h"
#include "random.h"

#include <string.h>

static uint8_t room[INPUT_ROOM];
static size_t start; /* of what has been written */

static void before(const void *octets, size_t size)
{
    start -= size;
    memcpy(room + start, octets, size);
}

static void octet(size_t value)
{
    before(&(uint8_t){(uint8_t)value}, 1);
}

/* Encloses what has been written since `end` was the start. */
static void enclose(uint8_t id, size_t end)
{
    size_t size = end - start;
    octet(size);
    if (size > 0xFF)
        octet(size >> 8);
    if (size > 0x7F)
        octet(size > 0xFF ? 0x82 : 0x81);
    octet(id);
}

#define WRITE(...) before((const uint8_t[]){__VA_ARGS__}, sizeof((const uint8_t[]){__VA_ARGS__}))

/* -- Parts of a message -- */

/* A certReqId in as few octets as it needs. */
static void id(int64_t number)
{
    size_t end = start;
    do {
        octet((uint64_t)number & 0xFF);
        number = number < 0 ? ~(~number >> 8) : number >> 8;
    } while (number != (room[start] >= 0x80 ? -1 : 0));
    enclose(0x02, end);
}

/* Sorts of proofs: from UNDER_KEY on, each choice under keyEncipherment and then under keyAgreement. */
enum { CHOICES = 5, NO_PROOF = 0, RA_VERIFIED, SIGNED, SIGNED_INPUT, SIGNED_MAC, UNDER_KEY, SORTS = UNDER_KEY + 2 * CHOICES };

static const uint8_t alg[] = {0x30, 0x03, 0x06, 0x01, 0x2A}, bits[] = {0x03, 0x01, 0x00};

static void key_content(void)
{
    before(bits, sizeof bits);
    before(alg, sizeof alg);
}

/* keyEncipherment or keyAgreement around a choice from 80 to A4. */
static void key_proof(uint8_t under, size_t choice)
{
    size_t end = start;
    switch (choice) {
    case 0: WRITE(0x80, 0x01, 0x00); break;
    case 1: WRITE(0x81, 0x01, 0x01); break;
    case 2: WRITE(0x82, 0x01, 0x00); break;
    case 3: key_content(); enclose(0xA3, end); break;
    default: WRITE(0xA4, 0x05, 0x82, 0x01, 0x00, 0xA0, 0x00);
    }
    enclose(under, end);
}

static void signature(size_t sort)
{
    size_t end = start;
    key_content();
    if (sort != SIGNED) {
        size_t input = start;
        key_content();
        enclose(0x30, input);
        size_t of_sender = start;
        if (sort == SIGNED_MAC) {
            key_content();
            enclose(0x30, of_sender);
        } else {
            WRITE(0xA0, 0x03, 0x82, 0x01, 0x61);
        }
        enclose(0xA0, input);
    }
    enclose(0xA1, end);
}

static void proof(size_t sort)
{
    if (sort == RA_VERIFIED)
        WRITE(0x80, 0x00);
    else if (sort >= UNDER_KEY)
        key_proof((sort - UNDER_KEY) / CHOICES ? 0xA3 : 0xA2, (sort - UNDER_KEY) % CHOICES);
    else if (sort != NO_PROOF)
        signature(sort);
}

/* The parts of a template; NEIGHBOURS are fields beside the other two that look alike, and SUBJECT_UID is one that edition 1 alone allows.
 * A subject is empty, or has an RDN of two attributes: TWO_ATTRIBUTES, and DESCENDING if they are out of order. */
enum { SUBJECT = 1, PUBLIC_KEY = 2, NEIGHBOURS = 4, TEMPLATES = 8, TWO_ATTRIBUTES = 8, DESCENDING = 16, SUBJECT_UID = 32 };

static void subject(size_t parts)
{
    size_t end = start;
    if (parts & TWO_ATTRIBUTES) {
        WRITE(0x30, 0x06, 0x06, 0x01, 0x55, 0x0C, 0x01, parts & DESCENDING ? 0x61 : 0x62);
        WRITE(0x30, 0x06, 0x06, 0x01, 0x55, 0x0C, 0x01, parts & DESCENDING ? 0x62 : 0x61);
        enclose(0x31, end);
    }
    enclose(0x30, end);
    enclose(0xA5, end);
}

static void template(size_t parts)
{
    size_t end = start;
    if (parts & NEIGHBOURS)
        WRITE(0xA9, 0x07, 0x30, 0x05, 0x06, 0x01, 0x2A, 0x04, 0x00);
    if (parts & SUBJECT_UID)
        WRITE(0x88, 0x01, 0x00);
    if (parts & PUBLIC_KEY) {
        size_t key = start;
        key_content();
        enclose(0xA6, key);
    }
    if (parts & SUBJECT)
        subject(parts);
    if (parts & NEIGHBOURS)
        WRITE(0x80, 0x01, 0x02, 0xA3, 0x02, 0x30, 0x00);
    enclose(0x30, end);
}

static void request(int64_t number, size_t parts)
{
    size_t end = start;
    template(parts);
    id(number);
    enclose(0x30, end);
}

/* A regInfo that carries a certReq, with a template that has everything. */
static void carry(int64_t number)
{
    size_t end = start;
    request(number, SUBJECT | PUBLIC_KEY | NEIGHBOURS);
    WRITE(0x06, 0x09, 0x2B, 0x06, 0x01, 0x05, 0x05, 0x07, 0x05, 0x02, 0x02);
    enclose(0x30, end);
    enclose(0x30, end);
}

static void message(int64_t number, size_t parts, size_t sort, const int64_t *carried)
{
    size_t end = start;
    if (carried)
        carry(*carried);
    proof(sort);
    request(number, parts);
    enclose(0x30, end);
}

/* -- Batches -- */

static void begin(void)
{
    start = sizeof room;
}

static size_t finish(uint8_t *batch)
{
    enclose(0x30, sizeof room);
    memcpy(batch, room + start, sizeof room - start);
    return sizeof room - start;
}

/* Messages with certReqIds in ascending order from `first`, but for the last one, which has the number of the one at `same`. */
static size_t in_order(uint8_t *batch, size_t messages, int64_t first, size_t same)
{
    begin();
    for (size_t i = messages; i-- > 0;)
        message(first + (int64_t)(i + 1 == messages ? same : i), 0, NO_PROOF, NULL);
    return finish(batch);
}

size_t requests_most(uint8_t *batch)
{
    int64_t number = 0;
    begin();
    while (sizeof room - start + 4 + 13 <= PHAGUNDRO_LONGEST) /* a message of at most 13 octets, and the batch's header */
        message(number++ - 128, 0, NO_PROOF, NULL);
    return finish(batch);
}

/* The certReqIds that are easily taken for each other. */
static int64_t near_number(void)
{
    static const int64_t numbers[] = {0, 1, -1, 5, 7, 127, 128, -128, -129, 255, 256, -256, -257, 65535, 65536, 0x7FFFFFFF, 0x80000000,
        -0x80000000ll, 0xFFFFFFFF, 0x100000000, 0x100000005, INT64_MAX, INT64_MIN, INT64_MAX - 1, INT64_MIN + 1};
    size_t most = sizeof numbers / sizeof *numbers;
    return below(8) == 0 ? (int64_t)below(1000) - 500 : numbers[below(most)];
}

static size_t at_random(uint8_t *batch)
{
    begin();
    for (size_t left = 1 + below(8); left > 0; left--) {
        int64_t carried = near_number();
        size_t attributes = below(4) == 0 ? TWO_ATTRIBUTES + (below(20) == 0 ? DESCENDING : 0) : 0;
        size_t unique_id = below(40) == 0 ? SUBJECT_UID : 0;
        message(near_number(), below(TEMPLATES) + attributes + unique_id, below(SORTS), below(4) == 0 ? &carried : NULL);
    }
    return finish(batch);
}

size_t requests_next(uint8_t *batch)
{
    static size_t made;
    size_t n = made++;
    if (n < TEMPLATES * SORTS) { /* each proof with each template */
        begin();
        message(0, n % TEMPLATES, n / TEMPLATES, NULL);
        return finish(batch);
    }
    static const struct {
        size_t messages, same;
    } far_end[] = {{256, 0}, {256, 1}, {256, 254}, {256, 255}, {257, 0}, {257, 255}, {300, 43}, {2000, 0}};
    n -= TEMPLATES * SORTS;
    if (n < sizeof far_end / sizeof *far_end)
        return in_order(batch, far_end[n].messages, -130, far_end[n].same);
    if (n == sizeof far_end / sizeof *far_end)
        return requests_most(batch);
    return below(400) == 0 ? in_order(batch, 250 + below(600), -300, below(250)) : at_random(batch);
}
