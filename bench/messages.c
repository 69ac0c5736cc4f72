// Messages with an EC key and a signature, and as many of them as a batch has room for.
#include "messages.h"
#include "encoding.h"

#include <string.h>

enum { KEY_OCTETS = 64, SIGNATURE_OCTETS = 70 };
enum { LEFT = 12 }; // octets that the messages leave: four for the batch's header, and eight for the proof that refusals.c puts in

#define PUT(...) put((const uint8_t[]){__VA_ARGS__}, sizeof((const uint8_t[]){__VA_ARGS__}))

void put_attribute(uint8_t n, uint8_t identifier, const char *value)
{
    size_t before = put_so_far();
    put(value, strlen(value));
    put_header(identifier, before);
    PUT(0x06, 0x03, 0x55, 0x04, n);
    put_header(0x30, before);
}

void put_name(uint8_t field, size_t before)
{
    put_header(0x31, before);
    put_header(0x30, before);
    put_header(field, before);
}

// A point of the curve P-256, its generator.
static void put_public_key(void)
{
    static const uint8_t point[KEY_OCTETS] = {
        0x6B, 0x17, 0xD1, 0xF2, 0xE1, 0x2C, 0x42, 0x47, 0xF8, 0xBC, 0xE6, 0xE5, 0x63, 0xA4, 0x40, 0xF2,
        0x77, 0x03, 0x7D, 0x81, 0x2D, 0xEB, 0x33, 0xA0, 0xF4, 0xA1, 0x39, 0x45, 0xD8, 0x98, 0xC2, 0x96,
        0x4F, 0xE3, 0x42, 0xE2, 0xFE, 0x1A, 0x7F, 0x9B, 0x8E, 0xE7, 0xEB, 0x4A, 0x7C, 0x0F, 0x9E, 0x16,
        0x2B, 0xCE, 0x33, 0x57, 0x6B, 0x31, 0x5E, 0xCE, 0xCB, 0xB6, 0x40, 0x68, 0x37, 0xBF, 0x51, 0xF5};
    size_t before = put_so_far();
    put(point, sizeof point);
    PUT(0x00, 0x04);
    put_header(0x03, before);
    PUT(0x30, 0x13, 0x06, 0x07, 0x2A, 0x86, 0x48, 0xCE, 0x3D, 0x02, 0x01, 0x06, 0x08, 0x2A, 0x86, 0x48, 0xCE, 0x3D, 0x03, 0x01, 0x07);
    put_header(0xA6, before);
}

static void put_signature(void)
{
    static const uint8_t octets[1 + SIGNATURE_OCTETS];
    size_t before = put_so_far();
    put(octets, sizeof octets);
    put_header(0x03, before);
    PUT(0x30, 0x0A, 0x06, 0x08, 0x2A, 0x86, 0x48, 0xCE, 0x3D, 0x04, 0x03, 0x02);
    put_header(0xA1, before);
}

static void put_message(void (*put_fields)(unsigned number), unsigned number)
{
    size_t before = put_so_far();
    put_signature();
    size_t request = put_so_far();
    put_public_key();
    put_fields(number);
    put_header(0x30, request);
    PUT(0x02, 0x02, (uint8_t)(1 + number / 256), (uint8_t)number); // a certReqId of two octets
    put_header(0x30, request);
    put_header(0x30, before);
}

size_t messages_batch(void (*put_fields)(unsigned number), uint8_t *batch)
{
    begin_encoding();
    put_message(put_fields, 0);
    size_t message = put_so_far();
    for (unsigned number = 1; put_so_far() + message + LEFT <= PHAGUNDRO_LONGEST; number++)
        put_message(put_fields, number);
    put_header(0x30, 0);
    return take_encoding(batch);
}
