// Times the check of UTF-8: batches whose regToken is a text of 60,000 octets are accepted, beside two checks in plain C of the same octets.
#include "phagundro.h"
#include "rounds.h"
#include "subjects.h"
#include "tables.h"

#include <stdio.h>
#include <string.h>

enum { OCTETS = 60000, ROOM_BEFORE = 64, EDITION = PHAGUNDRO_RFC4211 };

static const uint8_t ACUTE_E[] = {0xC3, 0xA9};

// A batch that ends with the text; it is put together from its end.
static uint8_t room[ROOM_BEFORE + OCTETS];
static uint8_t *const text = room + ROOM_BEFORE, *const end = room + ROOM_BEFORE + OCTETS;
static uint8_t *batch;

static void put_before(const uint8_t *bytes, size_t length)
{
    batch -= length;
    memcpy(batch, bytes, length);
}

// The header of all that is there so far.
static void put_header(uint8_t identifier)
{
    size_t length = (size_t)(end - batch);
    const uint8_t header[] = {identifier, 0x82, (uint8_t)(length >> 8), (uint8_t)length};
    put_before(header, sizeof header);
}

// Puts a batch with one message before the text, which is its regToken.
static void put_batch(void)
{
    static const uint8_t reg_token[] = {0x06, 0x09, 0x2B, 0x06, 0x01, 0x05, 0x05, 0x07, 0x05, 0x01, 0x01};
    static const uint8_t id_and_template[] = {0x02, 0x01, 0x00, 0x30, 0x00};
    batch = text;
    put_header(0x0C); // the UTF8String
    put_before(reg_token, sizeof reg_token);
    put_header(0x30); // the control
    put_header(0x30); // the controls
    put_before(id_and_template, sizeof id_and_template);
    put_header(0x30); // the certReq
    put_header(0x30); // the message
    put_header(0x30); // the batch
}

static void fill_ascii(void)
{
    memset(text, 'a', OCTETS);
}

static void fill_other_end(void)
{
    fill_ascii();
    memcpy(end - sizeof ACUTE_E, ACUTE_E, sizeof ACUTE_E);
}

// Of so many characters the last is another.
static void fill_other_every(size_t characters)
{
    fill_ascii();
    for (size_t i = characters - 1; i + sizeof ACUTE_E <= OCTETS; i += characters - 1 + sizeof ACUTE_E)
        memcpy(text + i, ACUTE_E, sizeof ACUTE_E);
}

static void fill_other_every_100(void)
{
    fill_other_every(100);
}

static void fill_other_every_9(void)
{
    fill_other_every(9);
}

// The small letters U+0430 to U+044F over and over, two octets each.
static void fill_cyrillic(void)
{
    for (size_t i = 0; i < OCTETS; i += 2) {
        unsigned letter = 0x430 + (unsigned)(i / 2 % 32);
        text[i] = (uint8_t)(0xC0 | letter >> 6);
        text[i + 1] = (uint8_t)(0x80 | (letter & 0x3F));
    }
}

static const struct {
    const char *name;
    void (*fill)(void);
} texts[] = {
    {"ASCII", fill_ascii},
    {"ASCII, the last character another", fill_other_end},
    {"ASCII, every 100th character another", fill_other_every_100},
    {"ASCII, every 9th character another", fill_other_every_9},
    {"Cyrillic", fill_cyrillic},
};

static bool do_accept(void)
{
    return phagundro_accept(EDITION, batch, (size_t)(end - batch)) == PHAGUNDRO_ACCEPTED;
}

static bool do_octets(void)
{
    return utf8_by_octets(text, OCTETS);
}

static bool do_eights(void)
{
    return utf8_by_eights(text, OCTETS);
}

enum { ACCEPT, BY_OCTETS, BY_EIGHTS, SUBJECTS };

static const subject subjects[SUBJECTS] = {
    [ACCEPT] = {"accept", do_accept},
    [BY_OCTETS] = {"C, octet by octet", do_octets},
    [BY_EIGHTS] = {"C, by eights", do_eights},
};

void measure_texts(void)
{
    printf("\nTexts of %d octets, nanoseconds an octet, and accepting times the check in C by eights:\n", OCTETS);
    printf("\n| text |");
    for (int s = 0; s < SUBJECTS; s++)
        printf(" %s |", subjects[s].name);
    printf(" accept / by eights |\n|---|---|---|---|---|\n");
    for (size_t t = 0; t < sizeof texts / sizeof texts[0]; t++) {
        double best[SUBJECTS];
        texts[t].fill();
        put_batch();
        best_times(subjects, SUBJECTS, texts[t].name, best);
        printf("| %s |", texts[t].name);
        for (int s = 0; s < SUBJECTS; s++)
            printf(" %.3f |", best[s] * 1e9 / OCTETS);
        printf(" %.2f |\n", best[ACCEPT] / best[BY_EIGHTS]);
    }
}
