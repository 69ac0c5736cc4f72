// A batch of messages with a validity.
#include "validity.h"
#include "encoding.h"
#include "messages.h"

#include <stdio.h>
#include <string.h>

enum { UTC_TIME = 0x17, GENERALIZED_TIME = 0x18 };

// A time of so many days past the first of its year, in years of twelve months of 28 days.
static void put_time(uint8_t field, uint8_t identifier, const char *year, unsigned days)
{
    char time[sizeof "20500101120000Z" + 20];
    snprintf(time, sizeof time, "%s%02u%02u120000Z", year, 1 + days / 28 % 12, 1 + days % 28);
    size_t before = put_so_far();
    put(time, strlen(time));
    put_header(identifier, before);
    put_header(field, before);
}

static void put_validity(unsigned number)
{
    size_t before = put_so_far();
    if (number % 2 == 0)
        put_time(0xA1, GENERALIZED_TIME, "2050", number);
    else
        put_time(0xA1, UTC_TIME, "49", number);
    put_time(0xA0, UTC_TIME, "26", number);
    put_header(0xA4, before);
}

static void put_subject(unsigned number)
{
    char phone[20];
    snprintf(phone, sizeof phone, "phone %04u", number);
    size_t before = put_so_far();
    put_attribute(3, 0x0C, phone); // commonName
    put_name(0xA5, before);
}

static void put_fields(unsigned number)
{
    put_subject(number);
    put_validity(number);
}

size_t validity_batch(uint8_t *batch)
{
    return messages_batch(put_fields, batch);
}
