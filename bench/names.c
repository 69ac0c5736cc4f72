// A batch of messages whose names have three attributes in an RDN.
#include "names.h"
#include "encoding.h"
#include "messages.h"

#include <stdio.h>

static void put_issuer(void)
{
    size_t before = put_so_far();
    put_attribute(11, 0x0C, "Example unit 3"); // organizationalUnitName
    put_attribute(11, 0x0C, "Example unit 2");
    put_attribute(11, 0x0C, "Example unit 1");
    put_name(0xA3, before);
}

static void put_subject(unsigned number)
{
    char phone[20];
    snprintf(phone, sizeof phone, "phone %04u", number);
    size_t before = put_so_far();
    put_attribute(10, 0x0C, "Example GmbH"); // organizationName
    put_attribute(3, 0x0C, phone);           // commonName
    put_attribute(6, 0x13, "DE");            // countryName
    put_name(0xA5, before);
}

static void put_names(unsigned number)
{
    put_subject(number);
    put_issuer();
}

size_t names_batch(uint8_t *batch)
{
    return messages_batch(put_names, batch);
}
