// Batches that the benchmarks make: messages with an EC key and a signature.
#ifndef MESSAGES_H
#define MESSAGES_H

#include "phagundro.h"

// Writes a batch of messages that nearly fills PHAGUNDRO_LONGEST bytes, and answers its length. For the message of each number, from 0 on,
// put_fields puts the fields of its template that stand before the public key; they are longest for 0.
size_t messages_batch(void (*put_fields)(unsigned number), uint8_t *batch);

// Puts an attribute of the type 2.5.4.n.
void put_attribute(uint8_t n, uint8_t identifier, const char *value);

// Puts the headers of a Name of one RDN, whose attributes are what was put since there were so many bytes, and of the template's field.
void put_name(uint8_t field, size_t before);

#endif
