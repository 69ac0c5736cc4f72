// An encoding that is put together from its end, so that each length is known when it is written.
#ifndef ENCODING_H
#define ENCODING_H

#include <stddef.h>
#include <stdint.h>

// Begins another encoding, which has no bytes yet. It may get PHAGUNDRO_LONGEST of them, and the caller sees to it that it doesn't get more.
void begin_encoding(void);

// Puts bytes before those that are there.
void put(const void *bytes, size_t length);

// How many bytes are there.
size_t put_so_far(void);

// Puts the identifier and length octets of an element. Its content is what was put since there were so many bytes.
void put_header(uint8_t identifier, size_t before);

// How many octets that is, for a content of this length.
size_t header_length(size_t content);

// Copies the encoding, and answers its length.
size_t take_encoding(uint8_t *to);

#endif
