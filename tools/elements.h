/* The elements of an accepted batch, taken off its bytes one after another. */
#ifndef ELEMENTS_H
#define ELEMENTS_H

#include <stdbool.h>
#include <stddef.h>
#include <stdint.h>

/* Bytes that stand in a batch. */
typedef struct {
    const uint8_t *bytes;
    size_t length;
} span;

typedef struct {
    uint8_t identifier;
    span whole;   /* identifier and length octets included */
    span content; /* what follows them */
} element;

/* Takes the first element off the bytes, which keep the rest. False if none is left, or what is left begins with none. */
bool next_element(span *rest, element *found);

/* The signed whole number of an INTEGER's content, which has from 1 to 8 octets. */
int64_t signed_number(span content);

/* Whether an element's content is elements itself. */
bool is_constructed(uint8_t identifier);

#endif
