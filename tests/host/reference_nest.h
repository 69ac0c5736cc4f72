/* The nest of elements by document 01 and by document 02's A3, which the reading in reference.c starts from. */
#ifndef REFERENCE_NEST_H
#define REFERENCE_NEST_H

#include <stdbool.h>
#include <stddef.h>
#include <stdint.h>

typedef struct {
    uint8_t id;
    size_t at, inside, end; /* its first byte, its content's first byte, and the first byte after it */
} Element;

/* Reads the identifier and length of the element at `at`, whose parent ends at `end`: ACCEPTED, or what is wrong of TRUNCATED,
 * BAD_IDENTIFIER and BAD_LENGTH. */
int header(const uint8_t *bytes, size_t at, size_t end, Element *element);

/* Judges the element at `at` and all that is inside: ACCEPTED, or the first fault's number with its place. */
int nest(const uint8_t *bytes, size_t at, size_t end, int depth, Element *element, size_t *place);

/* The rules of contents that implicitly tagged values keep too. */
bool boolean_holds(const uint8_t *content, size_t size);
bool integer_holds(const uint8_t *content, size_t size);
bool bits_hold(const uint8_t *content, size_t size);

#endif
