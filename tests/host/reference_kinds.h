/* The kinds of rows that are containers, for the references. */
#ifndef REFERENCE_KINDS_H
#define REFERENCE_KINDS_H

#include <stddef.h>
#include <stdint.h>

/* The identifier of a kind of container; 0 for a leaf's. */
uint8_t container_identifier(size_t kind);

#endif
