/* Memory for the buffers that a comparison lends. A buffer is at an edge of memory that can't be touched, so that a step past it ends the
 * program; what is beside it on its other side is checked afterwards. */
#ifndef MEMORY_H
#define MEMORY_H

#include <stdbool.h>
#include <stddef.h>
#include <stdint.h>

typedef struct {
    uint8_t *start;
    size_t size;
    bool at_end; /* the memory that can't be touched is after the buffer, else before it */
    uint8_t *beside, *region, *region_end;
    size_t pattern; /* of what is beside it */
} Buffer;

/* A buffer for at most `most` bytes. Ends the program with 2 if there is no memory. */
Buffer buffer(size_t most);

/* Puts the buffer, of `size` bytes now, at an edge of its memory and fills what is beside it. */
void place(Buffer *buffer, size_t size, bool at_end);

/* Fills the buffer and a copy of it with the same bytes, other ones each time. */
void fill_alike(Buffer *buffer, void *copy);

/* What a caller hands over: NULL for an empty buffer, half the time. */
void *lent(const Buffer *buffer);

/* Whether what is beside the buffer has changed since it was placed. */
bool beside_changed(const Buffer *buffer);

/* Has a signal that ends a call reported. */
void report_signals(void (*report)(int));

#endif
