// What joining, cutting and comparing are timed on: a batch taken apart, and one that is nearly the same.
#ifndef PARTS_H
#define PARTS_H

#include "inputs.h"

typedef struct {
    uint8_t bytes[PHAGUNDRO_LONGEST];
    size_t length;
} batch;

typedef struct {
    batch first, second, join; // two batches, and what joining them has to give
    size_t position;           // of the message in the middle
    batch message;             // what cutting there has to give
    batch changed;             // the batch with another certReqId in that message
    size_t changed_row;        // the row of that certReqId
} parts;

// Takes a batch apart. If it has several messages, the two that are joined are its halves, and their join is the batch again. If it has
// one, the second is the smallest batch; an input that is too long for that ends the program. In the changed batch the last octet of one
// certReqId is another.
void take_parts(const input *of, parts *taken);

#endif
