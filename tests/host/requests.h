/* Batches for the comparison of verdicts and duplicate searches: messages with each sort of proof and template, and certReqIds that are
 * equal, or nearly. */
#ifndef REQUESTS_H
#define REQUESTS_H

#include <stddef.h>
#include <stdint.h>

/* Writes the next batch and answers its length. The first ones are the same for each seed. The random numbers are those of random.h. */
size_t requests_next(uint8_t *batch);

/* The batch of as many messages as 65,535 bytes have room for, each with a certReqId of its own; its length. */
size_t requests_most(uint8_t *batch);

#endif
