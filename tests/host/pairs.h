/* Batches for the comparison of what changed, two at a time: equal, edited, rearranged, cut and joined, written from a draft, of many
 * members, as large as can be, and the first two of a trio. */
#ifndef PAIRS_H
#define PAIRS_H

#include "batches.h"

enum { PAIR_SORTS = 10 };
extern const TrioSort pair_sorts[PAIR_SORTS];

/* Makes the next pair, the first two of a trio, from the row of inputs that inputs_start has started. */
void pairs_next(Trio *pair);

/* The batch of as many rows as 65,535 bytes have room for. The messages are like S's, with this octet as their certReqId, which is 29,125
 * rows; or with an empty encryptedKey besides, which is 30,241 rows and of edition 2 alone. */
void most_rows(Batch *made, uint8_t id, bool with_key);

#endif
