// A batch that the benchmarks make: a validity in each message.
#ifndef VALIDITY_H
#define VALIDITY_H

#include "phagundro.h"

// Writes a batch of such messages that nearly fills PHAGUNDRO_LONGEST bytes, and answers its length. Each has a subject, and a validity from
// a day in 2026 to one in 2050 or in 2049 by turns, so that notAfter is a GeneralizedTime in one message and a UTCTime in the next.
size_t validity_batch(uint8_t *batch);

#endif
