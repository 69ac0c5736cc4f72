/* Batches for the comparison of joining and cutting, three at a time: whole and damaged, of one edition's forms and of several, and of
 * lengths at which a header grows or a join is too long. */
#ifndef TRIOS_H
#define TRIOS_H

#include "batches.h"

enum { TRIO_SORTS = 13 };
extern const TrioSort trio_sorts[TRIO_SORTS];

/* Makes the next trio, from the row of inputs that inputs_start has started. */
void trios_next(Trio *trio);

#endif
