/* Shows a comparison: in words for people, and as JSON. */
#ifndef COMPARE_H
#define COMPARE_H

#include "../include/phagundro.h"
#include "files.h"

enum { FIRST, SECOND, SIDES }; /* of the two batches */

/* Two accepted batches, and the entries of their comparison. */
typedef struct {
    size_t edition;
    const char *names[SIDES]; /* of the files */
    octets batches[SIDES];
    const int64_t *entries;
    size_t count;
} comparison;

/* Shows how many differences there are, and each of them. */
void show_comparison(const comparison *of);

/* Shows the entries as a JSON array of objects. */
void json_entries(const comparison *of);

#endif
