/* Drafts for the comparison: the rows of accepted batches, over their own bytes or over others, as they are and spoiled. */
#ifndef DRAFTS_H
#define DRAFTS_H

#include "../../include/phagundro.h"

#include <stddef.h>
#include <stdint.h>

enum { DRAFT_NUMBERS = PHAGUNDRO_ROW_NUMBERS * 40000, SLICE_ROOM = 150000 };

typedef struct {
    size_t sort; /* which of draft_sorts */
    size_t numbers[DRAFT_NUMBERS], count;
    uint8_t slice[SLICE_ROOM];
    size_t length;
    size_t edition; /* one in which the batch is accepted that the draft was made from */
    const uint8_t *batch;
    size_t batch_length;
} Draft;

/* What is known of each draft of a sort: it describes the batch that it was made from, or no batch. Of others it is left open, and some
 * do and some don't. */
enum { SAME_BATCH, NO_BATCH, OPEN };

typedef struct {
    const char *name;
    int known;
    size_t share; /* how often it occurs, beside the others */
    void (*make)(Draft *);
} DraftSort;

enum { DRAFT_SORTS = 41 };
extern const DraftSort draft_sorts[DRAFT_SORTS];

/* Makes the next draft, from the row of inputs that inputs_start has started. */
void drafts_next(Draft *draft);

#endif
