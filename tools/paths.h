/* Where a field stands in its batch, in words. */
#ifndef PATHS_H
#define PATHS_H

#include "../include/phagundro.h"
#include "files.h"

/* An accepted batch with its rows, and of each row how many are directly below it, and its position among those of its parent. */
typedef struct {
    octets batch;
    size_t table[PHAGUNDRO_ROW_NUMBERS * PHAGUNDRO_MOST_ROWS];
    size_t children[PHAGUNDRO_MOST_ROWS], positions[PHAGUNDRO_MOST_ROWS];
} placed_rows;

/* Reads an accepted batch into rows that are all 0. */
void take_rows(placed_rows *taken, size_t edition, octets batch);

/* Shows the path of a row from its message down, with words between the steps: a name for each field, and its position where it is one of a
 * list. */
void show_path(const placed_rows *of, size_t row, const char *between);

#endif
