/* The difference told by the row that it is in, when the batch is read in the other edition. */
#include "differences.h"

#include "../include/phagundro.h"
#include "show.h"

enum { MOST_NUMBERS = PHAGUNDRO_ROW_NUMBERS * PHAGUNDRO_MOST_ROWS };

static size_t table[MOST_NUMBERS];

/* The place is that of a row or of an element within a leaf, so its row is the last that begins there or before. */
difference difference_at(size_t edition, size_t number, size_t place, octets batch)
{
    if (number != PHAGUNDRO_OTHER_EDITION)
        return (difference){0};
    size_t other = edition == PHAGUNDRO_RFC2511 ? PHAGUNDRO_RFC4211 : PHAGUNDRO_RFC2511;
    size_t rows = phagundro_read(other, batch.bytes, batch.length, table, MOST_NUMBERS).count;
    while (rows > 0 && row_of(table, rows - 1)[PHAGUNDRO_ROW_FIRST] > place)
        rows--;
    return rows == 0 ? (difference){0} : difference_in(row_of(table, rows - 1)[PHAGUNDRO_ROW_KIND]);
}
