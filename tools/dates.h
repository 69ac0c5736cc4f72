/* Moments as dates, and the time between two of them in words. A moment is seconds since 0000-01-01 00:00:00, as phagundro.h has it. */
#ifndef DATES_H
#define DATES_H

#include "text.h"

/* Adds the date and time of day of a moment, which isn't negative: 2049-12-31 23:59:59 UTC. */
void put_date(text *out, int64_t moment);

/* Adds by how much a moment is later or earlier than another, given the seconds from the other to it, which aren't 0: 1 second later, or
 * 2 days 3 hours earlier. */
void put_interval(text *out, int64_t seconds);

#endif
