/* Times by document 01 and their moments by document 02's A12, for the references. */
#ifndef REFERENCE_TIMES_H
#define REFERENCE_TIMES_H

#include <stddef.h>
#include <stdint.h>

/* The moment that a Time with this identifier, 17 or 18, and content shows: whole seconds from 0000-01-01 00:00:00 in the Gregorian
 * calendar; NO_MOMENT if its value breaks its rule. */
int64_t time_moment(uint8_t id, const uint8_t *content, size_t size);

#endif
