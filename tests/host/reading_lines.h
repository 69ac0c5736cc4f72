/* Shows the answers of a reading: the bytes in hex, and for editions 1 and 2 the number, place and count and the rows' numbers after them,
 * as
 *     300930073005020100..,0 0 5 1 0 11 0 2 2 9 0 ..,0 0 5 1 0 11 0 ..
 * A line of input is the bytes in hex. See answering.h. */
#ifndef READING_LINES_H
#define READING_LINES_H

#include "reference.h"

typedef reference_answer reading(size_t edition, const uint8_t *bytes, size_t length, size_t *table, size_t room);

/* Runs a program that shows the answers of this reading, and answers its exit status. */
int show_readings(int count, char **words, reading *read);

#endif
