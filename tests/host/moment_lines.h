/* Shows the moments of bytes: the bytes in hex and their moment, as
 *     A00F170D3530303130313030303030305A,61536067200
 * A line of input is the bytes in hex. See answering.h. */
#ifndef MOMENT_LINES_H
#define MOMENT_LINES_H

#include <stddef.h>
#include <stdint.h>

/* Runs a program that shows the moments that this answers, and answers its exit status. */
int show_moments(int count, char **words, int64_t (*moment)(const uint8_t *bytes, size_t length));

#endif
