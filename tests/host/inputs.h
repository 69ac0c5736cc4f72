/* Inputs for the comparison: batches built at random that cover each construct of the grammar, whole and damaged, and others. */
#ifndef INPUTS_H
#define INPUTS_H

#include <stdbool.h>
#include <stddef.h>
#include <stdint.h>

enum { INPUT_ROOM = 70000 }; /* bytes of the longest input */

/* Starts the row of inputs that belongs to the seed. The files are read, and each is among the inputs as it is and damaged. Answers
 * whether all could be read. */
bool inputs_start(uint64_t seed, int files, char **paths);

/* Writes the next input and answers its length. */
size_t inputs_next(uint8_t *input);

#endif
