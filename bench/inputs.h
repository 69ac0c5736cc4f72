// The batches that are measured.
#ifndef INPUTS_H
#define INPUTS_H

#include "phagundro.h"

enum {
    EDITION = PHAGUNDRO_RFC4211,
    MOST_NUMBERS = PHAGUNDRO_ROW_NUMBERS * PHAGUNDRO_MOST_ROWS,
    MOST_INPUTS = 32,
    LONGEST_NAME = 40,
    MADE = 2 // batches that the benchmarks make themselves
};

// The names of these, which stand for paths; a file of such a name is given with its folder.
extern const char *const made_names[MADE];

typedef struct {
    char name[LONGEST_NAME + 1];          // for the head of a column
    uint8_t bytes[PHAGUNDRO_LONGEST + 1]; // the batch, with room for one byte too many
    size_t length;
    size_t rows[MOST_NUMBERS]; // as phagundro_read shows them
    size_t numbers;            // of the rows
    size_t messages;
} input;

// The row at a position of the table.
const size_t *row_of(const input *of, size_t position);

// The head of a table: a column for each input.
void show_head(int count, const char *const *paths);

// Takes the batch of a file, or makes it if the path is one of made_names. A batch that is not accepted ends the program.
void take_input(const char *path, input *taken);

#endif
