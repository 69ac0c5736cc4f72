// What the benchmarks show: tables of batches, of refused batches and of texts.
#ifndef TABLES_H
#define TABLES_H

// Times the library's calls on batches, at most MOST_INPUTS of them, each taken by its path as take_input does, and shows the times by byte,
// beside the strict walk, and beside each other.
void measure_batches(int count, const char *const *paths);

// Times accepting and reading of the same batches with a fault near their ends, and shows them beside the same calls without one.
void measure_refusals(int count, const char *const *paths);

// Times the check of UTF-8, and shows it beside two checks in plain C.
void measure_texts(void);

#endif
