// What is timed on a batch: every call of the library, and what it is compared with.
#ifndef CALLS_H
#define CALLS_H

#include <stdbool.h>
#include <stddef.h>

enum {
    COPY, LEAST, STRICT, STRICT_BY_CC, ACCEPT, READ, CLEARED, MOMENT, WRITE, MOVED, VERDICT, VERDICT_NUMBER, DUPLICATES, ACCEPT_BOTH, JOIN,
    CUT, READ_BOTH, COMPARE, COMPARE_SAME, COMPARE_PART, OPENSSL, CALLS
};

typedef struct {
    size_t length, rows, messages;
    bool pair_found;    // by phagundro_duplicates, which stops at the first pair
    double best[CALLS]; // seconds; 0 for one that isn't in this build, or has nothing to do on the batch
} figures;

const char *call_name(int call);

// Times all of them on a batch, taken by its path as take_input does.
void measure_calls(const char *path, figures *taken);

#endif
