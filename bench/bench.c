// The benchmarks: the library's calls on the batches that are named and on some of its own, accepted and refused, and the check of UTF-8 on
// texts of its own.
#include "inputs.h"
#include "tables.h"

#include <stdio.h>
#include <string.h>

int main(int argc, char **argv)
{
    const char *paths[MOST_INPUTS];
    int count = argc - 1;
    if (count < 1 || count > MOST_INPUTS - MADE) {
        fprintf(stderr, "usage: bench BATCH...\n");
        return 2;
    }
    memcpy(paths, argv + 1, (size_t)count * sizeof *paths);
    memcpy(paths + count, made_names, sizeof made_names);
    measure_batches(count + MADE, paths);
    measure_refusals(count + MADE, paths);
    measure_texts();
    return 0;
}
