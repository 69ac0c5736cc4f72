// The tables of accepted batches: a row for each call, a column for each batch.
#include "calls.h"
#include "inputs.h"
#include "rounds.h"
#include "show.h"
#include "tables.h"

#include <stdio.h>

static const struct {
    const char *name;
    int of, to;
} ratios[] = {
    {"write / read", WRITE, READ},
    {"write, leaves elsewhere / read", MOVED, READ},
    {"duplicates / accept", DUPLICATES, ACCEPT},
    {"read / strict walk", READ, STRICT},
    {"join / accepting both, memcpy", JOIN, ACCEPT_BOTH},
    {"cut / accept", CUT, ACCEPT},
    {"compare / reading both", COMPARE, READ_BOTH},
    {"compare, same bytes / reading both", COMPARE_SAME, READ_BOTH},
    {"compare_part / reading both", COMPARE_PART, READ_BOTH},
};

static figures inputs[MOST_INPUTS];

static void show_inputs(int count)
{
    begin_row("bytes");
    for (int i = 0; i < count; i++)
        show_number((double)inputs[i].length, 0);
    end_row();
    begin_row("rows");
    for (int i = 0; i < count; i++)
        show_number((double)inputs[i].rows, 0);
    end_row();
    begin_row("messages");
    for (int i = 0; i < count; i++)
        show_number((double)inputs[i].messages, 0);
    end_row();
    begin_row("duplicates found");
    for (int i = 0; i < count; i++)
        show_words(inputs[i].pair_found ? "yes" : "no");
    end_row();
}

static void show_times(int count)
{
    for (int call = 0; call < CALLS; call++) {
        begin_row(call_name(call));
        for (int i = 0; i < count; i++)
            show_number(inputs[i].best[call] * 1e9 / (double)inputs[i].length, 3);
        end_row();
    }
}

static void show_ratio(const char *name, int count, int of, int to)
{
    begin_row(name);
    for (int i = 0; i < count; i++)
        show_number(inputs[i].best[of] / inputs[i].best[to], 2);
    end_row();
}

void measure_batches(int count, const char *const *paths)
{
    for (int i = 0; i < count; i++)
        measure_calls(paths[i], &inputs[i]);
    printf("\nNanoseconds a byte, best of %d rounds:\n\n", ROUNDS);
    show_head(count, paths);
    show_inputs(count);
    show_times(count);
    printf("\nTimes the strict walk:\n\n");
    show_head(count, paths);
    for (int call = 0; call < CALLS; call++)
        show_ratio(call_name(call), count, call, STRICT);
    printf("\nRatios:\n\n");
    show_head(count, paths);
    for (size_t r = 0; r < sizeof ratios / sizeof ratios[0]; r++)
        show_ratio(ratios[r].name, count, ratios[r].of, ratios[r].to);
}
