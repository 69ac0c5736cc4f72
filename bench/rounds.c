// Each figure is the best of many rounds. In a round the subjects take turns, so that a busy moment of the machine spoils one round and not
// one subject.
#include "rounds.h"

#include <stdio.h>
#include <stdlib.h>
#include <time.h>

enum { MOST_SUBJECTS = 32 };
static const double LEAST_TIME = 200e-6; // seconds that the calls of one measurement take at least

static double seconds(void)
{
    struct timespec now;
    clock_gettime(CLOCK_MONOTONIC, &now);
    return (double)now.tv_sec + (double)now.tv_nsec * 1e-9;
}

void fail(const char *what, const char *input)
{
    fprintf(stderr, "bench: %s: %s\n", input, what);
    exit(2);
}

void fail_wrong(const subject *s, const char *input)
{
    fprintf(stderr, "bench: %s: %s gives a wrong answer\n", input, s->name);
    exit(2);
}

static double time_of(const subject *s, long calls, const char *input)
{
    double start = seconds();
    for (long i = 0; i < calls; i++)
        if (!s->run())
            fail_wrong(s, input);
    return (seconds() - start) / (double)calls;
}

void best_times(const subject *subjects, int count, const char *input, double *best)
{
    long calls[MOST_SUBJECTS];
    for (int s = 0; s < count; s++) {
        best[s] = 0;
        if (subjects[s].run == NULL)
            continue;
        double once = time_of(&subjects[s], 3, input);
        calls[s] = once > 0 ? (long)(LEAST_TIME / once) + 1 : 1000;
    }
    for (int round = 0; round < ROUNDS; round++)
        for (int s = 0; s < count; s++) {
            if (subjects[s].run == NULL)
                continue;
            double now = time_of(&subjects[s], calls[s], input);
            if (round == 0 || now < best[s])
                best[s] = now;
        }
}
