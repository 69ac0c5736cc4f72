// Best times: the subjects of a measurement take turns over many rounds.
#ifndef ROUNDS_H
#define ROUNDS_H

#include <stdbool.h>

enum { ROUNDS = 150 };

// What is timed. A subject without a function isn't timed: its time is 0.
typedef struct {
    const char *name;
    bool (*run)(void);
} subject;

// Sets the best time of each subject on an input, in seconds a call. A subject that answers false ends the program.
void best_times(const subject *subjects, int count, const char *input, double *best);

// Ends the program with a message about an input.
void fail(const char *what, const char *input);

// Ends the program because a subject's answer on an input isn't the one that it has to give.
void fail_wrong(const subject *s, const char *input);

#endif
