/* The row of random numbers that all inputs are made from. It is the same for the same seed. */
#ifndef RANDOM_H
#define RANDOM_H

#include <stdbool.h>
#include <stddef.h>
#include <stdint.h>

void random_start(uint64_t seed);

/* A number below n. */
size_t below(size_t n);

/* Whether one chance in n comes true. */
bool chance(size_t n);

/* One of the numbers below `count`, each as often as its share says, beside the others' shares. */
size_t one_by_share(size_t count, size_t (*share)(size_t));

#endif
