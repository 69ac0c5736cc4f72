/* The kinds of rows as lists, each in ascending order. */
#ifndef KINDS_H
#define KINDS_H

#include <stdbool.h>
#include <stddef.h>
#include <stdint.h>

extern const uint8_t kinds[], containers[];
extern const size_t kinds_count, containers_count;

bool is_container(size_t kind);

#endif
