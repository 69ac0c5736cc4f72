/* What the programs have in common that show a reference's answers. Tests check these against what is expected elsewhere. A line is shown
 * for each input.
 *
 *     PROGRAM                       takes the inputs from standard input, a line each
 *     PROGRAM COUNT SEED FILE...    takes COUNT of the comparison's own inputs */
#ifndef ANSWERING_H
#define ANSWERING_H

#include <stdbool.h>
#include <stddef.h>
#include <stdint.h>

/* Runs such a program and answers its exit status: 2 if a line or a file is wrong. `take` takes an input from a line and answers whether
 * it is one; `make` makes the next input; `show` shows the answers. */
int answering(int count, char **words, bool (*take)(const char *line), void (*make)(void), void (*show)(void));

/* Takes octets in hex, up to the line's end, and answers whether they fit. */
bool take_hex(const char *digits, uint8_t *octets, size_t room, size_t *size);

void show_hex(const uint8_t *octets, size_t size);

/* Shows numbers with a space between them. */
void show_numbers(const size_t *numbers, size_t count);

#endif
