/* What the numbers say: the answers, the differences between the editions, the verdicts, the changes, the row kinds and the editions. */
#ifndef MEANINGS_H
#define MEANINGS_H

#include <stdbool.h>
#include <stddef.h>

/* The meaning of a number that comes back. */
const char *meaning_of(size_t number);

/* Whether the place beside a number is a byte of the batch. */
bool has_place(size_t number);

/* A form that one edition alone allows, and which of the differences between the editions it belongs to, D1 to D4. */
typedef struct {
    size_t number;  /* of the difference; 0 for none */
    size_t edition; /* the one that allows the form */
    const char *form;
} difference;

/* The difference that a row of a kind may have. */
difference difference_in(size_t kind);

/* The meaning of a verdict. */
const char *verdict_of(size_t verdict);

/* What an entry of a comparison says of its field. */
const char *change_of(size_t what);

/* The name of a row kind. */
const char *kind_name(size_t kind);

/* An edition's document, in brackets after a space; nothing for a number that is no edition. */
const char *edition_name(size_t edition);

#endif
