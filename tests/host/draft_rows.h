/* The rows and the slice of a draft: what the sorts of drafts.c are made of. */
#ifndef DRAFT_ROWS_H
#define DRAFT_ROWS_H

#include "drafts.h"

enum { WIDTH = PHAGUNDRO_ROW_NUMBERS };
enum {
    KIND = PHAGUNDRO_ROW_KIND,
    FIRST = PHAGUNDRO_ROW_FIRST,
    WHOLE = PHAGUNDRO_ROW_LENGTH,
    PARENT = PHAGUNDRO_ROW_PARENT,
    CONTENT = PHAGUNDRO_ROW_CONTENT
};

/* A row, and how many there are. */
size_t *row(Draft *draft, size_t i);
size_t rows(const Draft *draft);

/* A row from the second on, and such a leaf; each batch has some. */
size_t some_row(Draft *draft);
size_t some_leaf(Draft *draft);

/* The first row after those below a row. */
size_t after(Draft *draft, size_t i);

/* Gives a row another first byte; its content's first byte moves with it. */
void move_row(size_t *numbers, size_t first);

/* Puts rows before the one at `at`, takes rows away, and adds a row at the end; its content's first byte is right in a leaf, and any number
 * in a container. */
void insert_rows(Draft *draft, size_t at, const size_t *numbers, size_t count);
void remove_rows(Draft *draft, size_t at, size_t count);
void add_row(Draft *draft, size_t kind, size_t first, size_t whole, size_t parent);

/* Moves the parents of the rows between two that are `least` or more. */
void move_parents(Draft *draft, size_t from, size_t to, size_t least, size_t by);

/* Appends octets to the slice; answers their place. */
size_t add_octets(Draft *draft, const void *octets, size_t size);

/* Appends octets that mean nothing. */
void add_garbage(Draft *draft, size_t size);

/* Any kind, or a number near one that is none, in a byte or past it. */
size_t any_kind(void);

/* A number at which arithmetic easily goes wrong. */
size_t far_off(void);

#endif
