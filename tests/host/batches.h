/* Batches for the comparisons that take several at a time: whole and damaged, of one edition's forms and of several, and with a content or
 * a number of messages that is asked for; and sorts of three at a time, of which the third may be left out. */
#ifndef BATCHES_H
#define BATCHES_H

#include "inputs.h"
#include "tree.h"

#include <stdbool.h>
#include <stddef.h>
#include <stdint.h>

typedef struct {
    uint8_t octets[INPUT_ROOM];
    size_t length;
} Batch;

typedef struct {
    size_t sort; /* which of the sorts that it was drawn from */
    Batch first, second, third;
} Trio;

typedef struct {
    const char *name;
    size_t share; /* how often it occurs, beside the others */
    void (*make)(Trio *);
} TrioSort;

/* Makes batches of one of so many sorts. */
void make_one(Trio *trio, const TrioSort *sorts, size_t count);

/* Makes the batch that a tree is. */
void encode_batch(Batch *made, Node *root);

/* Some of the forms of one edition alone. */
unsigned some_forms(void);

/* The tree of a batch of one to four messages, with these forms; every other tree is forgotten. */
Node *batch_tree(unsigned forms, bool long_ids);

/* Such a batch, and such a one damaged. */
void whole_batch(Batch *made, unsigned forms);
void damaged_batch(Batch *made, unsigned forms);

/* The next of the comparison's inputs. */
void any_batch(Batch *made);

/* A batch whose content has `size` octets, or nearly if no such is found, and one of so many short messages. */
void batch_of_content(Batch *made, size_t size);
void batch_of_many(Batch *made, size_t messages);

/* The lengths of an accepted batch's header and content, and of the header around such a content. */
size_t header_of(const uint8_t *accepted);
size_t content_of(const Batch *accepted);
size_t header_around(size_t content);

bool same_bytes(const Batch *one, const Batch *other);

/* Shows a batch in hex, with its length. */
void show_batch(const char *which, const Batch *batch);

#endif
