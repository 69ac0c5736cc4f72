/* Edits that leave a batch a batch: messages, extensions, items and fields of its tree are dropped, added, moved and replaced. The tree was
 * built without slips. What is added is built as building_start says. */
#ifndef EDITS_H
#define EDITS_H

#include "tree.h"

/* Edits one part of a batch; rarely an octet of any element, so that what comes out may be refused. */
void edit(Node *root);

/* Puts the messages of a batch in another order. */
void rearrange(Node *root);

/* Gives a list of the batch so many members: messages, extensions or items. */
void lengthen(Node *root, size_t size);

/* Drops, adds, doubles, swaps, moves or replaces members of the longest list. */
void edit_longest(Node *root);

#endif
