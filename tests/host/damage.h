/* Damage done to trees of elements and to bytes. */
#ifndef DAMAGE_H
#define DAMAGE_H

#include "tree.h"

/* Damages an element inside the root. */
void damage_tree(Node *root);

/* Changes an octet of an element inside the root that has no elements inside; answers whether one was found. */
bool change_octet(Node *root);

/* Takes a SET with two members or more inside the root and swaps two neighbours; answers whether there is one. */
bool disorder(Node *root);

/* Puts SETs out of order, and perhaps another fault before, in or after one of them. */
void disorder_tree(Node *root);

/* Exchanges the times of a validity that has both, if there is one inside the root, and perhaps puts an element after them. */
void turn_back(Node *root);

/* Damages bytes, of which there may be INPUT_ROOM; answers how many there are now. */
size_t damage_bytes(uint8_t *input, size_t length);

/* An identifier, mostly one that the grammar has. */
uint8_t any_identifier(void);

#endif
