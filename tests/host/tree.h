/* Trees of elements, which are built, changed and encoded. They are all forgotten at once. */
#ifndef TREE_H
#define TREE_H

#include <stdbool.h>
#include <stddef.h>
#include <stdint.h>

/* How the length is written: as it should be, or wrong. */
enum { RIGHT, LONGER_FORM, LEADING_ZERO, INDEFINITE, RESERVED, ONE_MORE, ONE_LESS, ENORMOUS, FORMS };

typedef struct Node Node;
struct Node {
    uint8_t id;
    int form;
    Node *first, *last, *next; /* the elements inside, if there are any, and the next beside it */
    const uint8_t *content;    /* else the content */
    size_t size;               /* of the content, also of what is inside once it is measured */
};

/* Forgets every tree. */
void trees_forget(void);

/* Octets that last as long as the trees; a copy, or any octets if `content` is NULL. */
uint8_t *keep(const void *content, size_t size);

/* An element with a content, with no content yet, and around another. */
Node *leaf(uint8_t id, const void *content, size_t size);
Node *box(uint8_t id);
Node *around(uint8_t id, Node *child);

/* Adds an element inside another, after those that are there, and answers the outer one. */
Node *add(Node *node, Node *child);

Node *copy(const Node *node);

/* Puts what is inside an element in the order of the encodings, as a SET has it, and answers the element. */
Node *in_order(Node *node);

/* Measures the content of each element; answers the whole length. */
size_t measure(Node *node);

/* Writes a tree, as far as there is room; answers its length. */
size_t encode(Node *root, uint8_t *output, size_t room);

/* Reads elements into an element, as far as they are well formed; answers whether all were. */
bool parse(Node *parent, const uint8_t *bytes, size_t size);

#endif
