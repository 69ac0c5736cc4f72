/* Trees of elements, in memory that is taken once. */
#include "tree.h"

#include <stdlib.h>
#include <string.h>

enum { NODES = 400000, OCTETS = 1 << 21 };
static Node nodes[NODES];
static uint8_t octets[OCTETS];
static size_t nodes_used, octets_used;

void trees_forget(void)
{
    nodes_used = octets_used = 0;
}

uint8_t *keep(const void *content, size_t size)
{
    if (OCTETS - octets_used < size)
        abort();
    uint8_t *kept = octets + octets_used;
    if (content)
        memcpy(kept, content, size);
    octets_used += size;
    return kept;
}

Node *leaf(uint8_t id, const void *content, size_t size)
{
    if (nodes_used == NODES)
        abort();
    Node *node = &nodes[nodes_used++];
    *node = (Node){.id = id, .content = keep(content, size), .size = size};
    return node;
}

Node *box(uint8_t id)
{
    return leaf(id, NULL, 0);
}

Node *add(Node *node, Node *child)
{
    if (node->last)
        node->last->next = child;
    else
        node->first = child;
    node->last = child;
    return node;
}

Node *around(uint8_t id, Node *child)
{
    return add(box(id), child);
}

Node *copy(const Node *node)
{
    Node *made = leaf(node->id, node->first ? NULL : node->content, node->first ? 0 : node->size);
    made->form = node->form;
    for (const Node *child = node->first; child; child = child->next)
        add(made, copy(child));
    return made;
}

static size_t length_octets(size_t size)
{
    return size < 0x80 ? 1 : size < 0x100 ? 2 : size < 0x10000 ? 3 : 4;
}

static size_t header_size(const Node *node)
{
    size_t usual = length_octets(node->size);
    switch (node->form) {
    case LONGER_FORM: return 1 + (usual == 1 ? 2 : usual + 1);
    case LEADING_ZERO: return 1 + 5;
    case INDEFINITE: case RESERVED: return 1 + 1;
    case ENORMOUS: return 1 + 11;
    default: return 1 + usual;
    }
}

size_t measure(Node *node)
{
    if (node->first) {
        node->size = 0;
        for (Node *child = node->first; child; child = child->next)
            node->size += measure(child);
    }
    return header_size(node) + node->size;
}

/* Where the next octet is written, and where the room ends. */
static uint8_t *next_octet, *room_end;

static void put(size_t octet)
{
    if (next_octet < room_end)
        *next_octet++ = (uint8_t)octet;
}

static void put_length(size_t size, size_t octets_of)
{
    if (octets_of > 1)
        put(0x80 + octets_of - 1);
    for (size_t k = octets_of > 1 ? octets_of - 1 : 1; k-- > 0;)
        put(k < 8 ? size >> 8 * k : 0);
}

/* Writes the length as the element's form has it. */
static void put_length_of(const Node *node)
{
    size_t usual = length_octets(node->size);
    switch (node->form) {
    case LONGER_FORM: put_length(node->size, header_size(node) - 1); break;
    case LEADING_ZERO: put_length(node->size, 5); break;
    case INDEFINITE: put(0x80); break;
    case RESERVED: put(0xFF); break;
    case ENORMOUS:
        put(0x8A);
        for (int i = 0; i < 10; i++)
            put(0xFF);
        break;
    case ONE_MORE: put_length(node->size + (node->size != 0x7F && node->size != 0xFF), usual); break;
    case ONE_LESS: put_length(node->size - (node->size != 0 && node->size != 0x80), usual); break;
    default: put_length(node->size, usual);
    }
}

static void put_element(const Node *node)
{
    put(node->id);
    put_length_of(node);
    if (node->first)
        for (const Node *child = node->first; child; child = child->next)
            put_element(child);
    else
        for (size_t i = 0; i < node->size; i++)
            put(node->content[i]);
}

size_t encode(Node *root, uint8_t *output, size_t room)
{
    measure(root);
    next_octet = output;
    room_end = output + room;
    put_element(root);
    return (size_t)(next_octet - output);
}

/* Whether an element's octets are less than another's; the shorter one's are followed by zero octets. */
static bool less(Node *one, Node *other)
{
    static uint8_t octets_of[2][1 << 16];
    size_t size = encode(one, octets_of[0], sizeof octets_of[0]), other_size = encode(other, octets_of[1], sizeof octets_of[1]);
    size_t longer = size > other_size ? size : other_size;
    memset(octets_of[0] + size, 0, longer - size);
    memset(octets_of[1] + other_size, 0, longer - other_size);
    return memcmp(octets_of[0], octets_of[1], longer) < 0;
}

Node *in_order(Node *node)
{
    Node *left = node->first;
    node->first = node->last = NULL;
    while (left) {
        Node *taken = left, **link = &node->first;
        left = left->next;
        while (*link && !less(taken, *link))
            link = &(*link)->next;
        taken->next = *link;
        *link = taken;
        if (!taken->next)
            node->last = taken;
    }
    return node;
}

bool parse(Node *parent, const uint8_t *bytes, size_t size)
{
    while (size > 0) {
        if (size < 2)
            return false;
        size_t used = 2, length = bytes[1];
        if (length > 0x82 || length == 0x80)
            return false;
        if (length > 0x80) {
            used += length - 0x80;
            if (size < used)
                return false;
            length = used == 3 ? bytes[2] : (size_t)bytes[2] << 8 | bytes[3];
        }
        if (size - used < length)
            return false;
        Node *node = bytes[0] & 0x20 ? box(bytes[0]) : leaf(bytes[0], bytes + used, length);
        add(parent, node);
        if (bytes[0] & 0x20 && !parse(node, bytes + used, length))
            return false;
        bytes += used + length;
        size -= used + length;
    }
    return true;
}
