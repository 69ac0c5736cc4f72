/* Damage done to trees of elements and to bytes. */
#include "damage.h"

#include "building.h"
#include "inputs.h"
#include "random.h"

#include <string.h>

static size_t tally(const Node *node)
{
    size_t found = 1;
    for (const Node *child = node->first; child; child = child->next)
        found += tally(child);
    return found;
}

/* The element that is the nth after the root, and its parent. */
static Node *pick(Node *node, size_t *nth, Node **parent)
{
    for (Node *child = node->first; child; child = child->next) {
        if ((*nth)-- == 0) {
            *parent = node;
            return child;
        }
        Node *found = pick(child, nth, parent);
        if (found)
            return found;
    }
    return NULL;
}

/* Puts what begins with `now` in the place of `was`, which is inside `parent`. */
static void replace(Node *parent, Node *was, Node *now)
{
    Node **link = &parent->first;
    while (*link != was)
        link = &(*link)->next;
    *link = now ? now : was->next;
    if (now) {
        while (now->next)
            now = now->next;
        now->next = was->next;
    }
    parent->last = NULL;
    for (Node *child = parent->first; child; child = child->next)
        parent->last = child;
    if (!parent->first)
        parent->size = 0;
}

uint8_t any_identifier(void)
{
    static const uint8_t ids[] = {0x01, 0x02, 0x03, 0x04, 0x05, 0x06, 0x0A, 0x0C, 0x17, 0x18, 0x30, 0x31, 0x80, 0x81, 0x82, 0x83, 0x86,
        0x87, 0x88, 0xA0, 0xA1, 0xA2, 0xA3, 0xA4, 0xA5, 0xA6, 0xA9, 0x1F, 0x24, 0x10, 0x09};
    return chance(4) ? (uint8_t)below(256) : ids[below(sizeof ids)];
}

/* -- What can be done to an element -- */

static void insert_after(Node *parent, Node *node, Node *made)
{
    made->next = node->next;
    node->next = made;
    if (parent->last == node)
        parent->last = made;
}

static void dropped(Node *parent, Node *node)
{
    replace(parent, node, NULL);
}

static void doubled(Node *parent, Node *node)
{
    insert_after(parent, node, copy(node));
}

static void swapped_with_the_next(Node *parent, Node *node)
{
    Node *other = node->next;
    if (!other)
        return;
    Node *pair = copy(other);
    pair->next = copy(node);
    replace(parent, other, NULL);
    replace(parent, node, pair);
}

static void identifier_changed(Node *parent, Node *node)
{
    (void)parent;
    node->id = (uint8_t)(chance(2) ? any_identifier() : chance(2) ? node->id + 1 : node->id - 1);
}

static void length_written_wrongly(Node *parent, Node *node)
{
    (void)parent;
    node->form = 1 + (int)below(FORMS - 1);
}

static void replaced_by_any(Node *parent, Node *node)
{
    replace(parent, node, any(2));
}

static void followed_by_any(Node *parent, Node *node)
{
    insert_after(parent, node, any(2));
}

static void replaced_by_its_inside(Node *parent, Node *node)
{
    if (node->first)
        replace(parent, node, copy(node)->first);
}

static void wrapped(Node *parent, Node *node)
{
    replace(parent, node, around(any_identifier() | 0x20, copy(node)));
}

static void emptied(Node *parent, Node *node)
{
    (void)parent;
    node->first = node->last = NULL;
    node->size = 0;
}

static void octet_changed(Node *parent, Node *node)
{
    (void)parent;
    if (node->first || node->size == 0)
        return;
    uint8_t *content = keep(node->content, node->size);
    size_t at = below(node->size);
    switch (below(4)) {
    case 0: content[at]++; break;
    case 1: content[at]--; break;
    case 2: content[at] = (uint8_t[]){0x00, 0x01, 0x02, 0x7F, 0x80, 0xFF}[below(6)]; break;
    default: content[at] = (uint8_t)below(256);
    }
    node->content = content;
}

static void replaced_by_a_construct(Node *parent, Node *node)
{
    static Node *(*const constructs[])(void) = {controls, reg_info, proof, template, message, cert_req};
    replace(parent, node, constructs[below(sizeof constructs / sizeof *constructs)]());
}

/* -- SETs -- */

/* Whether an element is a SET with two members or more. */
static bool several(const Node *node)
{
    return node->id == 0x31 && node->first != node->last;
}

/* How many elements inside another are such. */
static size_t count_such(const Node *node, bool (*such)(const Node *))
{
    size_t found = 0;
    for (const Node *child = node->first; child; child = child->next)
        found += such(child) + count_such(child, such);
    return found;
}

/* The nth of them, and its parent. */
static Node *pick_such(Node *node, bool (*such)(const Node *), size_t *nth, Node **parent)
{
    for (Node *child = node->first; child; child = child->next) {
        if (such(child) && (*nth)-- == 0) {
            *parent = node;
            return child;
        }
        Node *found = pick_such(child, such, nth, parent);
        if (found)
            return found;
    }
    return NULL;
}

/* One of them, or NULL if there is none. */
static Node *some_such(Node *root, bool (*such)(const Node *), Node **parent)
{
    size_t most = count_such(root, such), nth = most > 0 ? below(most) : 0;
    return pick_such(root, such, &nth, parent);
}

static void neighbours_swapped(Node *set)
{
    size_t members = 0;
    for (Node *child = set->first; child; child = child->next)
        members++;
    Node *node = set->first;
    for (size_t left = below(members - 1); left > 0; left--)
        node = node->next;
    swapped_with_the_next(set, node);
}

bool disorder(Node *root)
{
    Node *parent, *set = some_such(root, several, &parent);
    if (set)
        neighbours_swapped(set);
    return set != NULL;
}

/* An element that breaks a rule of the nest. */
static Node *faulty(void)
{
    static const uint8_t zero[1];
    Node *node = leaf(0x04, zero, 1);
    switch (below(4)) {
    case 0: return leaf(0x05, zero, 1);
    case 1: node->id = 0x1F; return node;
    case 2: return chain(21);
    default: node->form = (int[]){LONGER_FORM, INDEFINITE, ENORMOUS}[below(3)]; return node;
    }
}

/* Puts an element before the nth inside another, or after the last. */
static void insert(Node *parent, size_t nth, Node *made)
{
    Node **link = &parent->first;
    for (; nth > 0 && *link; nth--)
        link = &(*link)->next;
    made->next = *link;
    *link = made;
    if (!made->next)
        parent->last = made;
}

/* Swaps two neighbours in each SET around this one; answers whether it is the node or inside it. */
static bool swapped_around(Node *node, const Node *set)
{
    bool inside = false;
    for (Node *child = node->first; child && !inside; child = child->next)
        inside = swapped_around(child, set);
    if (inside && several(node))
        neighbours_swapped(node);
    return inside || node == set;
}

void disorder_tree(Node *root)
{
    Node *parent, *set = some_such(root, several, &parent);
    if (!set)
        return;
    neighbours_swapped(set);
    switch (below(6)) {
    case 0: insert(parent, below(2), faulty()); break; /* before it or after it */
    case 1: insert_after(parent, set, faulty()); break;
    case 2: insert(set, below(4), faulty()); break;
    case 3: set->id = (uint8_t[]){0xB1, 0xA0, 0x71, 0x30}[below(4)]; break; /* so that its order is free */
    default: break;
    }
    if (chance(2))
        swapped_around(root, set);
}

/* -- Validities -- */

/* Whether an element is a validity with both times. */
static bool has_both_times(const Node *node)
{
    const Node *from = node->first, *to = node->last;
    return node->id == 0xA4 && from && from->next == to && to && from->id == 0xA0 && to->id == 0xA1 && from->first && to->first;
}

void turn_back(Node *root)
{
    Node *parent, *validity = some_such(root, has_both_times, &parent);
    if (!validity)
        return;
    Node *from = validity->first, *to = validity->last, *time = from->first;
    from->first = from->last = to->first;
    to->first = to->last = time;
    from->first->next = to->first->next = NULL;
    if (chance(3))
        add(validity, chance(2) ? any(1) : limit());
}

bool change_octet(Node *root)
{
    enum { TRIES = 20 };
    for (int tries = 0; tries < TRIES; tries++) {
        size_t nth = below(tally(root));
        Node *parent = NULL, *node = pick(root, &nth, &parent);
        if (node && !node->first && node->size > 0) {
            octet_changed(parent, node);
            return true;
        }
    }
    return false;
}

void damage_tree(Node *root)
{
    static void (*const damages[])(Node *parent, Node *node) = {dropped, doubled, swapped_with_the_next, identifier_changed,
        length_written_wrongly, replaced_by_any, followed_by_any, replaced_by_its_inside, wrapped, emptied, octet_changed,
        replaced_by_a_construct};
    size_t most = tally(root) - 1;
    if (most == 0)
        return;
    size_t nth = below(most);
    Node *parent = NULL, *node = pick(root, &nth, &parent);
    damages[below(sizeof damages / sizeof *damages)](parent, node);
}

/* -- What can be done to bytes -- */

size_t damage_bytes(uint8_t *input, size_t length)
{
    size_t at = length > 0 ? below(length) : 0;
    switch (below(8)) {
    case 0:
        if (length > 0)
            input[at] ^= (uint8_t)(1 << below(8));
        return length;
    case 1:
        if (length > 0)
            input[at] = any_identifier();
        return length;
    case 2:
        if (length > 0)
            input[at] = (uint8_t)(input[at] + (chance(2) ? 1 : 0xFF));
        return length;
    case 3:
        return at;
    case 4:
        for (size_t left = 1 + below(chance(8) ? 300 : 3); left > 0 && length < INPUT_ROOM; left--)
            input[length++] = chance(2) ? 0x00 : any_identifier();
        return length;
    case 5:
        if (length > 0)
            memmove(input + at, input + at + 1, --length - at);
        return length;
    case 6:
        if (length < INPUT_ROOM) {
            memmove(input + at + 1, input + at, length++ - at);
            input[at] = any_identifier();
        }
        return length;
    default: /* a length octet at the front of the nest */
        at = 1 + 2 * below(6);
        if (at < length)
            input[at] = (uint8_t)below(256);
        return length;
    }
}
