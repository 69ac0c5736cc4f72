/* Edits of a batch's tree: see edits.h. A list is taken apart into its members and put together again. */
#include "edits.h"

#include "building.h"
#include "damage.h"
#include "paper.h"
#include "random.h"

#include <string.h>

/* -- Members of a list -- */

enum { MOST = 8000 };
static Node *members[MOST];
static size_t size;

static void take_apart(const Node *list)
{
    size = 0;
    for (Node *child = list->first; child && size < MOST; child = child->next)
        members[size++] = child;
}

static void put_together(Node *list)
{
    list->first = list->last = NULL;
    list->size = 0;
    for (size_t i = 0; i < size; i++) {
        members[i]->next = NULL;
        add(list, members[i]);
    }
}

static void keep_member(Node *node)
{
    if (node && size < MOST)
        members[size++] = node;
}

static void insert_member(size_t at, Node *node)
{
    keep_member(node);
    memmove(members + at + 1, members + at, (size - 1 - at) * sizeof *members);
    members[at] = node;
}

static void drop_member(size_t at)
{
    memmove(members + at, members + at + 1, (--size - at) * sizeof *members);
}

static void swap_members(size_t one, size_t other)
{
    Node *kept = members[one];
    members[one] = members[other];
    members[other] = kept;
}

/* -- The lists, requests and validities of a batch -- */

typedef struct {
    Node *node;
    Node *(*further)(void); /* a member to add */
} List;

static List lists[MOST];
static Node *requests[MOST], *validities[MOST];
static size_t lists_found, requests_found, validities_found;

static Node *further_extension(void)
{
    return extensions()->first;
}

static Node *further_control(void)
{
    return controls()->first;
}

static Node *further_item(void)
{
    return reg_info()->first;
}

static void note_list(Node *node, Node *(*further)(void))
{
    if (lists_found < MOST)
        lists[lists_found++] = (List){node, further};
}

static Node *child_with(const Node *node, uint8_t id)
{
    Node *child = node->first;
    while (child && child->id != id)
        child = child->next;
    return child;
}

static void note_request(Node *request)
{
    Node *template = request->first->next, *list = child_with(template, 0xA9), *validity = child_with(template, 0xA4);
    if (requests_found < MOST)
        requests[requests_found++] = request;
    if (validity && validities_found < MOST)
        validities[validities_found++] = validity;
    if (list)
        note_list(list, further_extension);
    if (template->next)
        note_list(template->next, further_control);
}

/* The certReq that an item of regInfo carries, or NULL; an octet of its type may have been changed. */
static Node *carried(const Node *item)
{
    static const uint8_t type[] = {0x2B, 0x06, 0x01, 0x05, 0x05, 0x07, 0x05, 0x02, CARRIED_CERT_REQ};
    const Node *own = item->first, *id = own->next->first;
    bool typed = own->size == sizeof type && memcmp(own->content, type, sizeof type) == 0;
    return typed && id && id->id == 0x02 && id->next && id->next->id == 0x30 ? own->next : NULL;
}

/* The proof of a message and its regInfo, or NULL. */
static Node *proof_of(const Node *message)
{
    Node *next = message->first->next;
    return next && next->id != 0x30 ? next : NULL;
}

static Node *info_of(const Node *message)
{
    return message->last != message->first && message->last->id == 0x30 ? message->last : NULL;
}

static void look_through(Node *root)
{
    lists_found = requests_found = validities_found = 0;
    note_list(root, message);
    for (Node *one = root->first; one; one = one->next) {
        note_request(one->first);
        if (!info_of(one))
            continue;
        note_list(info_of(one), further_item);
        for (Node *item = info_of(one)->first; item; item = item->next)
            if (carried(item))
                note_request(carried(item));
    }
}

/* -- Edits -- */

static void edit_list(List list)
{
    take_apart(list.node);
    size_t at = below(size), other = below(size);
    switch (below(8)) {
    case 0: case 1:
        if (size > 1)
            drop_member(at);
        break;
    case 2: insert_member(below(size + 1), list.further()); break;
    case 3: insert_member(at, copy(members[other])); break;
    case 4: swap_members(at, other); break;
    case 5: members[at] = list.further(); break;
    case 6: /* one moved to the front */
        for (; at > 0; at--)
            swap_members(at - 1, at);
        break;
    default:
        for (size_t i = 0; i < size / 2; i++)
            swap_members(i, size - 1 - i);
    }
    put_together(list.node);
}

/* Takes one field of the template from another, or away if the other hasn't got it. */
static void edit_field(Node *request)
{
    static const uint8_t ids[TEMPLATE_TAGS] = {0x80, 0x81, 0xA2, 0xA3, 0xA4, 0xA5, 0xA6, 0x87, 0x88, 0xA9};
    Node *own = request->first->next, *other = template();
    size_t taken = below(TEMPLATE_TAGS);
    size = 0;
    for (size_t tag = 0; tag < TEMPLATE_TAGS; tag++)
        keep_member(child_with(tag == taken ? other : own, ids[tag]));
    put_together(own);
}

/* Puts another time in a notBefore or a notAfter, which may then be the later of the two. */
static void edit_time(Node *validity)
{
    Node *changed = chance(2) ? validity->first : validity->last;
    changed->first = changed->last = limit()->first;
}

static void edit_id(Node *request)
{
    take_apart(request);
    members[0] = integer_of(0x02, 1 + below(LONGEST_ID));
    put_together(request);
}

/* Drops or replaces a part that may be missing, or makes it. */
static Node *another(Node *part, Node *(*make)(void))
{
    return part && chance(2) ? NULL : make();
}

static void edit_controls(Node *request)
{
    Node *template = request->first->next, *now = another(template->next, controls);
    take_apart(request);
    size = 2;
    keep_member(now);
    put_together(request);
}

static void edit_message(Node *message)
{
    bool of_proof = chance(2);
    Node *now = of_proof ? another(proof_of(message), proof) : proof_of(message);
    Node *info = of_proof ? info_of(message) : another(info_of(message), reg_info);
    take_apart(message);
    size = 1;
    keep_member(now);
    keep_member(info);
    put_together(message);
}

static Node *some_message(Node *root)
{
    take_apart(root);
    return members[below(size)];
}

void edit(Node *root)
{
    look_through(root);
    Node *request = requests[below(requests_found)];
    if (validities_found > 0 && chance(12)) {
        edit_time(validities[below(validities_found)]);
        return;
    }
    switch (below(12)) {
    case 0: edit_id(request); break;
    case 1: edit_controls(request); break;
    case 2: case 3: edit_field(request); break;
    case 4: case 5: edit_message(some_message(root)); break;
    case 6: change_octet(root); break;
    default: edit_list(lists[below(lists_found)]);
    }
}

void rearrange(Node *root)
{
    take_apart(root);
    for (size_t i = size; i > 1; i--)
        swap_members(i - 1, below(i));
    put_together(root);
}

void lengthen(Node *root, size_t wanted)
{
    look_through(root);
    List list = lists[below(lists_found)];
    take_apart(list.node);
    while (size < wanted)
        keep_member(list.node == root && !chance(8) ? least_message() : list.further());
    put_together(list.node);
}

void edit_longest(Node *root)
{
    look_through(root);
    List longest = lists[0];
    size_t most = 0;
    for (size_t i = 0; i < lists_found; i++) {
        take_apart(lists[i].node);
        longest = size > most ? lists[i] : longest;
        most = size > most ? size : most;
    }
    edit_list(longest);
}
