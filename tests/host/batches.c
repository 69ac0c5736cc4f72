/* Batches: see batches.h. Each is built as a tree, perhaps damaged, and encoded. */
#include "batches.h"

#include "building.h"
#include "damage.h"
#include "random.h"

#include <stdio.h>
#include <string.h>

static const TrioSort *drawn_from;

static size_t share(size_t sort)
{
    return drawn_from[sort].share;
}

void make_one(Trio *trio, const TrioSort *sorts, size_t count)
{
    drawn_from = sorts;
    size_t sort = one_by_share(count, share);
    sorts[sort].make(trio);
    trio->sort = sort;
}

void encode_batch(Batch *made, Node *root)
{
    made->length = encode(root, made->octets, INPUT_ROOM);
}

unsigned some_forms(void)
{
    return (unsigned[]){NO_FORMS, FORMS_OF_1, FORMS_OF_2, FORMS_OF_2}[below(4)];
}

Node *batch_tree(unsigned forms, bool long_ids)
{
    trees_forget();
    building_start(forms, 0, long_ids);
    return batch(chance(2) ? 1 : 1 + below(4));
}

void whole_batch(Batch *made, unsigned forms)
{
    encode_batch(made, batch_tree(forms, false));
}

void damaged_batch(Batch *made, unsigned forms)
{
    Node *root = batch_tree(forms, false);
    bool as_bytes = chance(2);
    if (!as_bytes)
        damage_tree(root);
    encode_batch(made, root);
    if (as_bytes)
        made->length = damage_bytes(made->octets, made->length);
}

void any_batch(Batch *made)
{
    made->length = inputs_next(made->octets);
}

/* A message with a certReqId of 1 to 8 octets and nothing else: 9 to 16 octets. */
static Node *short_message(void)
{
    return around(0x30, add(add(box(0x30), integer_of(0x02, 1 + below(8))), box(0x30)));
}

void batch_of_content(Batch *made, size_t size)
{
    enum { TRIES = 100 };
    size_t target = header_around(size) + size, tries = 0;
    Node *root;
    building_start(NO_FORMS, 0, false);
    do {
        trees_forget();
        root = box(0x30);
        for (size_t left = below(3); left > 0; left--)
            add(root, short_message());
        if (root->first == NULL || (measure(root) != target && !chance(4)))
            fill(root, target);
    } while (measure(root) != target && ++tries < TRIES);
    encode_batch(made, root);
}

void batch_of_many(Batch *made, size_t messages)
{
    trees_forget();
    Node *root = box(0x30);
    for (; messages > 0; messages--)
        add(root, short_message());
    encode_batch(made, root);
}

size_t header_of(const uint8_t *accepted)
{
    return accepted[1] < 0x80 ? 2 : 2 + (accepted[1] & 0x7F);
}

size_t content_of(const Batch *accepted)
{
    return accepted->length - header_of(accepted->octets);
}

size_t header_around(size_t content)
{
    return content < 0x80 ? 2 : content <= 0xFF ? 3 : content <= 0xFFFF ? 4 : 5;
}

bool same_bytes(const Batch *one, const Batch *other)
{
    return one->length == other->length && memcmp(one->octets, other->octets, one->length) == 0;
}

void show_batch(const char *which, const Batch *batch)
{
    printf("the %s, %zu bytes:\n", which, batch->length);
    for (size_t i = 0; i < batch->length; i++)
        printf("%02X", batch->octets[i]);
    putchar('\n');
}
