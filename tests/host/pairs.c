/* Two batches at a time: see pairs.h. Mostly the second is the first with edits, or the reverse. */
#include "pairs.h"

#include "../../include/phagundro.h"
#include "building.h"
#include "damage.h"
#include "drafts.h"
#include "edits.h"
#include "random.h"
#include "reference.h"
#include "trios.h"

#include <string.h>

/* -- The largest batches -- */

void most_rows(Batch *made, uint8_t id, bool with_key)
{
    enum { HEADER = 4, LEAST = 9, KEY = 4 };
    trees_forget();
    Node *root = box(0x30);
    for (size_t left = (PHAGUNDRO_LONGEST - HEADER) / (LEAST + (with_key ? KEY : 0)); left > 0; left--) {
        Node *one = around(0x30, add(add(box(0x30), leaf(0x02, &id, 1)), box(0x30)));
        add(root, with_key ? add(one, around(0xA2, box(0xA4))) : one);
    }
    encode_batch(made, root);
}

/* -- Sorts of pairs -- */

static void exchange(Trio *pair)
{
    static Batch kept;
    kept = pair->first;
    pair->first = pair->second;
    pair->second = kept;
}

static void equal(Trio *pair)
{
    if (chance(3))
        any_batch(&pair->first);
    else
        whole_batch(&pair->first, some_forms());
    pair->second = pair->first;
}

/* Answers the edited tree. */
static Node *edited(Trio *pair, size_t edits)
{
    enum { TRIES = 5 };
    Node *root = batch_tree(some_forms(), false);
    encode_batch(&pair->first, root);
    if (chance(8))
        building_start(some_forms(), 0, false);
    for (size_t tries = 0; tries == 0 || (same_bytes(&pair->first, &pair->second) && tries < TRIES); tries++) {
        for (size_t left = edits; left > 0; left--)
            edit(root);
        encode_batch(&pair->second, root);
    }
    if (chance(2))
        exchange(pair);
    return root;
}

static void one_edit(Trio *pair)
{
    edited(pair, 1);
}

static void several_edits(Trio *pair)
{
    edited(pair, 2 + below(5));
}

static void rearranged(Trio *pair)
{
    building_start(some_forms(), 0, false);
    trees_forget();
    Node *root = batch(2 + below(6));
    encode_batch(&pair->first, root);
    rearrange(root);
    encode_batch(&pair->second, root);
}

/* A batch and one of its messages, or its join with another batch. */
static void cut_or_joined(Trio *pair)
{
    static Batch other;
    size_t edition = PHAGUNDRO_RFC2511 + below(2);
    unsigned forms = chance(2) ? NO_FORMS : edition == PHAGUNDRO_RFC2511 ? FORMS_OF_1 : FORMS_OF_2;
    Batch *first = &pair->first, *second = &pair->second;
    whole_batch(first, forms);
    whole_batch(&other, forms);
    switch (below(3)) {
    case 0: second->length = reference_cut(edition, first->octets, first->length, below(4), second->octets, INPUT_ROOM).count; break;
    case 1: second->length =
        reference_join(edition, first->octets, first->length, other.octets, other.length, second->octets, INPUT_ROOM).count; break;
    default: second->length =
        reference_join(edition, other.octets, other.length, first->octets, first->length, second->octets, INPUT_ROOM).count;
    }
    if (chance(2))
        exchange(pair);
}

/* What a draft is made from, and the batch that it describes; rarely the same, or none. */
static void of_a_draft(Trio *pair)
{
    enum { TRIES = 10 };
    static Draft draft;
    Batch *made = &pair->second;
    for (size_t tries = 0; tries == 0 || ((made->length == 0 || same_bytes(&pair->first, made)) && tries < TRIES); tries++) {
        drafts_next(&draft);
        memcpy(pair->first.octets, draft.batch, draft.batch_length);
        pair->first.length = draft.batch_length;
        made->length =
            reference_write(draft.edition, draft.numbers, draft.count, draft.slice, draft.length, made->octets, INPUT_ROOM).count;
    }
    if (chance(2))
        exchange(pair);
}

/* One of the two is damaged, near or past the deepest, or past the longest. */
static void edited_and_damaged(Trio *pair)
{
    Node *root = edited(pair, 1 + below(3));
    Batch *one = chance(2) ? &pair->first : &pair->second;
    if (chance(2)) {
        one->length = damage_bytes(one->octets, one->length);
        return;
    }
    switch (below(8)) {
    case 0: fill(root, PHAGUNDRO_LONGEST + 1 + below(3)); break;
    case 1: add(root, message_around(chain(15 + below(4)))); break; /* the value at depth 5 */
    default: damage_tree(root);
    }
    encode_batch(one, root);
}

/* A list of about 256 members, edited; or two batches of as many messages. */
static void of_many_members(Trio *pair)
{
    if (chance(4)) {
        batch_of_many(&pair->first, 254 + below(100));
        batch_of_many(&pair->second, 254 + below(100));
        return;
    }
    Node *root = batch_tree(some_forms(), false);
    lengthen(root, 254 + below(60));
    encode_batch(&pair->first, root);
    edit_longest(root);
    encode_batch(&pair->second, root);
}

static void of_most_rows(Trio *pair)
{
    static size_t made;
    size_t n = made++; /* each certReqId and sort of messages in turn, the most entries first */
    most_rows(&pair->first, 0, n % 2 == 0);
    most_rows(&pair->second, n / 4 % 2 == 0, n / 2 % 2 == 1);
}

/* -- The row of pairs -- */

const TrioSort pair_sorts[PAIR_SORTS] = {
    {"two of a trio", 1400, trios_next},
    {"equal", 240, equal},
    {"one edit", 1600, one_edit},
    {"several edits", 1000, several_edits},
    {"rearranged", 400, rearranged},
    {"cut or joined", 320, cut_or_joined},
    {"of a draft", 320, of_a_draft},
    {"edited and damaged", 320, edited_and_damaged},
    {"many members", 32, of_many_members},
    {"most rows", 2, of_most_rows},
};

void pairs_next(Trio *pair)
{
    make_one(pair, pair_sorts, PAIR_SORTS);
}
