/* Three batches at a time: see trios.h. Each is made before the next. */
#include "trios.h"

#include "../../include/phagundro.h"
#include "building.h"
#include "damage.h"
#include "random.h"
#include "requests.h"

enum { LEAST_CONTENT = 9, LONGEST_CONTENT = PHAGUNDRO_LONGEST - 4 };

/* A size at which a header is about to grow. */
static size_t at_growth(void)
{
    return (chance(2) ? 0x80 : 0x100) - 2 + below(4);
}

static size_t some_content(size_t most)
{
    return LEAST_CONTENT + below(most - LEAST_CONTENT);
}

/* Two batches whose contents have `size` octets together. */
static void parted(Batch *one, Batch *two, size_t size)
{
    size_t part = some_content(size - LEAST_CONTENT);
    if (chance(4))
        part = chance(2) ? LEAST_CONTENT : size - LEAST_CONTENT;
    batch_of_content(one, part);
    batch_of_content(two, size - part);
}

/* -- Sorts of trios -- */

static void all_whole(Trio *trio)
{
    unsigned forms = some_forms();
    whole_batch(&trio->first, forms);
    whole_batch(&trio->second, forms);
    whole_batch(&trio->third, forms);
}

static void any_inputs(Trio *trio)
{
    any_batch(&trio->first);
    any_batch(&trio->second);
    any_batch(&trio->third);
}

static void of_requests(Trio *trio)
{
    trio->first.length = requests_next(trio->first.octets);
    trio->second.length = requests_next(trio->second.octets);
    trio->third.length = requests_next(trio->third.octets);
}

static void one_damaged(Trio *trio)
{
    all_whole(trio);
    damaged_batch(chance(2) ? &trio->first : &trio->second, some_forms());
}

static void both_damaged(Trio *trio)
{
    all_whole(trio);
    damaged_batch(&trio->first, some_forms());
    damaged_batch(&trio->second, some_forms());
}

static void of_other_forms(Trio *trio)
{
    whole_batch(&trio->first, some_forms());
    whole_batch(&trio->second, some_forms());
    whole_batch(&trio->third, some_forms());
}

static void with_long_ids(Trio *trio)
{
    all_whole(trio);
    encode_batch(chance(2) ? &trio->first : &trio->second, batch_tree(NO_FORMS, true));
}

static void one_again(Trio *trio)
{
    all_whole(trio);
    trio->second = trio->first;
}

/* The header of the first, of the second, of the first two's join or of all three's grows. */
static void at_a_longer_header(Trio *trio)
{
    batch_of_content(&trio->third, some_content(300));
    switch (below(4)) {
    case 0:
        batch_of_content(&trio->first, at_growth());
        batch_of_content(&trio->second, some_content(300));
        break;
    case 1:
        batch_of_content(&trio->first, some_content(300));
        batch_of_content(&trio->second, at_growth());
        break;
    case 2:
        parted(&trio->first, &trio->second, at_growth());
        break;
    default:
        batch_of_content(&trio->first, LEAST_CONTENT + below(40));
        parted(&trio->second, &trio->third, at_growth() - content_of(&trio->first));
    }
}

/* The join of the first two, or of all three. */
static void near_the_longest(Trio *trio)
{
    size_t size = LONGEST_CONTENT - 3 + below(7), last = chance(2) ? some_content(size / 2) : 0;
    parted(&trio->first, &trio->second, size - last);
    batch_of_content(&trio->third, last > 0 ? last : some_content(300));
}

static void long_and_damaged(Trio *trio)
{
    near_the_longest(trio);
    Batch *one = chance(4) ? &trio->first : &trio->second;
    one->length = damage_bytes(one->octets, one->length);
}

static void one_too_long(Trio *trio)
{
    all_whole(trio);
    batch_of_content(chance(2) ? &trio->first : &trio->second, LONGEST_CONTENT + below(3));
}

static void of_many_messages(Trio *trio)
{
    static const size_t many[] = {255, 256, 257, 300, 600};
    all_whole(trio);
    size_t messages = many[below(sizeof many / sizeof *many)];
    batch_of_many(chance(4) ? &trio->second : &trio->first, messages);
}

/* -- The row of trios -- */

const TrioSort trio_sorts[TRIO_SORTS] = {
    {"whole batches of the same forms", 200, all_whole},
    {"any inputs", 300, any_inputs},
    {"requests", 100, of_requests},
    {"one damaged", 150, one_damaged},
    {"both damaged", 50, both_damaged},
    {"whole batches of other forms", 150, of_other_forms},
    {"long certReqIds", 40, with_long_ids},
    {"the first again", 40, one_again},
    {"at a longer header", 200, at_a_longer_header},
    {"near the longest", 8, near_the_longest},
    {"long and damaged", 4, long_and_damaged},
    {"one too long", 3, one_too_long},
    {"many messages", 10, of_many_messages},
};

void trios_next(Trio *trio)
{
    make_one(trio, trio_sorts, TRIO_SORTS);
}
