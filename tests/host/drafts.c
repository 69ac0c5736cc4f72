/* A draft is made from a source, an accepted batch with its rows: first it is those rows over the batch's bytes, and then what its sort
 * says is done to the rows or the slice. */
#include "drafts.h"

#include "damage.h"
#include "draft_rows.h"
#include "inputs.h"
#include "kinds.h"
#include "random.h"
#include "reference.h"

#include <string.h>

enum { MOST_NUMBERS = WIDTH * 33000 };
enum { LONG_DRAFT = 30000 }; /* rows: a draft that has more isn't made longer still */

/* -- Where drafts come from -- */

typedef struct {
    uint8_t bytes[INPUT_ROOM];
    size_t length, edition, count; /* of rows */
    size_t numbers[MOST_NUMBERS];
} Source;

static Source sources[2];
static size_t present, left; /* which of the two is used, and for how many drafts more; the other is the one before */

/* The next input that an edition accepts. */
static void next_source(void)
{
    Source *source = &sources[present = 1 - present];
    do {
        source->length = inputs_next(source->bytes);
        source->edition = 1 + below(2);
        reference_answer answer = reference_read(source->edition, source->bytes, source->length, source->numbers, MOST_NUMBERS);
        source->count = answer.count;
    } while (source->count == 0);
    left = source->length > 5000 ? 1 : 1 + below(8);
}

/* -- Slices laid out anew -- */

/* Where the slice has these octets from a place on, or where they begin so that its end has their first ones. */
static size_t found(const Draft *draft, const uint8_t *octets, size_t size)
{
    size_t from = draft->length > 3000 ? draft->length - 3000 : 0;
    for (; from < draft->length; from++) {
        size_t common = draft->length - from < size ? draft->length - from : size;
        if (memcmp(draft->slice + from, octets, common) == 0)
            break;
    }
    return from;
}

/* Lays the leaves of the source out in the slice anew, in any order: with gaps, or overlapping as far as they can. */
static void lay_out(Draft *draft, bool overlapping)
{
    static size_t order[DRAFT_NUMBERS / WIDTH];
    const Source *source = &sources[present];
    for (size_t i = 0; i < rows(draft); i++) {
        size_t other = below(i + 1);
        order[i] = order[other];
        order[other] = i;
    }
    draft->length = 0;
    for (size_t i = 0; i < rows(draft); i++) {
        size_t *numbers = row(draft, order[i]);
        if (is_container(numbers[KIND]))
            continue;
        const uint8_t *octets = source->bytes + numbers[FIRST];
        if (!overlapping && source->length < 3000)
            add_garbage(draft, below(4));
        size_t at = overlapping ? found(draft, octets, numbers[WHOLE]) : draft->length;
        size_t common = draft->length - at < numbers[WHOLE] ? draft->length - at : numbers[WHOLE];
        add_octets(draft, octets + common, numbers[WHOLE] - common);
        move_row(numbers, at);
    }
}

/* -- Drafts that describe the batch they were made from -- */

static void as_it_is(Draft *draft)
{
    (void)draft;
}

static void scattered(Draft *draft)
{
    lay_out(draft, false);
}

static void overlapping(Draft *draft)
{
    lay_out(draft, true);
}

/* "containers' place and length are ignored" */
static void containers_anyhow(Draft *draft)
{
    for (size_t i = 0; i < rows(draft); i++)
        if (is_container(row(draft, i)[KIND])) {
            row(draft, i)[FIRST] = far_off();
            row(draft, i)[WHOLE] = far_off();
        }
}

/* So is the first byte of their content. */
static void container_contents_anyhow(Draft *draft)
{
    for (size_t i = 0; i < rows(draft); i++)
        if (is_container(row(draft, i)[KIND]))
            row(draft, i)[CONTENT] = chance(2) ? far_off() : below(draft->length + 2);
    if (chance(2))
        containers_anyhow(draft);
}

/* The batch's bytes begin later in a longer slice. */
static void further_back(Draft *draft)
{
    size_t by = chance(8) ? 66000 : below(300);
    memmove(draft->slice + by, draft->slice, draft->length);
    memset(draft->slice, 0x30, by);
    draft->length += by;
    add_garbage(draft, below(8));
    for (size_t i = 0; i < rows(draft); i++)
        move_row(row(draft, i), row(draft, i)[FIRST] + by);
}

/* -- Rows put together anew, with their parents -- */

static void subtree_dropped(Draft *draft)
{
    size_t i = some_row(draft), end = after(draft, i);
    move_parents(draft, end, rows(draft), end, i - end);
    remove_rows(draft, i, end - i);
}

static void subtree_doubled(Draft *draft)
{
    size_t i = some_row(draft), end = after(draft, i);
    if (rows(draft) > LONG_DRAFT)
        return;
    move_parents(draft, end, rows(draft), end, end - i);
    insert_rows(draft, end, row(draft, i), end - i);
    move_parents(draft, end + 1, 2 * end - i, i, end - i);
}

/* A subtree and the next one change places. */
static void subtrees_swapped(Draft *draft)
{
    static size_t kept[DRAFT_NUMBERS];
    size_t i = some_row(draft), middle = after(draft, i), end;
    if (middle == rows(draft) || row(draft, middle)[PARENT] != row(draft, i)[PARENT])
        return;
    end = after(draft, middle);
    move_parents(draft, i + 1, middle, i, end - middle);
    move_parents(draft, middle + 1, end, middle, i - middle);
    memcpy(kept, row(draft, i), (middle - i) * WIDTH * sizeof(size_t));
    remove_rows(draft, i, middle - i);
    insert_rows(draft, i + end - middle, kept, middle - i);
}

/* A subtree is replaced by one of the source before, of the same kind if one is found. */
static void subtree_replaced(Draft *draft)
{
    Source *other = &sources[1 - present];
    size_t i = some_row(draft), end = after(draft, i), from = 0, to;
    if (other->count < 2 || other->length + draft->length > SLICE_ROOM || other->count + rows(draft) > LONG_DRAFT)
        return;
    for (int tries = 0; tries < 50 && (from == 0 || other->numbers[WIDTH * from] != row(draft, i)[KIND]); tries++)
        from = 1 + below(other->count - 1);
    for (to = from + 1; to < other->count && other->numbers[WIDTH * to + PARENT] >= from;)
        to++;
    size_t parent = row(draft, i)[PARENT], by = add_octets(draft, other->bytes, other->length);
    move_parents(draft, end, rows(draft), end, to - from + i - end);
    remove_rows(draft, i, end - i);
    insert_rows(draft, i, other->numbers + WIDTH * from, to - from);
    row(draft, i)[PARENT] = parent;
    move_parents(draft, i + 1, i + to - from, 0, i - from);
    for (size_t k = i; k < i + to - from; k++)
        move_row(row(draft, k), row(draft, k)[FIRST] + by);
}

/* -- Rows spoiled -- */

/* Another value for a number of a row. */
static size_t changed(Draft *draft, size_t i, size_t field, size_t way)
{
    size_t was = row(draft, i)[field], whole = row(draft, i)[WHOLE];
    size_t values[] = {was + 1, was - 1, 0, SIZE_MAX, 0 - was, SIZE_MAX - was, was + 0x100000000, was + 256, was ^ 0x8000000000000000,
        draft->length, draft->length - whole + 1, 0 - whole, rows(draft), i, any_kind(), some_row(draft)};
    return values[way % (sizeof values / sizeof *values)];
}

enum { WAYS = 16 };

/* What is changed in a row: one of its numbers, or its first byte and its content's together. */
enum { ROW_MOVED = WIDTH, CHANGES };

static void change(Draft *draft, size_t i, size_t what, size_t way)
{
    if (what == ROW_MOVED)
        move_row(row(draft, i), changed(draft, i, FIRST, way));
    else
        row(draft, i)[what] = changed(draft, i, what, way);
}

static void number_changed(Draft *draft)
{
    size_t i = chance(4) ? 0 : some_row(draft), what = below(CHANGES);
    change(draft, i, what, below(WAYS));
}

/* Each number of each row in turn, and its first byte and its content's together, in each way, over one source after another. */
static void number_in_turn(Draft *draft)
{
    static Source source;
    static size_t turn;
    if (turn == source.count * CHANGES * WAYS) {
        if (rows(draft) > 30)
            return;
        source = sources[present];
        turn = 0;
    }
    draft->count = WIDTH * source.count;
    memcpy(draft->numbers, source.numbers, draft->count * sizeof(size_t));
    draft->length = 0;
    add_octets(draft, source.bytes, source.length);
    change(draft, turn / WAYS / CHANGES, turn / WAYS % CHANGES, turn % WAYS);
    turn++;
}

static void row_swapped(Draft *draft)
{
    size_t i = below(rows(draft)), j = chance(2) && i + 1 < rows(draft) ? i + 1 : below(rows(draft)), kept[WIDTH];
    memcpy(kept, row(draft, i), sizeof kept);
    memcpy(row(draft, i), row(draft, j), sizeof kept);
    memcpy(row(draft, j), kept, sizeof kept);
}

static void row_dropped(Draft *draft)
{
    remove_rows(draft, below(rows(draft)), 1);
}

static void row_doubled(Draft *draft)
{
    size_t i = below(rows(draft));
    insert_rows(draft, chance(2) ? i : below(rows(draft)), row(draft, i), 1);
}

enum { GROUP = 8 };

/* Kinds that are easily taken for each other: of the same place, or of the other edition, or neighbours. */
static const uint8_t near_kinds[][GROUP] = {
    {PHAGUNDRO_KIND_OCTET_PAIRS, PHAGUNDRO_KIND_UTF8_PAIRS, PHAGUNDRO_KIND_UNKNOWN_REG_INFO},
    {PHAGUNDRO_KIND_UNKNOWN_CONTROL, PHAGUNDRO_KIND_REG_TOKEN, PHAGUNDRO_KIND_AUTHENTICATOR, PHAGUNDRO_KIND_PKI_PUBLICATION_INFO,
        PHAGUNDRO_KIND_PKI_ARCHIVE_OPTIONS, PHAGUNDRO_KIND_OLD_CERT_ID, PHAGUNDRO_KIND_PROTOCOL_ENCR_KEY},
    {PHAGUNDRO_KIND_THIS_MESSAGE, PHAGUNDRO_KIND_SUBSEQUENT_MESSAGE, PHAGUNDRO_KIND_DH_MAC, PHAGUNDRO_KIND_AGREE_MAC,
        PHAGUNDRO_KIND_ENCRYPTED_KEY},
    {PHAGUNDRO_KIND_VERSION, PHAGUNDRO_KIND_SERIAL_NUMBER, PHAGUNDRO_KIND_ISSUER_UID, PHAGUNDRO_KIND_SUBJECT_UID},
    {PHAGUNDRO_KIND_ISSUER, PHAGUNDRO_KIND_SUBJECT},
    {PHAGUNDRO_KIND_NOT_BEFORE, PHAGUNDRO_KIND_NOT_AFTER},
    {PHAGUNDRO_KIND_KEY_ENCIPHERMENT, PHAGUNDRO_KIND_KEY_AGREEMENT, PHAGUNDRO_KIND_SIGNATURE},
    {PHAGUNDRO_KIND_UNKNOWN_REG_INFO, PHAGUNDRO_KIND_REG_INFO_CERT_REQ},
    {PHAGUNDRO_KIND_SIGNING_ALG, PHAGUNDRO_KIND_PUBLIC_KEY, PHAGUNDRO_KIND_SIGNATURE_ALGORITHM},
    {PHAGUNDRO_KIND_BATCH, PHAGUNDRO_KIND_MESSAGE, PHAGUNDRO_KIND_CERT_REQ, PHAGUNDRO_KIND_CERT_TEMPLATE, PHAGUNDRO_KIND_CONTROLS,
        PHAGUNDRO_KIND_REG_INFO, PHAGUNDRO_KIND_REG_INFO_CERT_REQ},
    {PHAGUNDRO_KIND_VALIDITY, PHAGUNDRO_KIND_EXTENSIONS, PHAGUNDRO_KIND_SIGNATURE, PHAGUNDRO_KIND_KEY_ENCIPHERMENT,
        PHAGUNDRO_KIND_KEY_AGREEMENT},
    {PHAGUNDRO_KIND_CERT_REQ_ID, PHAGUNDRO_KIND_SIGNATURE_BITS, PHAGUNDRO_KIND_RA_VERIFIED},
};

/* A kind near the one that it was. */
static void kind_changed(Draft *draft)
{
    size_t *kind = &row(draft, some_row(draft))[KIND], was = *kind, group = below(sizeof near_kinds / sizeof *near_kinds);
    for (size_t g = 0; g < sizeof near_kinds / sizeof *near_kinds; g++)
        if (was <= UINT8_MAX && memchr(near_kinds[g], (int)was, GROUP))
            group = g;
    for (int tries = 0; tries < 20 && (*kind == was || *kind == 0); tries++)
        *kind = near_kinds[group][below(GROUP)];
}

static void parent_changed(Draft *draft)
{
    size_t i = some_row(draft);
    row(draft, i)[PARENT] = chance(4) ? i + below(3) : below(i + 1);
}

/* A leaf whose next row is a leaf that comes right after it; 0 if it finds none. */
static size_t neighbours(Draft *draft)
{
    for (int tries = 0; tries < 50; tries++) {
        size_t i = some_leaf(draft), j = i + 1;
        if (j < rows(draft) && !is_container(row(draft, j)[KIND]) && row(draft, i)[FIRST] + row(draft, i)[WHOLE] == row(draft, j)[FIRST])
            return i;
    }
    return 0;
}

/* Two neighbours part in another place: the batch would be the same, and its rows others. */
static void parted_elsewhere(Draft *draft)
{
    size_t i = neighbours(draft), *first = row(draft, i), *second = row(draft, i + 1);
    if (i == 0) {
        row(draft, some_leaf(draft))[WHOLE]++;
        return;
    }
    size_t by = chance(2) ? 1 + below(second[WHOLE] - 1) : 0 - (1 + below(first[WHOLE] - 1));
    first[WHOLE] += by;
    move_row(second, second[FIRST] + by);
    second[WHOLE] -= by;
}

/* Two neighbours are one row. */
static void two_in_a_leaf(Draft *draft)
{
    size_t i = neighbours(draft), j = i + 1;
    if (i == 0) {
        row(draft, some_leaf(draft))[WHOLE] *= 2;
        return;
    }
    row(draft, i)[WHOLE] += row(draft, j)[WHOLE];
    move_parents(draft, j + 1, rows(draft), j, SIZE_MAX);
    remove_rows(draft, j, 1);
}

static void leaf_in_two(Draft *draft)
{
    size_t i = some_leaf(draft);
    size_t *numbers = row(draft, i), size = below(numbers[WHOLE] + 1), second[WIDTH];
    memcpy(second, numbers, sizeof second);
    move_row(second, numbers[FIRST] + size);
    second[WHOLE] -= size;
    numbers[WHOLE] = size;
    move_parents(draft, i + 1, rows(draft), i + 1, 1);
    insert_rows(draft, i + 1, second, 1);
}

/* A leaf of no octets, beside the others or instead of one. */
static void empty_leaf(Draft *draft)
{
    size_t i = some_leaf(draft);
    if (chance(2)) {
        row(draft, i)[WHOLE] = 0;
        return;
    }
    size_t first = below(draft->length + 1), numbers[WIDTH] = {any_kind(), first, 0, row(draft, i)[PARENT], first + 2 * below(2)};
    while (is_container(numbers[KIND]))
        numbers[KIND] = any_kind();
    move_parents(draft, i + 1, rows(draft), i + 1, 1);
    insert_rows(draft, i + 1, numbers, 1);
}

/* A container with what is below it becomes a leaf, of its own kind or of another; or a leaf becomes a container. */
static void other_nature(Draft *draft)
{
    size_t i = some_row(draft), end = after(draft, i);
    if (!is_container(row(draft, i)[KIND])) {
        row(draft, i)[KIND] = containers[below(containers_count)];
        return;
    }
    while (is_container(row(draft, i)[KIND]))
        row(draft, i)[KIND] = any_kind();
    move_parents(draft, end, rows(draft), end, i + 1 - end);
    remove_rows(draft, i + 1, end - i - 1);
}

/* -- Slices spoiled -- */

static void octet_changed(Draft *draft)
{
    size_t *numbers = row(draft, some_leaf(draft));
    uint8_t *octet = draft->slice + numbers[FIRST] + below(chance(2) ? numbers[WHOLE] : 2);
    *octet = (uint8_t)(chance(2) ? *octet ^ 1u << below(8) : below(256));
}

/* Two neighbours, perhaps equal ones, are swapped in a SET of a leaf, if there is one. */
static void set_disordered(Draft *draft)
{
    size_t from = below(rows(draft));
    for (size_t k = 0; k < rows(draft); k++) {
        size_t *numbers = row(draft, (from + k) % rows(draft));
        Node *whole = box(0x30);
        if (is_container(numbers[KIND]) || !parse(whole, draft->slice + numbers[FIRST], numbers[WHOLE]) || !disorder(whole))
            continue;
        encode(whole->first, draft->slice + numbers[FIRST], numbers[WHOLE]);
        return;
    }
}

/* A certReqId of 8 content octets or more. */
static void longer_id(Draft *draft)
{
    static const uint8_t id[] = {0x02, 0x00, 0x01, 0x80, 0x02, 0x03, 0xFF, 0x04, 0x00, 0x05, 0x80, 0x06};
    for (size_t i = below(rows(draft)); i < rows(draft); i++)
        if (row(draft, i)[KIND] == PHAGUNDRO_KIND_CERT_REQ_ID) {
            size_t octets = 8 + below(3);
            move_row(row(draft, i), add_octets(draft, id, 2 + octets));
            row(draft, i)[WHOLE] = 2 + octets;
            draft->slice[row(draft, i)[FIRST] + 1] = (uint8_t)octets;
            return;
        }
}

/* The slice ends where its last leaf does, one before or somewhere. */
static void slice_cut(Draft *draft)
{
    size_t last = 0;
    for (size_t i = 0; i < rows(draft); i++) {
        size_t end = row(draft, i)[FIRST] + row(draft, i)[WHOLE];
        if (!is_container(row(draft, i)[KIND]) && end > last)
            last = end;
    }
    draft->length = chance(3) ? last : chance(2) ? last - 1 : below(last);
}

/* A leaf's place and length have a sum that wraps to what would lie in the slice. */
static void wrapping(Draft *draft)
{
    size_t *numbers = row(draft, some_leaf(draft));
    if (chance(2))
        move_row(numbers, 0 - (1 + below(numbers[WHOLE])));
    else
        numbers[WHOLE] = 0 - (1 + below(numbers[FIRST]));
    if (chance(4)) {
        numbers[WHOLE] = 0x8000000000000000;
        move_row(numbers, numbers[WHOLE]);
    }
}

/* -- The first byte of a leaf's content -- */

/* Beside the right one, at an end of the element or of its header, or far off. */
static void content_wrong(Draft *draft)
{
    size_t *numbers = row(draft, some_leaf(draft)), right = numbers[CONTENT], first = numbers[FIRST], end = first + numbers[WHOLE];
    size_t wrong[] = {right - 1, right + 1, first, first + 1, end, end - 1, right - first, draft->length, 0 - right, SIZE_MAX - right,
        SIZE_MAX, SIZE_MAX - 1, right + UINT8_MAX + 1, right + UINT16_MAX + 1, right + 0x100000000, right ^ 0x8000000000000000, far_off()};
    while (numbers[CONTENT] == right)
        numbers[CONTENT] = wrong[below(sizeof wrong / sizeof *wrong)];
}

/* Of all leaves or of one it is where it is in the batch, and the slice has them there or elsewhere. */
static void contents_in_the_batch(Draft *draft)
{
    const Source *source = &sources[present];
    bool all = chance(2);
    size_t one = some_leaf(draft);
    if (chance(2))
        lay_out(draft, chance(2));
    for (size_t i = 0; i < rows(draft); i++)
        if (all ? !is_container(row(draft, i)[KIND]) : i == one)
            row(draft, i)[CONTENT] = source->numbers[WIDTH * i + CONTENT];
}

/* -- Drafts that are no rows -- */

static void ragged(Draft *draft)
{
    if (chance(2))
        draft->count -= 1 + below(WIDTH - 1);
    else
        for (size_t more = 1 + below(WIDTH - 1); more > 0; more--)
            draft->numbers[draft->count++] = far_off();
}

/* Rows as they were before document 02's A11, without the content's first byte. */
static void four_numbers_a_row(Draft *draft)
{
    enum { OLD_WIDTH = CONTENT };
    size_t count = rows(draft);
    for (size_t i = 0; i < count; i++)
        memmove(draft->numbers + OLD_WIDTH * i, row(draft, i), OLD_WIDTH * sizeof(size_t));
    draft->count = OLD_WIDTH * count;
}

static void none(Draft *draft)
{
    draft->count = 0;
    if (chance(2))
        draft->length = 0;
}

/* -- Drafts at the lines that document 01 draws -- */

/* A batch of one message with the least certReq, whose certReq is not closed yet. */
static void open_request(Draft *draft)
{
    draft->count = draft->length = 0;
    add_row(draft, PHAGUNDRO_KIND_BATCH, 0, 0, 0);
    add_row(draft, PHAGUNDRO_KIND_MESSAGE, 0, 0, 0);
    add_row(draft, PHAGUNDRO_KIND_CERT_REQ, 0, 0, 1);
    add_row(draft, PHAGUNDRO_KIND_CERT_REQ_ID, add_octets(draft, "\x02\x01\x00", 3), 3, 2);
    add_row(draft, PHAGUNDRO_KIND_CERT_TEMPLATE, 0, 0, 2);
}

/* Rows that mean nothing, by themselves or after those of a batch. */
static void any_rows(Draft *draft)
{
    draft->count = 0;
    if (chance(2))
        open_request(draft);
    for (size_t left_over = below(chance(10) ? 2000 : 6); left_over > 0; left_over--) {
        size_t i = rows(draft), whole = below(8), first = below(draft->length + 1);
        add_row(draft, i == 0 && !chance(4) ? PHAGUNDRO_KIND_BATCH : any_kind(), first, whole, i == 0 ? chance(20) : below(i + chance(10)));
    }
}

/* Puts a regToken of `size` octets, 300 or more, into the slice. */
static size_t token(Draft *draft, size_t size)
{
    uint8_t header[] = {0x30, 0x82, (uint8_t)((size - 4) >> 8), (uint8_t)(size - 4), 0x06, 0x09, 0x2B, 0x06, 0x01, 0x05, 0x05, 0x07, 0x05,
        0x01, 0x01, 0x0C, 0x82, (uint8_t)((size - 19) >> 8), (uint8_t)(size - 19)};
    size_t at = add_octets(draft, header, sizeof header);
    for (size_t i = sizeof header; i < size; i++)
        add_octets(draft, "A", 1);
    return at;
}

/* Controls that are all the same leaf, and a last one, so that the batch has a size near the longest or far past it. */
static void long_batch(Draft *draft)
{
    static const size_t sizes[] = {PHAGUNDRO_LONGEST - 1, PHAGUNDRO_LONGEST, PHAGUNDRO_LONGEST, PHAGUNDRO_LONGEST + 1,
        PHAGUNDRO_LONGEST + 2, 0x10000 + 300, 0x10000 + 40000, 0x1FFFF, 0x20000 + 500, 1 << 24};
    enum { AROUND = 21 }; /* octets of the batch beside the controls' items */
    size_t target = sizes[below(sizeof sizes / sizeof *sizes)] - AROUND, each = 2000 + below(20000), times = target / each - 1;
    open_request(draft);
    add_row(draft, PHAGUNDRO_KIND_CONTROLS, 0, 0, 2);
    size_t same = token(draft, each);
    for (size_t i = 0; i < times; i++)
        add_row(draft, PHAGUNDRO_KIND_REG_TOKEN, same, each, 5);
    size_t last = target - times * each;
    add_row(draft, PHAGUNDRO_KIND_REG_TOKEN, token(draft, last), last, 5);
}

/* A free value so deep that the batch has a depth near 20. */
static void deep_leaf(Draft *draft)
{
    size_t levels = 13 + below(6);
    uint8_t item[64] = {0x30, (uint8_t)(3 + 2 * levels), 0x06, 0x01, 0x2A};
    for (size_t i = 0; i < levels; i++) {
        item[5 + 2 * i] = chance(2) ? 0x30 : 0xA0;
        item[6 + 2 * i] = (uint8_t)(2 * (levels - 1 - i));
    }
    open_request(draft);
    add_row(draft, PHAGUNDRO_KIND_REG_INFO, 0, 0, 1);
    add_row(draft, PHAGUNDRO_KIND_UNKNOWN_REG_INFO, add_octets(draft, item, 5 + 2 * levels), 5 + 2 * levels, 5);
}

/* A subject of one RDN with two attributes, in order, equal or out of order. */
static void two_attributes(Draft *draft)
{
    static const uint8_t attributes[][8] = {
        {0x30, 0x06, 0x06, 0x01, 0x55, 0x0C, 0x01, 0x61},
        {0x30, 0x06, 0x06, 0x01, 0x55, 0x0C, 0x01, 0x62},
    };
    open_request(draft);
    size_t at = add_octets(draft, "\xA5\x14\x30\x12\x31\x10", 6);
    for (int i = 0; i < 2; i++)
        add_octets(draft, attributes[below(2)], sizeof *attributes);
    add_row(draft, PHAGUNDRO_KIND_SUBJECT, at, draft->length - at, 4);
}

/* Opens a request, and perhaps one that it carries; answers the row of the last one's template. */
static size_t open_template(Draft *draft)
{
    open_request(draft);
    if (chance(2))
        return 4;
    add_row(draft, PHAGUNDRO_KIND_REG_INFO, 0, 0, 1);
    add_row(draft, PHAGUNDRO_KIND_REG_INFO_CERT_REQ, 0, 0, 5);
    add_row(draft, PHAGUNDRO_KIND_CERT_REQ, 0, 0, 6);
    add_row(draft, PHAGUNDRO_KIND_CERT_REQ_ID, 0, 3, 7);
    add_row(draft, PHAGUNDRO_KIND_CERT_TEMPLATE, 0, 0, 7);
    return 9;
}

/* A template with one field that edition 1 alone allows, or with version 2; it is the message's own, or a carried one. */
static void field_of_edition_1(Draft *draft)
{
    static const struct {
        size_t kind, size;
        uint8_t octets[5];
    } fields[] = {
        {PHAGUNDRO_KIND_VERSION, 3, {0x80, 0x01, 0x02}},
        {PHAGUNDRO_KIND_VERSION, 3, {0x80, 0x01, 0x01}},
        {PHAGUNDRO_KIND_VERSION, 4, {0x80, 0x02, 0x02, 0x00}},
        {PHAGUNDRO_KIND_VERSION, 4, {0x80, 0x02, 0x00, 0x02}}, /* no edition's: not the shortest */
        {PHAGUNDRO_KIND_SERIAL_NUMBER, 3, {0x81, 0x01, 0x02}},
        {PHAGUNDRO_KIND_SIGNING_ALG, 5, {0xA2, 0x03, 0x06, 0x01, 0x2A}},
        {PHAGUNDRO_KIND_ISSUER_UID, 3, {0x87, 0x01, 0x00}},
        {PHAGUNDRO_KIND_SUBJECT_UID, 3, {0x88, 0x01, 0x00}},
    };
    size_t i = below(sizeof fields / sizeof *fields), template = open_template(draft);
    add_row(draft, fields[i].kind, add_octets(draft, fields[i].octets, fields[i].size), fields[i].size, template);
}

/* A validity with two times near each other or far apart, forwards or backwards, or with one that stands in the other form. */
static void two_times(Draft *draft)
{
    static const char *const times[] = {"\x17\x0D" "500101000000Z", "\x17\x0D" "991231235959Z", "\x17\x0D" "000101000000Z",
        "\x17\x0D" "491231235959Z", "\x18\x0F" "20500101000000Z", "\x18\x0F" "99991231235959Z", "\x18\x0F" "20491231235959Z"};
    size_t validity = open_template(draft) + 1;
    add_row(draft, PHAGUNDRO_KIND_VALIDITY, 0, 0, validity - 1);
    for (size_t tag = 0; tag < 2; tag++) {
        const char *time = times[below(sizeof times / sizeof *times)];
        size_t size = strlen(time), at = add_octets(draft, (uint8_t[]){(uint8_t)(0xA0 + tag), (uint8_t)size}, 2);
        add_octets(draft, time, size);
        add_row(draft, PHAGUNDRO_KIND_NOT_BEFORE + tag, at, 2 + size, validity);
    }
}

/* Containers inside each other. */
static void deep_containers(Draft *draft)
{
    enum { VERY_DEEP = 30000 };
    static const uint8_t nested[] = {PHAGUNDRO_KIND_MESSAGE, PHAGUNDRO_KIND_CERT_REQ, PHAGUNDRO_KIND_CERT_TEMPLATE, PHAGUNDRO_KIND_VALIDITY,
        PHAGUNDRO_KIND_EXTENSIONS, PHAGUNDRO_KIND_CONTROLS, PHAGUNDRO_KIND_REG_INFO, PHAGUNDRO_KIND_REG_INFO_CERT_REQ};
    size_t depth = chance(4) ? VERY_DEEP : 10 + below(30);
    draft->count = 0;
    add_row(draft, PHAGUNDRO_KIND_BATCH, 0, 0, 0);
    for (size_t i = 1; i < depth; i++)
        add_row(draft, nested[below(sizeof nested)], 0, 0, i - 1);
}

/* As many rows as a batch can have, and more: the least messages with raVerified, over a slice of 5 bytes. */
static void many_rows(Draft *draft)
{
    static const size_t counts[] = {255, 256, 257, 5957, 5958, 6553, 6554, 7999};
    size_t count = counts[below(sizeof counts / sizeof *counts)];
    draft->count = draft->length = 0;
    add_octets(draft, "\x02\x01\x00\x80\x00", 5);
    add_row(draft, PHAGUNDRO_KIND_BATCH, 0, 0, 0);
    for (size_t i = 0; i < count; i++) {
        add_row(draft, PHAGUNDRO_KIND_MESSAGE, 0, 0, 0);
        add_row(draft, PHAGUNDRO_KIND_CERT_REQ, 0, 0, 5 * i + 1);
        add_row(draft, PHAGUNDRO_KIND_CERT_REQ_ID, 0, 3, 5 * i + 2);
        add_row(draft, PHAGUNDRO_KIND_CERT_TEMPLATE, 0, 0, 5 * i + 2);
        add_row(draft, PHAGUNDRO_KIND_RA_VERIFIED, 3, 2, 5 * i + 1);
    }
}

/* Many leaves of no octets. */
static void many_empty_leaves(Draft *draft)
{
    static const size_t counts[] = {10, 32761, 32762, 32763, 39990};
    open_request(draft);
    for (size_t count = counts[below(sizeof counts / sizeof *counts)]; count > 0; count--)
        add_row(draft, PHAGUNDRO_KIND_VERSION, 0, 0, 4);
}

/* -- The row of drafts -- */

const DraftSort draft_sorts[DRAFT_SORTS] = {
    {"as it is", SAME_BATCH, 30, as_it_is},
    {"leaves scattered over the slice", SAME_BATCH, 30, scattered},
    {"leaves that overlap", SAME_BATCH, 30, overlapping},
    {"containers with any place and length", SAME_BATCH, 30, containers_anyhow},
    {"containers with any content's first byte", SAME_BATCH, 30, container_contents_anyhow},
    {"further back in the slice", SAME_BATCH, 30, further_back},
    {"a subtree dropped", OPEN, 30, subtree_dropped},
    {"a subtree doubled", OPEN, 30, subtree_doubled},
    {"subtrees swapped", OPEN, 30, subtrees_swapped},
    {"a subtree replaced", OPEN, 30, subtree_replaced},
    {"a number changed", OPEN, 60, number_changed},
    {"each number in turn", OPEN, 60, number_in_turn},
    {"rows swapped", OPEN, 30, row_swapped},
    {"a row dropped", OPEN, 30, row_dropped},
    {"a row doubled", OPEN, 30, row_doubled},
    {"another kind", OPEN, 60, kind_changed},
    {"another parent", OPEN, 30, parent_changed},
    {"leaves parted elsewhere", NO_BATCH, 30, parted_elsewhere},
    {"two elements in a leaf", NO_BATCH, 30, two_in_a_leaf},
    {"a leaf in two rows", NO_BATCH, 30, leaf_in_two},
    {"an empty leaf", NO_BATCH, 30, empty_leaf},
    {"a container as a leaf, or the reverse", NO_BATCH, 30, other_nature},
    {"another octet in a leaf", OPEN, 60, octet_changed},
    {"a SET out of order", OPEN, 60, set_disordered},
    {"a certReqId of 8 to 10 octets", OPEN, 15, longer_id},
    {"the slice cut", OPEN, 30, slice_cut},
    {"place and length wrap", NO_BATCH, 30, wrapping},
    {"a leaf's content elsewhere", NO_BATCH, 60, content_wrong},
    {"leaves' contents by their places in the batch", OPEN, 30, contents_in_the_batch},
    {"no multiple of a row's numbers", NO_BATCH, 15, ragged},
    {"rows of four numbers", NO_BATCH, 15, four_numbers_a_row},
    {"no numbers", NO_BATCH, 2, none},
    {"any rows", OPEN, 30, any_rows},
    {"near or past the longest", OPEN, 4, long_batch},
    {"a leaf near or past the deepest", OPEN, 8, deep_leaf},
    {"two attributes in an RDN", OPEN, 8, two_attributes},
    {"a field of edition 1 alone, or version 2", OPEN, 16, field_of_edition_1},
    {"two times", OPEN, 16, two_times},
    {"containers too deep", NO_BATCH, 3, deep_containers},
    {"many rows", OPEN, 2, many_rows},
    {"many empty leaves", NO_BATCH, 2, many_empty_leaves},
};

static size_t share(size_t sort)
{
    return draft_sorts[sort].share;
}

void drafts_next(Draft *draft)
{
    if (left == 0)
        next_source();
    left--;
    const Source *source = &sources[present];
    draft->sort = one_by_share(DRAFT_SORTS, share);
    draft->edition = source->edition;
    draft->batch = source->bytes;
    draft->batch_length = source->length;
    draft->count = WIDTH * source->count;
    memcpy(draft->numbers, source->numbers, draft->count * sizeof(size_t));
    draft->length = 0;
    add_octets(draft, source->bytes, source->length);
    draft_sorts[draft->sort].make(draft);
}
