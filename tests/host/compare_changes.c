/* The archive against what changed by reference_changes.c: number, place, file, count, entries and parts, and the memory around every
 * buffer.
 *
 * Each pair is compared in editions 1 and 2 and sometimes in another number. The list is as long as the entries, one number shorter, longer
 * or of any length, and sometimes of each length around theirs. The part is asked for of every entry of a short list, of some entries of a
 * long one or sometimes of all, of the one past the last and of one far off. The batches and the list are each lent at the edge of memory
 * that must not be touched; of two equal batches one is sometimes lent for both. See comparison.h for the command line and the exit
 * statuses. */
#include "comparison.h"
#include "kinds.h"
#include "lent_pair.h"
#include "memory.h"
#include "pairs.h"
#include "random.h"
#include "reference.h"

#include <stdio.h>

enum { USUAL = 50000, NUMBERS_OF_ENTRY = PHAGUNDRO_ENTRY_NUMBERS, MORE = 100, LIST = NUMBERS_OF_ENTRY * PHAGUNDRO_MOST_ENTRIES + MORE };

/* -- What is being compared -- */

static Trio pair;
static Buffer list;
static int64_t entries[LIST]; /* what changed, by the reference */

static void next(void)
{
    pairs_next(&pair);
}

static void show(void)
{
    show_pair(&pair, pair_sorts);
}

static int64_t entry_number(size_t entry, size_t which)
{
    return entries[NUMBERS_OF_ENTRY * entry + which];
}

/* -- What occurred -- */

enum { WHATS = PHAGUNDRO_LEAVES_DIFFER + 1 };
static PairAnswers lists, parts;
static size_t whats[EDITIONS][WHATS];
static size_t alone[EDITIONS][KINDS], differing[EDITIONS][KINDS]; /* entries by the kind of their row */
static size_t without_entries, most_entries, most_rows_met, past_a_byte, carried;
static size_t later, earlier, across_2050, past_32_bits; /* times that differ, of the second beside the first */

typedef struct {
    size_t numbers[TABLE], count;
} Rows;

static void read_rows(size_t edition, const Batch *batch, Rows *rows)
{
    rows->count = reference_read(edition, batch->octets, batch->length, rows->numbers, TABLE).count;
    keep_most(&most_rows_met, rows->count);
}

static size_t kind_of(const Rows *rows, int64_t row)
{
    return rows->numbers[PHAGUNDRO_ROW_NUMBERS * (size_t)row + PHAGUNDRO_ROW_KIND];
}

static bool is_time(size_t kind)
{
    return kind == PHAGUNDRO_KIND_NOT_BEFORE || kind == PHAGUNDRO_KIND_NOT_AFTER;
}

static size_t length_of(const Rows *rows, int64_t row)
{
    return rows->numbers[PHAGUNDRO_ROW_NUMBERS * (size_t)row + PHAGUNDRO_ROW_LENGTH];
}

/* Two times differ: one is a UTCTime and the other one isn't if the rows have other lengths. */
static void times_differ(bool other_lengths, int64_t seconds)
{
    later += seconds > 0;
    earlier += seconds < 0;
    across_2050 += other_lengths;
    past_32_bits += seconds > UINT32_MAX || seconds < -(int64_t)UINT32_MAX;
}

static void occurred(size_t edition, size_t count)
{
    static Rows first, second;
    read_rows(edition, &pair.first, &first);
    read_rows(edition, &pair.second, &second);
    without_entries += count == 0;
    past_a_byte += count > UINT8_MAX;
    keep_most(&most_entries, count);
    for (size_t i = 0; i < count; i++) {
        int64_t what = entry_number(i, PHAGUNDRO_ENTRY_WHAT), row = entry_number(i, PHAGUNDRO_ENTRY_FIRST);
        size_t kind = row != 0 ? kind_of(&first, row) : kind_of(&second, entry_number(i, PHAGUNDRO_ENTRY_SECOND));
        whats[edition][what]++;
        (what == PHAGUNDRO_LEAVES_DIFFER ? differing : alone)[edition][kind]++;
        carried += what == PHAGUNDRO_LEAVES_DIFFER && is_carried(first.numbers, (size_t)row);
        if (what == PHAGUNDRO_LEAVES_DIFFER && is_time(kind)) {
            bool other_lengths = length_of(&first, row) != length_of(&second, entry_number(i, PHAGUNDRO_ENTRY_SECOND));
            times_differ(other_lengths, entry_number(i, PHAGUNDRO_ENTRY_SECONDS));
        }
    }
}

/* -- The list -- */

static void compare_list(size_t edition, size_t room)
{
    static int64_t expected[LIST];
    place(&list, room * sizeof *expected, calls % 2 == 0);
    fill_alike(&list, expected);
    reference_pair_answer right = reference_compare(edition, pair.first.octets, pair.first.length, pair.second.octets, pair.second.length,
        expected, room);
    phagundro_pair_answer answer =
        phagundro_compare(edition, first_bytes, pair.first.length, second_bytes, pair.second.length, lent(&list), room);
    check_answer(lists, answer, right, edition, room);
    check_numbers(&list, expected, edition, room, NUMBERS_OF_ENTRY * right.count);
}

/* -- Parts -- */

static void compare_part(size_t edition, size_t entry)
{
    static const char *const names[] = {"number", "place", "file", "from", "length"};
    reference_part right =
        reference_compare_part(edition, pair.first.octets, pair.first.length, pair.second.octets, pair.second.length, entry);
    phagundro_part answer = phagundro_compare_part(edition, first_bytes, pair.first.length, second_bytes, pair.second.length, entry);
    calls++;
    if (!alike(5, names, &answer, &right))
        comparison_differs("other parts", edition, "entry", entry);
    if (is_edition(edition))
        parts[edition][right.number][right.file]++;
}

/* The parts of a list of so many entries, which are none with a refusal. */
static void compare_parts(size_t edition, size_t count)
{
    enum { FEW = 10, MANY = 400, MANY_IN = 32 }; /* entries whose parts are all asked for: usually, and once in so many pairs */
    if (count <= (number % MANY_IN == 0 ? MANY : FEW)) {
        for (size_t entry = 0; entry < count; entry++)
            compare_part(edition, entry);
    } else {
        compare_part(edition, 0);
        compare_part(edition, below(count));
        compare_part(edition, count - 1);
    }
    compare_part(edition, count);
    switch (number % 4) {
    case 0: compare_part(edition, SIZE_MAX); break;
    case 1: compare_part(edition, below(SIZE_MAX)); break;
    case 2: compare_part(edition, below(count + 1) + ((size_t)1 << (8 << below(3)))); break; /* the same in a byte, in two or in four */
    default: compare_part(edition, count + 1 + below(300));
    }
}

/* -- One pair -- */

/* More numbers than any list has of two batches as long as these. */
static size_t most_numbers(void)
{
    size_t bytes = pair.first.length + pair.second.length;
    return NUMBERS_OF_ENTRY * (bytes / 2 < PHAGUNDRO_MOST_ENTRIES ? bytes / 2 : PHAGUNDRO_MOST_ENTRIES);
}

static void compare_edition(size_t edition)
{
    enum { AROUND = NUMBERS_OF_ENTRY + 1, AROUND_IN = 16 };
    reference_pair_answer right =
        reference_compare(edition, pair.first.octets, pair.first.length, pair.second.octets, pair.second.length, entries, LIST);
    size_t needed = NUMBERS_OF_ENTRY * right.count;
    if (right.number == PHAGUNDRO_ACCEPTED)
        occurred(edition, right.count);
    in_rooms(compare_list, edition, needed, most_numbers());
    for (size_t room = needed > AROUND ? needed - AROUND : 0; number % AROUND_IN == 0 && room <= needed + AROUND; room++)
        compare_list(edition, room);
    compare_parts(edition, right.count);
}

static void compare_pair(void)
{
    lend_pair(&pair.first, &pair.second);
    for (size_t edition = PHAGUNDRO_RFC2511; edition <= PHAGUNDRO_RFC4211; edition++)
        compare_edition(edition);
    if (number % 4 == 0)
        compare_edition(no_edition(number / 4));
    check_lent_pair();
}

/* -- The account -- */

/* Leaves out the kinds that are never alone, since each parent has one, and those of which no two leaves differ. */
static void leave_out(size_t edition)
{
    static const uint8_t never_alone[] = {PHAGUNDRO_KIND_BATCH, PHAGUNDRO_KIND_CERT_REQ, PHAGUNDRO_KIND_CERT_REQ_ID,
        PHAGUNDRO_KIND_CERT_TEMPLATE, PHAGUNDRO_KIND_SIGNATURE_ALGORITHM, PHAGUNDRO_KIND_SIGNATURE_BITS};
    for (size_t i = 0; i < sizeof never_alone; i++)
        alone[edition][never_alone[i]]++;
    for (size_t i = 0; i < containers_count; i++)
        differing[edition][containers[i]]++;
    differing[edition][PHAGUNDRO_KIND_RA_VERIFIED]++;
    differing[edition][PHAGUNDRO_KIND_VERSION] += edition == PHAGUNDRO_RFC4211; /* it has version 2 alone */
}

static int account_lists(size_t edition)
{
    int lacking = 0;
    printf("edition %zu: %zu listed; refused 11: %zu", edition, lists[edition][PHAGUNDRO_ACCEPTED][PHAGUNDRO_FILE_NEITHER],
        lists[edition][PHAGUNDRO_NO_ROOM][PHAGUNDRO_FILE_NEITHER]);
    lacking += account_files(lists, edition);
    printf("edition %zu: entries of pairs", edition);
    for (size_t what = PHAGUNDRO_ONLY_FIRST; what < WHATS; what++)
        printf("%s %zu: %zu", what > PHAGUNDRO_ONLY_FIRST ? "," : "", what, whats[edition][what]);
    leave_out(edition);
    lacking += missing_kinds(alone[edition], edition) + missing_kinds(differing[edition], edition);
    return lacking + missing(lists[edition][PHAGUNDRO_NO_ROOM][PHAGUNDRO_FILE_NEITHER] > 0, "number", PHAGUNDRO_NO_ROOM, edition);
}

static int account_parts(size_t edition)
{
    const size_t *handed = parts[edition][PHAGUNDRO_ACCEPTED], past = parts[edition][PHAGUNDRO_NO_SUCH_MESSAGE][PHAGUNDRO_FILE_NEITHER];
    printf("; parts of the first: %zu, of the second: %zu, past the last: %zu\n", handed[PHAGUNDRO_FILE_FIRST],
        handed[PHAGUNDRO_FILE_SECOND], past);
    int lacking = missing(handed[PHAGUNDRO_FILE_FIRST] > 0, "a part of file", PHAGUNDRO_FILE_FIRST, edition);
    lacking += missing(handed[PHAGUNDRO_FILE_SECOND] > 0, "a part of file", PHAGUNDRO_FILE_SECOND, edition);
    return lacking + missing(past > 0, "number", PHAGUNDRO_NO_SUCH_MESSAGE, edition);
}

static int account_times(void)
{
    printf("times that differ: later %zu, earlier %zu; one of them UTCTime: %zu; by more seconds than 32 bits have: %zu\n", later, earlier,
        across_2050, past_32_bits);
    int lacking = missing(later > 0, "a later time", later, 0) + missing(earlier > 0, "an earlier time", earlier, 0);
    lacking += missing(across_2050 > 0, "a UTCTime beside another", across_2050, 0);
    return lacking + missing(past_32_bits > 0, "times that differ by more seconds than", UINT32_MAX, 0);
}

static int account(size_t pairs)
{
    enum { MANY_ROWS = 29125 };
    int lacking = 0;
    printf("%zu pairs of seed %llu, %zu calls: no difference\n", pairs, (unsigned long long)seed, calls);
    for (size_t edition = PHAGUNDRO_RFC2511; edition <= PHAGUNDRO_RFC4211; edition++)
        lacking += account_lists(edition) + account_parts(edition);
    printf("lists without an entry: %zu, with more than 255: %zu, at most %zu; at most %zu rows\n", without_entries, past_a_byte,
        most_entries, most_rows_met);
    printf("leaves that differ in carried certReqs: %zu; pairs lent once: %zu; neither edition (13): %zu\n", carried, lent_once,
        wrong_editions);
    lacking += account_times();
    lacking += missing(without_entries > 0, "a list with entries", 0, 0);
    lacking += missing(past_a_byte > 0, "a list with more entries than", UINT8_MAX, 0);
    lacking += missing(pairs < USUAL || most_rows_met >= MANY_ROWS, "a batch with rows", MANY_ROWS, 0);
    lacking += missing(carried > 0, "differences in carried certReqs", carried, 0);
    lacking += missing(lent_once > 0, "one batch lent for both; pairs", lent_once, 0);
    return comparison_status(lacking + missing(wrong_editions > 0, "number", PHAGUNDRO_UNKNOWN_EDITION, 0));
}

int main(int count, char **words)
{
    size_t pairs = comparison_start(count, words, USUAL, show);
    list = buffer(sizeof entries);
    return comparison_run(pairs, next, compare_pair, account);
}
