/* What document 02's A5 and A12 say of the list of what changed, on pairs of batches that an edition accepts, checked without another list:
 *
 *   - the list is empty exactly when the bytes are equal;
 *   - each entry is true: one batch alone has the row, or the rows are leaves of one kind whose bytes differ. No row is in two entries or
 *     below another's, and the rows of each batch ascend;
 *   - the list is complete: without what it speaks of, both batches have the same rows, with the same bytes in the leaves;
 *   - the fourth number of an entry for two times is the second's moment less the first's, and of any other 0 (A12);
 *   - with the batches exchanged it says the same, with 1 and 2 exchanged and the seconds negated;
 *   - the part of each entry is the whole row, of the first batch where both have it, and past the last entry there is none.
 *
 * They are checked of the archive's calls; with a planted fault, of the references', which must break one. See comparison.h for the
 * command line and the exit statuses. */
#include "comparison.h"
#include "kinds.h"
#include "lent_pair.h"
#include "pairs.h"
#include "reference.h"

#include <stdio.h>
#include <stdlib.h>
#include <string.h>

enum { USUAL = 50000, NUMBERS_OF_ENTRY = PHAGUNDRO_ENTRY_NUMBERS, MOST_PARTS = 10 };

/* -- What is being checked -- */

static Trio pair;
static size_t edition;

static void show(void)
{
    show_pair(&pair, pair_sorts);
}

static void differs(const char *what, size_t entry)
{
    comparison_differs(what, edition, "entry", entry);
}

/* -- The calls: the archive's, or the references' with a planted fault -- */

typedef struct {
    const Batch *batch;
    size_t numbers[TABLE], count;
    bool listed[TABLE / PHAGUNDRO_ROW_NUMBERS]; /* rows that an entry speaks of, and those below them */
} Rows;

typedef struct {
    int64_t numbers[NUMBERS_OF_ENTRY * PHAGUNDRO_MOST_ENTRIES];
    size_t count;
} List;

static bool shows(const Batch *batch, Rows *rows)
{
    rows->batch = batch;
    if (reference_fault != 0)
        rows->count = reference_read(edition, batch->octets, batch->length, rows->numbers, TABLE).count;
    else
        rows->count = phagundro_read(edition, batch->octets, batch->length, rows->numbers, TABLE).count;
    return rows->count > 0;
}

static void compare(const Batch *first, const Batch *second, List *list)
{
    size_t room = sizeof list->numbers / sizeof *list->numbers;
    phagundro_pair_answer answer;
    if (reference_fault != 0) {
        reference_pair_answer right =
            reference_compare(edition, first->octets, first->length, second->octets, second->length, list->numbers, room);
        answer = (phagundro_pair_answer){right.number, right.place, right.file, right.count};
    } else {
        answer = phagundro_compare(edition, first->octets, first->length, second->octets, second->length, list->numbers, room);
    }
    list->count = answer.count;
    if (answer.number != PHAGUNDRO_ACCEPTED)
        differs("two batches that are accepted aren't compared; number", answer.number);
}

static int64_t moment_of(const uint8_t *bytes, size_t length)
{
    return reference_fault != 0 ? reference_moment(bytes, length) : phagundro_moment(bytes, length);
}

static phagundro_part part_of(size_t entry)
{
    const Batch *first = &pair.first, *second = &pair.second;
    if (reference_fault == 0)
        return phagundro_compare_part(edition, first->octets, first->length, second->octets, second->length, entry);
    reference_part right = reference_compare_part(edition, first->octets, first->length, second->octets, second->length, entry);
    return (phagundro_part){right.number, right.place, right.file, right.from, right.length};
}

/* -- Entries and rows -- */

static size_t number_of(const List *list, size_t entry, size_t which)
{
    return (size_t)list->numbers[NUMBERS_OF_ENTRY * entry + which];
}

static size_t field(const Rows *rows, size_t row, size_t which)
{
    return rows->numbers[PHAGUNDRO_ROW_NUMBERS * row + which];
}

static bool same_leaf(const Rows *first, size_t row, const Rows *second, size_t other)
{
    size_t length = field(first, row, PHAGUNDRO_ROW_LENGTH);
    return length == field(second, other, PHAGUNDRO_ROW_LENGTH) && memcmp(first->batch->octets + field(first, row, PHAGUNDRO_ROW_FIRST),
        second->batch->octets + field(second, other, PHAGUNDRO_ROW_FIRST), length) == 0;
}

/* -- What occurred -- */

static size_t checked, emptied, exchanged, parts, times, most_entries;

/* -- Each entry is true -- */

/* Whether an entry has the rows that it should have, of which 0 is none. */
static bool rows_fit(size_t what, size_t first, size_t second, const Rows *one, const Rows *two)
{
    switch (what) {
    case PHAGUNDRO_ONLY_FIRST:
        return first > 0 && first < one->count && second == 0;
    case PHAGUNDRO_ONLY_SECOND:
        return first == 0 && second > 0 && second < two->count;
    case PHAGUNDRO_LEAVES_DIFFER:
        return first > 0 && first < one->count && second > 0 && second < two->count &&
            field(one, first, PHAGUNDRO_ROW_KIND) == field(two, second, PHAGUNDRO_ROW_KIND) &&
            !is_container(field(one, first, PHAGUNDRO_ROW_KIND)) && !same_leaf(one, first, two, second);
    default:
        return false;
    }
}

static int64_t row_moment(const Rows *rows, size_t row)
{
    return moment_of(rows->batch->octets + field(rows, row, PHAGUNDRO_ROW_FIRST), field(rows, row, PHAGUNDRO_ROW_LENGTH));
}

/* The seconds that an entry with these rows should have. */
static int64_t seconds_between(size_t what, size_t first, size_t second, const Rows *one, const Rows *two)
{
    size_t kind = field(one, first, PHAGUNDRO_ROW_KIND);
    if (what != PHAGUNDRO_LEAVES_DIFFER || (kind != PHAGUNDRO_KIND_NOT_BEFORE && kind != PHAGUNDRO_KIND_NOT_AFTER))
        return 0;
    times++;
    return row_moment(two, second) - row_moment(one, first);
}

static void check_entries(const List *list, const Rows *one, const Rows *two)
{
    size_t last[2] = {0, 0};
    for (size_t i = 0; i < list->count; i++) {
        size_t rows[2] = {number_of(list, i, PHAGUNDRO_ENTRY_FIRST), number_of(list, i, PHAGUNDRO_ENTRY_SECOND)};
        if (!rows_fit(number_of(list, i, PHAGUNDRO_ENTRY_WHAT), rows[0], rows[1], one, two))
            differs("an entry isn't true", i);
        int64_t seconds = seconds_between(number_of(list, i, PHAGUNDRO_ENTRY_WHAT), rows[0], rows[1], one, two);
        if (list->numbers[NUMBERS_OF_ENTRY * i + PHAGUNDRO_ENTRY_SECONDS] != seconds)
            differs("an entry has other seconds", i);
        for (size_t file = 0; file < 2; file++) {
            if (rows[file] != 0 && rows[file] <= last[file])
                differs("the rows don't ascend", i);
            last[file] = rows[file] != 0 ? rows[file] : last[file];
        }
    }
}

/* -- The list is complete -- */

/* Marks the rows that a column of the list speaks of, and those below them. */
static void mark(const List *list, size_t column, Rows *rows)
{
    memset(rows->listed, 0, rows->count * sizeof *rows->listed);
    for (size_t i = 0; i < list->count; i++)
        rows->listed[number_of(list, i, column)] = true;
    rows->listed[0] = false;
    for (size_t row = 1; row < rows->count; row++) {
        bool below = rows->listed[field(rows, row, PHAGUNDRO_ROW_PARENT)];
        if (below && rows->listed[row])
            differs("an entry is below another's; row", row);
        rows->listed[row] = below || rows->listed[row];
    }
}

/* The first row from this one on that isn't marked. */
static size_t unlisted(const Rows *rows, size_t row)
{
    while (row < rows->count && rows->listed[row])
        row++;
    return row;
}

static void check_left_over(const List *list, Rows *one, Rows *two)
{
    mark(list, PHAGUNDRO_ENTRY_FIRST, one);
    mark(list, PHAGUNDRO_ENTRY_SECOND, two);
    size_t row = 0, other = 0;
    while (row < one->count && other < two->count) {
        size_t kind = field(one, row, PHAGUNDRO_ROW_KIND);
        if (kind != field(two, other, PHAGUNDRO_ROW_KIND) || (!is_container(kind) && !same_leaf(one, row, two, other)))
            differs("a difference isn't listed; row", row);
        row = unlisted(one, row + 1);
        other = unlisted(two, other + 1);
    }
    if (row < one->count || other < two->count)
        differs("a row that one batch alone has isn't listed; row", row < one->count ? row : other);
}

/* -- The other way round -- */

/* By the rows in the first batch and then in the second. */
static int by_rows(const void *left, const void *right)
{
    const int64_t *one = left, *two = right;
    size_t column = one[PHAGUNDRO_ENTRY_FIRST] != two[PHAGUNDRO_ENTRY_FIRST] ? PHAGUNDRO_ENTRY_FIRST : PHAGUNDRO_ENTRY_SECOND;
    return (one[column] > two[column]) - (one[column] < two[column]);
}

static void check_exchanged(List *list)
{
    static List other;
    size_t size = NUMBERS_OF_ENTRY * sizeof *list->numbers;
    compare(&pair.second, &pair.first, &other);
    if (other.count != list->count)
        differs("with the batches exchanged there are more entries or less", other.count);
    for (int64_t *entry = other.numbers; entry < other.numbers + NUMBERS_OF_ENTRY * other.count; entry += NUMBERS_OF_ENTRY) {
        int64_t first = entry[PHAGUNDRO_ENTRY_FIRST], what = entry[PHAGUNDRO_ENTRY_WHAT];
        entry[PHAGUNDRO_ENTRY_FIRST] = entry[PHAGUNDRO_ENTRY_SECOND];
        entry[PHAGUNDRO_ENTRY_SECOND] = first;
        entry[PHAGUNDRO_ENTRY_SECONDS] = -entry[PHAGUNDRO_ENTRY_SECONDS];
        if (what != PHAGUNDRO_LEAVES_DIFFER)
            entry[PHAGUNDRO_ENTRY_WHAT] = PHAGUNDRO_ONLY_FIRST + PHAGUNDRO_ONLY_SECOND - what;
    }
    qsort(list->numbers, list->count, size, by_rows);
    qsort(other.numbers, other.count, size, by_rows);
    if (memcmp(list->numbers, other.numbers, list->count * size) != 0)
        differs("with the batches exchanged there are other entries", list->count);
    exchanged++;
}

/* -- Parts -- */

static void check_part(size_t entry, size_t what, size_t row, const Rows *rows)
{
    phagundro_part part = part_of(entry);
    size_t file = what == PHAGUNDRO_ONLY_SECOND ? PHAGUNDRO_FILE_SECOND : PHAGUNDRO_FILE_FIRST;
    if (part.number != PHAGUNDRO_ACCEPTED || part.place != 0 || part.file != file)
        differs("a part isn't handed back, or of the wrong batch", entry);
    if (part.from != field(rows, row, PHAGUNDRO_ROW_FIRST) || part.length != field(rows, row, PHAGUNDRO_ROW_LENGTH))
        differs("a part isn't its row", entry);
    parts++;
}

static void check_parts(const List *list, const Rows *one, const Rows *two)
{
    size_t step = 1 + list->count / MOST_PARTS;
    for (size_t i = 0; i < list->count; i += step) {
        size_t what = number_of(list, i, PHAGUNDRO_ENTRY_WHAT);
        bool of_second = what == PHAGUNDRO_ONLY_SECOND;
        check_part(i, what, number_of(list, i, of_second ? PHAGUNDRO_ENTRY_SECOND : PHAGUNDRO_ENTRY_FIRST), of_second ? two : one);
    }
    phagundro_part past = part_of(list->count);
    if (past.number != PHAGUNDRO_NO_SUCH_MESSAGE || past.place + past.file + past.from + past.length != 0)
        differs("a part past the last entry is handed back", list->count);
}

/* -- One pair -- */

static void check_edition(void)
{
    static Rows one, two;
    static List list;
    if (!shows(&pair.first, &one) || !shows(&pair.second, &two))
        return;
    compare(&pair.first, &pair.second, &list);
    bool same = same_bytes(&pair.first, &pair.second);
    if (same != (list.count == 0))
        differs(same ? "equal batches have an entry" : "batches that differ have no entry", list.count);
    check_entries(&list, &one, &two);
    check_left_over(&list, &one, &two);
    check_parts(&list, &one, &two);
    check_exchanged(&list);
    checked++;
    emptied += same;
    keep_most(&most_entries, list.count);
}

static void next(void)
{
    pairs_next(&pair);
}

static void check_pair(void)
{
    for (edition = PHAGUNDRO_RFC2511; edition <= PHAGUNDRO_RFC4211; edition++)
        check_edition();
}

static int account(size_t pairs)
{
    printf("%zu pairs of seed %llu: no difference\n", pairs, (unsigned long long)seed);
    printf("lists checked: %zu, of equal batches: %zu, the other way round: %zu, parts: %zu, times: %zu; at most %zu entries\n", checked,
        emptied, exchanged, parts, times, most_entries);
    int lacking = missing(emptied > 0, "equal batches", emptied, 0) + missing(exchanged > emptied, "batches that differ", exchanged, 0);
    lacking += missing(times > 0, "times that differ", times, 0);
    return comparison_status(lacking + missing(most_entries > UINT8_MAX, "a list with more entries than", UINT8_MAX, 0));
}

int main(int count, char **words)
{
    return comparison_run(comparison_start(count, words, USUAL, show), next, check_pair, account);
}
