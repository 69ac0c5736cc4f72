/* What document 02's A13 says of joining and cutting beside the answers, on trios of batches that an edition accepts:
 *
 *   - three batches joined in either grouping give the same bytes whenever the whole is at most 65,535 bytes, and then each join of two
 *     fits too;
 *   - cutting a batch at every position, with 14 after the last, and joining again gives the batch;
 *   - the rows of a join are those of its parts, moved and renumbered.
 *
 * They are checked of the archive's calls; with a planted fault, of the references', which must break one. See comparison.h for the
 * command line and the exit statuses. */
#include "comparison.h"
#include "lent_pair.h"
#include "reference.h"
#include "trios.h"

#include <stdio.h>
#include <string.h>

/* Messages of a batch that is cut at every position: usually, and once in so many trios. */
enum { USUAL = 50000, FEW_CUT = 40, MOST_CUT = 1000, MOST_CUT_IN = 8 };

/* -- What is being checked -- */

static Trio trio;
static size_t edition;

static void next(void)
{
    trios_next(&trio);
}

static void show_trio(void)
{
    show_pair(&trio, trio_sorts);
    show_batch("third", &trio.third);
    fflush(stdout);
}

static void differs(const char *what, size_t position)
{
    comparison_differs(what, edition, "position", position);
}

/* -- The calls: the archive's, or the references' with a planted fault -- */

typedef struct {
    size_t numbers[TABLE], count;
} Rows;

static size_t join(const Batch *one, const Batch *two, Batch *made)
{
    if (reference_fault != 0) {
        reference_pair_answer right =
            reference_join(edition, one->octets, one->length, two->octets, two->length, made->octets, INPUT_ROOM);
        made->length = right.count;
        return right.number;
    }
    phagundro_pair_answer answer = phagundro_join(edition, one->octets, one->length, two->octets, two->length, made->octets, INPUT_ROOM);
    made->length = answer.count;
    return answer.number;
}

static size_t cut(const Batch *whole, size_t position, Batch *made)
{
    if (reference_fault != 0) {
        reference_answer right = reference_cut(edition, whole->octets, whole->length, position, made->octets, INPUT_ROOM);
        made->length = right.count;
        return right.number;
    }
    phagundro_answer answer = phagundro_cut(edition, whole->octets, whole->length, position, made->octets, INPUT_ROOM);
    made->length = answer.count;
    return answer.number;
}

static size_t read_rows(const Batch *whole, Rows *rows)
{
    if (reference_fault != 0) {
        reference_answer right = reference_read(edition, whole->octets, whole->length, rows->numbers, TABLE);
        rows->count = right.count;
        return right.number;
    }
    phagundro_answer answer = phagundro_read(edition, whole->octets, whole->length, rows->numbers, TABLE);
    rows->count = answer.count;
    return answer.number;
}

/* -- What occurred -- */

static size_t grouped, longest_grouped, too_long, cut_apart, most_cut, moved, grown;

/* -- Grouping -- */

/* "Joining in any grouping gives the same bytes whenever the whole is at most 65,535 bytes, and then every smaller join fits too." */
static void check_grouping(void)
{
    static Batch left, right, from_left, from_right;
    size_t content = content_of(&trio.first) + content_of(&trio.second) + content_of(&trio.third);
    size_t whole = header_around(content) + content;
    bool left_fits = join(&trio.first, &trio.second, &left) == PHAGUNDRO_ACCEPTED;
    if (whole > PHAGUNDRO_LONGEST) {
        too_long++;
        if (left_fits && join(&left, &trio.third, &from_left) != PHAGUNDRO_TOO_LONG)
            differs("a join that is too long has another number than 1", 0);
        return;
    }
    if (!left_fits || join(&trio.second, &trio.third, &right) != PHAGUNDRO_ACCEPTED)
        differs("a smaller join doesn't fit", 0);
    if (join(&left, &trio.third, &from_left) != PHAGUNDRO_ACCEPTED || join(&trio.first, &right, &from_right) != PHAGUNDRO_ACCEPTED)
        differs("a join of three doesn't fit", 0);
    if (from_left.length != whole || !same_bytes(&from_left, &from_right))
        differs("the grouping gives other bytes", 0);
    grouped++;
    keep_most(&longest_grouped, whole);
}

/* -- Cutting apart -- */

/* "Cutting at every position and joining again gives the original." */
static void check_cutting(const Batch *batch, size_t messages)
{
    static Batch parts[2], one;
    size_t now = 0;
    if (messages > (number % MOST_CUT_IN == 0 ? MOST_CUT : FEW_CUT))
        return;
    for (size_t position = 0; position < messages; position++) {
        Batch *so_far = &parts[now], *further = &parts[1 - now];
        if (cut(batch, position, position == 0 ? so_far : &one) != PHAGUNDRO_ACCEPTED)
            differs("a message that is there isn't cut", position);
        if (position == 0)
            continue;
        if (join(so_far, &one, further) != PHAGUNDRO_ACCEPTED)
            differs("what was cut isn't joined again", position);
        now = 1 - now;
    }
    if (!same_bytes(&parts[now], batch))
        differs("what was cut and joined again is another batch", messages);
    if (cut(batch, messages, &one) != PHAGUNDRO_NO_SUCH_MESSAGE)
        differs("a message is cut that isn't there", messages);
    cut_apart++;
    keep_most(&most_cut, messages);
}

/* -- Rows -- */

/* Whether a row of the join is one of a part's, with its places moved by `by`, and its row numbers by `renumbered`; parent 0 stays. */
static bool is_moved(const size_t *row, const size_t *part, size_t by, size_t renumbered)
{
    size_t parent = part[PHAGUNDRO_ROW_PARENT];
    return row[PHAGUNDRO_ROW_KIND] == part[PHAGUNDRO_ROW_KIND] && row[PHAGUNDRO_ROW_FIRST] == part[PHAGUNDRO_ROW_FIRST] + by &&
        row[PHAGUNDRO_ROW_LENGTH] == part[PHAGUNDRO_ROW_LENGTH] && row[PHAGUNDRO_ROW_PARENT] == (parent == 0 ? 0 : parent + renumbered) &&
        row[PHAGUNDRO_ROW_CONTENT] == part[PHAGUNDRO_ROW_CONTENT] + by;
}

/* "The rows of a join below the batch's are those of the parts: the first's places move by the growth of the batch's header, the second's
 * by the join's header and the first's content less its own header, and its row numbers by the first's count less one". */
static void check_rows(const Rows *first, const Rows *second)
{
    static Batch joined;
    static Rows rows;
    if (join(&trio.first, &trio.second, &joined) != PHAGUNDRO_ACCEPTED)
        return;
    if (read_rows(&joined, &rows) != PHAGUNDRO_ACCEPTED || rows.count != first->count + second->count - 1)
        differs("a join is refused, or has another count of rows", rows.count);
    size_t header = header_of(joined.octets), growth = header - header_of(trio.first.octets);
    size_t further = header + content_of(&trio.first) - header_of(trio.second.octets), renumbered = first->count - 1;
    for (size_t i = 1; i < rows.count; i++) {
        const size_t *row = rows.numbers + PHAGUNDRO_ROW_NUMBERS * i;
        bool of_first = i < first->count;
        const size_t *part = of_first ? first->numbers + PHAGUNDRO_ROW_NUMBERS * i
                                      : second->numbers + PHAGUNDRO_ROW_NUMBERS * (i - renumbered);
        if (!is_moved(row, part, of_first ? growth : further, of_first ? 0 : renumbered))
            differs("a row of a join isn't its part's, moved", i);
    }
    moved++;
    grown += growth > 0;
}

/* -- One trio -- */

static void check_edition(void)
{
    static Rows first, second, third;
    if (read_rows(&trio.first, &first) != PHAGUNDRO_ACCEPTED)
        return;
    check_cutting(&trio.first, messages_of(first.numbers, first.count));
    if (read_rows(&trio.second, &second) != PHAGUNDRO_ACCEPTED)
        return;
    check_rows(&first, &second);
    if (read_rows(&trio.third, &third) == PHAGUNDRO_ACCEPTED)
        check_grouping();
}

static void check_trio(void)
{
    for (edition = PHAGUNDRO_RFC2511; edition <= PHAGUNDRO_RFC4211; edition++)
        check_edition();
}

static int account(size_t trios)
{
    printf("%zu trios of seed %llu: no difference\n", trios, (unsigned long long)seed);
    printf("joined in two groupings: %zu, at most %zu bytes; too long: %zu\n", grouped, longest_grouped, too_long);
    printf("cut at every position and joined again: %zu, at most %zu messages\n", cut_apart, most_cut);
    printf("joins whose rows were compared: %zu, with a longer header than the first's: %zu\n", moved, grown);
    int lacking = missing(longest_grouped == PHAGUNDRO_LONGEST, "three joined with bytes", PHAGUNDRO_LONGEST, 0);
    lacking += missing(too_long > 0, "three that are longer than", PHAGUNDRO_LONGEST, 0);
    lacking += missing(most_cut > UINT8_MAX, "cut apart with more messages than", UINT8_MAX, 0);
    return comparison_status(lacking + missing(grown > 0, "joins with a longer header", grown, 0));
}

int main(int count, char **words)
{
    return comparison_run(comparison_start(count, words, USUAL, show_trio), next, check_trio, account);
}
