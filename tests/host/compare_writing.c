/* The archive against the writing in reference_writing.c: number, place, length, output and the memory around every buffer.
 *
 * Each draft is written in editions 1 and 2 and sometimes in another number, into an output that is as long as the batch, one byte shorter,
 * longer or of any length. The draft's numbers, the slice and the output are each lent at the edge of memory that must not be touched. See
 * comparison.h for the command line and the exit statuses. */
#include "comparison.h"
#include "drafts.h"
#include "memory.h"
#include "random.h"
#include "reference.h"

#include <stdio.h>
#include <string.h>

enum { USUAL = 50000, OUTPUT = 70000 };

/* -- What is being compared -- */

static Draft draft;
static Buffer numbers, slice, output;

static void show_draft(void)
{
    printf("seed %llu, draft %zu, %s, %zu numbers over %zu bytes:\n", (unsigned long long)seed, number, draft_sorts[draft.sort].name,
        draft.count, draft.length);
    for (size_t i = 0; i < draft.count; i++)
        printf("%zu%s", draft.numbers[i], i % PHAGUNDRO_ROW_NUMBERS == PHAGUNDRO_ROW_NUMBERS - 1 ? ", " : " ");
    putchar('\n');
    for (size_t i = 0; i < draft.length; i++)
        printf("%02X", draft.slice[i]);
    putchar('\n');
    fflush(stdout);
}

static void differs(const char *what, size_t edition, size_t room)
{
    comparison_differs(what, edition, "room", room);
}

/* -- What occurred -- */

static size_t answers[EDITIONS][NUMBERS];
static size_t sorts[DRAFT_SORTS][2]; /* in the edition of the source: refused, written */
static size_t kinds[EDITIONS][KINDS]; /* of rows written */
static size_t calls, wrong_editions, longest, most_rows, longest_slice, past_a_byte;

static void occurred(size_t edition, reference_answer answer)
{
    size_t rows = draft.count / PHAGUNDRO_ROW_NUMBERS;
    if (edition == draft.edition)
        sorts[draft.sort][answer.number == PHAGUNDRO_ACCEPTED]++;
    if (answer.number != PHAGUNDRO_ACCEPTED)
        return;
    for (size_t i = 0; i < rows; i++)
        kinds[edition][draft.numbers[PHAGUNDRO_ROW_NUMBERS * i + PHAGUNDRO_ROW_KIND]]++;
    past_a_byte += messages_of(draft.numbers, rows) > UINT8_MAX;
    keep_most(&longest, answer.count);
    keep_most(&most_rows, rows);
    keep_most(&longest_slice, draft.length);
}

/* -- One draft -- */

static void compare_writing(size_t edition, size_t room)
{
    static const char *const names[] = {"number", "place", "count"};
    static uint8_t expected[OUTPUT];
    place(&output, room, calls % 2 == 0);
    fill_alike(&output, expected);
    reference_answer right = reference_write(edition, draft.numbers, draft.count, draft.slice, draft.length, expected, room);
    phagundro_answer answer = phagundro_write(edition, lent(&numbers), draft.count, lent(&slice), draft.length, lent(&output), room);
    calls++;
    if (!alike(3, names, &answer, &right))
        differs("other answers", edition, room);
    check_output(&output, expected, edition, room, right.count);
    if (edition == PHAGUNDRO_RFC2511 || edition == PHAGUNDRO_RFC4211)
        answers[edition][right.number]++;
    wrong_editions += right.number == PHAGUNDRO_UNKNOWN_EDITION;
}

/* Whether the answer given room is what is known of such a draft. */
static bool as_known(size_t edition, reference_answer answer, const uint8_t *batch)
{
    switch (draft_sorts[draft.sort].known) {
    case SAME_BATCH:
        return edition != draft.edition ||
            (answer.number == PHAGUNDRO_ACCEPTED && answer.count == draft.batch_length && memcmp(batch, draft.batch, answer.count) == 0);
    case NO_BATCH:
        return answer.number == PHAGUNDRO_NO_SUCH_BATCH;
    default:
        return true;
    }
}

static void compare_edition(size_t edition)
{
    static uint8_t batch[OUTPUT];
    reference_answer right = reference_write(edition, draft.numbers, draft.count, draft.slice, draft.length, batch, OUTPUT);
    occurred(edition, right);
    if (right.number == PHAGUNDRO_ACCEPTED) {
        compare_writing(edition, right.count);
        compare_writing(edition, right.count - 1);
        compare_writing(edition, right.count + 1 + below(40));
        compare_writing(edition, number % 4 == 0 ? 0 : below(right.count));
    } else { /* sometimes room for any batch, so that one written too early would be seen */
        compare_writing(edition, number % 4 == 0 ? 0 : below(1000));
        if (number % 8 == 0)
            compare_writing(edition, PHAGUNDRO_LONGEST + below(40));
    }
    if (!as_known(edition, right, batch)) {
        printf("the reference: number %zu, count %zu\n", right.number, right.count);
        differs("not what is known of such a draft", edition, OUTPUT);
    }
}

static void compare_draft(void)
{
    place(&numbers, draft.count * sizeof(size_t), number % 2 == 0);
    place(&slice, draft.length, number / 2 % 2 == 0);
    memcpy(numbers.start, draft.numbers, numbers.size);
    memcpy(slice.start, draft.slice, slice.size);
    compare_edition(PHAGUNDRO_RFC2511);
    compare_edition(PHAGUNDRO_RFC4211);
    if (number % 4 == 0)
        compare_writing(no_edition(number / 4), below(1000));
    if (memcmp(numbers.start, draft.numbers, numbers.size) != 0 || beside_changed(&numbers))
        differs("the draft or memory beside it is changed", 0, 0);
    if (memcmp(slice.start, draft.slice, slice.size) != 0 || beside_changed(&slice))
        differs("the slice or memory beside it is changed", 0, 0);
}

/* -- The account -- */

static int account_sorts(void)
{
    int lacking = 0;
    printf("by sort, written and refused:");
    for (size_t i = 0; i < DRAFT_SORTS; i++)
        printf("%s %s %zu %zu", i > 0 ? ";" : "", draft_sorts[i].name, sorts[i][1], sorts[i][0]);
    putchar('\n');
    for (size_t i = 0; i < DRAFT_SORTS; i++)
        for (size_t written = 0; written < 2; written++) {
            bool should = draft_sorts[i].known == OPEN || (draft_sorts[i].known == SAME_BATCH) == written;
            if (should && sorts[i][written] == 0) {
                printf("never occurred: %s, and %s\n", draft_sorts[i].name, written ? "written" : "refused");
                lacking++;
            }
        }
    return lacking;
}

static int account(size_t drafts)
{
    int lacking = 0;
    printf("%zu drafts of seed %llu, %zu calls: no difference\n", drafts, (unsigned long long)seed, calls);
    for (size_t edition = PHAGUNDRO_RFC2511; edition <= PHAGUNDRO_RFC4211; edition++) {
        printf("edition %zu: %zu written; refused 11: %zu, 12: %zu\n", edition, answers[edition][PHAGUNDRO_ACCEPTED],
            answers[edition][PHAGUNDRO_NO_ROOM], answers[edition][PHAGUNDRO_NO_SUCH_BATCH]);
        lacking += missing_kinds(kinds[edition], edition);
        lacking += missing(answers[edition][PHAGUNDRO_NO_ROOM] > 0, "number", PHAGUNDRO_NO_ROOM, edition);
    }
    lacking += account_sorts();
    printf("written: at most %zu bytes, %zu rows, over a slice of %zu bytes; with more than 255 messages: %zu\n", longest, most_rows,
        longest_slice, past_a_byte);
    printf("writings in which the edition was neither 1 nor 2 (13): %zu\n", wrong_editions);
    lacking += missing(longest == PHAGUNDRO_LONGEST, "written with bytes", PHAGUNDRO_LONGEST, 0);
    lacking += missing(longest_slice > PHAGUNDRO_LONGEST, "a slice longer than", PHAGUNDRO_LONGEST, 0);
    lacking += missing(past_a_byte > 0, "written with more messages than", UINT8_MAX, 0);
    lacking += missing(wrong_editions > 0, "number", PHAGUNDRO_UNKNOWN_EDITION, 0);
    return comparison_status(lacking);
}

int main(int count, char **words)
{
    size_t drafts = comparison_start(count, words, USUAL, show_draft);
    numbers = buffer(DRAFT_NUMBERS * sizeof(size_t));
    slice = buffer(SLICE_ROOM);
    output = buffer(OUTPUT);
    for (number = 0; number < drafts; number++) {
        drafts_next(&draft);
        compare_draft();
    }
    return account(drafts);
}
