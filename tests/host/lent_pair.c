/* Two batches that a comparison lends: see lent_pair.h. */
#include "lent_pair.h"

#include "memory.h"
#include "random.h"

#include <stdio.h>
#include <string.h>

const uint8_t *first_bytes, *second_bytes;
size_t lent_once, calls, wrong_editions;

static struct {
    const Batch *batch;
    Buffer buffer;
} copies[2];

static const uint8_t *lend(size_t which, const Batch *batch, bool at_end)
{
    Buffer *copy = &copies[which].buffer;
    if (copy->region == NULL)
        *copy = buffer(INPUT_ROOM);
    copies[which].batch = batch;
    place(copy, batch->length, at_end);
    memcpy(copy->start, batch->octets, batch->length);
    return lent(copy);
}

void lend_pair(const Batch *first, const Batch *second)
{
    first_bytes = lend(0, first, number % 2 == 0);
    second_bytes = lend(1, second, number / 2 % 2 == 0);
    if (same_bytes(first, second) && number % 4 < 2)
        second_bytes = first_bytes;
    lent_once += first_bytes != NULL && first_bytes == second_bytes;
}

void check_lent_pair(void)
{
    for (size_t i = 0; i < 2; i++)
        if (memcmp(copies[i].buffer.start, copies[i].batch->octets, copies[i].batch->length) != 0 || beside_changed(&copies[i].buffer))
            comparison_differs("a batch or memory beside it is changed", 0, "file", i + PHAGUNDRO_FILE_FIRST);
}

void show_pair(const Trio *trio, const TrioSort *sorts)
{
    printf("seed %llu, number %zu, %s\n", (unsigned long long)seed, number, sorts[trio->sort].name);
    show_batch("first", &trio->first);
    show_batch("second", &trio->second);
    fflush(stdout);
}

void in_rooms(void (*compare)(size_t edition, size_t room), size_t edition, size_t needed, size_t most)
{
    if (needed > 0) {
        compare(edition, needed);
        compare(edition, needed - 1);
        compare(edition, needed + 1 + below(40));
        compare(edition, number % 4 == 0 ? 0 : below(needed));
    } else { /* sometimes room for any answer, so that one written too early would be seen */
        compare(edition, 0);
        if (number % 2 == 0)
            compare(edition, below(1000));
        if (number % 8 == 0)
            compare(edition, most + below(40));
    }
}

bool is_edition(size_t edition)
{
    return edition == PHAGUNDRO_RFC2511 || edition == PHAGUNDRO_RFC4211;
}

void check_answer(PairAnswers answers, phagundro_pair_answer answer, reference_pair_answer right, size_t edition, size_t room)
{
    static const char *const names[] = {"number", "place", "file", "count"};
    calls++;
    if (!alike(4, names, &answer, &right))
        comparison_differs("other answers of two batches", edition, "room", room);
    if (is_edition(edition))
        answers[edition][right.number][right.file]++;
    wrong_editions += right.number == PHAGUNDRO_UNKNOWN_EDITION;
}

static int account_file(PairAnswers answers, size_t edition, size_t file)
{
    int lacking = 0;
    printf("; of file %zu", file);
    for (size_t n = PHAGUNDRO_TOO_LONG; n <= PHAGUNDRO_LONG_CERT_REQ_ID; n++) {
        printf("%s %zu: %zu", n > PHAGUNDRO_TOO_LONG ? "," : "", n, answers[edition][n][file]);
        lacking += missing(answers[edition][n][file] > 0, file == PHAGUNDRO_FILE_FIRST ? "the first's number" : "the second's number", n,
            edition);
    }
    return lacking;
}

int account_files(PairAnswers answers, size_t edition)
{
    int lacking = account_file(answers, edition, PHAGUNDRO_FILE_FIRST) + account_file(answers, edition, PHAGUNDRO_FILE_SECOND);
    putchar('\n');
    return lacking;
}
