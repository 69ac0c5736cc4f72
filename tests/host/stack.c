/* How many bytes of stack the archive's calls take, at most: for each of phagundro.h's names a line with the name and the bytes.
 *
 *     stack COUNT SEED FILE...
 *
 * Takes COUNT of the comparison's inputs, the first of which are the files and the longest, deepest and most numerous. Each call runs in a
 * thread whose stack is marked beforehand: it took what is no longer marked. The rows of each accepted input are written over it where it
 * stands and where it is one byte further on, so that a scratch is needed; and a draft is tried that is far too long for any batch. */
#define _DEFAULT_SOURCE
#include "comparison.h"
#include "inputs.h"
#include "pairs.h"

#include <pthread.h>
#include <stdio.h>
#include <stdlib.h>
#include <string.h>
#include <sys/mman.h>

enum { STACK = 1 << 21, MARK = 0xA5 };

static uint8_t output[INPUT_ROOM], further[1 + INPUT_ROOM];
static int64_t list[PHAGUNDRO_ENTRY_NUMBERS * PHAGUNDRO_MOST_ENTRIES];
static const Batch *one, *other; /* that are compared */
static size_t edition, rows, table[TABLE], draft[TABLE], drafted;
static uint8_t *stack;

/* Bytes taken: by the calls that need the least, by the search in many messages, by writing, and by comparing. */
static size_t others, searching, writing_small, writing_few_rows, writing, comparing;

static void *nothing(void *unused)
{
    return unused;
}

static void *accept_it(void *unused)
{
    phagundro_accept(edition, input, length);
    return unused;
}

static void *read_it(void *unused)
{
    rows = phagundro_read(edition, input, length, table, TABLE).count;
    return unused;
}

static void *write_it(void *unused)
{
    phagundro_write(edition, table, PHAGUNDRO_ROW_NUMBERS * rows, input, length, output, sizeof output);
    return unused;
}

static void *write_draft(void *unused)
{
    phagundro_write(edition, draft, PHAGUNDRO_ROW_NUMBERS * drafted, further, 1 + length, output, sizeof output);
    return unused;
}

static void *judge_it(void *unused)
{
    phagundro_verdict(edition, input, length, 0);
    phagundro_verdict_number(edition, input, length, 0);
    return unused;
}

static void *search_it(void *unused)
{
    phagundro_duplicates(edition, input, length);
    return unused;
}

/* With itself, which may be too long, and with document 01's S. */
static void *join_it(void *unused)
{
    static const uint8_t least[] = {0x30, 0x09, 0x30, 0x07, 0x30, 0x05, 0x02, 0x01, 0x00, 0x30, 0x00};
    phagundro_join(edition, input, length, input, length, output, sizeof output);
    phagundro_join(edition, least, sizeof least, input, length, output, sizeof output);
    return unused;
}

static void *cut_it(void *unused)
{
    phagundro_cut(edition, input, length, 0, output, sizeof output);
    phagundro_cut(edition, input, length, SIZE_MAX, output, sizeof output);
    return unused;
}

/* Of the input, and of one that is a notAfter. */
static void *moment_it(void *unused)
{
    static const uint8_t limit[] = "\xA1\x11\x18\x0F" "99991231235959Z";
    phagundro_moment(input, length);
    phagundro_moment(limit, sizeof limit - 1);
    return unused;
}

/* The list, with room and with none, the part of the first entry, and that of one past the last. */
static void *compare_them(void *unused)
{
    phagundro_compare(edition, one->octets, one->length, other->octets, other->length, list, sizeof list / sizeof *list);
    phagundro_compare(edition, one->octets, one->length, other->octets, other->length, NULL, 0);
    phagundro_compare_part(edition, one->octets, one->length, other->octets, other->length, 0);
    phagundro_compare_part(edition, one->octets, one->length, other->octets, other->length, SIZE_MAX);
    return unused;
}

/* The bytes of stack that a thread takes. */
static size_t taken(void *(*run)(void *))
{
    pthread_attr_t attributes;
    pthread_t thread;
    memset(stack, MARK, STACK);
    pthread_attr_init(&attributes);
    pthread_attr_setstack(&attributes, stack, STACK);
    if (pthread_create(&thread, &attributes, run, NULL) != 0)
        exit(2);
    pthread_join(thread, NULL);
    size_t left = 0;
    while (left < STACK && stack[left] == MARK)
        left++;
    return STACK - left;
}

/* The rows over the input one byte further on. */
static void draft_further(void)
{
    memcpy(further + 1, input, length);
    memcpy(draft, table, PHAGUNDRO_ROW_NUMBERS * rows * sizeof *draft);
    drafted = rows;
    for (size_t i = 0; i < PHAGUNDRO_ROW_NUMBERS * rows; i += PHAGUNDRO_ROW_NUMBERS) {
        draft[i + PHAGUNDRO_ROW_FIRST]++;
        draft[i + PHAGUNDRO_ROW_CONTENT]++;
    }
}

/* As many rows as are few, each the whole input and no child of another, so that none alone is too long. */
static void draft_too_long(void)
{
    drafted = PHAGUNDRO_FEW_ROWS;
    for (size_t i = 0; i < drafted; i++) {
        size_t *row = draft + PHAGUNDRO_ROW_NUMBERS * i;
        row[PHAGUNDRO_ROW_KIND] = PHAGUNDRO_KIND_CERT_REQ_ID;
        row[PHAGUNDRO_ROW_FIRST] = 1;
        row[PHAGUNDRO_ROW_LENGTH] = length;
        row[PHAGUNDRO_ROW_PARENT] = i;
        row[PHAGUNDRO_ROW_CONTENT] = 1;
    }
}

static void measure_writing(void)
{
    size_t *most = length <= PHAGUNDRO_SMALL_BATCH ? &writing_small : rows <= PHAGUNDRO_FEW_ROWS ? &writing_few_rows : &writing;
    keep_most(most, taken(write_it));
    draft_further();
    keep_most(most, taken(write_draft));
    draft_too_long();
    keep_most(&writing_few_rows, taken(write_draft));
}

static void measure_pair(const Batch *first, const Batch *second)
{
    one = first;
    other = second;
    keep_most(&comparing, taken(compare_them));
}

/* The input with itself, and with the last one before it that was accepted. */
static void measure_comparing(void)
{
    static Batch now, before[EDITIONS];
    memcpy(now.octets, input, now.length = length);
    measure_pair(&now, &now);
    measure_pair(&now, &before[edition]);
    measure_pair(&before[edition], &now);
    if (rows > 0)
        before[edition] = now;
}

/* Batches with the most rows: equal, with other leaves, and with other rows. */
static void measure_most_rows(void)
{
    static Batch least, changed, keyed;
    most_rows(&least, 0, false);
    most_rows(&changed, 1, false);
    most_rows(&keyed, 1, true);
    measure_pair(&least, &least);
    measure_pair(&least, &changed);
    measure_pair(&keyed, &keyed);
    measure_pair(&least, &keyed);
    measure_pair(&keyed, &least);
}

static void measure_input(void)
{
    keep_most(&others, taken(accept_it));
    keep_most(&others, taken(read_it));
    keep_most(&others, taken(judge_it));
    keep_most(&others, taken(join_it));
    keep_most(&others, taken(cut_it));
    keep_most(&others, taken(moment_it));
    measure_comparing();
    keep_most(messages_of(table, rows) <= PHAGUNDRO_FEW_MESSAGES ? &others : &searching, taken(search_it));
    if (rows > 0)
        measure_writing();
}

int main(int count, char **words)
{
    if (count < 3 || !inputs_start(strtoull(words[2], NULL, 10), count - 3, words + 3))
        return 2;
    stack = mmap(NULL, STACK, PROT_READ | PROT_WRITE, MAP_PRIVATE | MAP_ANONYMOUS, -1, 0);
    if (stack == MAP_FAILED)
        return 2;
    for (size_t left = strtoull(words[1], NULL, 10); left > 0; left--) {
        length = inputs_next(input);
        for (edition = PHAGUNDRO_RFC2511; edition <= PHAGUNDRO_RFC4211; edition++)
            measure_input();
    }
    for (edition = PHAGUNDRO_RFC2511; edition <= PHAGUNDRO_RFC4211; edition++)
        measure_most_rows();
    size_t thread = taken(nothing); /* takes some itself */
    printf("PHAGUNDRO_STACK %zu\n", others - thread);
    printf("PHAGUNDRO_STACK_DUPLICATES %zu\n", searching - thread);
    printf("PHAGUNDRO_STACK_WRITE_SMALL %zu\n", writing_small - thread);
    printf("PHAGUNDRO_STACK_WRITE_FEW_ROWS %zu\n", writing_few_rows - thread);
    printf("PHAGUNDRO_STACK_WRITE %zu\n", writing - thread);
    printf("PHAGUNDRO_STACK_COMPARE %zu\n", comparing - thread);
    return 0;
}
