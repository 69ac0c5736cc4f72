/* What the comparisons have in common: see comparison.h. */
#include "comparison.h"

#include "kinds.h"
#include "memory.h"
#include "reference.h"

#include <stdio.h>
#include <stdlib.h>
#include <string.h>

enum { DIFFERENT = 1, NOT_RUN = 2, LACKING = 3 }; /* exit statuses */

uint64_t seed = 1;
size_t number;

static void (*show_compared)(void);

static void outside(int signal_number)
{
    printf("difference: the call ended with signal %d\n", signal_number);
    show_compared();
    _Exit(DIFFERENT);
}

size_t comparison_start(int count, char **words, size_t usual, void (*show)(void))
{
    int first = 1;
    for (; first + 1 < count && strncmp(words[first], "--", 2) == 0; first += 2) {
        unsigned long long value = strtoull(words[first + 1], NULL, 10);
        if (strcmp(words[first], "--count") == 0)
            usual = value;
        else if (strcmp(words[first], "--seed") == 0)
            seed = value;
        else if (strcmp(words[first], "--fault") == 0)
            reference_fault = (int)value;
        else
            exit(NOT_RUN);
    }
    if (!inputs_start(seed, count - first, words + first)) {
        puts("a file can't be read");
        exit(NOT_RUN);
    }
    show_compared = show;
    report_signals(outside);
    return usual;
}

int comparison_run(size_t inputs, void (*next)(void), void (*compare)(void), int (*account)(size_t inputs))
{
    for (number = 0; number < inputs; number++) {
        next();
        compare();
    }
    return account(inputs);
}

/* -- The input -- */

uint8_t input[INPUT_ROOM];
size_t length;

static Buffer lent_input;

const uint8_t *lend_input(void)
{
    if (lent_input.region == NULL)
        lent_input = buffer(INPUT_ROOM);
    place(&lent_input, length, number % 2 == 0);
    memcpy(lent_input.start, input, length);
    return lent(&lent_input);
}

void check_lent_input(void)
{
    if (memcmp(lent_input.start, input, length) != 0)
        comparison_differs("the input is changed", 0, "bytes", length);
    if (beside_changed(&lent_input))
        comparison_differs("memory beside the input is changed", 0, "bytes", length);
}

void show_input(void)
{
    printf("seed %llu, input %zu, %zu bytes:\n", (unsigned long long)seed, number, length);
    for (size_t i = 0; i < length; i++)
        printf("%02X", input[i]);
    putchar('\n');
    fflush(stdout);
}

size_t messages_of(const size_t *rows, size_t count)
{
    size_t found = 0;
    for (size_t i = 0; i < count; i++)
        found += rows[PHAGUNDRO_ROW_NUMBERS * i + PHAGUNDRO_ROW_KIND] == PHAGUNDRO_KIND_MESSAGE;
    return found;
}

bool is_carried(const size_t *rows, size_t row)
{
    while (row != 0 && rows[PHAGUNDRO_ROW_NUMBERS * row + PHAGUNDRO_ROW_KIND] != PHAGUNDRO_KIND_REG_INFO_CERT_REQ)
        row = rows[PHAGUNDRO_ROW_NUMBERS * row + PHAGUNDRO_ROW_PARENT];
    return row != 0;
}

/* -- Numbers that are no edition -- */

static const size_t no_editions[] = {0, 3, 256, 257, 258, 65537, 65538, 0x100000001, 0x100000002, SIZE_MAX, SIZE_MAX - 1,
    0x8000000000000001};

enum { ALL = sizeof no_editions / sizeof *no_editions, NEAR = 2 };

size_t far_edition(size_t n)
{
    return no_editions[NEAR + n % (ALL - NEAR)];
}

size_t no_edition(size_t n)
{
    return no_editions[n % ALL];
}

/* -- Differences -- */

void comparison_differs(const char *what, size_t edition, const char *other, size_t value)
{
    printf("difference: %s; edition %zu, %s %zu\n", what, edition, other, value);
    show_compared();
    exit(DIFFERENT);
}

static void show_answer(const char *whose, size_t count, const char *const *names, const size_t *numbers)
{
    printf("the %s:", whose);
    for (size_t i = 0; i < count; i++)
        printf("%s %s %zu", i > 0 ? "," : "", names[i], numbers[i]);
    putchar('\n');
}

bool alike(size_t count, const char *const *names, const void *answer, const void *right)
{
    if (memcmp(answer, right, count * sizeof(size_t)) == 0)
        return true;
    show_answer("archive", count, names, answer);
    show_answer("reference", count, names, right);
    return false;
}

/* A byte or a number, at a place where there are such of `unit` bytes each. */
static long long shown_at(const void *lent, size_t unit, size_t i)
{
    return unit == 1 ? ((const uint8_t *)lent)[i] : ((const int64_t *)lent)[i];
}

static void check_written(const Buffer *output, const void *expected, size_t unit, size_t edition, size_t room, size_t written)
{
    size_t i = 0;
    if (beside_changed(output))
        comparison_differs("memory beside the output is changed", edition, "room", room);
    if (room == 0 || memcmp(output->start, expected, unit * room) == 0)
        return;
    while (shown_at(output->start, unit, i) == shown_at(expected, unit, i))
        i++;
    printf("at %zu: the archive %lld, the reference %lld\n", i, shown_at(output->start, unit, i), shown_at(expected, unit, i));
    comparison_differs(i < written ? "another output" : "the output is changed where it should be as it was", edition, "room", room);
}

void check_output(const Buffer *output, const uint8_t *expected, size_t edition, size_t room, size_t written)
{
    check_written(output, expected, 1, edition, room, written);
}

void check_numbers(const Buffer *output, const void *expected, size_t edition, size_t room, size_t written)
{
    check_written(output, expected, sizeof(int64_t), edition, room, written);
}

/* -- The account -- */

void keep_most(size_t *most, size_t value)
{
    *most = value > *most ? value : *most;
}

int missing(bool occurs, const char *what, size_t which, size_t edition)
{
    if (!occurs)
        printf("never occurred: %s %zu in edition %zu\n", what, which, edition);
    return !occurs;
}

/* The edition that alone has rows of a kind; 0 for both. */
static size_t edition_of(size_t kind)
{
    switch (kind) {
    case PHAGUNDRO_KIND_SERIAL_NUMBER: case PHAGUNDRO_KIND_SIGNING_ALG: case PHAGUNDRO_KIND_ISSUER_UID: case PHAGUNDRO_KIND_SUBJECT_UID:
    case PHAGUNDRO_KIND_OCTET_PAIRS:
        return PHAGUNDRO_RFC2511;
    case PHAGUNDRO_KIND_AGREE_MAC: case PHAGUNDRO_KIND_ENCRYPTED_KEY: case PHAGUNDRO_KIND_UTF8_PAIRS:
        return PHAGUNDRO_RFC4211;
    default:
        return 0;
    }
}

int missing_kinds(const size_t occurred[KINDS], size_t edition)
{
    int lacking = 0;
    for (size_t i = 0; i < kinds_count; i++)
        if (edition_of(kinds[i]) == 0 || edition_of(kinds[i]) == edition)
            lacking += missing(occurred[kinds[i]] > 0, "a row of kind", kinds[i], edition);
    return lacking;
}

int comparison_status(int lacking)
{
    return lacking > 0 ? LACKING : 0;
}
