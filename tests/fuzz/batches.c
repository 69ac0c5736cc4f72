/* A fuzz target for clang's libFuzzer: any bytes, read, judged, joined, cut and compared by the archive and by documents 01 and 02 in plain
 * C, whose code guides the fuzzer. It checks that both are equal, that the rows are written back, that a batch cut at every position is
 * joined again, that only equal batches have no changes, that times show moments, and how the two editions' answers relate. A difference
 * aborts. */
#include "../../include/phagundro.h"
#include "../host/reference.h"

#include <stdbool.h>
#include <stdio.h>
#include <stdlib.h>
#include <string.h>

enum {
    MOST = 8192, /* bytes of an input */
    NUMBERS = PHAGUNDRO_ROW_NUMBERS * (MOST / 2),
    POSITIONS = 4,
    MORE = 8, /* bytes that an output has beside those of two inputs */
    UNTOUCHED = 0xA5,
    EDITIONS = PHAGUNDRO_RFC4211 + 1 /* tables that are indexed by the edition */
};

static size_t rows[EDITIONS][NUMBERS], expected[NUMBERS];
static uint8_t output[MOST], made[2 * MOST + MORE], wanted_made[2 * MOST + MORE];
static int64_t list[PHAGUNDRO_ENTRY_NUMBERS * (MOST + MORE)], wanted_list[PHAGUNDRO_ENTRY_NUMBERS * (MOST + MORE)];

static const uint8_t least[] = {0x30, 0x09, 0x30, 0x07, 0x30, 0x05, 0x02, 0x01, 0x00, 0x30, 0x00}; /* document 01's S */

static void hold(int holds, size_t edition, const char *what)
{
    if (holds)
        return;
    fprintf(stderr, "difference: edition %zu: %s\n", edition, what);
    abort();
}

/* Fills what is lent to both with the same, before a call. */
static void lend(void *ours, void *theirs, size_t size)
{
    memset(ours, UNTOUCHED, size);
    memset(theirs, UNTOUCHED, size);
}

/* Reads in an edition; the table after the rows, or all of it after a refusal, is as it was. */
static phagundro_answer read_alike(size_t edition, const uint8_t *bytes, size_t length)
{
    lend(rows[edition], expected, sizeof expected);
    phagundro_answer answer = phagundro_read(edition, bytes, length, rows[edition], NUMBERS);
    reference_answer wanted = reference_read(edition, bytes, length, expected, NUMBERS);
    hold(answer.number == wanted.number && answer.place == wanted.place && answer.count == wanted.count, edition, "another answer");
    hold(memcmp(rows[edition], expected, sizeof expected) == 0, edition, "another table");
    hold(phagundro_accept(edition, bytes, length) == answer.number, edition, "another acceptance");
    return answer;
}

static int64_t moment_alike(const uint8_t *bytes, size_t length)
{
    int64_t moment = phagundro_moment(bytes, length);
    hold(moment == reference_moment(bytes, length), 0, "another moment");
    return moment;
}

/* Each notBefore and notAfter of an accepted batch shows a moment. */
static void show_moments(size_t edition, phagundro_answer answer, const uint8_t *bytes)
{
    for (const size_t *row = rows[edition]; row < rows[edition] + PHAGUNDRO_ROW_NUMBERS * answer.count; row += PHAGUNDRO_ROW_NUMBERS) {
        bool time = row[PHAGUNDRO_ROW_KIND] == PHAGUNDRO_KIND_NOT_BEFORE || row[PHAGUNDRO_ROW_KIND] == PHAGUNDRO_KIND_NOT_AFTER;
        int64_t moment = moment_alike(bytes + row[PHAGUNDRO_ROW_FIRST], row[PHAGUNDRO_ROW_LENGTH]);
        hold(time == (moment >= 0), edition, "a time without a moment, or a moment of another row");
    }
}

static void write_back(size_t edition, phagundro_answer answer, const uint8_t *bytes, size_t length)
{
    if (answer.number != PHAGUNDRO_ACCEPTED)
        return;
    size_t numbers = PHAGUNDRO_ROW_NUMBERS * answer.count;
    phagundro_answer written = phagundro_write(edition, rows[edition], numbers, bytes, length, output, sizeof output);
    hold(written.number == PHAGUNDRO_ACCEPTED && written.count == length, edition, "the rows are not written again");
    hold(memcmp(output, bytes, length) == 0, edition, "other bytes are written");
}

static void judge_alike(size_t edition, const uint8_t *bytes, size_t length)
{
    for (size_t position = 0; position < POSITIONS; position++) {
        phagundro_verdict_answer judged = phagundro_verdict(edition, bytes, length, position);
        reference_verdict_answer wanted = reference_verdict(edition, bytes, length, position);
        hold(memcmp(&judged, &wanted, sizeof judged) == 0, edition, "another verdict");
    }
    phagundro_duplicate_answer searched = phagundro_duplicates(edition, bytes, length);
    reference_duplicate_answer wanted = reference_duplicates(edition, bytes, length);
    hold(memcmp(&searched, &wanted, sizeof searched) == 0, edition, "another pair");
}

/* Joins; the output after the join, or all of it after a refusal, is as it was. */
static void join_alike(size_t edition, const uint8_t *first, size_t first_length, const uint8_t *second, size_t second_length, size_t room)
{
    size_t size = first_length + second_length + MORE;
    lend(made, wanted_made, size);
    phagundro_pair_answer answer = phagundro_join(edition, first, first_length, second, second_length, made, room);
    reference_pair_answer wanted = reference_join(edition, first, first_length, second, second_length, wanted_made, room);
    hold(memcmp(&answer, &wanted, sizeof answer) == 0, edition, "another answer in joining");
    hold(memcmp(made, wanted_made, size) == 0, edition, "another join");
}

static void cut_alike(size_t edition, const uint8_t *bytes, size_t length, size_t position, size_t room)
{
    size_t size = length + MORE;
    lend(made, wanted_made, size);
    phagundro_answer answer = phagundro_cut(edition, bytes, length, position, made, room);
    reference_answer wanted = reference_cut(edition, bytes, length, position, wanted_made, room);
    hold(memcmp(&answer, &wanted, sizeof answer) == 0, edition, "another answer in cutting");
    hold(memcmp(made, wanted_made, size) == 0, edition, "another batch is cut");
}

/* Cuts a batch that is accepted at every position and joins what was cut again. */
static void join_again(size_t edition, const uint8_t *bytes, size_t length)
{
    static uint8_t so_far[MOST];
    size_t joined = phagundro_cut(edition, bytes, length, 0, so_far, sizeof so_far).count;
    for (size_t position = 1;; position++) {
        phagundro_answer cut = phagundro_cut(edition, bytes, length, position, output, sizeof output);
        if (cut.number != PHAGUNDRO_ACCEPTED)
            break;
        phagundro_pair_answer answer = phagundro_join(edition, so_far, joined, output, cut.count, made, sizeof made);
        hold(answer.number == PHAGUNDRO_ACCEPTED && answer.count <= length, edition, "what was cut is not joined");
        memcpy(so_far, made, joined = answer.count);
    }
    hold(joined == length && memcmp(so_far, bytes, length) == 0, edition, "what was cut and joined again is another batch");
}

static void join_and_cut(size_t edition, phagundro_answer answer, const uint8_t *bytes, size_t length)
{
    join_alike(edition, least, sizeof least, bytes, length, sizeof made);
    cut_alike(edition, bytes, length, POSITIONS, 0);
    if (answer.number != PHAGUNDRO_ACCEPTED)
        return;
    join_alike(edition, bytes, length, least, sizeof least, sizeof made);
    join_alike(edition, bytes, length, bytes, length, sizeof made);
    join_alike(edition, bytes, length, bytes, length, length);
    for (size_t position = 0; position < POSITIONS; position++)
        cut_alike(edition, bytes, length, position, position % 2 == 0 ? sizeof made : length / 2);
    join_again(edition, bytes, length);
}

/* Compares, with room for so many entries; the list after them, or all of it after a refusal, is as it was. Answers how many there are. */
static phagundro_pair_answer compare_alike(size_t edition, const uint8_t *first, size_t first_length, const uint8_t *second,
    size_t second_length, size_t entries)
{
    size_t size = PHAGUNDRO_ENTRY_NUMBERS * ((first_length + second_length) / 2 + MORE) * sizeof *list;
    size_t room = PHAGUNDRO_ENTRY_NUMBERS * entries;
    lend(list, wanted_list, size);
    phagundro_pair_answer answer = phagundro_compare(edition, first, first_length, second, second_length, list, room);
    reference_pair_answer wanted = reference_compare(edition, first, first_length, second, second_length, wanted_list, room);
    hold(memcmp(&answer, &wanted, sizeof answer) == 0, edition, "another answer in comparing");
    hold(memcmp(list, wanted_list, size) == 0, edition, "another list");
    return answer;
}

static void compare_parts(size_t edition, const uint8_t *first, size_t first_length, const uint8_t *second, size_t second_length)
{
    size_t most = (first_length + second_length) / 2 + MORE;
    phagundro_pair_answer answer = compare_alike(edition, first, first_length, second, second_length, most);
    size_t asked[] = {0, 1, answer.count / 2, answer.count, SIZE_MAX};
    for (size_t i = 0; i < sizeof asked / sizeof *asked; i++) {
        phagundro_part part = phagundro_compare_part(edition, first, first_length, second, second_length, asked[i]);
        reference_part wanted = reference_compare_part(edition, first, first_length, second, second_length, asked[i]);
        hold(memcmp(&part, &wanted, sizeof part) == 0, edition, "another part");
    }
    if (answer.number != PHAGUNDRO_ACCEPTED)
        return;
    bool same = first_length == second_length && memcmp(first, second, first_length) == 0;
    hold(same == (answer.count == 0), edition, "equal batches have changes, or others have none");
    compare_alike(edition, first, first_length, second, second_length, answer.count / 2);
}

/* The length of the first element, as far as there is one. */
static size_t first_element(const uint8_t *bytes, size_t length)
{
    size_t header = 2, content = length > 1 ? bytes[1] : 0;
    for (size_t left = content > 0x80 && content <= 0x82 ? content - 0x80 : 0; left > 0 && header < length; left--) {
        content = (header == 2 ? 0 : content << 8) + bytes[header];
        header++;
    }
    return header + content < length ? header + content : length;
}

/* Compares the first element with what follows it, both ways, or the whole with S. */
static void compare(size_t edition, const uint8_t *bytes, size_t length)
{
    size_t first = first_element(bytes, length);
    bool two = first < length;
    const uint8_t *second = two ? bytes + first : least;
    size_t second_length = two ? length - first : sizeof least;
    compare_parts(edition, bytes, first, second, second_length);
    compare_parts(edition, second, second_length, bytes, first);
}

/* What demand 3 says of the answer in an edition beside that in the opposite one. */
static void agree(size_t edition, phagundro_answer own, phagundro_answer opposite)
{
    switch (own.number) {
    case PHAGUNDRO_ACCEPTED:
        if (opposite.number != PHAGUNDRO_ACCEPTED)
            hold(opposite.number == PHAGUNDRO_OTHER_EDITION, edition, "accepted, and refused by the other with another number than 9");
        else
            hold(own.count == opposite.count && memcmp(rows[PHAGUNDRO_RFC2511], rows[PHAGUNDRO_RFC4211], sizeof expected) == 0, edition,
                "the editions have other rows");
        break;
    case PHAGUNDRO_OTHER_EDITION:
        hold(opposite.number == PHAGUNDRO_ACCEPTED || opposite.number == PHAGUNDRO_LONG_CERT_REQ_ID, edition,
            "9, and not in the other's grammar");
        break;
    case PHAGUNDRO_NOT_IN_GRAMMAR:
        hold(opposite.number == PHAGUNDRO_NOT_IN_GRAMMAR, edition, "8 in one edition alone");
        break;
    default:
        if (own.number < PHAGUNDRO_NOT_IN_GRAMMAR)
            hold(own.number == opposite.number && own.place == opposite.place, edition, "the editions see other elements");
    }
}

int LLVMFuzzerInitialize(int *count, char ***words);
int LLVMFuzzerTestOneInput(const uint8_t *bytes, size_t length);

/* A fault is planted in the plain C if the environment names its number. */
int LLVMFuzzerInitialize(int *count, char ***words)
{
    const char *fault = getenv("REFERENCE_FAULT");
    (void)count, (void)words;
    reference_fault = fault == NULL ? 0 : atoi(fault);
    return 0;
}

int LLVMFuzzerTestOneInput(const uint8_t *bytes, size_t length)
{
    phagundro_answer answers[EDITIONS];
    if (length > MOST)
        return -1;
    for (size_t edition = PHAGUNDRO_RFC2511; edition <= PHAGUNDRO_RFC4211; edition++) {
        answers[edition] = read_alike(edition, bytes, length);
        show_moments(edition, answers[edition], bytes);
        write_back(edition, answers[edition], bytes, length);
        judge_alike(edition, bytes, length);
        join_and_cut(edition, answers[edition], bytes, length);
        compare(edition, bytes, length);
    }
    moment_alike(bytes, length);
    agree(PHAGUNDRO_RFC2511, answers[PHAGUNDRO_RFC2511], answers[PHAGUNDRO_RFC4211]);
    agree(PHAGUNDRO_RFC4211, answers[PHAGUNDRO_RFC4211], answers[PHAGUNDRO_RFC2511]);
    return 0;
}
