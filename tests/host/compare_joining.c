/* The archive against joining and cutting in reference_joining.c: number, place, file, count, output and the memory around every buffer.
 *
 * The first two batches of each trio are joined, and the first is cut at a position that it has, at the one past its last and at one far
 * off, in editions 1 and 2 and sometimes in another number. The output is as long as the batch, one byte shorter, longer or of any length.
 * The batches and the output are each lent at the edge of memory that must not be touched; of two equal batches one is sometimes lent for
 * both. See comparison.h for the command line and the exit statuses. */
#include "comparison.h"
#include "lent_pair.h"
#include "memory.h"
#include "random.h"
#include "reference.h"
#include "trios.h"

#include <stdio.h>

enum { USUAL = 50000, OUTPUT = 70000 };

/* -- What is being compared -- */

static Trio trio;
static Buffer output;

static void next(void)
{
    trios_next(&trio);
}

static void show(void)
{
    show_pair(&trio, trio_sorts);
}

/* -- What occurred -- */

enum { HEADERS = 5 };
static PairAnswers joins;
static size_t cuts[EDITIONS][NUMBERS];
static size_t grown[HEADERS][HEADERS][HEADERS]; /* by the headers of the first, of the second and of their join */
static size_t shrunk[HEADERS][HEADERS];         /* by the headers of the batch and of what is cut out of it */
static size_t wholes[PHAGUNDRO_LONGEST + 2];    /* joins by their lengths, the last one too long */
static size_t far_cuts;

/* Both batches of a pair are accepted. */
static void joinable(void)
{
    size_t content = content_of(&trio.first) + content_of(&trio.second), header = header_around(content);
    if (header + content > PHAGUNDRO_LONGEST + 1)
        return;
    grown[header_of(trio.first.octets)][header_of(trio.second.octets)][header]++;
    wholes[header + content]++;
}

/* -- The output -- */

static uint8_t expected[OUTPUT];

static void lend_output(size_t room)
{
    place(&output, room, calls % 2 == 0);
    fill_alike(&output, expected);
}

/* -- Joining -- */

static void compare_join(size_t edition, size_t room)
{
    lend_output(room);
    reference_pair_answer right = reference_join(edition, trio.first.octets, trio.first.length, trio.second.octets, trio.second.length,
        expected, room);
    phagundro_pair_answer answer =
        phagundro_join(edition, first_bytes, trio.first.length, second_bytes, trio.second.length, lent(&output), room);
    check_answer(joins, answer, right, edition, room);
    check_output(&output, expected, edition, room, right.count);
}

static void compare_joins(size_t edition)
{
    static uint8_t batch[OUTPUT];
    reference_pair_answer right = reference_join(edition, trio.first.octets, trio.first.length, trio.second.octets, trio.second.length,
        batch, OUTPUT);
    if (right.number == PHAGUNDRO_ACCEPTED || (right.number == PHAGUNDRO_TOO_LONG && right.file == 0))
        joinable();
    in_rooms(compare_join, edition, right.count, PHAGUNDRO_LONGEST);
}

/* -- Cutting -- */

static size_t position;

static void compare_cut(size_t edition, size_t room)
{
    static const char *const names[] = {"number", "place", "count"};
    lend_output(room);
    reference_answer right = reference_cut(edition, trio.first.octets, trio.first.length, position, expected, room);
    phagundro_answer answer = phagundro_cut(edition, first_bytes, trio.first.length, position, lent(&output), room);
    calls++;
    if (!alike(3, names, &answer, &right)) {
        printf("position %zu\n", position);
        comparison_differs("other answers in cutting", edition, "room", room);
    }
    check_output(&output, expected, edition, room, right.count);
    if (is_edition(edition))
        cuts[edition][right.number]++;
    wrong_editions += right.number == PHAGUNDRO_UNKNOWN_EDITION;
}

static void compare_position(size_t edition, size_t which)
{
    static uint8_t batch[OUTPUT];
    position = which;
    reference_answer right = reference_cut(edition, trio.first.octets, trio.first.length, position, batch, OUTPUT);
    if (right.number == PHAGUNDRO_ACCEPTED) {
        shrunk[header_of(trio.first.octets)][header_of(batch)]++;
        far_cuts += position > UINT8_MAX;
    }
    in_rooms(compare_cut, edition, right.count, PHAGUNDRO_LONGEST);
}

/* The messages of the first batch; 0 if it is refused. */
static size_t messages_in(size_t edition)
{
    static size_t rows[TABLE];
    return messages_of(rows, reference_read(edition, trio.first.octets, trio.first.length, rows, TABLE).count);
}

static void compare_cuts(size_t edition)
{
    size_t messages = messages_in(edition), there = messages > 0 ? below(messages) : 0;
    compare_position(edition, there);
    compare_position(edition, messages);
    switch (number % 4) {
    case 0: compare_position(edition, SIZE_MAX); break;
    case 1: compare_position(edition, below(SIZE_MAX)); break;
    case 2: compare_position(edition, there + ((size_t)1 << (8 << below(3)))); break; /* the same in a byte, in two or in four */
    default: compare_position(edition, messages > 0 ? messages - 1 : 1);
    }
}

/* -- One pair -- */

static void compare_pair(void)
{
    lend_pair(&trio.first, &trio.second);
    for (size_t edition = PHAGUNDRO_RFC2511; edition <= PHAGUNDRO_RFC4211; edition++) {
        compare_joins(edition);
        compare_cuts(edition);
    }
    if (number % 4 == 0) {
        compare_joins(no_edition(number / 4));
        compare_cuts(no_edition(number / 4));
    }
    check_lent_pair();
}

/* -- The account -- */

static int account_joins(size_t edition)
{
    int lacking = 0;
    printf("edition %zu: %zu joined; refused 1: %zu, 11: %zu", edition, joins[edition][PHAGUNDRO_ACCEPTED][0],
        joins[edition][PHAGUNDRO_TOO_LONG][0], joins[edition][PHAGUNDRO_NO_ROOM][0]);
    lacking += account_files(joins, edition);
    lacking += missing(joins[edition][PHAGUNDRO_ACCEPTED][0] > 0, "a join with number", PHAGUNDRO_ACCEPTED, edition);
    lacking += missing(joins[edition][PHAGUNDRO_TOO_LONG][0] > 0, "a join's own number", PHAGUNDRO_TOO_LONG, edition);
    return lacking + missing(joins[edition][PHAGUNDRO_NO_ROOM][0] > 0, "a join's own number", PHAGUNDRO_NO_ROOM, edition);
}

static int account_cuts(size_t edition)
{
    int lacking = 0;
    printf("edition %zu: %zu cut; refused", edition, cuts[edition][PHAGUNDRO_ACCEPTED]);
    for (size_t n = PHAGUNDRO_ACCEPTED; n <= PHAGUNDRO_NO_SUCH_MESSAGE; n++) {
        if (n == PHAGUNDRO_NO_SUCH_BATCH || n == PHAGUNDRO_UNKNOWN_EDITION)
            continue; /* they are of other calls, or of no edition */
        if (n != PHAGUNDRO_ACCEPTED)
            printf("%s %zu: %zu", n > PHAGUNDRO_TOO_LONG ? "," : "", n, cuts[edition][n]);
        lacking += missing(cuts[edition][n] > 0, "a cut with number", n, edition);
    }
    putchar('\n');
    return lacking;
}

/* Headers of 2, 3 and 4 octets, as far as they can meet: two contents below 128 make less than 256, and two from 128 on make no less. */
static int account_headers(void)
{
    int lacking = 0;
    printf("pairs by the headers of the first, of the second and of the join:");
    for (size_t one = 2; one < HEADERS; one++)
        for (size_t two = 2; two < HEADERS; two++)
            for (size_t join = one > two ? one : two; join < HEADERS; join++) {
                if ((one == 2 && two == 2 && join == 4) || (one == 3 && two == 3 && join == 3))
                    continue;
                printf(" %zu %zu %zu: %zu;", one, two, join, grown[one][two][join]);
                lacking += missing(grown[one][two][join] > 0, "a pair of headers", 100 * one + 10 * two + join, 0);
            }
    printf(" cuts by the headers of both:");
    for (size_t of = 2; of < HEADERS; of++)
        for (size_t cut = 2; cut <= of; cut++) {
            printf(" %zu %zu: %zu;", of, cut, shrunk[of][cut]);
            lacking += missing(shrunk[of][cut] > 0, "a cut from header to header", 10 * of + cut, 0);
        }
    putchar('\n');
    return lacking;
}

/* Joins whose content is the last with a header or the first with a longer one, and those at the longest. */
static int account_lengths(void)
{
    static const size_t lengths[] = {0x7F + 2, 0x80 + 3, 0xFF + 3, 0x100 + 4, PHAGUNDRO_LONGEST - 1, PHAGUNDRO_LONGEST,
        PHAGUNDRO_LONGEST + 1};
    int lacking = 0;
    printf("pairs by the join's length:");
    for (size_t i = 0; i < sizeof lengths / sizeof *lengths; i++) {
        printf("%s %zu: %zu", i > 0 ? "," : "", lengths[i], wholes[lengths[i]]);
        lacking += missing(wholes[lengths[i]] > 0, "a pair whose join has a length of", lengths[i], 0);
    }
    putchar('\n');
    return lacking;
}

static int account(size_t trios)
{
    int lacking = 0;
    printf("%zu pairs of seed %llu, %zu calls: no difference\n", trios, (unsigned long long)seed, calls);
    for (size_t edition = PHAGUNDRO_RFC2511; edition <= PHAGUNDRO_RFC4211; edition++)
        lacking += account_joins(edition) + account_cuts(edition);
    lacking += account_headers() + account_lengths();
    printf("cuts past position 255: %zu; pairs lent once: %zu; neither edition (13): %zu\n", far_cuts, lent_once, wrong_editions);
    lacking += missing(far_cuts > 0, "a cut past position", UINT8_MAX, 0);
    lacking += missing(lent_once > 0, "one batch lent for both; pairs", lent_once, 0);
    lacking += missing(wrong_editions > 0, "number", PHAGUNDRO_UNKNOWN_EDITION, 0);
    return comparison_status(lacking);
}

int main(int count, char **words)
{
    size_t trios = comparison_start(count, words, USUAL, show);
    output = buffer(OUTPUT);
    return comparison_run(trios, next, compare_pair, account);
}
