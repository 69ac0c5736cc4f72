/* The archive against the verdict and the duplicate search in reference_verdict.c, and the memory around every input.
 *
 * The inputs are those of the reading's comparison and batches of requests.h in turn. Each is searched for duplicates, and judged at the
 * positions 0, the last, one past it, the largest number, two at random and one that is the last in a byte, in editions 1 and 2 and in
 * another number. See comparison.h for the command line and the exit statuses. */
#include "comparison.h"
#include "random.h"
#include "reference.h"
#include "requests.h"

#include <stdio.h>

enum { USUAL = 20000, VERDICTS = PHAGUNDRO_VERDICT_MISPLACED_DH_MAC + 1, FAR_POSITION = 254, MANY_MESSAGES = 5000 };

static void differs(const char *what, size_t edition, size_t position)
{
    comparison_differs(what, edition, "position", position);
}

/* -- What occurred -- */

static size_t refusals[EDITIONS][NUMBERS], verdicts[EDITIONS][VERDICTS]; /* of the verdict's calls */
static size_t searches[EDITIONS][2];                                     /* nothing found, and a pair */
static size_t calls, wrong_editions, far_pairs, most_searched, longest_part, disordered;

/* -- One input -- */

static const uint8_t *bytes;

static size_t messages_in(size_t edition)
{
    static size_t rows[TABLE];
    return messages_of(rows, reference_read(edition, input, length, rows, TABLE).count);
}

static void compare_verdict(size_t edition, size_t position)
{
    static const char *const names[] = {"number", "place", "verdict", "from", "length"};
    reference_verdict_answer right = reference_verdict(edition, input, length, position);
    phagundro_verdict_answer answer = phagundro_verdict(edition, bytes, length, position);
    size_t alone = phagundro_verdict_number(edition, bytes, length, position);
    calls += 2;
    if (!alike(5, names, &answer, &right))
        differs("other verdicts", edition, position);
    if (alone != (right.number == PHAGUNDRO_ACCEPTED ? right.verdict : PHAGUNDRO_VERDICT_REFUSED + right.number)) {
        printf("phagundro_verdict_number: %zu; the reference: number %zu, verdict %zu\n", alone, right.number, right.verdict);
        differs("the verdict's number is another", edition, position);
    }
    wrong_editions += right.number == PHAGUNDRO_UNKNOWN_EDITION;
    if (edition != PHAGUNDRO_RFC2511 && edition != PHAGUNDRO_RFC4211)
        return;
    refusals[edition][right.number]++;
    disordered += right.number == PHAGUNDRO_BAD_CONTENT && input[right.place] == 0x31;
    if (right.number == PHAGUNDRO_ACCEPTED)
        verdicts[edition][right.verdict]++;
    keep_most(&longest_part, right.length);
}

static void compare_duplicates(size_t edition, size_t messages)
{
    static const char *const names[] = {"number", "place", "found", "earlier", "later"};
    reference_duplicate_answer right = reference_duplicates(edition, input, length);
    phagundro_duplicate_answer answer = phagundro_duplicates(edition, bytes, length);
    calls++;
    if (!alike(5, names, &answer, &right))
        differs("other duplicates", edition, 0);
    if (right.number != PHAGUNDRO_ACCEPTED)
        return;
    searches[edition][right.found]++;
    far_pairs += right.later > FAR_POSITION;
    if (!right.found)
        keep_most(&most_searched, messages);
}

static void compare_edition(size_t edition)
{
    size_t messages = messages_in(edition);
    compare_duplicates(edition, messages);
    compare_verdict(edition, 0);
    compare_verdict(edition, SIZE_MAX);
    compare_verdict(edition, below(SIZE_MAX));
    if (messages > 0) {
        compare_verdict(edition, messages - 1);
        compare_verdict(edition, messages);
        compare_verdict(edition, below(messages));
        compare_verdict(edition, messages + UINT8_MAX);
    }
}

static void compare_input(void)
{
    bytes = lend_input();
    compare_edition(PHAGUNDRO_RFC2511);
    compare_edition(PHAGUNDRO_RFC4211);
    compare_edition(no_edition(number / 2));
    check_lent_input();
}

/* -- The account -- */

static int account_edition(size_t edition)
{
    int lacking = 0;
    printf("edition %zu: verdicts", edition);
    for (size_t v = 0; v < VERDICTS; v++) {
        printf(" %zu: %zu%s", v, verdicts[edition][v], v + 1 < VERDICTS ? "," : "; refusals");
        lacking += missing(verdicts[edition][v] > 0, "verdict", v, edition);
    }
    for (size_t n = PHAGUNDRO_TOO_LONG; n <= PHAGUNDRO_NO_SUCH_MESSAGE; n++) {
        if (n > PHAGUNDRO_LONG_CERT_REQ_ID && n < PHAGUNDRO_NO_SUCH_MESSAGE)
            continue; /* they are of other calls, or of no edition */
        printf("%s %zu: %zu", n > PHAGUNDRO_TOO_LONG ? "," : "", n, refusals[edition][n]);
        lacking += missing(refusals[edition][n] > 0, "number", n, edition);
    }
    printf("; searches with a pair: %zu, with none: %zu\n", searches[edition][1], searches[edition][0]);
    lacking += missing(searches[edition][0] > 0, "a search that finds", 0, edition);
    return lacking + missing(searches[edition][1] > 0, "a search that finds", 1, edition);
}

static int account(size_t inputs)
{
    printf("%zu inputs of seed %llu, %zu calls: no difference\n", inputs, (unsigned long long)seed, calls);
    int lacking = account_edition(PHAGUNDRO_RFC2511) + account_edition(PHAGUNDRO_RFC4211);
    printf("pairs past position 254: %zu; most messages without a pair: %zu; longest part: %zu; neither edition (13): %zu\n", far_pairs,
        most_searched, longest_part, wrong_editions);
    printf("verdicts refused for a SET out of order (5): %zu\n", disordered);
    lacking += missing(far_pairs > 0, "a pair past position", FAR_POSITION, 0);
    lacking += missing(wrong_editions > 0, "number", PHAGUNDRO_UNKNOWN_EDITION, 0);
    lacking += missing(disordered > 0, "a SET out of order, number", PHAGUNDRO_BAD_CONTENT, 0);
    lacking += missing(most_searched > MANY_MESSAGES, "no pair among more messages than", MANY_MESSAGES, 0);
    return comparison_status(lacking);
}

int main(int count, char **words)
{
    size_t inputs = comparison_start(count, words, USUAL, show_input);
    for (number = 0; number < inputs; number++) {
        length = number % 4 < 2 ? inputs_next(input) : requests_next(input);
        compare_input();
    }
    return account(inputs);
}
