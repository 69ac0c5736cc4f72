/* Shows the answers of reference_verdict.c: the bytes in hex, and for editions 1 and 2 the five numbers of the duplicate search and of the
 * verdict at each position, the first past the last message included, as
 *     300930073005020100..,0 0 0 0 0;0 0 0 0 0;14 0 0 0 0,0 0 0 0 0;..
 * A line of input is the bytes in hex; the comparison's own inputs and its batches are taken in turn. See answering.h. */
#include "../../include/phagundro.h"
#include "answering.h"
#include "inputs.h"
#include "reference.h"
#include "requests.h"

#include <stdio.h>

enum { POSITIONS = 300 }; /* at most */

static uint8_t input[INPUT_ROOM];
static size_t length;

static bool take(const char *line)
{
    return take_hex(line, input, sizeof input, &length);
}

static void make(void)
{
    static bool batch;
    length = batch ? requests_next(input) : inputs_next(input);
    batch = !batch;
}

static void show(void)
{
    show_hex(input, length);
    for (size_t edition = PHAGUNDRO_RFC2511; edition <= PHAGUNDRO_RFC4211; edition++) {
        reference_duplicate_answer pair = reference_duplicates(edition, input, length);
        printf(",%zu %zu %zu %zu %zu", pair.number, pair.place, pair.found, pair.earlier, pair.later);
        for (size_t position = 0, number = PHAGUNDRO_ACCEPTED; number == PHAGUNDRO_ACCEPTED && position < POSITIONS; position++) {
            reference_verdict_answer v = reference_verdict(edition, input, length, position);
            printf(";%zu %zu %zu %zu %zu", number = v.number, v.place, v.verdict, v.from, v.length);
        }
    }
    putchar('\n');
}

int main(int count, char **words)
{
    return answering(count, words, take, make, show);
}
