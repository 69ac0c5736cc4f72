/* The archive against the moments of reference_times.c, on bytes that limits.c makes, and the memory around them. See comparison.h for the
 * command line and the exit statuses. */
#include "comparison.h"
#include "limits.h"
#include "reference.h"

#include <stdio.h>

enum { USUAL = 100000, GENERALIZED_LENGTH = 19 }; /* the length of an element with GeneralizedTime */

static size_t none, utc, generalized; /* bytes that show no moment, and those that do by the form of their time */

static void next(void)
{
    length = limits_next(input);
}

static void compare_moment(void)
{
    int64_t right = reference_moment(input, length), moment = phagundro_moment(lend_input(), length);
    if (moment != right) {
        printf("the archive: %lld, the reference: %lld\n", (long long)moment, (long long)right);
        comparison_differs("another moment", 0, "bytes", length);
    }
    check_lent_input();
    none += right < 0;
    utc += right >= 0 && length < GENERALIZED_LENGTH;
    generalized += right >= 0 && length == GENERALIZED_LENGTH;
}

static int account(size_t elements)
{
    printf("%zu elements of seed %llu: no difference\n", elements, (unsigned long long)seed);
    printf("moments of UTCTime: %zu, of GeneralizedTime: %zu; no moment: %zu\n", utc, generalized, none);
    int lacking = missing(utc > elements / 8, "many moments of UTCTime, only", utc, 0);
    lacking += missing(generalized > elements / 8, "many moments of GeneralizedTime, only", generalized, 0);
    return comparison_status(lacking + missing(none > elements / 8, "many bytes without a moment, only", none, 0));
}

int main(int count, char **words)
{
    return comparison_run(comparison_start(count, words, USUAL, show_input), next, compare_moment, account);
}
