/* The archive against the reading in reference.c: number, place, count, rows and the memory around every buffer.
 *
 * Each input is read in editions 0 to 3 and in one number far off, with room for the rows, with one number less and with more. See
 * comparison.h for the command line and the exit statuses. */
#include "comparison.h"
#include "kinds.h"
#include "memory.h"
#include "random.h"
#include "reference.h"

#include <stdio.h>
#include <string.h>

enum { USUAL = 100000 };

static void differs(const char *what, size_t edition, size_t room)
{
    comparison_differs(what, edition, "room", room);
}

/* -- What occurred -- */

enum { NEAR_THE_END = 65000, LEAST_STOPS = 100, LEAST_TIMES = 100 };
enum { CHOICE = 1, PAIRS, LOCATION, TEMPLATE_FIELD, DIFFERENCES }; /* the papers' differences D1 to D4 */
enum { TAGS = 32 };
static const uint8_t ruled[] = {1, 2, 3, 5, 6, 10, 12, 17}; /* the tag numbers of the types whose content has a rule */

static size_t answers[EDITIONS][NUMBERS]; /* of editions 1 and 2, given room */
static size_t contents[EDITIONS][TAGS];   /* BAD_CONTENT, by the tag number at its place */
static size_t short_tables, wrong_editions, calls, total_bytes;
static bool stops[EDITIONS][PHAGUNDRO_LONGEST + 1]; /* places of NOT_IN_GRAMMAR */
static size_t differences[EDITIONS][DIFFERENCES];   /* places of OTHER_EDITION, by listed difference; 0 if it can't be told */
static size_t fields[KINDS], carried_fields;        /* of these D4 by the field's kind, and those in carried certReqs */
static size_t shown[EDITIONS][KINDS];
static size_t forwards[EDITIONS], equal[EDITIONS], backwards[EDITIONS]; /* validities with both times; the last ones are refused */
static size_t early[EDITIONS], carried_times[EDITIONS];                 /* GeneralizedTime before 2050; validities in carried certReqs */
static size_t most_messages, longest_accepted, past_a_byte, near_the_end; /* of accepted inputs */

/* The row that begins at a place, or 0 if none does. */
static size_t row_at(const size_t *rows, size_t count, size_t place)
{
    for (size_t row = 1; row < count; row++)
        if (rows[PHAGUNDRO_ROW_NUMBERS * row + PHAGUNDRO_ROW_FIRST] == place)
            return row;
    return 0;
}

/* The difference for which edition 2 refuses the element at a place: a template's field has a row in edition 1, and a location has none. If
 * edition 1 refuses the batch for a long certReqId, it can't be told. */
static int difference_in_2(size_t place)
{
    static size_t rows[TABLE];
    if (input[place] == 0x04)
        return PAIRS;
    size_t count = reference_read(PHAGUNDRO_RFC2511, input, length, rows, TABLE).count, row = row_at(rows, count, place);
    if (row == 0)
        return count > 0 ? LOCATION : 0;
    fields[rows[PHAGUNDRO_ROW_NUMBERS * row + PHAGUNDRO_ROW_KIND]]++;
    carried_fields += is_carried(rows, row);
    return TEMPLATE_FIELD;
}

/* The difference for which an edition refuses the element at a place. */
static int difference_of(size_t edition, size_t place)
{
    if (edition == PHAGUNDRO_RFC2511)
        return input[place] == 0x0C ? PAIRS : CHOICE;
    return difference_in_2(place);
}

/* The element at a place, with one length octet, as a time's moment. */
static int64_t moment_at(size_t place)
{
    return reference_moment(input + place, place + 1 < length ? 2u + input[place + 1] : 0);
}

/* The times of a validity with one length octet: how many seconds the second is later, if it has both. */
static bool both_times(size_t validity, int64_t *seconds)
{
    size_t from = validity + 2, to = from + 1 < length ? from + 2 + input[from + 1] : length;
    *seconds = moment_at(to) - moment_at(from);
    return moment_at(from) >= 0 && moment_at(to) >= 0;
}

static void accepted_validity(size_t edition, const size_t *rows, size_t row)
{
    int64_t seconds;
    if (!both_times(rows[PHAGUNDRO_ROW_NUMBERS * row + PHAGUNDRO_ROW_FIRST], &seconds))
        return;
    (seconds > 0 ? forwards : equal)[edition]++;
    carried_times[edition] += is_carried(rows, row);
}

/* The grammar stops at a place, perhaps for one of A12's rules. */
static void stopped(size_t edition, size_t place)
{
    int64_t seconds;
    stops[edition][place] = true;
    backwards[edition] += input[place] == 0xA4 && both_times(place, &seconds) && seconds < 0;
    early[edition] += input[place] == 0x18 && input[place + 1] == 15 && memcmp(input + place + 2, "2050", 4) < 0;
}

static void accepted(size_t edition, const size_t *rows, size_t count)
{
    size_t messages = messages_of(rows, count);
    for (size_t i = 0; i < count; i++) {
        size_t kind = rows[PHAGUNDRO_ROW_NUMBERS * i + PHAGUNDRO_ROW_KIND];
        shown[edition][kind]++;
        if (kind == PHAGUNDRO_KIND_VALIDITY)
            accepted_validity(edition, rows, i);
    }
    past_a_byte += messages > UINT8_MAX;
    near_the_end += length > NEAR_THE_END;
    keep_most(&most_messages, messages);
    keep_most(&longest_accepted, length);
}

static void occurred(size_t edition, reference_answer answer, const size_t *rows)
{
    answers[edition][answer.number]++;
    if (answer.number == PHAGUNDRO_BAD_CONTENT)
        contents[edition][input[answer.place] % TAGS]++;
    if (answer.number == PHAGUNDRO_NOT_IN_GRAMMAR)
        stopped(edition, answer.place);
    if (answer.number == PHAGUNDRO_OTHER_EDITION)
        differences[edition][difference_of(edition, answer.place)]++;
    if (answer.number == PHAGUNDRO_ACCEPTED)
        accepted(edition, rows, answer.count);
}

/* -- One input -- */

static Buffer table;

static void compare_reading(size_t edition, const uint8_t *bytes, size_t room)
{
    static const char *const names[] = {"number", "place", "count"};
    static size_t expected[TABLE];
    place(&table, room * sizeof(size_t), calls % 2 == 0);
    fill_alike(&table, expected);
    reference_answer right = reference_read(edition, input, length, expected, room);
    phagundro_answer answer = phagundro_read(edition, bytes, length, lent(&table), room);
    calls++;
    if (!alike(3, names, &answer, &right))
        differs("other answers", edition, room);
    check_numbers(&table, expected, edition, room, PHAGUNDRO_ROW_NUMBERS * right.count);
    short_tables += right.number == PHAGUNDRO_NO_ROOM;
    wrong_editions += right.number == PHAGUNDRO_UNKNOWN_EDITION;
}

static void compare_acceptance(size_t edition, const uint8_t *bytes, size_t right)
{
    size_t answer = phagundro_accept(edition, bytes, length);
    calls++;
    if (answer != right) {
        printf("phagundro_accept: %zu, the reference: %zu\n", answer, right);
        differs("accept answers otherwise", edition, TABLE);
    }
}

/* The numbers of as many rows as this many bytes can have, and of one more: each row is two bytes or more after the one before. */
static size_t most_numbers(size_t bytes)
{
    return PHAGUNDRO_ROW_NUMBERS * ((bytes < PHAGUNDRO_LONGEST ? bytes : PHAGUNDRO_LONGEST) / 2 + 1);
}

static void compare_edition(size_t edition, const uint8_t *bytes)
{
    static size_t rows[TABLE];
    reference_answer right = reference_read(edition, input, length, rows, TABLE);
    size_t needed = PHAGUNDRO_ROW_NUMBERS * right.count;
    if (edition == PHAGUNDRO_RFC2511 || edition == PHAGUNDRO_RFC4211)
        occurred(edition, right, rows);
    if (needed > 0) {
        compare_reading(edition, bytes, needed);
        compare_reading(edition, bytes, needed - 1);
        compare_reading(edition, bytes, needed + 1 + below(40));
        if (number % 8 == 0)
            compare_reading(edition, bytes, below(needed));
    } else { /* room for as many rows as there can be, so that one filled too early would be seen */
        compare_reading(edition, bytes, 0);
        compare_reading(edition, bytes, below(PHAGUNDRO_ROW_NUMBERS * 20));
        compare_reading(edition, bytes, most_numbers(length) + below(40));
    }
    compare_acceptance(edition, bytes, right.number);
}

static void compare_input(void)
{
    const uint8_t *bytes = lend_input();
    total_bytes += length;
    for (size_t edition = 0; edition <= PHAGUNDRO_RFC4211 + 1; edition++)
        compare_edition(edition, bytes);
    compare_edition(far_edition(number), bytes);
    check_lent_input();
}

/* -- The account -- */

static int account_answers(size_t edition)
{
    size_t places = 0;
    int lacking = missing(answers[edition][PHAGUNDRO_ACCEPTED] > 0, "number", PHAGUNDRO_ACCEPTED, edition);
    printf("edition %zu: %zu accepted; refused", edition, answers[edition][PHAGUNDRO_ACCEPTED]);
    for (size_t n = PHAGUNDRO_TOO_LONG; n <= PHAGUNDRO_LONG_CERT_REQ_ID; n++) {
        printf("%s %zu: %zu", n > PHAGUNDRO_TOO_LONG ? "," : "", n, answers[edition][n]);
        lacking += missing(answers[edition][n] > 0, "number", n, edition);
    }
    for (size_t i = 0; i < sizeof ruled; i++) {
        printf("%s %u: %zu", i > 0 ? "," : "; 5 by tag number", ruled[i], contents[edition][ruled[i]]);
        lacking += missing(contents[edition][ruled[i]] > 0, "5 for the tag number", ruled[i], edition);
    }
    for (size_t i = 0; i <= PHAGUNDRO_LONGEST; i++)
        places += stops[edition][i];
    printf("; 8 at %zu places; 9 for", places);
    return lacking + missing(places >= LEAST_STOPS, "8 at many places, only", places, edition);
}

static int account_differences(size_t edition)
{
    int lacking = 0;
    for (size_t d = CHOICE; d < DIFFERENCES; d++) {
        bool refused = d == PAIRS || (d == CHOICE) == (edition == PHAGUNDRO_RFC2511);
        printf("%s D%zu: %zu", d > CHOICE ? "," : "", d, differences[edition][d]);
        lacking += missing(!refused || differences[edition][d] > 0, "9 for difference", d, edition);
    }
    putchar('\n');
    return lacking;
}

/* The fields of a template for which edition 2 refuses a batch. */
static int account_fields(void)
{
    static const uint8_t refused[] = {PHAGUNDRO_KIND_VERSION, PHAGUNDRO_KIND_SERIAL_NUMBER, PHAGUNDRO_KIND_SIGNING_ALG,
        PHAGUNDRO_KIND_ISSUER_UID, PHAGUNDRO_KIND_SUBJECT_UID};
    int lacking = missing(carried_fields > 0, "9 in a carried certReq for difference", TEMPLATE_FIELD, PHAGUNDRO_RFC4211);
    for (size_t i = 0; i < sizeof refused; i++)
        lacking += missing(fields[refused[i]] > 0, "9 for a field of kind", refused[i], PHAGUNDRO_RFC4211);
    printf("edition 2: 9 for D4 by kind");
    for (size_t i = 0; i < sizeof refused; i++)
        printf("%s %u: %zu", i > 0 ? "," : "", refused[i], fields[refused[i]]);
    printf("; in carried certReqs: %zu\n", carried_fields);
    return lacking;
}

static int account_times(size_t edition)
{
    printf("edition %zu: validities with both times: forwards %zu, equal %zu, backwards %zu, carried %zu;", edition, forwards[edition],
        equal[edition], backwards[edition], carried_times[edition]);
    printf(" GeneralizedTime before 2050: %zu\n", early[edition]);
    int lacking = missing(forwards[edition] >= LEAST_TIMES, "many validities forwards, only", forwards[edition], edition);
    lacking += missing(equal[edition] >= LEAST_TIMES, "many validities of equal times, only", equal[edition], edition);
    lacking += missing(backwards[edition] >= LEAST_TIMES, "many validities backwards, only", backwards[edition], edition);
    lacking += missing(carried_times[edition] >= LEAST_TIMES, "many carried validities, only", carried_times[edition], edition);
    return lacking + missing(early[edition] >= LEAST_TIMES, "GeneralizedTime before 2050 often, only", early[edition], edition);
}

static int account_kinds(size_t edition)
{
    printf("edition %zu: rows by kind:", edition);
    for (size_t kind = 0; kind < KINDS; kind++)
        if (shown[edition][kind] > 0)
            printf(" %zu: %zu", kind, shown[edition][kind]);
    putchar('\n');
    return missing_kinds(shown[edition], edition);
}

static int account(size_t inputs)
{
    int lacking = 0;
    printf("%zu inputs of seed %llu, %zu bytes, %zu calls: no difference\n", inputs, (unsigned long long)seed, total_bytes, calls);
    for (size_t edition = PHAGUNDRO_RFC2511; edition <= PHAGUNDRO_RFC4211; edition++)
        lacking += account_answers(edition) + account_differences(edition) + account_kinds(edition) + account_times(edition);
    lacking += account_fields();
    printf("accepted with more than 255 messages: %zu, at most %zu messages\n", past_a_byte, most_messages);
    printf("accepted with more than 65,000 bytes: %zu, at most %zu bytes\n", near_the_end, longest_accepted);
    lacking += missing(past_a_byte > 0, "accepted with more messages than", UINT8_MAX, 0);
    lacking += missing(longest_accepted == PHAGUNDRO_LONGEST, "accepted with bytes", PHAGUNDRO_LONGEST, 0);
    printf("readings in which the table was too short (11): %zu; in which the edition was neither 1 nor 2 (13): %zu\n", short_tables,
        wrong_editions);
    lacking += missing(short_tables > 0, "number", PHAGUNDRO_NO_ROOM, 0);
    lacking += missing(wrong_editions > 0, "number", PHAGUNDRO_UNKNOWN_EDITION, 0);
    return comparison_status(lacking);
}

int main(int count, char **words)
{
    size_t inputs = comparison_start(count, words, USUAL, show_input);
    table = buffer(TABLE * sizeof(size_t));
    for (number = 0; number < inputs; number++) {
        length = inputs_next(input);
        compare_input();
    }
    return account(inputs);
}
