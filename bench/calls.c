// Times every call of the library against copying, two walks of the nest in plain C and OpenSSL, on the same batches.
#include "calls.h"
#include "inputs.h"
#include "parts.h"
#include "rounds.h"
#include "subjects.h"

#include <string.h>

// The input that is measured now, what it is taken apart into, a draft with the same leaves elsewhere, which is one byte further on, and
// room for what is read and written. A copy takes far longer if its target stands a little later in a page than its source does in one. So
// the output begins in the middle of a page, and what is copied at the start of one.
enum { PAGE = 4096 };
static _Alignas(PAGE) input now;
static _Alignas(PAGE) parts apart;
static _Alignas(PAGE) uint8_t moved[1 + PHAGUNDRO_LONGEST];
static _Alignas(PAGE) uint8_t lent[PAGE / 2 + PHAGUNDRO_LONGEST];
static uint8_t *const output = lent + PAGE / 2;
static size_t table[MOST_NUMBERS], moved_rows[MOST_NUMBERS];
static int64_t entries[PHAGUNDRO_ENTRY_NUMBERS * PHAGUNDRO_MOST_ENTRIES];
static size_t times[PHAGUNDRO_MOST_ROWS], time_count; // the rows of notBefore and notAfter

static bool copy(const uint8_t *bytes, size_t length)
{
    memcpy(output, bytes, length);
    __asm__ volatile("" : : "r"(output) : "memory");
    return true;
}

static bool do_copy(void)
{
    return copy(now.bytes, now.length);
}

static bool do_least_walk(void)
{
    return floor_walk(now.bytes, now.length);
}

static bool do_strict_walk(void)
{
    return strict_walk(now.bytes, now.length);
}

static bool do_strict_walk_by_cc(void)
{
    return strict_walk_by_cc(now.bytes, now.length);
}

static bool accepts(const uint8_t *bytes, size_t length)
{
    return phagundro_accept(EDITION, bytes, length) == PHAGUNDRO_ACCEPTED;
}

static bool do_accept(void)
{
    return accepts(now.bytes, now.length);
}

static bool reads(const uint8_t *bytes, size_t length)
{
    return phagundro_read(EDITION, bytes, length, table, MOST_NUMBERS).number == PHAGUNDRO_ACCEPTED;
}

static bool do_read(void)
{
    return reads(now.bytes, now.length);
}

static bool do_cleared_read(void)
{
    memset(table, 0, now.numbers * sizeof table[0]);
    return do_read();
}

static bool do_moments(void)
{
    bool right = true;
    for (size_t i = 0; i < time_count; i++) {
        const size_t *row = row_of(&now, times[i]);
        right &= phagundro_moment(now.bytes + row[PHAGUNDRO_ROW_FIRST], row[PHAGUNDRO_ROW_LENGTH]) != PHAGUNDRO_NO_MOMENT;
    }
    return right;
}

static bool do_write(void)
{
    return phagundro_write(EDITION, now.rows, now.numbers, now.bytes, now.length, output, PHAGUNDRO_LONGEST).count == now.length;
}

static bool do_write_moved(void)
{
    return phagundro_write(EDITION, moved_rows, now.numbers, moved, 1 + now.length, output, PHAGUNDRO_LONGEST).count == now.length;
}

static bool do_verdict(void)
{
    return phagundro_verdict(EDITION, now.bytes, now.length, now.messages - 1).number == PHAGUNDRO_ACCEPTED;
}

static bool do_verdict_number(void)
{
    return phagundro_verdict_number(EDITION, now.bytes, now.length, now.messages - 1) < PHAGUNDRO_VERDICT_REFUSED;
}

static bool do_duplicates(void)
{
    return phagundro_duplicates(EDITION, now.bytes, now.length).number == PHAGUNDRO_ACCEPTED;
}

// The least that a join can take.
static bool do_accept_both(void)
{
    const batch *first = &apart.first, *second = &apart.second;
    return accepts(first->bytes, first->length) && accepts(second->bytes, second->length) && copy(apart.join.bytes, apart.join.length);
}

static bool do_join(void)
{
    const batch *first = &apart.first, *second = &apart.second;
    return phagundro_join(EDITION, first->bytes, first->length, second->bytes, second->length, output, PHAGUNDRO_LONGEST).count
        == apart.join.length;
}

static bool do_cut(void)
{
    return phagundro_cut(EDITION, now.bytes, now.length, apart.position, output, PHAGUNDRO_LONGEST).count == apart.message.length;
}

// What comparing is measured by: it has to find the fields of both.
static bool do_read_both(void)
{
    return reads(now.bytes, now.length) && reads(apart.changed.bytes, apart.changed.length);
}

static phagundro_pair_answer compared_with(const uint8_t *bytes)
{
    return phagundro_compare(EDITION, now.bytes, now.length, bytes, now.length, entries, sizeof entries / sizeof *entries);
}

static bool do_compare(void)
{
    return compared_with(apart.changed.bytes).count == 1 && entries[PHAGUNDRO_ENTRY_WHAT] == PHAGUNDRO_LEAVES_DIFFER
        && entries[PHAGUNDRO_ENTRY_FIRST] == (int64_t)apart.changed_row && entries[PHAGUNDRO_ENTRY_SECOND] == (int64_t)apart.changed_row;
}

static bool do_compare_same(void)
{
    phagundro_pair_answer answer = compared_with(now.bytes);
    return answer.number == PHAGUNDRO_ACCEPTED && answer.count == 0;
}

static bool do_compare_part(void)
{
    const size_t *changed = row_of(&now, apart.changed_row);
    phagundro_part part = phagundro_compare_part(EDITION, now.bytes, now.length, apart.changed.bytes, apart.changed.length, 0);
    return part.file == PHAGUNDRO_FILE_FIRST && part.from == changed[PHAGUNDRO_ROW_FIRST] && part.length == changed[PHAGUNDRO_ROW_LENGTH];
}

static bool do_openssl(void)
{
    return openssl_decode(now.bytes, now.length);
}

static subject subjects[CALLS] = {
    [COPY] = {"memcpy", do_copy},
    [LEAST] = {"least walk", do_least_walk},
    [STRICT] = {"strict walk", do_strict_walk},
    [STRICT_BY_CC] = {"strict walk, compiled by " CC_NAME, do_strict_walk_by_cc},
    [ACCEPT] = {"phagundro_accept", do_accept},
    [READ] = {"phagundro_read", do_read},
    [CLEARED] = {"phagundro_read, rows cleared first", do_cleared_read},
    [MOMENT] = {"phagundro_moment", NULL},
    [WRITE] = {"phagundro_write", do_write},
    [MOVED] = {"phagundro_write, leaves elsewhere", do_write_moved},
    [VERDICT] = {"phagundro_verdict", do_verdict},
    [VERDICT_NUMBER] = {"phagundro_verdict_number", do_verdict_number},
    [DUPLICATES] = {"phagundro_duplicates", do_duplicates},
    [ACCEPT_BOTH] = {"accepting both, memcpy", do_accept_both},
    [JOIN] = {"phagundro_join", do_join},
    [CUT] = {"phagundro_cut", do_cut},
    [READ_BOTH] = {"reading both", do_read_both},
    [COMPARE] = {"phagundro_compare", do_compare},
    [COMPARE_SAME] = {"phagundro_compare, same bytes", do_compare_same},
    [COMPARE_PART] = {"phagundro_compare_part", do_compare_part},
    [OPENSSL] = {"OpenSSL", do_openssl},
};

static void move_leaves(void)
{
    memcpy(moved + 1, now.bytes, now.length);
    memcpy(moved_rows, now.rows, now.numbers * sizeof now.rows[0]);
    for (size_t i = 0; i < now.numbers; i += PHAGUNDRO_ROW_NUMBERS) {
        moved_rows[i + PHAGUNDRO_ROW_FIRST]++;
        moved_rows[i + PHAGUNDRO_ROW_CONTENT]++;
    }
}

// A batch without a validity has no moments, which are not timed then.
static void take_times(void)
{
    time_count = 0;
    for (size_t i = 0; i < now.numbers / PHAGUNDRO_ROW_NUMBERS; i++) {
        size_t kind = row_of(&now, i)[PHAGUNDRO_ROW_KIND];
        if (kind == PHAGUNDRO_KIND_NOT_BEFORE || kind == PHAGUNDRO_KIND_NOT_AFTER)
            times[time_count++] = i;
    }
    subjects[MOMENT].run = time_count > 0 ? do_moments : NULL;
}

// Ends the program if a call doesn't write these bytes.
static void check_written(int call, const uint8_t *bytes, size_t length)
{
    memset(output, 0, PHAGUNDRO_LONGEST);
    if (!subjects[call].run() || memcmp(output, bytes, length) != 0)
        fail_wrong(&subjects[call], now.name);
}

// Both drafts have to give the batch again, joining its halves too, and cutting the message in the middle.
static void check_outputs(void)
{
    check_written(WRITE, now.bytes, now.length);
    check_written(MOVED, now.bytes, now.length);
    check_written(JOIN, apart.join.bytes, apart.join.length);
    check_written(CUT, apart.message.bytes, apart.message.length);
}

const char *call_name(int call)
{
    return subjects[call].name;
}

void measure_calls(const char *path, figures *taken)
{
    if (!openssl_there)
        subjects[OPENSSL].run = NULL;
    take_input(path, &now);
    take_parts(&now, &apart);
    take_times();
    move_leaves();
    check_outputs();
    best_times(subjects, CALLS, now.name, taken->best);
    taken->length = now.length;
    taken->rows = now.numbers / PHAGUNDRO_ROW_NUMBERS;
    taken->messages = now.messages;
    taken->pair_found = phagundro_duplicates(EDITION, now.bytes, now.length).found == 1;
}
