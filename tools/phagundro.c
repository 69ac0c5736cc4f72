/* The command line tool: each command hands its files to a call of the library and shows the answer. */
#include "../include/phagundro.h"
#include "compare.h"
#include "files.h"
#include "help.h"
#include "meanings.h"
#include "options.h"
#include "show.h"

#include <stdio.h>
#include <stdlib.h>
#include <string.h>

enum {
    MOST_INPUT = PHAGUNDRO_LONGEST + 1, /* one byte more than a batch may have, so that what is longer is refused and not cut short */
    MOST_NUMBERS = PHAGUNDRO_ROW_NUMBERS * PHAGUNDRO_MOST_ROWS,
    MOST_ENTRY_NUMBERS = PHAGUNDRO_ENTRY_NUMBERS * PHAGUNDRO_MOST_ENTRIES
};

enum { OLD_ROW_NUMBERS = 4 }; /* numbers of a row in version 0.1, which had no content's first byte */

static size_t table[MOST_NUMBERS];
static uint8_t output[PHAGUNDRO_LONGEST];
static int64_t entries[MOST_ENTRY_NUMBERS];

static octets batch_in(const options *given, const char *name)
{
    return read_octets(name, given->given & HEX, MOST_INPUT);
}

/* The batch that a command is about. */
static octets batch_of(const options *given)
{
    return batch_in(given, given->count == 0 ? "-" : given->files[0]);
}

/* It is trouble if several files are standard input. */
static void check_standard_input(const options *given, const char *command)
{
    size_t found = 0;
    for (size_t i = 0; i < given->count; i++)
        found += strcmp(given->files[i], "-") == 0;
    if (found > 1)
        trouble("%s: only one of the files can be standard input", command);
}

/* Writes the batch where the command line says. */
static void write_batch(const options *given, const uint8_t *bytes, size_t length)
{
    write_octets(given->output == NULL ? "-" : given->output, bytes, length);
}

static phagundro_answer rows_of(size_t edition, octets batch)
{
    return phagundro_read(edition, batch.bytes, batch.length, table, MOST_NUMBERS);
}

static int status_of(size_t number)
{
    return number == PHAGUNDRO_ACCEPTED ? STATUS_ACCEPTED : STATUS_REFUSED;
}

static void json_reading(size_t edition, phagundro_answer answer, octets batch)
{
    putchar('{');
    json_answer(edition, answer.number, answer.place, batch);
    printf(", \"count\": %zu, \"rows\": ", answer.count);
    json_rows(table, answer.count, batch);
    putchar('}');
}

static int read_command(const options *given)
{
    octets batch = batch_of(given);
    phagundro_answer answer = rows_of(given->edition, batch);
    if (given->given & JSON) {
        json_reading(given->edition, answer, batch);
        putchar('\n');
    } else if (answer.number != PHAGUNDRO_ACCEPTED)
        show_refusal(stderr, given->edition, answer.number, answer.place, batch);
    else if (given->given & NUMBERS)
        show_numbers(table, answer.count);
    else
        show_tree(given->edition, table, answer.count, batch);
    free(batch.bytes);
    return status_of(answer.number);
}

/* It is trouble if the rows that describe no batch are those of version 0.1, which are told by their lines. */
static void check_row_version(const char *name, numbers rows)
{
    if (rows.each_line == OLD_ROW_NUMBERS)
        trouble("%s: rows of four numbers, as version 0.1 had them: since version 0.2 a row has a fifth number, the content's first byte;"
            " reading the batch again with read --numbers gives the new rows", shown_name(name));
}

static int write_command(const options *given)
{
    if (given->count < 2)
        trouble("write: two files are needed, the rows and the bytes that they point at");
    check_standard_input(given, "write");
    numbers rows = read_numbers(given->files[0]);
    octets slice = read_octets(given->files[1], given->given & HEX, SIZE_MAX);
    phagundro_answer answer =
        phagundro_write(given->edition, rows.numbers, rows.count, slice.bytes, slice.length, output, sizeof output);
    if (answer.number == PHAGUNDRO_NO_SUCH_BATCH)
        check_row_version(given->files[0], rows);
    if (answer.number != PHAGUNDRO_ACCEPTED)
        show_refusal(stderr, given->edition, answer.number, answer.place, slice);
    else
        write_batch(given, output, answer.count);
    free(rows.numbers);
    free(slice.bytes);
    return status_of(answer.number);
}

static void show_verdict(const options *given, phagundro_verdict_answer answer)
{
    printf("edition %zu%s: accepted; message at position %zu: verdict %zu, %s\n", given->edition, edition_name(given->edition),
        given->position, answer.verdict, verdict_of(answer.verdict));
    if (answer.length > 0)
        printf("signed part: %zu bytes from byte %zu\n", answer.length, answer.from);
}

static void json_verdict(const options *given, phagundro_verdict_answer answer, octets batch)
{
    putchar('{');
    json_answer(given->edition, answer.number, answer.place, batch);
    printf(", \"position\": %zu", given->position);
    if (answer.number == PHAGUNDRO_ACCEPTED)
        printf(", \"verdict\": %zu, \"says\": \"%s\", \"from\": %zu, \"length\": %zu", answer.verdict, verdict_of(answer.verdict),
            answer.from, answer.length);
    puts("}");
}

static int verdict_command(const options *given)
{
    if (given->part != NULL && strcmp(given->part, "-") == 0)
        trouble("verdict: --part wants a file, since standard output has the verdict");
    octets batch = batch_of(given);
    phagundro_verdict_answer answer = phagundro_verdict(given->edition, batch.bytes, batch.length, given->position);
    if (answer.number == PHAGUNDRO_ACCEPTED && given->part != NULL)
        write_octets(given->part, answer.length == 0 ? NULL : batch.bytes + answer.from, answer.length);
    if (given->given & JSON)
        json_verdict(given, answer, batch);
    else if (answer.number != PHAGUNDRO_ACCEPTED)
        show_refusal(stderr, given->edition, answer.number, answer.place, batch);
    else
        show_verdict(given, answer);
    free(batch.bytes);
    return status_of(answer.number);
}

static void show_duplicates(const options *given, phagundro_duplicate_answer answer)
{
    printf("edition %zu%s: accepted; ", given->edition, edition_name(given->edition));
    if (answer.found)
        printf("the messages at positions %zu and %zu have the same certReqId\n", answer.earlier, answer.later);
    else
        puts("no two messages have the same certReqId");
}

static void json_duplicates(const options *given, phagundro_duplicate_answer answer, octets batch)
{
    putchar('{');
    json_answer(given->edition, answer.number, answer.place, batch);
    if (answer.number == PHAGUNDRO_ACCEPTED)
        printf(", \"found\": %s", answer.found ? "true" : "false");
    if (answer.found)
        printf(", \"earlier\": %zu, \"later\": %zu", answer.earlier, answer.later);
    puts("}");
}

static int duplicates_command(const options *given)
{
    octets batch = batch_of(given);
    phagundro_duplicate_answer answer = phagundro_duplicates(given->edition, batch.bytes, batch.length);
    if (given->given & JSON)
        json_duplicates(given, answer, batch);
    else if (answer.number != PHAGUNDRO_ACCEPTED)
        show_refusal(stderr, given->edition, answer.number, answer.place, batch);
    else
        show_duplicates(given, answer);
    free(batch.bytes);
    return status_of(answer.number);
}

static int editions_command(const options *given)
{
    octets batch = batch_of(given);
    int status = STATUS_REFUSED;
    for (size_t edition = PHAGUNDRO_RFC2511; edition <= PHAGUNDRO_RFC4211; edition++) {
        phagundro_answer answer = rows_of(edition, batch);
        if (given->given & JSON) {
            fputs(edition == PHAGUNDRO_RFC2511 ? "[" : ",\n", stdout);
            json_reading(edition, answer, batch);
        } else if (answer.number != PHAGUNDRO_ACCEPTED)
            show_refusal(stdout, edition, answer.number, answer.place, batch);
        else
            show_count(edition, answer.count);
        if (answer.number == PHAGUNDRO_ACCEPTED)
            status = STATUS_ACCEPTED;
    }
    if (given->given & JSON)
        puts("]");
    free(batch.bytes);
    return status;
}

/* Shows which of two batches is refused, the second of which is that of the file `next`, or that their join is. */
static void show_pair_refusal(const options *given, size_t next, phagundro_pair_answer answer, octets first, octets second)
{
    bool is_first = answer.file == PHAGUNDRO_FILE_FIRST;
    fprintf(stderr, "%s%s: ", answer.file == PHAGUNDRO_FILE_NEITHER ? "the join up to " : "",
        shown_name(given->files[is_first ? next - 1 : next]));
    show_refusal(stderr, given->edition, answer.number, answer.place, is_first ? first : second);
}

static int join_command(const options *given)
{
    if (given->count < 2)
        trouble("join: two files or more are needed");
    check_standard_input(given, "join");
    octets joined = batch_in(given, given->files[0]);
    size_t number = PHAGUNDRO_ACCEPTED;
    for (size_t next = 1; next < given->count && number == PHAGUNDRO_ACCEPTED; next++) {
        octets batch = batch_in(given, given->files[next]);
        phagundro_pair_answer answer =
            phagundro_join(given->edition, joined.bytes, joined.length, batch.bytes, batch.length, output, sizeof output);
        number = answer.number;
        if (number == PHAGUNDRO_ACCEPTED)
            replace_octets(&joined, output, answer.count);
        else
            show_pair_refusal(given, next, answer, joined, batch);
        free(batch.bytes);
    }
    if (number == PHAGUNDRO_ACCEPTED)
        write_batch(given, joined.bytes, joined.length);
    free(joined.bytes);
    return status_of(number);
}

/* The batch of the message at a position, in the output. */
static phagundro_answer cut_at(const options *given, octets batch, size_t position)
{
    return phagundro_cut(given->edition, batch.bytes, batch.length, position, output, sizeof output);
}

/* Writes each message of an accepted batch to a file of its own. */
static void cut_all(const options *given, octets batch)
{
    phagundro_answer answer;
    make_folder(given->output_dir);
    for (size_t position = 0; (answer = cut_at(given, batch, position)).number == PHAGUNDRO_ACCEPTED; position++)
        write_message(given->output_dir, position, output, answer.count);
}

static int cut_command(const options *given)
{
    if (!(given->given & (POSITION | ALL)))
        trouble("cut: say --position N: which message, counted from 0; or --all");
    needed(given, "cut", given->given & ALL ? OUTPUT_DIR : 0);
    if (given->output_dir != NULL && strcmp(given->output_dir, "-") == 0)
        trouble("cut: --output-dir wants a folder, since each message gets a file of its own");
    octets batch = batch_of(given);
    phagundro_answer answer = cut_at(given, batch, given->position); /* with --all 0, where every accepted batch has a message */
    if (answer.number != PHAGUNDRO_ACCEPTED)
        show_refusal(stderr, given->edition, answer.number, answer.place, batch);
    else if (given->given & ALL)
        cut_all(given, batch);
    else
        write_batch(given, output, answer.count);
    free(batch.bytes);
    return status_of(answer.number);
}

static void json_compared(const comparison *of, phagundro_pair_answer answer)
{
    putchar('{');
    json_answer(of->edition, answer.number, answer.place, of->batches[answer.file == PHAGUNDRO_FILE_SECOND ? SECOND : FIRST]);
    printf(", \"file\": %zu, \"count\": %zu, \"entries\": ", answer.file, answer.count);
    json_entries(of);
    puts("}");
}

static int compare_command(const options *given)
{
    if (given->count < SIDES)
        trouble("compare: two files are needed");
    check_standard_input(given, "compare");
    octets first = batch_in(given, given->files[FIRST]), second = batch_in(given, given->files[SECOND]);
    phagundro_pair_answer answer = phagundro_compare(given->edition, first.bytes, first.length, second.bytes, second.length, entries,
        MOST_ENTRY_NUMBERS);
    comparison of = {given->edition, {given->files[FIRST], given->files[SECOND]}, {first, second}, entries, answer.count};
    if (given->given & JSON)
        json_compared(&of, answer);
    else if (answer.number != PHAGUNDRO_ACCEPTED)
        show_pair_refusal(given, SECOND, answer, first, second);
    else
        show_comparison(&of);
    free(first.bytes);
    free(second.bytes);
    return answer.number != PHAGUNDRO_ACCEPTED ? STATUS_NOT_COMPARED : answer.count > 0 ? STATUS_DIFFERENT : STATUS_SAME;
}

static const struct {
    const char *name;
    int (*run)(const options *given);
    const char *help;
    unsigned taken, needed; /* options */
    size_t most;            /* files */
} commands[] = {
    {"read", read_command, read_help, EDITION | HEX | NUMBERS | JSON, EDITION, 1},
    {"write", write_command, write_help, EDITION | HEX | OUTPUT, EDITION, 2},
    {"verdict", verdict_command, verdict_help, EDITION | HEX | JSON | POSITION | PART, EDITION | POSITION, 1},
    {"duplicates", duplicates_command, duplicates_help, EDITION | HEX | JSON, EDITION, 1},
    {"editions", editions_command, editions_help, HEX | JSON, 0, 1},
    {"join", join_command, join_help, EDITION | HEX | OUTPUT, EDITION, SIZE_MAX},
    {"cut", cut_command, cut_help, EDITION | HEX | POSITION | OUTPUT | ALL | OUTPUT_DIR, EDITION, 1},
    {"compare", compare_command, compare_help, EDITION | HEX | JSON, EDITION, SIDES},
};

enum { COMMANDS = sizeof commands / sizeof *commands };

/* Runs the command that the first word names with the words after it. */
static int run_command(char **words)
{
    size_t command = 0;
    while (command < COMMANDS && strcmp(commands[command].name, *words) != 0)
        command++;
    if (command == COMMANDS)
        trouble("no such command: %s (see phagundro --help)", *words);
    options given = parsed(*words, commands[command].taken, commands[command].most, words + 1);
    if (given.given & HELP) {
        fputs(commands[command].help, stdout);
        return STATUS_ACCEPTED;
    }
    needed(&given, *words, commands[command].needed);
    return commands[command].run(&given);
}

int main(int count, char **words)
{
    int status = STATUS_ACCEPTED;
    if (count < 2) {
        fputs(general_help, stderr);
        return STATUS_TROUBLE;
    }
    if (count == 2 && strcmp(words[1], "--help") == 0)
        fputs(general_help, stdout);
    else if (count == 2 && strcmp(words[1], "--version") == 0)
        puts("phagundro " PHAGUNDRO_VERSION);
    else
        status = run_command(words + 1);
    finish_output();
    return status;
}
