/* Answers shown. Places and lengths are decimal, as in the rows; bytes are hex. */
#include "show.h"

#include "differences.h"
#include "fields.h"
#include "meanings.h"

#include <inttypes.h>

enum { LINE = 16 }; /* bytes in a line */

void show_line(FILE *out, size_t start, size_t place, octets batch)
{
    fprintf(out, "%8zu ", start);
    for (size_t at = start; at < start + LINE && at < batch.length; at++)
        fprintf(out, "%c%02X", at == place ? '[' : at == place + 1 && at != start ? ']' : ' ', batch.bytes[at]);
    if (place == batch.length && place - start < LINE)
        fputs("[end", out);
    if (place - start < LINE && (place - start == LINE - 1 || place + 1 >= batch.length))
        fputc(']', out);
    fputc('\n', out);
}

/* The line that has the place, the one before and the one after. */
static void show_around(FILE *out, size_t place, octets batch)
{
    size_t line = place - place % LINE;
    if (line > 0)
        show_line(out, line - LINE, place, batch);
    show_line(out, line, place, batch);
    if (line + LINE < batch.length)
        show_line(out, line + LINE, place, batch);
}

void show_refusal(FILE *out, size_t edition, size_t number, size_t place, octets batch)
{
    difference found = difference_at(edition, number, place, batch);
    fprintf(out, "edition %zu%s: refused with number %zu, place %zu: %s", edition, edition_name(edition), number, place,
        meaning_of(number));
    if (found.number > 0)
        fprintf(out, " (D%zu: %s, edition %zu only)", found.number, found.form, found.edition);
    fputc('\n', out);
    if (has_place(number))
        show_around(out, place, batch);
}

void show_count(size_t edition, size_t count)
{
    printf("edition %zu%s: accepted, %zu rows\n", edition, edition_name(edition), count);
}

const size_t *row_of(const size_t *table, size_t row)
{
    return table + PHAGUNDRO_ROW_NUMBERS * row;
}

span element_of(const size_t *row, octets batch)
{
    return (span){batch.bytes + row[PHAGUNDRO_ROW_FIRST], row[PHAGUNDRO_ROW_LENGTH]};
}

/* The number of rows above a row. */
static size_t depth_of(const size_t *table, size_t row)
{
    size_t depth = 0;
    for (size_t parent; (parent = row_of(table, row)[PHAGUNDRO_ROW_PARENT]) != row; row = parent)
        depth++;
    return depth;
}

/* The number of a certReqId's row; it has from 1 to 8 content octets. */
static int64_t id_of(const size_t *row, octets batch)
{
    size_t header = row[PHAGUNDRO_ROW_CONTENT] - row[PHAGUNDRO_ROW_FIRST];
    return signed_number((span){batch.bytes + row[PHAGUNDRO_ROW_CONTENT], row[PHAGUNDRO_ROW_LENGTH] - header});
}

/* The date of a notBefore or notAfter; nothing for any other row. */
static text date_of(const size_t *row, octets batch)
{
    size_t kind = row[PHAGUNDRO_ROW_KIND];
    span whole = element_of(row, batch);
    return field_moment(kind, whole) == PHAGUNDRO_NO_MOMENT ? (text){0} : field_text(kind, whole);
}

void show_tree(size_t edition, const size_t *table, size_t count, octets batch)
{
    size_t position = 0;
    show_count(edition, count);
    printf("%6s %6s %6s %7s  field\n", "row", "byte", "length", "content");
    for (size_t i = 0; i < count; i++) {
        const size_t *row = row_of(table, i);
        text date = date_of(row, batch);
        int indent = (int)(2 * depth_of(table, i));
        printf("%6zu %6zu %6zu %7zu  %*s%s", i, row[PHAGUNDRO_ROW_FIRST], row[PHAGUNDRO_ROW_LENGTH], row[PHAGUNDRO_ROW_CONTENT], indent,
            "", kind_name(row[PHAGUNDRO_ROW_KIND]));
        if (row[PHAGUNDRO_ROW_KIND] == PHAGUNDRO_KIND_MESSAGE)
            printf(" at position %zu", position++);
        if (row[PHAGUNDRO_ROW_KIND] == PHAGUNDRO_KIND_CERT_REQ_ID)
            printf(" %" PRId64, id_of(row, batch));
        if (date.length > 0)
            printf(" %s", date.chars);
        putchar('\n');
    }
}

void show_numbers(const size_t *table, size_t count)
{
    for (size_t i = 0; i < count; i++)
        for (size_t column = 0; column < PHAGUNDRO_ROW_NUMBERS; column++)
            printf("%zu%c", row_of(table, i)[column], column + 1 < PHAGUNDRO_ROW_NUMBERS ? ' ' : '\n');
}

void json_answer(size_t edition, size_t number, size_t place, octets batch)
{
    difference found = difference_at(edition, number, place, batch);
    printf("\"edition\": %zu, \"number\": %zu, \"meaning\": \"%s\", \"place\": %zu", edition, number, meaning_of(number), place);
    if (found.number > 0)
        printf(", \"difference\": %zu, \"form\": \"%s\"", found.number, found.form);
}

void json_string(const char *words)
{
    putchar('"');
    for (; *words != '\0'; words++) {
        if (*words == '"' || *words == '\\')
            putchar('\\');
        putchar(*words);
    }
    putchar('"');
}

void json_line(size_t start, octets batch)
{
    for (size_t at = start; at < start + LINE && at < batch.length; at++)
        printf("%s%02X", at == start ? "\"" : " ", batch.bytes[at]);
    putchar('"');
}

void json_moment(const size_t *row, octets batch)
{
    int64_t moment = field_moment(row[PHAGUNDRO_ROW_KIND], element_of(row, batch));
    if (moment != PHAGUNDRO_NO_MOMENT)
        printf(", \"moment\": %" PRId64, moment);
}

void json_rows(const size_t *table, size_t count, octets batch)
{
    putchar('[');
    for (size_t i = 0; i < count; i++) {
        const size_t *row = row_of(table, i);
        text date = date_of(row, batch);
        printf("%s\n  {\"kind\": %zu, \"name\": \"%s\", \"first\": %zu, \"length\": %zu, \"parent\": %zu, \"content\": %zu",
            i == 0 ? "" : ",", row[PHAGUNDRO_ROW_KIND], kind_name(row[PHAGUNDRO_ROW_KIND]), row[PHAGUNDRO_ROW_FIRST],
            row[PHAGUNDRO_ROW_LENGTH], row[PHAGUNDRO_ROW_PARENT], row[PHAGUNDRO_ROW_CONTENT]);
        if (date.length > 0) {
            fputs(", \"text\": ", stdout);
            json_string(date.chars);
            json_moment(row, batch);
        }
        putchar('}');
    }
    putchar(']');
}
