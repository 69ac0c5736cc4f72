/* Comparisons shown: each entry by the field's path, what either file has there and, where leaves differ, the octets around the first that
 * differs, and of times the interval between them. */
#include "compare.h"

#include "dates.h"
#include "fields.h"
#include "meanings.h"
#include "paths.h"
#include "show.h"

#include <inttypes.h>

enum { BEFORE = 8 }; /* octets shown before the first that differs, at most */

static placed_rows sides[SIDES];

static void take_sides(const comparison *of)
{
    for (size_t i = 0; i < SIDES; i++)
        take_rows(&sides[i], of->edition, of->batches[i]);
}

static span bytes_of(const placed_rows *of, size_t row)
{
    return element_of(row_of(of->table, row), of->batch);
}

/* What a leaf says. A field with rows below it says nothing. */
static text text_of(const placed_rows *of, size_t row)
{
    return of->children[row] > 0 ? (text){0} : field_text(row_of(of->table, row)[PHAGUNDRO_ROW_KIND], bytes_of(of, row));
}

static size_t row_in(const int64_t *entry, size_t i)
{
    return (size_t)entry[i == FIRST ? PHAGUNDRO_ENTRY_FIRST : PHAGUNDRO_ENTRY_SECOND];
}

static bool differs(const int64_t *entry)
{
    return entry[PHAGUNDRO_ENTRY_WHAT] == PHAGUNDRO_LEAVES_DIFFER;
}

/* The side by whose row an entry is named: the second where the field is in the second batch alone. */
static size_t naming_side(const int64_t *entry)
{
    return entry[PHAGUNDRO_ENTRY_WHAT] == PHAGUNDRO_ONLY_SECOND ? SECOND : FIRST;
}

/* How many octets two leaves that differ have in common at their start. */
static size_t common_octets(const int64_t *entry)
{
    span first = bytes_of(&sides[FIRST], row_in(entry, FIRST)), second = bytes_of(&sides[SECOND], row_in(entry, SECOND));
    size_t at = 0;
    while (at < first.length && at < second.length && first.bytes[at] == second.bytes[at])
        at++;
    return at;
}

/* The octets around the first that differs: where it is, where they begin, and the batch up to the leaf's end. */
typedef struct {
    size_t place, start;
    octets up_to_end;
} surroundings;

static surroundings around(const placed_rows *of, size_t row, size_t common)
{
    const size_t *leaf = row_of(of->table, row);
    size_t first = leaf[PHAGUNDRO_ROW_FIRST];
    size_t start = first + (common < BEFORE ? 0 : common - BEFORE);
    return (surroundings){first + common, start, {of->batch.bytes, first + leaf[PHAGUNDRO_ROW_LENGTH]}};
}

/* Where a field is in its file, and what it says. */
static void show_field(const placed_rows *of, size_t row)
{
    const size_t *field = row_of(of->table, row);
    text says = text_of(of, row);
    printf("%zu bytes from byte %zu%s%s\n", field[PHAGUNDRO_ROW_LENGTH], field[PHAGUNDRO_ROW_FIRST], says.length > 0 ? ": " : "",
        says.chars);
}

/* How much later or earlier the second batch's time is than the first's. */
static void show_interval(const comparison *of, int64_t seconds)
{
    text interval = {0};
    put_interval(&interval, seconds);
    printf(", %s in %s", interval.chars, shown_name(of->names[SECOND]));
}

static void show_entry(const comparison *of, const int64_t *entry)
{
    size_t naming = naming_side(entry);
    show_path(&sides[naming], row_in(entry, naming), " / ");
    if (!differs(entry)) {
        printf(": only in %s, ", shown_name(of->names[naming]));
        show_field(&sides[naming], row_in(entry, naming));
        return;
    }
    fputs(": differs", stdout);
    if (entry[PHAGUNDRO_ENTRY_SECONDS] != 0)
        show_interval(of, entry[PHAGUNDRO_ENTRY_SECONDS]);
    putchar('\n');
    for (size_t i = 0; i < SIDES; i++) {
        surroundings octets = around(&sides[i], row_in(entry, i), common_octets(entry));
        printf("  %s: ", shown_name(of->names[i]));
        show_field(&sides[i], row_in(entry, i));
        show_line(stdout, octets.start, octets.place, octets.up_to_end);
    }
}

void show_comparison(const comparison *of)
{
    printf("edition %zu%s: both accepted, ", of->edition, edition_name(of->edition));
    if (of->count == 0)
        puts("no difference");
    else
        printf("%zu difference%s\n", of->count, of->count == 1 ? "" : "s");
    take_sides(of);
    for (size_t i = 0; i < of->count; i++)
        show_entry(of, of->entries + PHAGUNDRO_ENTRY_NUMBERS * i);
}

/* A field of one side as an object; null if the side has none. */
static void json_field(const int64_t *entry, size_t i)
{
    const placed_rows *of = &sides[i];
    size_t row = row_in(entry, i);
    if (row == 0) {
        fputs("null", stdout);
        return;
    }
    text says = text_of(of, row);
    printf("{\"row\": %zu, \"from\": %zu, \"length\": %zu, \"text\": ", row, row_of(of->table, row)[PHAGUNDRO_ROW_FIRST],
        row_of(of->table, row)[PHAGUNDRO_ROW_LENGTH]);
    json_string(says.chars);
    json_moment(row_of(of->table, row), of->batch);
    if (differs(entry)) {
        surroundings octets = around(of, row, common_octets(entry));
        printf(", \"differs\": %zu, \"around\": %zu, \"octets\": ", octets.place, octets.start);
        json_line(octets.start, octets.up_to_end);
    }
    putchar('}');
}

static void json_entry(const int64_t *entry)
{
    const placed_rows *named = &sides[naming_side(entry)];
    size_t row = row_in(entry, naming_side(entry)), kind = row_of(named->table, row)[PHAGUNDRO_ROW_KIND];
    printf("{\"what\": %d, \"says\": \"%s\", \"seconds\": %" PRId64 ", \"kind\": %zu, \"name\": \"%s\", \"path\": [\"",
        (int)entry[PHAGUNDRO_ENTRY_WHAT], change_of((size_t)entry[PHAGUNDRO_ENTRY_WHAT]), entry[PHAGUNDRO_ENTRY_SECONDS], kind,
        kind_name(kind));
    show_path(named, row, "\", \"");
    fputs("\"], \"first\": ", stdout);
    json_field(entry, FIRST);
    fputs(", \"second\": ", stdout);
    json_field(entry, SECOND);
    putchar('}');
}

void json_entries(const comparison *of)
{
    take_sides(of);
    putchar('[');
    for (size_t i = 0; i < of->count; i++) {
        fputs(i == 0 ? "\n  " : ",\n  ", stdout);
        json_entry(of->entries + PHAGUNDRO_ENTRY_NUMBERS * i);
    }
    putchar(']');
}
