/* What changed between two batches by document 02's A5 and A12, as a relation between their rows. Each row has a spot below its parent: a
 * position, or a kind with its occurrence. A row's counterpart is looked for at the row's spot among the children of its parent's
 * counterpart. The differences are collected row by row, of the first batch and then of the second, and put in order by the spots on the
 * way to each. */
#include "reference.h"

#include "paper.h"
#include "reference_kinds.h"
#include "reference_pair.h"

#include <stdbool.h>
#include <stdlib.h>
#include <string.h>

#define NONE SIZE_MAX /* instead of a row's number */

/* By position, the kind is 0. */
typedef struct {
    size_t kind, nth;
} Spot;

typedef struct {
    const uint8_t *bytes;
    size_t count, rows[ROW_NUMBERS * MOST_ROWS];
    size_t children[MOST_ROWS], begin[MOST_ROWS + 1]; /* a row's children are those from its begin to the next row's */
    Spot spots[MOST_ROWS];
    size_t counterparts[MOST_ROWS]; /* in the other file, or NONE */
} File;

static File one, two;

static size_t field(const File *file, size_t row, size_t which)
{
    return file->rows[ROW_NUMBERS * row + which];
}

static size_t kind_of(const File *file, size_t row)
{
    return field(file, row, ROW_KIND);
}

static size_t parent_of(const File *file, size_t row)
{
    return field(file, row, ROW_PARENT);
}

static const uint8_t *octets_of(const File *file, size_t row)
{
    return file->bytes + field(file, row, ROW_FIRST);
}

/* -- Spots -- */

/* Gathers the rows by their parents. */
static void gather(File *file)
{
    size_t *begin = file->begin;
    memset(begin, 0, (file->count + 1) * sizeof *begin);
    for (size_t row = 1; row < file->count; row++)
        begin[parent_of(file, row)]++;
    for (size_t row = 1; row <= file->count; row++) /* each is now where the children end */
        begin[row] += begin[row - 1];
    for (size_t row = file->count - 1; row > 0; row--)
        file->children[--begin[parent_of(file, row)]] = row;
}

/* "Messages are matched by position; items in controls and regInfo by position if of one kind; other children by kind and occurrence." */
static bool by_position(size_t kind)
{
    return kind == KIND_BATCH || (kind == KIND_CONTROLS && reference_fault != CONTROLS_BY_KIND) ||
        (kind == KIND_REG_INFO && reference_fault != REG_INFO_BY_KIND);
}

/* The kind of a spot, which is the row's but for two planted faults. */
static size_t spot_kind(size_t kind)
{
    if (reference_fault == PROOFS_AT_ONE_SPOT && kind >= KIND_RA_VERIFIED && kind <= KIND_KEY_AGREEMENT)
        return KIND_RA_VERIFIED;
    return reference_fault == CHOICES_AT_ONE_SPOT && kind >= KIND_CHOICE && kind < KIND_REG_INFO ? KIND_CHOICE : kind;
}

/* The spot of a child, given the parent's first child, how many there are before it, and how many from it on. */
static Spot spot_of(const File *file, const size_t *first, size_t before, size_t from)
{
    size_t kind = kind_of(file, first[before]), occurrence = 0;
    if (by_position(kind_of(file, parent_of(file, first[before]))))
        return (Spot){0, before};
    if (kind == KIND_EXTENSION && reference_fault == EXTENSIONS_FROM_LAST)
        return (Spot){kind, MOST_ROWS - from};
    for (size_t i = 0; i < before; i++)
        occurrence += kind_of(file, first[i]) == kind;
    return (Spot){spot_kind(kind), occurrence};
}

static void find_spots(File *file)
{
    gather(file);
    for (size_t row = 0; row < file->count; row++) {
        const size_t *first = file->children + file->begin[row];
        size_t size = file->begin[row + 1] - file->begin[row];
        for (size_t i = 0; i < size; i++)
            file->spots[first[i]] = spot_of(file, first, i, size - i);
    }
}

/* -- Counterparts -- */

/* Whether what is below a row is looked at. */
static bool entered(const File *file, size_t row)
{
    return file->counterparts[row] != NONE && !(reference_fault == CARRIED_AS_LEAF && kind_of(file, row) == KIND_REG_INFO_CERT_REQ);
}

/* The child at a spot; none that has so many of its kind before it is earlier than that. */
static size_t at_spot(const File *file, size_t parent, Spot spot)
{
    const size_t *first = file->children + file->begin[parent];
    size_t size = file->begin[parent + 1] - file->begin[parent];
    for (size_t i = spot.nth < size ? spot.nth : 0; i < size; i++)
        if (file->spots[first[i]].kind == spot.kind && file->spots[first[i]].nth == spot.nth)
            return first[i];
    return NONE;
}

static size_t counterpart(const File *own, size_t row, const File *other)
{
    if (!entered(own, parent_of(own, row)))
        return NONE;
    size_t found = at_spot(other, own->counterparts[parent_of(own, row)], own->spots[row]);
    return found != NONE && kind_of(own, row) == kind_of(other, found) ? found : NONE;
}

static void find_counterparts(File *own, const File *other)
{
    own->counterparts[0] = 0;
    for (size_t row = 1; row < own->count; row++)
        own->counterparts[row] = counterpart(own, row, other);
}

/* -- Differences -- */

typedef struct {
    size_t what, first, second;
} Change;

static Change changes[2 * MOST_ROWS];
static size_t changes_found;

/* The position of the message that a row is or belongs to. */
static size_t message_of(const File *file, size_t row)
{
    while (parent_of(file, row) != 0)
        row = parent_of(file, row);
    return file->spots[row].nth;
}

static void keep(Change change)
{
    size_t message = change.first != 0 ? message_of(&one, change.first) : message_of(&two, change.second);
    if (reference_fault != FIRST_MESSAGE_LISTED || message == 0)
        changes[changes_found++] = change;
}

/* "only in the first", or "only in the second (one entry for a whole container)". */
static bool alone(const File *file, size_t row)
{
    size_t parent = parent_of(file, row);
    if (file->counterparts[row] != NONE || (reference_fault == COMMON_POSITIONS && parent == 0))
        return false;
    return entered(file, parent) || (reference_fault == BELOW_LISTED && file->counterparts[parent] == NONE);
}

static bool is_leaf(size_t kind)
{
    if (reference_fault == CONTAINERS_DIFFER || (reference_fault == CARRIED_AS_LEAF && kind == KIND_REG_INFO_CERT_REQ))
        return true;
    return container_identifier(kind) == 0;
}

/* "leaf bytes differ" */
static bool differ(size_t first, size_t second)
{
    size_t length = field(&one, first, ROW_LENGTH);
    if (!is_leaf(kind_of(&one, first)))
        return false;
    if (length != field(&two, second, ROW_LENGTH))
        return true;
    return reference_fault != LENGTHS_COMPARED && memcmp(octets_of(&one, first), octets_of(&two, second), length) != 0;
}

static void collect(void)
{
    changes_found = 0;
    for (size_t row = 1; row < one.count; row++)
        if (alone(&one, row))
            keep((Change){ONLY_FIRST, row, 0});
        else if (one.counterparts[row] != NONE && differ(row, one.counterparts[row]))
            keep((Change){LEAVES_DIFFER, row, one.counterparts[row]});
    for (size_t row = 1; row < two.count; row++)
        if (alone(&two, row))
            keep((Change){ONLY_SECOND, 0, row});
}

/* -- Their order -- */

/* The spots on the way to a row, from the row up to the batch's child. */
typedef struct {
    size_t steps;
    Spot spots[DEEPEST];
} Path;

static void climb(const Change *change, Path *path)
{
    const File *file = change->first != 0 ? &one : &two;
    path->steps = 0;
    for (size_t row = change->first != 0 ? change->first : change->second; row != 0; row = parent_of(file, row))
        path->spots[path->steps++] = file->spots[row];
}

static int compare_numbers(size_t number, size_t other)
{
    return (number > other) - (number < other);
}

static int compare_spots(Spot spot, Spot other)
{
    return spot.kind != other.kind ? compare_numbers(spot.kind, other.kind) : compare_numbers(spot.nth, other.nth);
}

/* "children by position or by kind number, at one spot the first file's before the second's" */
static int compare_changes(const void *left, const void *right)
{
    const Change *change = left, *other = right;
    Path path, others;
    climb(change, &path);
    climb(other, &others);
    for (size_t i = 1; i <= path.steps && i <= others.steps; i++) {
        int order = compare_spots(path.spots[path.steps - i], others.spots[others.steps - i]);
        if (order != 0)
            return order;
    }
    if (path.steps != others.steps)
        return compare_numbers(path.steps, others.steps);
    int order = compare_numbers(change->what, other->what);
    return reference_fault == SECOND_BEFORE_FIRST ? -order : order;
}

/* -- The calls -- */

/* A batch's own answer, "without 11". */
static reference_answer shown(size_t edition, const uint8_t *bytes, size_t length, File *file)
{
    reference_answer answer = reference_read(edition, bytes, length, file->rows, ROW_NUMBERS * MOST_ROWS);
    file->bytes = bytes;
    file->count = answer.count;
    return answer;
}

static void list(void)
{
    find_spots(&one);
    find_spots(&two);
    find_counterparts(&one, &two);
    find_counterparts(&two, &one);
    collect();
    qsort(changes, changes_found, sizeof *changes, compare_changes);
}

/* "the first file's, then the second's"; if both are accepted, the number of entries, which are listed. */
static reference_pair_answer listed(size_t edition, const uint8_t *first, size_t first_length, const uint8_t *second, size_t second_length)
{
    reference_answer read = shown(edition, first, first_length, &one);
    if (read.number != ACCEPTED)
        return refused_file(read, FIRST);
    read = shown(edition, second, second_length, &two);
    if (read.number != ACCEPTED)
        return refused_file(read, SECOND);
    list();
    return (reference_pair_answer){ACCEPTED, 0, NEITHER, changes_found};
}

static int64_t moment_of(const File *file, size_t row)
{
    return reference_moment(octets_of(file, row), field(file, row, ROW_LENGTH));
}

/* "for two times that differ, second less first in seconds, else 0" */
static int64_t seconds_of(const Change *change)
{
    size_t kind = kind_of(&one, change->first);
    if (change->what != LEAVES_DIFFER || (kind != KIND_NOT_BEFORE && kind != KIND_NOT_AFTER))
        return 0;
    int64_t seconds = moment_of(&two, change->second) - moment_of(&one, change->first);
    if (reference_fault == SECONDS_IN_32_BITS)
        return (int32_t)seconds;
    return reference_fault == FIRST_LESS_SECOND ? -seconds : seconds;
}

static int64_t entry_number(const Change *change, size_t column)
{
    switch (column) {
    case ENTRY_WHAT: return (int64_t)change->what;
    case ENTRY_FIRST: return (int64_t)change->first;
    case ENTRY_SECOND: return (int64_t)change->second;
    default: return seconds_of(change);
    }
}

/* Writes the first numbers of the list. */
static void fill_list(int64_t *entries, size_t numbers)
{
    for (size_t i = 0; i < numbers; i++)
        entries[i] = entry_number(&changes[i / ENTRY_NUMBERS], i % ENTRY_NUMBERS);
}

reference_pair_answer reference_compare(size_t edition, const uint8_t *first, size_t first_length, const uint8_t *second,
    size_t second_length, int64_t *entries, size_t room)
{
    reference_pair_answer answer = listed(edition, first, first_length, second, second_length);
    size_t numbers = ENTRY_NUMBERS * answer.count;
    if (answer.number != ACCEPTED)
        return reference_fault == ROOM_BEFORE_SECOND && answer.file == SECOND && room == 0 ? refused_pair(NO_ROOM) : answer;
    if (room < (reference_fault == ROOM_OF_ENTRIES ? answer.count : numbers)) {
        fill_list(entries, reference_fault == SHORT_OUTPUT_FILLED ? room : 0);
        return refused_pair(NO_ROOM);
    }
    fill_list(entries, numbers < room ? numbers : room);
    return answer;
}

/* The part that is a row, without its first `skipped` bytes. */
static reference_part part(const File *file, size_t row, size_t skipped)
{
    size_t length = field(file, row, ROW_LENGTH) - skipped;
    return (reference_part){ACCEPTED, 0, file == &one ? FIRST : SECOND, field(file, row, ROW_FIRST) + skipped,
        reference_fault == PART_CUT_SHORT ? length - 1 : length};
}

/* "the part of the first file or of the second that it speaks of, the first where both have it" */
static reference_part part_of(const Change *change)
{
    bool both = change->what == LEAVES_DIFFER;
    const File *file = change->first == 0 || (both && reference_fault == SECOND_PART) ? &two : &one;
    size_t row = file == &one ? change->first : change->second;
    size_t header = field(file, row, ROW_CONTENT) - field(file, row, ROW_FIRST);
    reference_part found = part(file, row, reference_fault == PART_OF_CONTENT ? header : 0);
    if (both && reference_fault == PART_OF_NEITHER)
        found.file = NEITHER;
    return found;
}

static reference_part no_part(reference_pair_answer refused)
{
    return (reference_part){refused.number, refused.place, refused.file, 0, 0};
}

reference_part reference_compare_part(size_t edition, const uint8_t *first, size_t first_length, const uint8_t *second,
    size_t second_length, size_t entry)
{
    if (reference_fault == ENTRY_BEFORE_REFUSALS && entry >= sizeof changes / sizeof *changes)
        return no_part(refused_pair(NO_SUCH_MESSAGE));
    reference_pair_answer answer = listed(edition, first, first_length, second, second_length);
    if (answer.number != ACCEPTED)
        return no_part(answer);
    if (reference_fault == BYTE_OF_ENTRIES)
        entry = (uint8_t)entry;
    return entry < answer.count ? part_of(&changes[entry]) : no_part(refused_pair(NO_SUCH_MESSAGE));
}
