/* Paths shown, from the message down. */
#include "paths.h"

#include "meanings.h"
#include "show.h"

#include <string.h>

void take_rows(placed_rows *taken, size_t edition, octets batch)
{
    size_t room = sizeof taken->table / sizeof *taken->table;
    size_t count = phagundro_read(edition, batch.bytes, batch.length, taken->table, room).count;
    taken->batch = batch;
    for (size_t row = 1; row < count; row++)
        taken->positions[row] = taken->children[row_of(taken->table, row)[PHAGUNDRO_ROW_PARENT]]++;
}

/* What one of the fields is called that a container of a kind lists; NULL if it lists none. */
static const char *listed_name(size_t kind)
{
    switch (kind) {
    case PHAGUNDRO_KIND_BATCH: return "message";
    case PHAGUNDRO_KIND_CONTROLS: return "control";
    case PHAGUNDRO_KIND_REG_INFO: return "item";
    case PHAGUNDRO_KIND_EXTENSIONS: return "extension";
    default: return NULL;
    }
}

/* A field's name, and its position in a list: "control at position 0 (regToken)", "control at position 1 of an unknown type". */
static void show_step(const placed_rows *of, size_t row)
{
    const size_t *field = row_of(of->table, row), *parent = row_of(of->table, field[PHAGUNDRO_ROW_PARENT]);
    const char *name = kind_name(field[PHAGUNDRO_ROW_KIND]), *listed = listed_name(parent[PHAGUNDRO_ROW_KIND]);
    if (listed == NULL) {
        fputs(name, stdout);
        return;
    }
    printf("%s at position %zu", listed, of->positions[row]);
    if (strncmp(name, listed, strlen(listed)) == 0)
        fputs(name + strlen(listed), stdout);
    else
        printf(" (%s)", name);
}

void show_path(const placed_rows *of, size_t row, const char *between)
{
    size_t parent = row_of(of->table, row)[PHAGUNDRO_ROW_PARENT];
    if (parent != 0) {
        show_path(of, parent, between);
        fputs(between, stdout);
    }
    show_step(of, row);
}
