/* Shows the answers of a reading: see reading_lines.h. */
#include "reading_lines.h"

#include "../../include/phagundro.h"
#include "answering.h"
#include "inputs.h"

#include <stdio.h>

static uint8_t input[INPUT_ROOM];
static size_t length;
static reading *read_by;

static bool take(const char *line)
{
    return take_hex(line, input, sizeof input, &length);
}

static void make(void)
{
    length = inputs_next(input);
}

static void show(void)
{
    static size_t table[PHAGUNDRO_ROW_NUMBERS * 40000];
    show_hex(input, length);
    for (size_t edition = PHAGUNDRO_RFC2511; edition <= PHAGUNDRO_RFC4211; edition++) {
        reference_answer answer = read_by(edition, input, length, table, sizeof table / sizeof *table);
        printf(",%zu %zu %zu%s", answer.number, answer.place, answer.count, answer.count > 0 ? " " : "");
        show_numbers(table, PHAGUNDRO_ROW_NUMBERS * answer.count);
    }
    putchar('\n');
}

int show_readings(int count, char **words, reading *read)
{
    read_by = read;
    return answering(count, words, take, make, show);
}
