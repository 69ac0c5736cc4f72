/* Shows the answers of the writing in reference_writing.c: the draft's numbers, the slice in hex, and for editions 1 and 2 the number, the
 * length and the batch in hex, as
 *     1 0 0 0 0 2 0 0 0 0 3 0 0 1 0 4 0 3 2 2 5 0 0 2 0,020100,0 11 3009300730050201003000,0 11 3009300730050201003000
 * A line of input is NUMBERS,HEX. See answering.h. */
#include "../../include/phagundro.h"
#include "answering.h"
#include "drafts.h"
#include "inputs.h"
#include "reference.h"

#include <stdio.h>
#include <stdlib.h>

static Draft draft;

static bool take(const char *line)
{
    for (draft.count = 0; *line != ','; draft.count++) {
        char *end;
        draft.numbers[draft.count] = strtoull(line, &end, 10);
        if (end == line || draft.count + 1 == DRAFT_NUMBERS)
            return false;
        line = *end == ' ' ? end + 1 : end;
    }
    return take_hex(line + 1, draft.slice, SLICE_ROOM, &draft.length);
}

static void make(void)
{
    drafts_next(&draft);
}

static void show(void)
{
    static uint8_t batch[INPUT_ROOM];
    show_numbers(draft.numbers, draft.count);
    putchar(',');
    show_hex(draft.slice, draft.length);
    for (size_t edition = PHAGUNDRO_RFC2511; edition <= PHAGUNDRO_RFC4211; edition++) {
        reference_answer answer =
            reference_write(edition, draft.numbers, draft.count, draft.slice, draft.length, batch, sizeof batch);
        printf(",%zu %zu ", answer.number, answer.count);
        show_hex(batch, answer.count);
    }
    putchar('\n');
}

int main(int count, char **words)
{
    return answering(count, words, take, make, show);
}
