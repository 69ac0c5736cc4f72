/* Shows the answers of a comparing and of its parts: see changes_lines.h. */
#include "changes_lines.h"

#include "../../include/phagundro.h"
#include "answering.h"
#include "pairs.h"
#include "questions.h"
#include "random.h"

#include <stdio.h>
#include <string.h>

enum { LIST = PHAGUNDRO_ENTRY_NUMBERS * PHAGUNDRO_MOST_ENTRIES, UNTOUCHED = -7 };
enum { COMPARE, PART };
static const char *const words_of[] = {[COMPARE] = "compare", [PART] = "part"};

/* The amount is the room or the entry's number; `where` is the length of the first batch. */
static Question asked;

static struct {
    comparing *compare;
    parting *part;
} by;

static bool take(const char *line)
{
    return take_question(line, words_of, &asked) && asked.where <= asked.length && (asked.word == PART || asked.amount <= LIST);
}

/* Each pair compared, and a part of it asked for, in turn. */
static void make(void)
{
    ask_next(&asked, pairs_next);
    asked.amount = asked.word == PART ? below(6) : chance(2) ? LIST : below(PHAGUNDRO_ENTRY_NUMBERS * 8);
}

static void show_list(const uint8_t *second, size_t second_length)
{
    static int64_t list[LIST];
    size_t changed = 0;
    for (size_t i = 0; i < LIST; i++)
        list[i] = UNTOUCHED;
    reference_pair_answer answer = by.compare(asked.edition, asked.octets, asked.where, second, second_length, list, asked.amount);
    printf("%zu %zu %zu %zu,", answer.number, answer.place, answer.file, answer.count);
    for (size_t i = 0; i < LIST; i++)
        if (i < PHAGUNDRO_ENTRY_NUMBERS * answer.count)
            printf("%s%lld", i > 0 ? " " : "", (long long)list[i]);
        else
            changed += list[i] != UNTOUCHED;
    printf(",%zu\n", changed);
}

static void show_part(const uint8_t *second, size_t second_length)
{
    reference_part answer = by.part(asked.edition, asked.octets, asked.where, second, second_length, asked.amount);
    printf("%zu %zu %zu %zu %zu,", answer.number, answer.place, answer.file, answer.from, answer.length);
    show_hex((answer.file == PHAGUNDRO_FILE_SECOND ? second : asked.octets) + answer.from, answer.length);
    printf(",0\n");
}

static void show(void)
{
    show_question(&asked, words_of);
    (asked.word == PART ? show_part : show_list)(asked.octets + asked.where, asked.length - asked.where);
}

int show_changes(int count, char **words, comparing *compare, parting *part)
{
    by.compare = compare;
    by.part = part;
    return answering(count, words, take, make, show);
}
