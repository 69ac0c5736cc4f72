/* Shows the answers of a joining and a cutting: see joining_lines.h. */
#include "joining_lines.h"

#include "answering.h"
#include "questions.h"
#include "random.h"
#include "trios.h"

#include <stdio.h>
#include <string.h>

enum { OUTPUT = 70000, UNTOUCHED = 0xA5 };
enum { JOIN, CUT };
static const char *const words_of[] = {[JOIN] = "join", [CUT] = "cut"};

/* The amount is the room; `where` is the length of the first batch, or the position of the message that is cut. */
static Question asked;

static joining *join_by;
static cutting *cut_by;

static bool take(const char *line)
{
    return take_question(line, words_of, &asked) && asked.amount <= OUTPUT && (asked.word == CUT || asked.where <= asked.length);
}

/* Each trio's first two batches joined, and the first cut, in turn. */
static void make(void)
{
    ask_next(&asked, trios_next);
    if (asked.word == CUT) {
        asked.length = asked.where;
        asked.where = below(4);
    }
    asked.amount = chance(2) ? OUTPUT : below(asked.length + 20);
}

static reference_pair_answer answer_to(uint8_t *output)
{
    if (asked.word == JOIN)
        return join_by(asked.edition, asked.octets, asked.where, asked.octets + asked.where, asked.length - asked.where, output,
            asked.amount);
    reference_answer cut = cut_by(asked.edition, asked.octets, asked.length, asked.where, output, asked.amount);
    return (reference_pair_answer){cut.number, cut.place, 0, cut.count};
}

static void show(void)
{
    static uint8_t output[OUTPUT];
    size_t changed = 0;
    memset(output, UNTOUCHED, sizeof output);
    reference_pair_answer answer = answer_to(output);
    for (size_t i = answer.count; i < OUTPUT; i++)
        changed += output[i] != UNTOUCHED;
    show_question(&asked, words_of);
    printf("%zu %zu %zu %zu,", answer.number, answer.place, answer.file, answer.count);
    show_hex(output, answer.count);
    printf(",%zu\n", changed);
}

int show_joinings(int count, char **words, joining *join, cutting *cut)
{
    join_by = join;
    cut_by = cut;
    return answering(count, words, take, make, show);
}
