/* Questions about one batch or two: see questions.h. */
#include "questions.h"

#include "../../include/phagundro.h"
#include "answering.h"
#include "random.h"

#include <stdio.h>
#include <string.h>

bool take_question(const char *line, const char *const words[2], Question *question)
{
    int used = 0;
    size_t other = strlen(words[1]);
    question->word = strncmp(line, words[1], other) == 0 && line[other] == ' ';
    size_t word = strlen(words[question->word]);
    if (strncmp(line, words[question->word], word) != 0)
        return false;
    int taken = sscanf(line + word, " %zu %zu %zu,%n", &question->edition, &question->amount, &question->where, &used);
    return taken == 3 && used > 0 && take_hex(line + word + used, question->octets, sizeof question->octets, &question->length);
}

void ask_next(Question *question, void (*make)(Trio *))
{
    static Trio trio;
    static size_t made;
    question->word = made++ % 2;
    if (question->word == 0)
        make(&trio);
    question->where = trio.first.length;
    question->length = trio.first.length + trio.second.length;
    memcpy(question->octets, trio.first.octets, trio.first.length);
    memcpy(question->octets + question->where, trio.second.octets, trio.second.length);
    question->edition = chance(20) ? 3 * below(2) : PHAGUNDRO_RFC2511 + below(2);
}

void show_question(const Question *question, const char *const words[2])
{
    printf("%s %zu %zu %zu,", words[question->word], question->edition, question->amount, question->where);
    show_hex(question->octets, question->length);
    putchar(',');
}
