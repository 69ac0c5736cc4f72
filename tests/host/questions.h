/* Questions about one batch or two, a line each, for the programs that show answers:
 *     WORD EDITION AMOUNT WHERE,HEX
 * The word is one of two. HEX is the bytes of a batch, or of two, one after the other; the amount and what `where` means depend on the
 * word. */
#ifndef QUESTIONS_H
#define QUESTIONS_H

#include "batches.h"

typedef struct {
    size_t word; /* which of the two */
    size_t edition, amount, where, length;
    uint8_t octets[2 * INPUT_ROOM];
} Question;

/* Takes a question from a line; answers whether it is one. */
bool take_question(const char *line, const char *const words[2], Question *question);

/* Starts the next question, with the two words in turn, about the first two batches of a trio, which is made anew for the first word. The
 * edition is rarely neither 1 nor 2; `where` is the length of the first batch. */
void ask_next(Question *question, void (*make)(Trio *));

/* Shows the question and a comma. */
void show_question(const Question *question, const char *const words[2]);

#endif
