/* Two batches that a comparison lends, in several rooms, their answers, and the account of those. */
#ifndef LENT_PAIR_H
#define LENT_PAIR_H

#include "batches.h"
#include "comparison.h"
#include "reference.h"

/* What is lent to the archive, and how many pairs were lent as one. */
extern const uint8_t *first_bytes, *second_bytes;
extern size_t lent_once;

/* Copies each batch to the edge of memory that must not be touched, after it and before it in turn; of two equal ones, sometimes one is
 * lent for both. */
void lend_pair(const Batch *first, const Batch *second);

/* It is a difference if a copy, or what is beside it, has changed since. */
void check_lent_pair(void);

/* Shows the first two batches of a trio that was drawn from these sorts, with the seed and their number. */
void show_pair(const Trio *trio, const TrioSort *sorts);

/* Compares in several rooms; `needed` is the room that the answer needs, or 0 with a refusal or where it needs none, and `most` is no less
 * than any answer needs. */
void in_rooms(void (*compare)(size_t edition, size_t room), size_t edition, size_t needed, size_t most);

bool is_edition(size_t edition);

/* Answers by edition, number and file. */
enum { FILES = PHAGUNDRO_FILE_SECOND + 1 };
typedef size_t PairAnswers[EDITIONS][NUMBERS][FILES];

/* How many calls were compared, and how many of them in neither edition. */
extern size_t calls, wrong_editions;

/* Counts a call. It is a difference if the archive's answer isn't the reference's. */
void check_answer(PairAnswers answers, phagundro_pair_answer answer, reference_pair_answer right, size_t edition, size_t room);

/* Shows how often each number from 1 to 10 was each file's refusal in an edition, and counts those that never were. */
int account_files(PairAnswers answers, size_t edition);

#endif
