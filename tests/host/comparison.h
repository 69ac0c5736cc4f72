/* What the comparisons of the archive with the references have in common: the command line, the input that is lent, differences, and the
 * account of what occurred.
 *
 * A comparison takes [--count N] [--seed S] [--fault F] FILE... and ends with 0 if all is equal and each answer occurred, with 1 at the
 * first difference, which it shows with what was compared, with 2 if it couldn't run, with 3 if something never occurred. */
#ifndef COMPARISON_H
#define COMPARISON_H

#include "../../include/phagundro.h"
#include "inputs.h"
#include "memory.h"

#include <stdbool.h>
#include <stddef.h>
#include <stdint.h>

enum {
    EDITIONS = PHAGUNDRO_RFC4211 + 1,             /* the length of a table that is indexed by the edition */
    NUMBERS = PHAGUNDRO_NO_SUCH_MESSAGE + 1,      /* of one that is indexed by the number of an answer */
    KINDS = PHAGUNDRO_KIND_REG_INFO_CERT_REQ + 1, /* of one that is indexed by the kind of a row */
    TABLE = PHAGUNDRO_ROW_NUMBERS * 33000         /* the numbers of a table that has room for any batch, and more */
};

extern uint64_t seed;
extern size_t number; /* of the input or draft, from 0 */

/* Takes the command line, opens the inputs' files and has signals reported by `show`, which shows what is compared. Answers how many inputs
 * or drafts to make, `usual` if not said. Ends the program with 2 if a word or a file is wrong. */
size_t comparison_start(int count, char **words, size_t usual, void (*show)(void));

/* Runs a comparison: makes each input by `next`, has it compared, and shows the account at the end. Answers the exit status. */
int comparison_run(size_t inputs, void (*next)(void), void (*compare)(void), int (*account)(size_t inputs));

/* -- The input that is compared, of the comparisons that have one -- */

extern uint8_t input[INPUT_ROOM];
extern size_t length;

/* Copies the input to the edge of memory that must not be touched, after it and before it in turn; the copy is for the archive alone. */
const uint8_t *lend_input(void);

/* It is a difference if the copy, or what is beside it, has changed since. */
void check_lent_input(void);

/* Shows the input in hex, with the seed and its number. */
void show_input(void);

/* The count of messages among these rows. */
size_t messages_of(const size_t *rows, size_t count);

/* Whether a row is below a certReq that is carried. */
bool is_carried(const size_t *rows, size_t row);

/* -- Numbers that are no edition -- */

/* One of the numbers that look like an edition in a byte, in two or in four, or are very large. */
size_t far_edition(size_t n);

/* One of these, of 0 and of 3. */
size_t no_edition(size_t n);

/* -- Differences -- */

/* Tells a difference in an edition, with what else was given, shows what is compared and ends the program with 1. */
_Noreturn void comparison_differs(const char *what, size_t edition, const char *other, size_t value);

/* Whether the archive's answer, which is numbers alone, is the reference's; shows both, with the names of the numbers, if it isn't. */
bool alike(size_t count, const char *const *names, const void *answer, const void *right);

/* It is a difference, in an edition and with this room, if an output, of which `written` bytes are the answer, isn't what is expected or
 * what is beside it has changed; the same of a table or list of numbers, of which `written` are the answer. */
void check_output(const Buffer *output, const uint8_t *expected, size_t edition, size_t room, size_t written);
void check_numbers(const Buffer *output, const void *expected, size_t edition, size_t room, size_t written);

/* -- The account -- */

/* Keeps the larger number. */
void keep_most(size_t *most, size_t value);

/* Tells what never occurred among what was compared, and counts it: 0 if it did. */
int missing(bool occurs, const char *what, size_t which, size_t edition);

/* Tells which kinds of the edition's rows never occurred, and counts them. */
int missing_kinds(const size_t occurred[KINDS], size_t edition);

/* The exit status of a comparison without a difference, in which `lacking` things never occurred. */
int comparison_status(int lacking);

#endif
