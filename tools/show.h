/* Shows answers: in words for people, and as JSON. */
#ifndef SHOW_H
#define SHOW_H

#include "../include/phagundro.h"
#include "elements.h"
#include "files.h"

#include <stdio.h>

/* A row of a table. */
const size_t *row_of(const size_t *table, size_t row);

/* The whole element of a row. */
span element_of(const size_t *row, octets batch);

/* Shows a line of bytes, at most 16 from the start on, with brackets around the place. */
void show_line(FILE *out, size_t start, size_t place, octets batch);

/* Shows a refusal in words, with the difference between the editions that it is for, if any, and the bytes around its place. */
void show_refusal(FILE *out, size_t edition, size_t number, size_t place, octets batch);

/* Shows the count of rows of an accepted batch. */
void show_count(size_t edition, size_t count);

/* Shows the rows of an accepted batch as a tree, with messages' positions, certReqIds' numbers and the dates of notBefore and notAfter. */
void show_tree(size_t edition, const size_t *table, size_t count, octets batch);

/* Shows the rows as plain numbers, one row a line. */
void show_numbers(const size_t *table, size_t count);

/* Shows the members of a JSON object that every answer on a batch has: edition, number, meaning and place, and the difference between the
 * editions that a refusal is for, if any. */
void json_answer(size_t edition, size_t number, size_t place, octets batch);

/* Shows words in which no control character is, as a JSON string. */
void json_string(const char *words);

/* Shows the bytes of such a line as a JSON string of hex digits; there is at least one. */
void json_line(size_t start, octets batch);

/* Shows the moment of a notBefore or notAfter as one more member of a JSON object; nothing for any other row. */
void json_moment(const size_t *row, octets batch);

/* Shows the rows of a batch as a JSON array of objects; those of notBefore and notAfter have the date as their text, and the moment. */
void json_rows(const size_t *table, size_t count, octets batch);

#endif
