/* A line of text made of parts of a batch: numbers, types and characters. It is UTF-8, and nothing in it steers a terminal. */
#ifndef TEXT_H
#define TEXT_H

#include "elements.h"

enum { LONGEST_TEXT = 300 }; /* bytes; what is longer is cut and ends in ".." */

typedef struct {
    char chars[LONGEST_TEXT + sizeof ".."]; /* with a 0 after them */
    size_t length;
    bool cut;
} text;

/* Adds words. Where they don't fit the text is cut, and nothing is added any more. */
void put_words(text *out, const char *words);

/* Adds # and the hex digits of the whole element, as RFC 4514 shows a value without a text. */
void put_hex(text *out, span whole);

/* Adds the signed whole number of an element's content, in decimal; in hex, if it has more than 64 bits. */
void put_number(text *out, element of);

/* A type by itself: its arcs with dots between them; in hex, if one has more than 63 bits. */
text type_text(element of);

/* Adds the characters of an element's content: UTF-8 in a UTF8String, else ASCII. An octet that is no character is shown as \x and its hex
 * digits, a character that is hidden as \u and its number, and one of the marks with a backslash before it. A space among the marks counts
 * only as the first or last character. */
void put_characters(text *out, element of, const char *marks);

/* Ends the text with "..", if it is cut. */
void end_text(text *out);

#endif
