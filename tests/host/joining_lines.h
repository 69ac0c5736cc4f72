/* Shows the answers of a joining and a cutting. A line of input is one of
 *     join EDITION ROOM LENGTH,HEX
 *     cut EDITION ROOM POSITION,HEX
 * where HEX is the first batch, of LENGTH bytes, and the second after it, or the batch that is cut. The line is shown with the answer after
 * it: number, place, file (0 in cutting) and count, the output's first `count` octets in hex, and how many of its other octets changed, as
 *     join 1 70000 11,300930073005020100300030093007..,0 0 0 20,30123007300502010030003007..,0
 * See answering.h. */
#ifndef JOINING_LINES_H
#define JOINING_LINES_H

#include "reference.h"

typedef reference_pair_answer joining(size_t edition, const uint8_t *first, size_t first_length, const uint8_t *second,
    size_t second_length, uint8_t *output, size_t room);
typedef reference_answer cutting(size_t edition, const uint8_t *bytes, size_t length, size_t position, uint8_t *output, size_t room);

/* Runs a program that shows the answers of these, and answers its exit status. */
int show_joinings(int count, char **words, joining *join, cutting *cut);

#endif
