/* Shows the answers of a comparing and of the parts that its entries speak of. A line of input is one of
 *     compare EDITION ROOM LENGTH,HEX
 *     part EDITION ENTRY LENGTH,HEX
 * where HEX is the first batch, of LENGTH bytes, and the second after it. The line is shown with the answer after it: of a comparing
 * number, place, file and count, the list's numbers of `count` entries, and how many of its other numbers changed; of a part number, place,
 * file, from and length, the part's octets in hex, and 0, as
 *     compare 1 9 11,3009300730050201003000300B3009..,0 0 0 1,2 0 5,0
 *     part 1 0 11,3009300730050201003000300B3009..,0 0 2 11 2,8000,0
 * See answering.h. */
#ifndef CHANGES_LINES_H
#define CHANGES_LINES_H

#include "reference.h"

typedef reference_pair_answer comparing(size_t edition, const uint8_t *first, size_t first_length, const uint8_t *second,
    size_t second_length, int64_t *entries, size_t room);
typedef reference_part parting(size_t edition, const uint8_t *first, size_t first_length, const uint8_t *second, size_t second_length,
    size_t entry);

/* Runs a program that shows the answers of these, and answers its exit status. */
int show_changes(int count, char **words, comparing *compare, parting *part);

#endif
