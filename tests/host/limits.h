/* Bytes of which the moment is asked: mostly the element of a notBefore or a notAfter, as it should be, with slips or damaged. */
#ifndef LIMITS_H
#define LIMITS_H

#include <stddef.h>
#include <stdint.h>

/* Makes the next ones, from the row of inputs that inputs_start has started; answers how many there are. */
size_t limits_next(uint8_t *bytes);

#endif
