/* Which difference between the editions a batch is refused for. */
#ifndef DIFFERENCES_H
#define DIFFERENCES_H

#include "files.h"
#include "meanings.h"

/* The difference at the place of a batch that an edition refuses with PHAGUNDRO_OTHER_EDITION. None with any other number, and where the
 * other edition doesn't accept the batch either, since a certReqId is too long. */
difference difference_at(size_t edition, size_t number, size_t place, octets batch);

#endif
