/* What the references that take two batches have in common: whose refusal it is. */
#ifndef REFERENCE_PAIR_H
#define REFERENCE_PAIR_H

#include "reference.h"

enum { NEITHER = 0, FIRST = 1, SECOND = 2 }; /* files */

/* A batch's own refusal, as this file's. */
reference_pair_answer refused_file(reference_answer answer, size_t file);

/* A refusal that is neither file's and has no place. */
reference_pair_answer refused_pair(size_t number);

#endif
