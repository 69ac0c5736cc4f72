/* Refusals of two batches: "the first's, then the second's", and then those of neither. */
#include "reference_pair.h"

#include "paper.h"

reference_pair_answer refused_file(reference_answer answer, size_t file)
{
    if (answer.number == UNKNOWN_EDITION && reference_fault == EDITION_OF_NEITHER)
        file = NEITHER;
    return (reference_pair_answer){answer.number, answer.place, file, 0};
}

reference_pair_answer refused_pair(size_t number)
{
    return (reference_pair_answer){number, 0, NEITHER, 0};
}
