/* Shows the answers of the archive's joining and cutting: see joining_lines.h. */
#include "../../include/phagundro.h"
#include "joining_lines.h"

static reference_pair_answer archive_join(size_t edition, const uint8_t *first, size_t first_length, const uint8_t *second,
    size_t second_length, uint8_t *output, size_t room)
{
    phagundro_pair_answer answer = phagundro_join(edition, first, first_length, second, second_length, output, room);
    return (reference_pair_answer){answer.number, answer.place, answer.file, answer.count};
}

static reference_answer archive_cut(size_t edition, const uint8_t *bytes, size_t length, size_t position, uint8_t *output, size_t room)
{
    phagundro_answer answer = phagundro_cut(edition, bytes, length, position, output, room);
    return (reference_answer){answer.number, answer.place, answer.count};
}

int main(int count, char **words)
{
    return show_joinings(count, words, archive_join, archive_cut);
}
