/* Shows what changed by the archive: see changes_lines.h. */
#include "../../include/phagundro.h"
#include "changes_lines.h"

static reference_pair_answer archive_compare(size_t edition, const uint8_t *first, size_t first_length, const uint8_t *second,
    size_t second_length, int64_t *entries, size_t room)
{
    phagundro_pair_answer answer = phagundro_compare(edition, first, first_length, second, second_length, entries, room);
    return (reference_pair_answer){answer.number, answer.place, answer.file, answer.count};
}

static reference_part archive_part(size_t edition, const uint8_t *first, size_t first_length, const uint8_t *second, size_t second_length,
    size_t entry)
{
    phagundro_part answer = phagundro_compare_part(edition, first, first_length, second, second_length, entry);
    return (reference_part){answer.number, answer.place, answer.file, answer.from, answer.length};
}

int main(int count, char **words)
{
    return show_changes(count, words, archive_compare, archive_part);
}
