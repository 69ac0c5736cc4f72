/* Shows the answers of the archive's reading: see reading_lines.h. */
#include "../../include/phagundro.h"
#include "reading_lines.h"

static reference_answer archive_read(size_t edition, const uint8_t *bytes, size_t length, size_t *table, size_t room)
{
    phagundro_answer answer = phagundro_read(edition, bytes, length, table, room);
    return (reference_answer){answer.number, answer.place, answer.count};
}

int main(int count, char **words)
{
    return show_readings(count, words, archive_read);
}
