/* Shows the answers of the reading in reference.c: see reading_lines.h. */
#include "reading_lines.h"

int main(int count, char **words)
{
    return show_readings(count, words, reference_read);
}
