/* Shows the moments of the archive: see moment_lines.h. */
#include "../../include/phagundro.h"
#include "moment_lines.h"

int main(int count, char **words)
{
    return show_moments(count, words, phagundro_moment);
}
