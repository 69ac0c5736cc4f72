/* Shows the moments of reference_times.c: see moment_lines.h. */
#include "moment_lines.h"
#include "reference.h"

int main(int count, char **words)
{
    return show_moments(count, words, reference_moment);
}
