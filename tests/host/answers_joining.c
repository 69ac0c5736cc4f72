/* Shows the answers of joining and cutting in reference_joining.c: see joining_lines.h. */
#include "joining_lines.h"

int main(int count, char **words)
{
    return show_joinings(count, words, reference_join, reference_cut);
}
