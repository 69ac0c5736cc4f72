/* Shows what changed by reference_changes.c: see changes_lines.h. */
#include "changes_lines.h"

int main(int count, char **words)
{
    return show_changes(count, words, reference_compare, reference_compare_part);
}
