// Shows tables in Markdown, with columns of one width as far as their words fit.
#include "show.h"

#include <stdio.h>

enum { NAME_WIDTH = 36, WIDTH = 9 };

void begin_row(const char *name)
{
    printf("| %-*s |", NAME_WIDTH, name);
}

void show_number(double number, int decimals)
{
    if (number == 0)
        show_words("-");
    else
        printf(" %*.*f |", WIDTH, decimals, number);
}

void show_words(const char *words)
{
    printf(" %*s |", WIDTH, words);
}

void end_row(void)
{
    printf("\n");
}

void show_line(int columns)
{
    printf("|---|");
    for (int i = 0; i < columns; i++)
        printf("---|");
    printf("\n");
}
