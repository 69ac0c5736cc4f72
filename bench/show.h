// Shows tables in Markdown, cell by cell.
#ifndef SHOW_H
#define SHOW_H

// Begins a row with its name.
void begin_row(const char *name);

// A cell with a number; 0 is one that wasn't measured, and is shown as a dash.
void show_number(double number, int decimals);

// A cell with words.
void show_words(const char *words);

void end_row(void);

// The line between a table's head, which is a row, and the rows below it.
void show_line(int columns);

#endif
