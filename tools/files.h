/* Files in and out. Whatever goes wrong with one ends the program with STATUS_TROUBLE. */
#ifndef FILES_H
#define FILES_H

#include <stdbool.h>
#include <stddef.h>
#include <stdint.h>

typedef struct {
    uint8_t *bytes; /* to be freed */
    size_t length;
} octets;

typedef struct {
    size_t *numbers; /* to be freed */
    size_t count;
    size_t each_line; /* how many of them each line has that has any; 0 if the lines differ or there are none */
} numbers;

/* Exit statuses. */
enum { STATUS_ACCEPTED = 0, STATUS_REFUSED = 1, STATUS_TROUBLE = 2 };

/* Those of a comparison, which are those of cmp and diff: what can't be compared is trouble. */
enum { STATUS_SAME = 0, STATUS_DIFFERENT = 1, STATUS_NOT_COMPARED = 2 };

/* Says what is wrong and ends the program with STATUS_TROUBLE. */
_Noreturn void trouble(const char *form, ...) __attribute__((format(printf, 1, 2)));

/* What a file is called in a message. */
const char *shown_name(const char *name);

/* Reads the bytes of a file, as they are or as hex digits; of standard input if the name is "-". It stops after `most` bytes. */
octets read_octets(const char *name, bool hex, size_t most);

/* Puts a copy of bytes in the place of others, which are freed. */
void replace_octets(octets *old, const uint8_t *bytes, size_t length);

/* Reads the numbers of a file, separated by white space. */
numbers read_numbers(const char *name);

/* Reads a whole number in decimal digits alone; false if the text is no such number, or one that is too large. */
bool whole_number(const char *words, size_t *number);

/* Writes bytes to a file, or to standard output if the name is "-". */
void write_octets(const char *name, const uint8_t *bytes, size_t length);

/* Makes a folder, if there is none of that name yet. */
void make_folder(const char *name);

/* Writes bytes to the file of a message in a folder: message-0000.der for position 0, and so on. Four digits are enough, since a batch has
 * at most 7,281 messages. */
void write_message(const char *folder, size_t position, const uint8_t *bytes, size_t length);

/* Flushes standard output; it is trouble if that fails. */
void finish_output(void);

#endif
