/* The command line: which options there are, and what was given. */
#ifndef OPTIONS_H
#define OPTIONS_H

#include <stdbool.h>
#include <stddef.h>

/* The options, as bits: which a command takes, and which were given. */
enum {
    EDITION = 1 << 0,
    HEX = 1 << 1,
    NUMBERS = 1 << 2,
    JSON = 1 << 3,
    POSITION = 1 << 4,
    PART = 1 << 5,
    OUTPUT = 1 << 6,
    ALL = 1 << 7,
    OUTPUT_DIR = 1 << 8,
    HELP = 1 << 9
};

typedef struct {
    unsigned given;
    size_t edition;
    size_t position;
    const char *part;
    const char *output;
    const char *output_dir;
    char **files; /* the words that name files, moved to the front of the command's words */
    size_t count; /* of files */
} options;

/* Parses the words after the name of a command that takes these options and at most `most` files. Anything else is trouble. */
options parsed(const char *command, unsigned taken, size_t most, char **words);

/* It is trouble if one of these options isn't given. */
void needed(const options *given, const char *command, unsigned bits);

#endif
