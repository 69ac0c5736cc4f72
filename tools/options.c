/* The command line, word by word. Nothing is guessed: an option given twice or a word too many is trouble. */
#include "options.h"

#include "files.h"

#include <string.h>

static const struct {
    const char *name;
    unsigned bit;
    const char *value;  /* what must follow it, or NULL */
    const char *advice; /* if it is needed and missing */
} known[] = {
    {"--edition", EDITION, "1 or 2", "say --edition 1 (RFC 2511) or --edition 2 (RFC 4211): which one a batch speaks is never guessed"},
    {"--hex", HEX, NULL, NULL},
    {"--numbers", NUMBERS, NULL, NULL},
    {"--json", JSON, NULL, NULL},
    {"--position", POSITION, "a number", "say --position N: which message, counted from 0"},
    {"--part", PART, "a file", NULL},
    {"--output", OUTPUT, "a file", NULL},
    {"--all", ALL, NULL, NULL},
    {"--output-dir", OUTPUT_DIR, "a folder", "say --output-dir DIR: the folder for the files of --all"},
    {"--help", HELP, NULL, NULL},
};

enum { KNOWN = sizeof known / sizeof *known };

/* Options of which only one may be given. */
static const unsigned alternatives[][2] = {{NUMBERS, JSON}, {ALL, POSITION}, {ALL, OUTPUT}, {POSITION, OUTPUT_DIR}};

enum { ALTERNATIVES = sizeof alternatives / sizeof *alternatives };

/* Which option a word names, up to its "="; KNOWN for none. */
static size_t option_of(const char *word)
{
    size_t length = strcspn(word, "="), option = 0;
    while (option < KNOWN && (strlen(known[option].name) != length || strncmp(known[option].name, word, length) != 0))
        option++;
    return option;
}

static size_t number_of(const char *name, const char *value)
{
    size_t number;
    if (!whole_number(value, &number))
        trouble("%s %s: not a whole number that fits", name, value);
    return number;
}

static void take(options *given, size_t option, const char *value)
{
    const char *name = known[option].name;
    if (given->given & known[option].bit)
        trouble("%s is given twice", name);
    given->given |= known[option].bit;
    switch (known[option].bit) {
    case EDITION: given->edition = number_of(name, value); break;
    case POSITION: given->position = number_of(name, value); break;
    case PART: given->part = value; break;
    case OUTPUT: given->output = value; break;
    case OUTPUT_DIR: given->output_dir = value; break;
    }
}

static void add_file(options *given, const char *command, size_t most, char *name)
{
    if (given->count == most)
        trouble("%s: a file too many: %s (see phagundro %s --help)", command, name, command);
    given->files[given->count++] = name;
}

/* Takes the option that the first word names, and answers the last word that belongs to it. */
static char **take_option(options *given, const char *command, unsigned taken, char **words)
{
    size_t option = option_of(*words);
    const char *value = strchr(*words, '=');
    if (option == KNOWN || !(known[option].bit & (taken | HELP)))
        trouble("%s: no such option: %s (see phagundro %s --help)", command, *words, command);
    if (known[option].value == NULL && value != NULL)
        trouble("%s takes no value", known[option].name);
    if (value != NULL)
        value++;
    else if (known[option].value != NULL && (value = *++words) == NULL)
        trouble("%s wants %s after it", known[option].name, known[option].value);
    take(given, option, value);
    return words;
}

static const char *name_of(unsigned bit)
{
    size_t option = 0;
    while (known[option].bit != bit)
        option++;
    return known[option].name;
}

static void check_alternatives(unsigned given)
{
    for (size_t i = 0; i < ALTERNATIVES; i++)
        if ((given & alternatives[i][0]) && (given & alternatives[i][1]))
            trouble("%s and %s: only one of them", name_of(alternatives[i][0]), name_of(alternatives[i][1]));
}

options parsed(const char *command, unsigned taken, size_t most, char **words)
{
    options given = {.files = words};
    bool ended = false;
    for (; *words != NULL; words++) {
        if (ended || **words != '-' || strcmp(*words, "-") == 0)
            add_file(&given, command, most, *words);
        else if (strcmp(*words, "--") == 0)
            ended = true;
        else
            words = take_option(&given, command, taken, words);
    }
    check_alternatives(given.given);
    return given;
}

void needed(const options *given, const char *command, unsigned bits)
{
    for (size_t option = 0; option < KNOWN; option++)
        if ((known[option].bit & bits) && !(given->given & known[option].bit))
            trouble("%s: %s", command, known[option].advice);
}
