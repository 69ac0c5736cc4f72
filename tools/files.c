/* Files read whole, and files written. */
#include "files.h"

#include <ctype.h>
#include <errno.h>
#include <stdarg.h>
#include <stdio.h>
#include <stdlib.h>
#include <string.h>
#include <sys/stat.h>

enum { LONGEST_NUMBER = 20 }; /* digits of the largest size_t */

_Noreturn void trouble(const char *form, ...)
{
    va_list words;
    va_start(words, form);
    fputs("phagundro: ", stderr);
    vfprintf(stderr, form, words);
    fputc('\n', stderr);
    va_end(words);
    exit(STATUS_TROUBLE);
}

static bool is_standard(const char *name)
{
    return strcmp(name, "-") == 0;
}

const char *shown_name(const char *name)
{
    return is_standard(name) ? "standard input" : name;
}

static FILE *opened(const char *name)
{
    FILE *file = is_standard(name) ? stdin : fopen(name, "rb");
    if (file == NULL)
        trouble("%s: %s", name, strerror(errno));
    return file;
}

static void closed(FILE *file, const char *name)
{
    if (ferror(file))
        trouble("%s: %s", shown_name(name), strerror(errno));
    if (file != stdin)
        fclose(file);
}

static void *resized(void *block, size_t length)
{
    block = realloc(block, length);
    if (block == NULL)
        trouble("no memory left");
    return block;
}

/* Makes room in a block of memory for one more thing of `size` bytes. */
static void *grown(void *block, size_t count, size_t *room, size_t size)
{
    if (count < *room)
        return block;
    *room = *room == 0 ? 4096 : 2 * *room;
    return resized(block, *room * size);
}

/* Cuts a block to its length, so that a memory checker knows where the bytes end. */
static void *shrunk(void *block, size_t length)
{
    void *exact = realloc(block, length);
    return exact == NULL ? block : exact;
}

/* The next hex digit, or EOF. */
static int next_digit(FILE *file, const char *name)
{
    int found = getc(file);
    while (found != EOF && isspace(found))
        found = getc(file);
    if (found != EOF && !isxdigit(found))
        trouble("%s: not hex: a byte %02X that is no digit and no white space", shown_name(name), (unsigned)found);
    return found;
}

static int value_of(int digit)
{
    return isdigit(digit) ? digit - '0' : tolower(digit) - 'a' + 10;
}

/* The next byte of two hex digits. */
static int next_pair(FILE *file, const char *name)
{
    int high = next_digit(file, name);
    if (high == EOF)
        return EOF;
    int low = next_digit(file, name);
    if (low == EOF)
        trouble("%s: not hex: an odd number of digits", shown_name(name));
    return 16 * value_of(high) + value_of(low);
}

octets read_octets(const char *name, bool hex, size_t most)
{
    octets found = {NULL, 0};
    size_t room = 0;
    FILE *file = opened(name);
    while (found.length < most) {
        int byte = hex ? next_pair(file, name) : getc(file);
        if (byte == EOF)
            break;
        found.bytes = grown(found.bytes, found.length, &room, sizeof *found.bytes);
        found.bytes[found.length++] = (uint8_t)byte;
    }
    closed(file, name);
    if (found.length > 0)
        found.bytes = shrunk(found.bytes, found.length);
    return found;
}

void replace_octets(octets *old, const uint8_t *bytes, size_t length)
{
    old->bytes = resized(old->bytes, length);
    memcpy(old->bytes, bytes, length);
    old->length = length;
}

bool whole_number(const char *words, size_t *number)
{
    size_t length = strlen(words);
    if (length == 0 || length > LONGEST_NUMBER || strspn(words, "0123456789") != length)
        return false;
    errno = 0;
    unsigned long long found = strtoull(words, NULL, 10);
    *number = (size_t)found;
    return errno == 0 && *number == found;
}

/* The next word of a file, and whether it is the first of its line; false at the file's end. A word that is too long to be a number is cut,
 * and is still too long. */
static bool next_word(FILE *file, char word[LONGEST_NUMBER + 2], bool *begins_line)
{
    size_t length = 0;
    int found = getc(file);
    for (; found != EOF && isspace(found); found = getc(file))
        *begins_line |= found == '\n';
    for (; found != EOF && !isspace(found) && length <= LONGEST_NUMBER; found = getc(file))
        word[length++] = found == '\0' ? '?' : (char)found;
    ungetc(found, file); /* it may end the line */
    word[length] = '\0';
    return length > 0;
}

/* How many words each line has, as far as they are counted. */
typedef struct {
    size_t first, now; /* words of the first line, and of the one that is being counted */
    bool differ;       /* a line has ended with more or fewer than the first */
} line_words;

static void end_line(line_words *words)
{
    if (words->first == 0)
        words->first = words->now;
    words->differ |= words->now != words->first;
    words->now = 0;
}

numbers read_numbers(const char *name)
{
    numbers found = {NULL, 0, 0};
    line_words words = {0, 0, false};
    size_t room = 0;
    char word[LONGEST_NUMBER + 2];
    FILE *file = opened(name);
    for (bool begins_line = false; next_word(file, word, &begins_line); begins_line = false) {
        if (begins_line && words.now > 0)
            end_line(&words);
        words.now++;
        found.numbers = grown(found.numbers, found.count, &room, sizeof *found.numbers);
        if (!whole_number(word, &found.numbers[found.count]))
            trouble("%s: not a row's number: %s", shown_name(name), word);
        found.count++;
    }
    closed(file, name);
    end_line(&words);
    found.each_line = words.differ ? 0 : words.first;
    return found;
}

void write_octets(const char *name, const uint8_t *bytes, size_t length)
{
    FILE *file = is_standard(name) ? stdout : fopen(name, "wb");
    if (file == NULL)
        trouble("%s: %s", name, strerror(errno));
    if (length > 0 && fwrite(bytes, 1, length, file) != length)
        trouble("%s: %s", name, strerror(errno));
    if (file != stdout && fclose(file) != 0)
        trouble("%s: %s", name, strerror(errno));
}

void make_folder(const char *name)
{
    if (mkdir(name, 0777) != 0 && errno != EEXIST)
        trouble("%s: %s", name, strerror(errno));
}

void write_message(const char *folder, size_t position, const uint8_t *bytes, size_t length)
{
    size_t room = strlen(folder) + sizeof "/message-.der" + LONGEST_NUMBER;
    char *name = resized(NULL, room);
    snprintf(name, room, "%s/message-%04zu.der", folder, position);
    write_octets(name, bytes, length);
    free(name);
}

void finish_output(void)
{
    if (fflush(stdout) != 0 || ferror(stdout))
        trouble("standard output: %s", strerror(errno));
}
