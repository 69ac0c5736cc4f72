/* What the programs have in common that show a reference's answers: see answering.h. */
#define _DEFAULT_SOURCE
#include "answering.h"

#include "inputs.h"

#include <ctype.h>
#include <stdio.h>
#include <stdlib.h>

enum { ENDED = 0, WRONG = 2 }; /* exit statuses */

static int answer_lines(bool (*take)(const char *line), void (*show)(void))
{
    char *line = NULL;
    size_t room = 0;
    while (getline(&line, &room, stdin) > 0) {
        if (!take(line))
            return WRONG;
        show();
    }
    free(line);
    return ENDED;
}

int answering(int count, char **words, bool (*take)(const char *line), void (*make)(void), void (*show)(void))
{
    if (count < 3)
        return answer_lines(take, show);
    if (!inputs_start(strtoull(words[2], NULL, 10), count - 3, words + 3))
        return WRONG;
    for (size_t left = strtoull(words[1], NULL, 10); left > 0; left--) {
        make();
        show();
    }
    return ENDED;
}

bool take_hex(const char *digits, uint8_t *octets, size_t room, size_t *size)
{
    for (*size = 0; isxdigit(digits[0]) && isxdigit(digits[1]) && *size < room; digits += 2)
        octets[(*size)++] = (uint8_t)strtoul((char[]){digits[0], digits[1], 0}, NULL, 16);
    return *digits == '\n';
}

void show_hex(const uint8_t *octets, size_t size)
{
    for (size_t i = 0; i < size; i++)
        printf("%02X", octets[i]);
}

void show_numbers(const size_t *numbers, size_t count)
{
    for (size_t i = 0; i < count; i++)
        printf("%s%zu", i > 0 ? " " : "", numbers[i]);
}
