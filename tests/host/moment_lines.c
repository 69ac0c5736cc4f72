/* Shows the moments of bytes: see moment_lines.h. */
#include "moment_lines.h"

#include "answering.h"
#include "inputs.h"
#include "limits.h"

#include <stdio.h>

static uint8_t input[INPUT_ROOM];
static size_t length;
static int64_t (*moment_by)(const uint8_t *bytes, size_t length);

static bool take(const char *line)
{
    return take_hex(line, input, sizeof input, &length);
}

static void make(void)
{
    length = limits_next(input);
}

static void show(void)
{
    show_hex(input, length);
    printf(",%lld\n", (long long)moment_by(input, length));
}

int show_moments(int count, char **words, int64_t (*moment)(const uint8_t *bytes, size_t length))
{
    moment_by = moment;
    return answering(count, words, take, make, show);
}
