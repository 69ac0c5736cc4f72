/* Pages that can be used, between two that can't. */
#define _DEFAULT_SOURCE
#include "memory.h"

#include <signal.h>
#include <stdio.h>
#include <stdlib.h>
#include <string.h>
#include <sys/mman.h>

enum { PAGE = 4096, BESIDE = 512 };

Buffer buffer(size_t most)
{
    size_t size = (most + BESIDE + PAGE - 1) / PAGE * PAGE;
    uint8_t *whole = mmap(NULL, size + 2 * PAGE, PROT_NONE, MAP_PRIVATE | MAP_ANONYMOUS, -1, 0);
    if (whole == MAP_FAILED || mprotect(whole + PAGE, size, PROT_READ | PROT_WRITE) != 0) {
        perror("memory for the comparison");
        exit(2);
    }
    return (Buffer){.region = whole + PAGE, .region_end = whole + PAGE + size};
}

/* Bytes that look random, from a place in a row that repeats after PERIOD. */
static void fill(uint8_t *bytes, size_t size, size_t pattern)
{
    enum { PERIOD = 4093 };
    static uint8_t row[PERIOD];
    if (row[0] == 0)
        for (size_t i = 0; i < PERIOD; i++)
            row[i] = (uint8_t)((i + 1) * 0x9E3779B97F4A7C15 >> 56);
    for (size_t at = 0, from = pattern % PERIOD; at < size; from = 0) {
        size_t some = size - at < PERIOD - from ? size - at : PERIOD - from;
        memcpy(bytes + at, row + from, some);
        at += some;
    }
}

/* Another pattern each time. */
static size_t next_pattern(void)
{
    static size_t pattern;
    return pattern++;
}

void place(Buffer *buffer, size_t size, bool at_end)
{
    buffer->size = size;
    buffer->at_end = at_end;
    buffer->start = at_end ? buffer->region_end - size : buffer->region;
    buffer->beside = at_end ? buffer->start - BESIDE : buffer->start + size;
    buffer->pattern = next_pattern();
    fill(buffer->beside, BESIDE, buffer->pattern);
}

void fill_alike(Buffer *buffer, void *copy)
{
    fill(buffer->start, buffer->size, next_pattern());
    if (buffer->size > 0)
        memcpy(copy, buffer->start, buffer->size);
}

void *lent(const Buffer *buffer)
{
    return buffer->size == 0 && buffer->at_end ? NULL : buffer->start;
}

bool beside_changed(const Buffer *buffer)
{
    uint8_t was[BESIDE];
    fill(was, BESIDE, buffer->pattern);
    return memcmp(buffer->beside, was, BESIDE) != 0;
}

void report_signals(void (*report)(int))
{
    static const int signals[] = {SIGSEGV, SIGBUS, SIGABRT, SIGFPE, SIGILL};
    for (size_t i = 0; i < sizeof signals / sizeof *signals; i++)
        signal(signals[i], report);
}
