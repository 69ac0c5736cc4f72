// Takes the batches that are measured from their files, with short names, or makes them, and reads them.
#include "inputs.h"
#include "names.h"
#include "rounds.h"
#include "show.h"
#include "validity.h"

#include <stdio.h>
#include <string.h>

static const struct {
    const char *file, *name;
} short_names[] = {
    {"openssl-sig-rsa2048", "one RSA"},
    {"openssl-batch-10-ec-sig", "10 EC"},
    {"bc-batch-100-rsa-sig-near-64k", "100 RSA"},
    {"openssl-batch-259-ec-sig-near-64k", "259 EC"},
    {"pyasn1-batch-913-nokey-near-64k", "913 small"},
    {"openssl-regToken-60000", "token"},
};

const char *const made_names[MADE] = {"names", "validity"};
static size_t (*const makers[MADE])(uint8_t *batch) = {names_batch, validity_batch};

// A file is named as above or, if it isn't there, by itself without its folder and ending.
static void name_input(const char *path, char *name)
{
    const char *folder = strrchr(path, '/');
    snprintf(name, LONGEST_NAME + 1, "%s", folder != NULL ? folder + 1 : path);
    char *ending = strrchr(name, '.');
    if (ending != NULL)
        *ending = '\0';
    for (size_t i = 0; i < sizeof short_names / sizeof short_names[0]; i++)
        if (strcmp(name, short_names[i].file) == 0)
            strcpy(name, short_names[i].name);
}

void show_head(int count, const char *const *paths)
{
    begin_row("");
    for (int i = 0; i < count; i++) {
        char name[LONGEST_NAME + 1];
        name_input(paths[i], name);
        show_words(name);
    }
    end_row();
    show_line(count);
}

static void load(const char *path, input *taken)
{
    FILE *file = fopen(path, "rb");
    if (file == NULL)
        fail("cannot be opened", path);
    taken->length = fread(taken->bytes, 1, sizeof taken->bytes, file);
    fclose(file);
}

const size_t *row_of(const input *of, size_t position)
{
    return of->rows + PHAGUNDRO_ROW_NUMBERS * position;
}

static void take_rows(input *taken)
{
    phagundro_answer answer = phagundro_read(EDITION, taken->bytes, taken->length, taken->rows, MOST_NUMBERS);
    if (answer.number != PHAGUNDRO_ACCEPTED)
        fail("is not accepted", taken->name);
    taken->numbers = PHAGUNDRO_ROW_NUMBERS * answer.count;
    taken->messages = 0;
    for (size_t i = 0; i < answer.count; i++)
        taken->messages += row_of(taken, i)[PHAGUNDRO_ROW_KIND] == PHAGUNDRO_KIND_MESSAGE;
}

void take_input(const char *path, input *taken)
{
    int which = 0;
    while (which < MADE && strcmp(path, made_names[which]) != 0)
        which++;
    name_input(path, taken->name);
    if (which < MADE)
        taken->length = makers[which](taken->bytes);
    else
        load(path, taken);
    take_rows(taken);
}
