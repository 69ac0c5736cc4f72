// Times accepting and reading of batches with a fault in their last message, beside the same batches without one.
#include "encoding.h"
#include "inputs.h"
#include "rounds.h"
#include "show.h"
#include "tables.h"

#include <stdio.h>
#include <string.h>

enum { PLAIN, NEST, GRAMMAR, OTHER_EDITION, VARIANTS };

// A batch with its fault, if it has one, and the answer that it has to get.
typedef struct {
    size_t edition, number;
    bool there;
    size_t length;
    uint8_t bytes[PHAGUNDRO_LONGEST];
} variant;

static variant variants[VARIANTS] = {
    [PLAIN] = {.edition = EDITION, .number = PHAGUNDRO_ACCEPTED},
    [NEST] = {.edition = EDITION, .number = PHAGUNDRO_BAD_IDENTIFIER},
    [GRAMMAR] = {.edition = EDITION, .number = PHAGUNDRO_NOT_IN_GRAMMAR},
    [OTHER_EDITION] = {.edition = PHAGUNDRO_RFC2511, .number = PHAGUNDRO_OTHER_EDITION},
};

static input now;
static size_t table[MOST_NUMBERS];

static bool accepts(const variant *v)
{
    return phagundro_accept(v->edition, v->bytes, v->length) == v->number;
}

static bool reads(const variant *v)
{
    return phagundro_read(v->edition, v->bytes, v->length, table, MOST_NUMBERS).number == v->number;
}

#define BOTH_CALLS(which) \
    static bool accept_##which(void) \
    { \
        return accepts(&variants[which]); \
    } \
    static bool read_##which(void) \
    { \
        return reads(&variants[which]); \
    }

BOTH_CALLS(PLAIN)
BOTH_CALLS(NEST)
BOTH_CALLS(GRAMMAR)
BOTH_CALLS(OTHER_EDITION)

// Accepting the variants in their order, then reading them.
static const subject all_calls[2 * VARIANTS] = {
    {"phagundro_accept, accepted", accept_PLAIN},
    {"phagundro_accept, nest (3)", accept_NEST},
    {"phagundro_accept, grammar (8)", accept_GRAMMAR},
    {"phagundro_accept, other edition (9)", accept_OTHER_EDITION},
    {"phagundro_read, accepted", read_PLAIN},
    {"phagundro_read, nest (3)", read_NEST},
    {"phagundro_read, grammar (8)", read_GRAMMAR},
    {"phagundro_read, other edition (9)", read_OTHER_EDITION},
};

// The fields of the last message; its proof and its regInfo may be missing.
typedef struct {
    const size_t *message, *request, *proof, *last;
} fields;

static fields last_fields(void)
{
    fields found = {0};
    size_t message = 0;
    for (size_t i = 1; i < now.numbers / PHAGUNDRO_ROW_NUMBERS; i++) {
        const size_t *row = row_of(&now, i);
        size_t kind = row[PHAGUNDRO_ROW_KIND];
        if (kind == PHAGUNDRO_KIND_MESSAGE) {
            message = i;
            found = (fields){.message = row};
        } else if (row[PHAGUNDRO_ROW_PARENT] == message) {
            found.last = row;
            if (kind == PHAGUNDRO_KIND_CERT_REQ)
                found.request = row;
            else if (kind != PHAGUNDRO_KIND_REG_INFO)
                found.proof = row;
        }
    }
    return found;
}

static void copy_batch(variant *v)
{
    memcpy(v->bytes, now.bytes, now.length);
    v->length = now.length;
    v->there = true;
}

// The length of the longest content with which an element has at most this whole length.
static size_t content_within(size_t whole)
{
    size_t content = whole - header_length(0);
    while (content + header_length(content) > whole)
        content--;
    return content;
}

enum { LEAST_PROOF = 6, MOST_ADDED = LEAST_PROOF + 2 }; // the proof, and one length octet more for each of message and batch

// keyEncipherment with an encryptedKey, which only edition 2 has, around an OCTET STRING. It is as long as the proof that it replaces, or
// one octet shorter where no length octets fit, and has at least the three headers.
static void put_encrypted_key(size_t whole)
{
    static const uint8_t octets[PHAGUNDRO_LONGEST];
    size_t before = put_so_far();
    put(octets, content_within(content_within(content_within(whole < LEAST_PROOF ? LEAST_PROOF : whole))));
    put_header(0x04, before);
    put_header(0xA4, before);
    put_header(0xA2, before);
}

// The batch with that proof in the last message.
static void change_proof(const fields *of, variant *v)
{
    v->there = now.length + MOST_ADDED <= PHAGUNDRO_LONGEST;
    if (!v->there)
        return;
    size_t batch_content = row_of(&now, 0)[PHAGUNDRO_ROW_CONTENT];
    size_t message = of->message[PHAGUNDRO_ROW_FIRST], content = of->message[PHAGUNDRO_ROW_CONTENT];
    size_t request_end = of->request[PHAGUNDRO_ROW_FIRST] + of->request[PHAGUNDRO_ROW_LENGTH];
    size_t proof_length = of->proof != NULL ? of->proof[PHAGUNDRO_ROW_LENGTH] : 0;
    size_t proof_end = request_end + proof_length;
    begin_encoding();
    put(now.bytes + proof_end, now.length - proof_end);
    put_encrypted_key(proof_length);
    put(now.bytes + content, request_end - content);
    put_header(0x30, 0);
    put(now.bytes + batch_content, message - batch_content);
    put_header(0x30, 0);
    v->length = take_encoding(v->bytes);
}

static void make_variants(void)
{
    fields of = last_fields();
    size_t identifier = of.last[PHAGUNDRO_ROW_FIRST];
    for (int v = 0; v < OTHER_EDITION; v++)
        copy_batch(&variants[v]);
    variants[NEST].bytes[identifier] = 0x1F;
    variants[GRAMMAR].bytes[identifier] = 0xBE;
    change_proof(&of, &variants[OTHER_EDITION]);
}

static void measure(const char *path, double *best)
{
    take_input(path, &now);
    make_variants();
    subject calls[2 * VARIANTS];
    memcpy(calls, all_calls, sizeof calls);
    for (int i = 0; i < 2 * VARIANTS; i++)
        if (!variants[i % VARIANTS].there)
            calls[i].run = NULL;
    best_times(calls, 2 * VARIANTS, now.name, best);
}

void measure_refusals(int count, const char *const *paths)
{
    static double best[MOST_INPUTS][2 * VARIANTS];
    for (int i = 0; i < count; i++)
        measure(paths[i], best[i]);
    printf("\nRefused batches, times the same call on the accepted one:\n\n");
    show_head(count, paths);
    for (int call = 0; call < 2 * VARIANTS; call++) {
        begin_row(all_calls[call].name);
        for (int i = 0; i < count; i++)
            show_number(best[i][call] / best[i][call - call % VARIANTS + PLAIN], 2);
        end_row();
    }
}
