/* The row of inputs. Inputs are trees of elements that are built, damaged and encoded, and then damaged as bytes. The first inputs are the
 * same for each seed: the files, the sizes and depths at which document 01 draws a line, SETs of two members, and times. */
#include "inputs.h"

#include "../../include/phagundro.h"
#include "building.h"
#include "damage.h"
#include "random.h"

#include <stdio.h>
#include <stdlib.h>
#include <string.h>

enum { LONG_FILE = 2000 }; /* bytes, from which a file is rarely taken */

typedef struct {
    uint8_t *bytes;
    size_t length;
} File;
static File *read_files;
static size_t files_read, made;

bool inputs_start(uint64_t seed, int files, char **paths)
{
    random_start(seed);
    made = 0;
    read_files = calloc((size_t)files + 1, sizeof *read_files);
    for (int i = 0; i < files; i++) {
        FILE *file = fopen(paths[i], "rb");
        if (!file || !read_files)
            return false;
        File *kept = &read_files[files_read++];
        kept->bytes = malloc(INPUT_ROOM);
        kept->length = kept->bytes ? fread(kept->bytes, 1, INPUT_ROOM, file) : 0;
        fclose(file);
    }
    return true;
}

static Node *request(Node *id)
{
    return around(0x30, around(0x30, add(add(box(0x30), id), box(0x30))));
}

/* A certReq whose template has one field. */
static Node *request_with(Node *field)
{
    return add(add(box(0x30), leaf(0x02, "\0", 1)), around(0x30, field));
}

/* A notBefore or a notAfter with a time as it is written. */
static Node *written_limit(uint8_t id, bool utc, const char *written)
{
    return around(id, leaf(utc ? 0x17 : 0x18, written, strlen(written)));
}

/* A batch whose one field is a notBefore with the nth of the days and hours at which a calendar is easily wrong; NULL past the last. */
static Node *on_a_day(size_t n)
{
    static const char *const years[] = {"0000", "0004", "0400", "1900", "1949", "1950", "1999", "2000", "2024", "2048", "2049", "2050",
        "2051", "2052", "2099", "2100", "2200", "2300", "2400", "4000", "9996", "9999", "00", "01", "04", "48", "49", "50", "51", "52",
        "96", "99"};
    static const char *const days[] = {"0228", "0229", "0230", "0130", "0131", "0132", "0331", "0332", "0430", "0431", "0531", "0532",
        "0630", "0631", "0731", "0732", "0831", "0832", "0930", "0931", "1031", "1032", "1130", "1131", "1231", "1232", "0001", "1301",
        "0100"};
    static const char *const hours[] = {"000000Z", "235959Z", "240000Z", "236000Z", "235960Z", "235959", "235959z", "2359590Z", "2359Z"};
    enum { YEARS = sizeof years / sizeof *years, DAYS = sizeof days / sizeof *days, HOURS = sizeof hours / sizeof *hours };
    if (n >= YEARS * DAYS + HOURS)
        return NULL;
    char written[32];
    const char *year = n < YEARS * DAYS ? years[n / DAYS] : "2052";
    const char *day = n < YEARS * DAYS ? days[n % DAYS] : "0229";
    const char *hour = n < YEARS * DAYS ? "235959Z" : hours[n - YEARS * DAYS];
    snprintf(written, sizeof written, "%s%s%s", year, day, hour);
    return around(0x30, around(0x30, request_with(around(0xA4, written_limit(0xA0, strlen(year) == 2, written)))));
}

enum { TIMES = 12, TWO_TIMES = 3 * TIMES * TIMES };

/* A batch whose validity has each two of these times: by itself, with an element after them, and in a carried certReq. */
static Node *from_to(size_t n)
{
    static const char *const times[TIMES] = {"500101000000Z", "500101000001Z", "991231235959Z", "000101000000Z", "491231235958Z",
        "491231235959Z", "20500101000000Z", "20500101000001Z", "21000301000000Z", "99991231235959Z", "20491231235959Z", "19491231235959Z"};
    enum { UTC_LENGTH = 13 };
    const char *from = times[n % TIMES], *to = times[n / TIMES % TIMES];
    Node *validity = add(box(0xA4), written_limit(0xA0, strlen(from) == UTC_LENGTH, from));
    add(validity, written_limit(0xA1, strlen(to) == UTC_LENGTH, to));
    switch (n / (TIMES * TIMES)) {
    case 0: break;
    case 1: add(validity, leaf(0x05, NULL, 0)); break;
    default: {
        Node *item = add(box(0x30), leaf(0x06, "\x2B\x06\x01\x05\x05\x07\x05\x02\x02", 9));
        return around(0x30, add(least_message(), around(0x30, add(item, request_with(validity)))));
    }
    }
    return around(0x30, around(0x30, request_with(validity)));
}

enum { MEMBERS = 8, SETS = 3 * MEMBERS * MEMBERS };

static Node *member(size_t n)
{
    static const uint8_t zeros[128];
    switch (n) {
    case 0: return leaf(0x02, "\5", 1);
    case 1: return leaf(0x04, NULL, 0);
    case 2: return leaf(0x04, zeros, 1);
    case 3: return leaf(0x04, "\1", 1);
    case 4: return leaf(0x04, zeros, 127);
    case 5: return leaf(0x04, zeros, 128);
    case 6: return leaf(0x05, NULL, 0);
    default: return box(0x31);
    }
}

/* A batch with each pair of members in a SET: by itself, as the last member of a SET that descends, and before a fault. */
static Node *in_a_set(size_t n)
{
    size_t one = n % MEMBERS, other = n / MEMBERS % MEMBERS;
    Node *set = add(add(box(0x31), member(one)), member(other));
    switch (n / (MEMBERS * MEMBERS)) {
    case 0: break;
    case 1: set = add(add(box(0x31), leaf(0x80, NULL, 0)), set); break;
    default: set = add(around(0x30, set), leaf(0x05, "\0", 1));
    }
    return around(0x30, message_around(set));
}

/* Inputs at the lines that the papers draw; NULL if there are no more. */
static Node *at_a_line(size_t n)
{
    enum { DEPTHS = 30, ID_SIZES = 12 };
    static const size_t many[] = {1, 2, 254, 255, 256, 257, 511, 512, 513, 5957};
    static const size_t sizes[] = {127 + 2, 128 + 3, 255 + 3, 256 + 4, PHAGUNDRO_LONGEST - 1, PHAGUNDRO_LONGEST, PHAGUNDRO_LONGEST + 1,
        PHAGUNDRO_LONGEST + 2};
    if (n < sizeof many / sizeof *many) {
        Node *node = box(0x30);
        for (size_t left = many[n]; left > 0; left--)
            add(node, least_message());
        return node;
    }
    n -= sizeof many / sizeof *many;
    if (n < sizeof sizes / sizeof *sizes)
        return fill(box(0x30), sizes[n]);
    n -= sizeof sizes / sizeof *sizes;
    if (n < DEPTHS) /* the value at depth 5 */
        return around(0x30, message_around(chain(n + 1)));
    n -= DEPTHS;
    if (n < ID_SIZES)
        return request(integer_of(0x02, n + 1));
    n -= ID_SIZES;
    if (n < SETS)
        return in_a_set(n);
    n -= SETS;
    return n < TWO_TIMES ? from_to(n) : on_a_day(n - TWO_TIMES);
}

/* A file, rarely a long one; NULL if there is none. */
static const File *some_file(void)
{
    const File *file = files_read ? &read_files[below(files_read)] : NULL;
    return file && (file->length <= LONG_FILE || chance(30)) ? file : NULL;
}

static Node *random_tree(void)
{
    if (chance(400)) { /* many messages */
        static const size_t many[] = {255, 256, 257, 300, 1000};
        Node *node = box(0x30);
        for (size_t left = many[below(5)]; left > 0; left--)
            add(node, chance(20) ? message() : least_message());
        return node;
    }
    if (chance(400)) { /* long */
        Node *node = batch(1 + below(200));
        return chance(4) ? node : fill(node, PHAGUNDRO_LONGEST - 5 + below(10));
    }
    if (chance(40)) { /* deep */
        Node *node = batch(1 + below(2));
        add(node, message_around(chain(14 + below(5))));
        return chance(2) ? node : add(node, message());
    }
    if (files_read > 0 && chance(6)) {
        const File *file = some_file();
        Node *whole = box(0x30);
        if (file && parse(whole, file->bytes, file->length) && whole->first)
            return whole->first;
    }
    return batch(chance(2) ? 1 : 1 + below(4));
}

/* Bytes that mean nothing. */
static size_t noise(uint8_t *input)
{
    size_t length = 0;
    for (size_t left = below(24); left > 0; left--)
        input[length++] = chance(3) ? (uint8_t)below(256) : chance(2) ? (uint8_t)below(12) : any_identifier();
    return length;
}

static size_t damaged(uint8_t *input, size_t length)
{
    for (size_t left = 1 + chance(4); left > 0; left--)
        length = damage_bytes(input, length);
    return length;
}

/* A batch that is built, and perhaps damaged as a tree and as bytes. */
static size_t built(uint8_t *input)
{
    static const uint8_t forms[] = {NO_FORMS, NO_FORMS, FORMS_OF_1, FORMS_OF_1, FORMS_OF_2, FORMS_OF_2, FORMS_OF_2,
        FORMS_OF_1 | FORMS_OF_2};
    unsigned allowed = forms[below(sizeof forms)];
    size_t slips = chance(2) ? 0 : 10 << below(6);
    building_start(allowed, slips, chance(25));
    Node *root = random_tree();
    for (size_t left = chance(3) ? 1 + below(2) : 0; left > 0; left--)
        damage_tree(root);
    if (chance(12))
        disorder_tree(root);
    if (chance(12))
        turn_back(root);
    if (chance(100))
        root->id = any_identifier();
    size_t length = encode(root, input, INPUT_ROOM);
    return chance(8) ? damaged(input, length) : length;
}

static size_t copied(uint8_t *input, const File *file)
{
    memcpy(input, file->bytes, file->length);
    return file->length;
}

size_t inputs_next(uint8_t *input)
{
    size_t number = made++;
    const File *file;
    trees_forget();
    building_start(NO_FORMS, 0, false);
    if (number < files_read)
        return copied(input, &read_files[number]);
    if (number == files_read)
        return 0;
    Node *line = at_a_line(number - files_read - 1);
    if (line)
        return encode(line, input, INPUT_ROOM);
    switch (below(20)) {
    case 0:
        return noise(input);
    case 1:
        file = some_file();
        return file ? damaged(input, copied(input, file)) : built(input);
    default:
        return built(input);
    }
}
