// What the benchmarks measure besides the library's own calls.
#ifndef SUBJECTS_H
#define SUBJECTS_H

#include <stdbool.h>
#include <stddef.h>
#include <stdint.h>

// The least walk: walks the nest of elements by identifiers and lengths alone, with no content rule, no grammar and no rows. Answers whether
// the bytes are elements that each end in time.
bool floor_walk(const uint8_t *bytes, size_t length);

// The strict walk: checks all that the nest of a batch has to keep, that is allowed identifiers, shortest lengths, the depth, every content
// rule and the order in SETs, but no grammar, and shows no rows. Answers whether the bytes are one element that keeps it, with nothing after.
bool strict_walk(const uint8_t *bytes, size_t length);

// The same function, compiled by the Makefile's CC, while the others are compiled by LLVM if clang is there.
bool strict_walk_by_cc(const uint8_t *bytes, size_t length);

// Whether the program was built with OpenSSL.
extern const bool openssl_there;

// Decodes the batch with OpenSSL and frees the result. Answers whether it could.
bool openssl_decode(const uint8_t *bytes, size_t length);

// Whether the text is UTF-8, by two checks in plain C: octet by octet, and with a step over eight octets below 80 wherever they stand.
bool utf8_by_octets(const uint8_t *text, size_t length);
bool utf8_by_eights(const uint8_t *text, size_t length);

#endif
