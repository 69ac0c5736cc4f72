// A batch that the benchmarks make: names with three attributes in each RDN.
#ifndef NAMES_H
#define NAMES_H

#include "phagundro.h"

// Writes a batch of as many such messages as PHAGUNDRO_LONGEST bytes have room for, and answers its length. Each has an issuer and a subject
// of one RDN with three attributes, in the order that DER wants: the subject's differ in their second octet, the issuer's in their last.
size_t names_batch(uint8_t *batch);

#endif
