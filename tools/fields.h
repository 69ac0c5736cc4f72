/* What a field says, as text. */
#ifndef FIELDS_H
#define FIELDS_H

#include "text.h"

/* The moment that a field of a kind shows; PHAGUNDRO_NO_MOMENT, if it is no notBefore or notAfter. */
int64_t field_moment(size_t kind, span whole);

/* The names, numbers, times, types and texts in the element of a field of a kind, in their order, with "; " between them; nothing, if it
 * has none. A name is C=.., CN=.. and so on, with " + " between attributes of one RDN; a type has dots; a text has quotes around it. Bit
 * strings, octet strings and what else can't be read are left out, and so is the type of an item, if the kind tells it. A notBefore or
 * notAfter is shown as a date, and a time elsewhere by its characters. */
text field_text(size_t kind, span whole);

#endif
