/* Elements of a batch, built at random: each construct of the grammar, right or with slips. */
#ifndef BUILDING_H
#define BUILDING_H

#include "tree.h"

/* Which forms of one edition alone may be used. */
enum { NO_FORMS = 0, FORMS_OF_1 = 1, FORMS_OF_2 = 2 };

/* Says what is built from now on: the forms of one edition alone that may be used; one decision in `slips` goes wrong, or none if it is
 * 0; and whether certReqIds may be too long. */
void building_start(unsigned forms, size_t slips, bool long_ids);

/* Any element, also one that means something elsewhere. */
Node *any(int levels);

/* Elements around each other, `depth` of them. */
Node *chain(size_t depth);

/* An INTEGER of `size` content octets. */
Node *integer_of(uint8_t id, size_t size);

/* A notBefore or a notAfter. */
Node *limit(void);

/* The constructs of the grammar. */
Node *extensions(void);
Node *template(void);
Node *controls(void);
Node *cert_req(void);
Node *proof(void);
Node *reg_info(void);
Node *message(void);
Node *batch(size_t messages);

/* The least message. */
Node *least_message(void);

/* A message with an item of an unknown type, in regInfo, around this value. */
Node *message_around(Node *value);

/* Adds a message such that the batch is `target` bytes long, if there is one. */
Node *fill(Node *node, size_t target);

#endif
