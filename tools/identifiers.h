/* The identifier octets of the universal types that can be shown (X.680 8.4). */
#ifndef IDENTIFIERS_H
#define IDENTIFIERS_H

enum {
    BOOLEAN           = 0x01,
    INTEGER           = 0x02,
    OBJECT_IDENTIFIER = 0x06,
    ENUMERATED        = 0x0A,
    UTF8_STRING       = 0x0C,
    NUMERIC_STRING    = 0x12,
    PRINTABLE_STRING  = 0x13,
    IA5_STRING        = 0x16,
    UTC_TIME          = 0x17,
    GENERALIZED_TIME  = 0x18,
    VISIBLE_STRING    = 0x1A,
    SEQUENCE          = 0x30,
    SET               = 0x31
};

#endif
