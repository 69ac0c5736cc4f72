/* The kinds of rows that are containers, by document 01's section "Rows". */
#include "reference_kinds.h"

#include "paper.h"

uint8_t container_identifier(size_t kind)
{
    switch (kind) {
    case KIND_BATCH: case KIND_MESSAGE: case KIND_CERT_REQ: case KIND_CERT_TEMPLATE: return 0x30;
    case KIND_CONTROLS: case KIND_REG_INFO: case KIND_REG_INFO_CERT_REQ: return 0x30;
    case KIND_VALIDITY: return 0xA4;
    case KIND_EXTENSIONS: return 0xA9;
    case KIND_SIGNATURE: return 0xA1;
    case KIND_KEY_ENCIPHERMENT: return 0xA2;
    case KIND_KEY_AGREEMENT: return 0xA3;
    default: return 0;
    }
}
