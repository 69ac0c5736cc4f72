// OpenSSL's own decoder of the same batches, if the program is built with it.
#include "subjects.h"

#ifdef WITH_OPENSSL
#include <openssl/crmf.h>

const bool openssl_there = true;

bool openssl_decode(const uint8_t *bytes, size_t length)
{
    OSSL_CRMF_MSGS *messages = d2i_OSSL_CRMF_MSGS(NULL, &bytes, (long)length);
    bool decoded = messages != NULL;
    OSSL_CRMF_MSGS_free(messages);
    return decoded;
}
#else
const bool openssl_there = false;

bool openssl_decode(const uint8_t *bytes, size_t length)
{
    (void)bytes;
    (void)length;
    return false;
}
#endif
