/* The tables of meanings, in the words of phagundro.h. */
#include "meanings.h"

#include "../include/phagundro.h"

static const struct {
    const char *words;
    bool has_place;
} answers[] = {
    [PHAGUNDRO_ACCEPTED] = {"accepted", false},
    [PHAGUNDRO_TOO_LONG] = {"the input is longer than 65,535 bytes, or a join would be", false},
    [PHAGUNDRO_TRUNCATED] = {"an element is cut short or goes past its parent's end", true},
    [PHAGUNDRO_BAD_IDENTIFIER] = {"an identifier is not allowed", true},
    [PHAGUNDRO_BAD_LENGTH] = {"a length is indefinite or not the shortest", true},
    [PHAGUNDRO_BAD_CONTENT] = {"an element's content breaks DER, or a SET's members descend", true},
    [PHAGUNDRO_TOO_DEEP] = {"an element is deeper than 20, the batch being at depth 1", true},
    [PHAGUNDRO_TRAILING_BYTES] = {"there are bytes after the batch", true},
    [PHAGUNDRO_NOT_IN_GRAMMAR] = {"not in the grammar of either edition", true},
    [PHAGUNDRO_OTHER_EDITION] = {"not in this edition's grammar, but in the other's", true},
    [PHAGUNDRO_LONG_CERT_REQ_ID] = {"a certReqId of more than 8 content octets", true},
    [PHAGUNDRO_NO_ROOM] = {"the room is not enough for the rows, the batch or the entries", false},
    [PHAGUNDRO_NO_SUCH_BATCH] = {"a draft describes no batch that is accepted in this edition", false},
    [PHAGUNDRO_UNKNOWN_EDITION] = {"the edition is neither 1 nor 2", false},
    [PHAGUNDRO_NO_SUCH_MESSAGE] = {"the batch has no message at that position, or the comparison no entry of that number", false},
};

enum { D1 = 1, D2, D3, D4 };

/* By the kind of the row that the form is in. */
static const difference differences[] = {
    [PHAGUNDRO_KIND_AGREE_MAC] = {D1, PHAGUNDRO_RFC4211, "agreeMAC in a proof"},
    [PHAGUNDRO_KIND_ENCRYPTED_KEY] = {D1, PHAGUNDRO_RFC4211, "encryptedKey in a proof"},
    [PHAGUNDRO_KIND_OCTET_PAIRS] = {D2, PHAGUNDRO_RFC2511, "pairs as octets in regInfo"},
    [PHAGUNDRO_KIND_UTF8_PAIRS] = {D2, PHAGUNDRO_RFC4211, "pairs as UTF-8 in regInfo"},
    [PHAGUNDRO_KIND_PKI_PUBLICATION_INFO] = {D3, PHAGUNDRO_RFC2511, "location beside method 0 in pkiPublicationInfo"},
    [PHAGUNDRO_KIND_VERSION] = {D4, PHAGUNDRO_RFC2511, "version other than 2 in a template"},
    [PHAGUNDRO_KIND_SERIAL_NUMBER] = {D4, PHAGUNDRO_RFC2511, "serialNumber in a template"},
    [PHAGUNDRO_KIND_SIGNING_ALG] = {D4, PHAGUNDRO_RFC2511, "signingAlg in a template"},
    [PHAGUNDRO_KIND_ISSUER_UID] = {D4, PHAGUNDRO_RFC2511, "issuerUID in a template"},
    [PHAGUNDRO_KIND_SUBJECT_UID] = {D4, PHAGUNDRO_RFC2511, "subjectUID in a template"},
};

static const char *const verdicts[] = {
    [PHAGUNDRO_VERDICT_NO_PROOF] = "no proof",
    [PHAGUNDRO_VERDICT_RA_VERIFIED] = "raVerified",
    [PHAGUNDRO_VERDICT_SIGNED_CERT_REQ] = "signature over the certReq",
    [PHAGUNDRO_VERDICT_SIGNED_POPOSK_INPUT] = "signature over poposkInput",
    [PHAGUNDRO_VERDICT_OTHER_SIGNATURE] = "any other signature",
    [PHAGUNDRO_VERDICT_KEY_ENCIPHERMENT] = "keyEncipherment with another choice than 82",
    [PHAGUNDRO_VERDICT_KEY_AGREEMENT] = "keyAgreement with another choice than 82, or with it and both subject and publicKey",
    [PHAGUNDRO_VERDICT_MISPLACED_DH_MAC] = "choice 82 under keyEncipherment, or without both subject and publicKey",
};

static const char *const changes[] = {
    [PHAGUNDRO_ONLY_FIRST] = "only in the first",
    [PHAGUNDRO_ONLY_SECOND] = "only in the second",
    [PHAGUNDRO_LEAVES_DIFFER] = "differs",
};

static const char *const kinds[] = {
    [PHAGUNDRO_KIND_BATCH] = "batch",
    [PHAGUNDRO_KIND_MESSAGE] = "message",
    [PHAGUNDRO_KIND_CERT_REQ] = "certReq",
    [PHAGUNDRO_KIND_CERT_REQ_ID] = "certReqId",
    [PHAGUNDRO_KIND_CERT_TEMPLATE] = "template",
    [PHAGUNDRO_KIND_VERSION] = "version",
    [PHAGUNDRO_KIND_SERIAL_NUMBER] = "serialNumber",
    [PHAGUNDRO_KIND_SIGNING_ALG] = "signingAlg",
    [PHAGUNDRO_KIND_ISSUER] = "issuer",
    [PHAGUNDRO_KIND_VALIDITY] = "validity",
    [PHAGUNDRO_KIND_SUBJECT] = "subject",
    [PHAGUNDRO_KIND_PUBLIC_KEY] = "publicKey",
    [PHAGUNDRO_KIND_ISSUER_UID] = "issuerUID",
    [PHAGUNDRO_KIND_SUBJECT_UID] = "subjectUID",
    [PHAGUNDRO_KIND_EXTENSIONS] = "extensions",
    [PHAGUNDRO_KIND_NOT_BEFORE] = "notBefore",
    [PHAGUNDRO_KIND_NOT_AFTER] = "notAfter",
    [PHAGUNDRO_KIND_EXTENSION] = "extension",
    [PHAGUNDRO_KIND_CONTROLS] = "controls",
    [PHAGUNDRO_KIND_UNKNOWN_CONTROL] = "control of an unknown type",
    [PHAGUNDRO_KIND_REG_TOKEN] = "regToken",
    [PHAGUNDRO_KIND_AUTHENTICATOR] = "authenticator",
    [PHAGUNDRO_KIND_PKI_PUBLICATION_INFO] = "pkiPublicationInfo",
    [PHAGUNDRO_KIND_PKI_ARCHIVE_OPTIONS] = "pkiArchiveOptions",
    [PHAGUNDRO_KIND_OLD_CERT_ID] = "oldCertID",
    [PHAGUNDRO_KIND_PROTOCOL_ENCR_KEY] = "protocolEncrKey",
    [PHAGUNDRO_KIND_RA_VERIFIED] = "raVerified",
    [PHAGUNDRO_KIND_SIGNATURE] = "signature",
    [PHAGUNDRO_KIND_KEY_ENCIPHERMENT] = "keyEncipherment",
    [PHAGUNDRO_KIND_KEY_AGREEMENT] = "keyAgreement",
    [PHAGUNDRO_KIND_POPOSK_INPUT] = "poposkInput",
    [PHAGUNDRO_KIND_SIGNATURE_ALGORITHM] = "algorithm",
    [PHAGUNDRO_KIND_SIGNATURE_BITS] = "bits",
    [PHAGUNDRO_KIND_THIS_MESSAGE] = "thisMessage",
    [PHAGUNDRO_KIND_SUBSEQUENT_MESSAGE] = "subsequentMessage",
    [PHAGUNDRO_KIND_DH_MAC] = "dhMAC",
    [PHAGUNDRO_KIND_AGREE_MAC] = "agreeMAC",
    [PHAGUNDRO_KIND_ENCRYPTED_KEY] = "encryptedKey",
    [PHAGUNDRO_KIND_REG_INFO] = "regInfo",
    [PHAGUNDRO_KIND_UNKNOWN_REG_INFO] = "item of an unknown type",
    [PHAGUNDRO_KIND_OCTET_PAIRS] = "pairs as octets",
    [PHAGUNDRO_KIND_UTF8_PAIRS] = "pairs as UTF-8",
    [PHAGUNDRO_KIND_REG_INFO_CERT_REQ] = "item that carries a certReq",
};

#define LENGTH(table) (sizeof(table) / sizeof *(table))

const char *meaning_of(size_t number)
{
    return number < LENGTH(answers) ? answers[number].words : "unknown";
}

bool has_place(size_t number)
{
    return number < LENGTH(answers) && answers[number].has_place;
}

difference difference_in(size_t kind)
{
    return kind < LENGTH(differences) ? differences[kind] : (difference){0};
}

const char *verdict_of(size_t verdict)
{
    return verdict < LENGTH(verdicts) ? verdicts[verdict] : "unknown";
}

const char *change_of(size_t what)
{
    return what < LENGTH(changes) && changes[what] != NULL ? changes[what] : "unknown";
}

const char *kind_name(size_t kind)
{
    return kind < LENGTH(kinds) && kinds[kind] != NULL ? kinds[kind] : "unknown";
}

const char *edition_name(size_t edition)
{
    return edition == PHAGUNDRO_RFC2511 ? " (RFC 2511)" : edition == PHAGUNDRO_RFC4211 ? " (RFC 4211)" : "";
}
