/* The texts of --help. */
#include "help.h"

#define INPUT_HELP \
    "FILE is the batch in DER; without it, or if it is -, standard input is read.\n" \
    "  --hex          the batch is written in hex digits, with or without white space between them\n"

#define EDITION_HELP \
    "  --edition N    1 for RFC 2511, 2 for RFC 4211; needed, since it is never guessed\n"

#define POSITION_HELP \
    "  --position P   which message, counted from 0; this is never its certReqId\n"

#define OUTPUT_HELP \
    "  --output FILE  where the batch goes, in DER; without it, or if it is -, to standard output\n"

#define STATUS_HELP \
    "Exit status: 0 accepted, 1 refused, 2 usage or file trouble.\n"

#define BATCHES_HEX_HELP \
    "  --hex          the batches are written in hex digits, with or without white space between them\n"

#define FAULTS_HELP \
    "Of several faults in the elements, the one that is decided first is shown. A fault is decided at its element's first byte;\n" \
    "only the order of a SET's members is decided at the SET's last byte.\n"

const char general_help[] =
    "phagundro: batches of certificate requests (CertReqMessages in DER), read, written, judged, joined, cut and compared\n"
    "\n"
    "  phagundro read       --edition N [--hex] [--numbers | --json] [FILE]\n"
    "  phagundro write      --edition N [--hex] [--output FILE] ROWS SLICE\n"
    "  phagundro verdict    --edition N --position P [--part FILE] [--hex] [--json] [FILE]\n"
    "  phagundro duplicates --edition N [--hex] [--json] [FILE]\n"
    "  phagundro editions   [--hex] [--json] [FILE]\n"
    "  phagundro join       --edition N [--hex] [--output FILE] FILE FILE..\n"
    "  phagundro cut        --edition N --position P [--output FILE] [--hex] [FILE]\n"
    "  phagundro cut        --edition N --all --output-dir DIR [--hex] [FILE]\n"
    "  phagundro compare    --edition N [--hex] [--json] FIRST SECOND\n"
    "  phagundro COMMAND --help\n"
    "  phagundro --help\n"
    "  phagundro --version\n"
    "\n" STATUS_HELP
    "Of compare: 0 the same bytes, 1 different, 2 refused, or usage or file trouble.\n";

const char read_help[] =
    "phagundro read --edition N [--hex] [--numbers | --json] [FILE]\n"
    "\n"
    "Reads a batch in an edition and shows its fields as a tree: row, first byte, whole length, content's first byte and name, with a\n"
    "message's position, a certReqId's number and the date of a notBefore or notAfter.\n"
    INPUT_HELP EDITION_HELP
    "  --numbers      the rows as plain numbers, a row a line: kind, first byte, whole length, parent's row, content's first byte\n"
    "  --json         the answer and the rows as JSON; a notBefore or notAfter has its date as its text, and its moment, the number of\n"
    "                 seconds since 0000-01-01 00:00:00\n"
    STATUS_HELP FAULTS_HELP
    "In a validity a time through 2049 must be a UTCTime and a later one a GeneralizedTime, and notAfter must not be earlier than\n"
    "notBefore; else the batch is refused with number 8.\n";

const char write_help[] =
    "phagundro write --edition N [--hex] [--output FILE] ROWS SLICE\n"
    "\n"
    "Writes the batch that rows over a slice of bytes describe. ROWS has numbers as read --numbers shows them, five a row; SLICE has\n"
    "the bytes at which the leaves' rows point. One of the two may be -, standard input. Of a container's row the first byte, length\n"
    "and content's first byte are ignored. Of a leaf's row they must be right, with places counted from the start of SLICE.\n"
    "  --hex          SLICE is written in hex digits, with or without white space between them\n"
    EDITION_HELP OUTPUT_HELP STATUS_HELP
    "After a refusal nothing is written.\n";

const char verdict_help[] =
    "phagundro verdict --edition N --position P [--part FILE] [--hex] [--json] [FILE]\n"
    "\n"
    "Says what a message's proof of possession covers, and which bytes are signed. No signature is checked.\n"
    INPUT_HELP EDITION_HELP POSITION_HELP
    "  --part FILE    the signed part is written there; it is empty with any verdict but 2 and 3\n"
    "  --json         the answer as JSON\n"
    STATUS_HELP
    "After a refusal nothing is written.\n";

const char duplicates_help[] =
    "phagundro duplicates --edition N [--hex] [--json] [FILE]\n"
    "\n"
    "Says which two messages have the same certReqId, or that none have. Of several pairs it is the one with the least later\n"
    "position, and of these the one with the least earlier.\n"
    INPUT_HELP EDITION_HELP
    "  --json         the answer as JSON\n"
    STATUS_HELP
    "A batch is accepted, with status 0, whether a pair is found or not.\n";

const char editions_help[] =
    "phagundro editions [--hex] [--json] [FILE]\n"
    "\n"
    "Reads a batch in both editions and shows the two answers.\n"
    INPUT_HELP
    "  --json         the answers as JSON\n"
    "Exit status: 0 accepted in an edition or both, 1 refused in both, 2 usage or file trouble.\n"
    FAULTS_HELP
    "What is in the grammar of one edition alone is refused in the other with number 9, which names the first difference:\n"
    "  D1  agreeMAC or encryptedKey in a proof: edition 2 only\n"
    "  D2  pairs as octets in regInfo: edition 1 only; pairs as UTF-8 in regInfo: edition 2 only\n"
    "  D3  location beside method 0 in pkiPublicationInfo: edition 1 only\n"
    "  D4  serialNumber, signingAlg, issuerUID, subjectUID or a version other than 2 in a template: edition 1 only\n"
    "It is not named if the other edition refuses the batch with number 10.\n";

const char join_help[] =
    "phagundro join --edition N [--hex] [--output FILE] FILE FILE..\n"
    "\n"
    "Joins batches into one that has the messages of the first FILE, then those of the next, and so on. There may be any number of\n"
    "FILEs from two on. Each is a batch in DER, and one of them may be -, standard input.\n"
    BATCHES_HEX_HELP EDITION_HELP OUTPUT_HELP STATUS_HELP
    "After a refusal nothing is written. The FILEs are joined from the left, and the first refusal on the way is shown, with the FILE\n"
    "that it is about; or the join up to a FILE is refused with number 1, since it would be longer than 65,535 bytes.\n"
    "Messages with the same certReqId are joined too; duplicates finds them.\n";

const char cut_help[] =
    "phagundro cut --edition N --position P [--output FILE] [--hex] [FILE]\n"
    "phagundro cut --edition N --all --output-dir DIR [--hex] [FILE]\n"
    "\n"
    "Cuts one message out of a batch, or all of them. Each becomes a batch with no other message.\n"
    INPUT_HELP EDITION_HELP POSITION_HELP OUTPUT_HELP
    "  --all          every message, each to a file of its own\n"
    "  --output-dir DIR\n"
    "                 the folder for these files, which is made if it isn't there. They are message-0000.der for position 0,\n"
    "                 message-0001.der for position 1 and so on, always with four digits. A file that is there already is replaced,\n"
    "                 and other files of DIR are left alone.\n"
    STATUS_HELP
    "After a refusal nothing is written. Joining the files of --all in the order of their names gives the batch again.\n";

const char compare_help[] =
    "phagundro compare --edition N [--hex] [--json] FIRST SECOND\n"
    "\n"
    "Compares two batches and shows every field that only one of them has, and every field of both whose bytes differ. Each is a batch\n"
    "in DER, and one of them may be -, standard input. A message, a control, an item of regInfo and an extension is compared with the\n"
    "one at the same position. A field is a line with its path from the message down. For one that differs, a line for each file has\n"
    "its place and its text, and below it are the bytes around the first that differs, which is in brackets. A notBefore or notAfter is\n"
    "shown as a date; if it differs, its line says how much later or earlier it is in SECOND: 1 second later, 2 days 3 hours earlier.\n"
    BATCHES_HEX_HELP EDITION_HELP
    "  --json         the answer and the entries as JSON; \"seconds\" is SECOND's moment less FIRST's, and 0 for what is no time\n"
    "Exit status: 0 the same bytes, 1 different, 2 refused, or usage or file trouble.\n"
    "A refusal is shown with the file that it is about: FIRST, or SECOND if FIRST is accepted.\n";
