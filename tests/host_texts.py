"""Short texts as the regToken of a batch, which the archive accepts exactly if they are UTF-8. They are long enough for a step over eight
octets (document 02, A2) to begin and to end at every place."""

import host_reading
from paper import Answer

LONGEST_TEXT = 40
BAD_OCTETS = bytes.fromhex("80 BF C0 C1 C3 E2 F0 F5 FF")  # none is a character by itself
CHARACTERS = "\u007f", "\u00e9", "\u20ac", "\U00010000"  # of one to four octets
CERT_REQ_ID_AND_TEMPLATE = bytes.fromhex("02 01 00 30 00")
REG_TOKEN = bytes.fromhex("06 09 2B 06 01 05 05 07 05 01 01")
ROWS = 7  # batch, message, certReq, certReqId, template, controls and regToken
PLACE = 26  # of the UTF8String, after five headers of two octets, certReqId and template, and the type


def element(identifier, content):
    return bytes([identifier, len(content)]) + content


def batch(text):
    """A batch of one message whose one control is this regToken."""
    control = element(0x30, REG_TOKEN + element(0x0C, text))
    return element(0x30, element(0x30, element(0x30, CERT_REQ_ID_AND_TEMPLATE + element(0x30, control))))


def texts():
    """ASCII of every length, with every bad octet and every character of one to four octets at every place, and cut off there."""
    for length in range(LONGEST_TEXT + 1):
        ascii_text = b"a" * length
        yield ascii_text
        for place in range(length):
            for octet in BAD_OCTETS:
                yield ascii_text[:place] + bytes([octet]) + ascii_text[place + 1 :]
            for character in CHARACTERS:
                yield (ascii_text[:place] + character.encode() + ascii_text)[:length]


def is_utf8(text):
    try:
        text.decode("utf-8", "strict")
    except UnicodeDecodeError:
        return False
    return True


def other_than_utf8():
    """Texts that the archive doesn't answer as it should."""
    wrong, seen = [], set()
    asked = list(texts())
    for text, answer in zip(asked, host_reading.archive_answers(map(batch, asked)), strict=True):
        expected = (Answer.ACCEPTED, 0, ROWS) if is_utf8(text) else (Answer.BAD_CONTENT, PLACE, 0)
        seen.add(expected)
        for edition, (number, place, rows) in answer.items():
            if (number, place, len(rows)) != expected:
                wrong.append(f"{text.hex()}, edition {edition}: {expected} expected, found {(number, place, len(rows))}")
    return wrong if len(seen) == 2 else wrong + ["not both answers were expected"]


TESTS = [("texts of every length to 40, with one octet or character at every place, are accepted exactly if they are UTF-8", other_than_utf8)]
