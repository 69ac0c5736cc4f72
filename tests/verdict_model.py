"""A model of document 01's section "Verdict and duplicates", written from that document alone, on the elements of the batch."""

import grammar_model
from paper import Answer, Verdict


def messages(octets):
    """The messages of an accepted batch, each as its certReq, its proof or None, and its template's identifiers."""
    found = []
    for message in grammar_model.Element(octets, 0, len(octets)).inside:
        request, *rest = message.inside
        proofs = [element for element in rest if element.identifier != 0x30]
        found.append((request, proofs[0] if proofs else None, [field.identifier for field in request.inside[1].inside]))
    return found


def judged(request, proof, fields):
    """The verdict on a message, and the element that is signed, or None."""
    both = {0xA5, 0xA6} <= set(fields)
    inside = [element.identifier for element in proof.inside] if proof else []
    match proof and proof.identifier:
        case None:
            return Verdict.NO_PROOF, None
        case 0x80:
            return Verdict.RA_VERIFIED, None
        case 0xA1 if inside[0] == 0xA0:
            return (Verdict.OTHER_SIGNATURE, None) if both else (Verdict.SIGNED_POPOSK_INPUT, proof.inside[0])
        case 0xA1:
            return (Verdict.SIGNED_CERT_REQ, request) if both else (Verdict.OTHER_SIGNATURE, None)
        case 0xA2:
            return Verdict.MISPLACED_DH_MAC if inside == [0x82] else Verdict.KEY_ENCIPHERMENT, None
        case 0xA3:
            return Verdict.MISPLACED_DH_MAC if inside == [0x82] and not both else Verdict.KEY_AGREEMENT, None


def verdict(edition, octets, position):
    """The verdict on the message at a position: (number, place, verdict, from, length)."""
    number, place, _ = grammar_model.read(edition, octets)
    if number:
        return number, place, 0, 0, 0
    there = messages(octets)
    if position >= len(there):
        return Answer.NO_SUCH_MESSAGE, 0, 0, 0, 0
    found, part = judged(*there[position])
    return Answer.ACCEPTED, 0, found, part.place if part else 0, part.whole if part else 0


def duplicates(edition, octets):
    """The search for two equal certReqIds: (number, place, found, earlier, later)."""
    number, place, _ = grammar_model.read(edition, octets)
    if number:
        return number, place, 0, 0, 0
    seen = {}
    for position, (request, _, _) in enumerate(messages(octets)):
        number = int.from_bytes(request.inside[0].content, "big", signed=True)
        if number in seen:
            return Answer.ACCEPTED, 0, 1, seen[number], position
        seen[number] = position
    return Answer.ACCEPTED, 0, 0, 0, 0
