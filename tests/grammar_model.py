"""A model of document 01's sections "The grammar" and "Rows" and of its order for reading, with document 02's A4, A11 and A12, written
from those documents alone.

`walk` is the walk of one edition, or of both editions' forms at once, over bytes whose nest is sound. `read` is the reading of a
whole batch in an edition.
"""

import moment_model
import nest_model
from paper import EDITIONS, LONGEST_ID, Answer, Difference, GrammarDetail, Kind, Row, Type

GENERAL_NAME = (0xA0, 0x81, 0x82, 0xA3, 0xA4, 0xA5, 0x86, 0x87, 0x88)
ANY = range(256)
PROOFS = {0xA1: Kind.SIGNATURE, 0xA2: Kind.KEY_ENCIPHERMENT, 0xA3: Kind.KEY_AGREEMENT}
CONTROL, INFO = bytes.fromhex("2B06010505070501"), bytes.fromhex("2B06010505070502")
TEMPLATE_FIELD, CONTROL_ITEM, CHOICE = 10, 40, 60  # what is added to a tag or to a type's last octet to give a kind
VERSION = 0x80
OMITTED = (0x81, 0xA2, 0x87, 0x88)  # serialNumber, signingAlg, issuerUID and subjectUID, which a requester of edition 2 omits

# Identifiers that a control's value may have; 30 alone for the kinds that aren't here
CONTROL_VALUES = {
    Kind.UNKNOWN_CONTROL: ANY,
    Kind.REG_TOKEN: [0x0C],
    Kind.AUTHENTICATOR: [0x0C],
    Kind.PKI_ARCHIVE_OPTIONS: [0xA0, 0x81, 0x82],
}


class Break(Exception):
    """The walk's stop: the element that is the place, and the detail."""

    def __init__(self, element, detail):
        super().__init__(element.place, detail)


class Element:
    """An element of a sound nest, with the elements inside it."""

    def __init__(self, octets, place, end):
        header, size, _ = nest_model.length(octets[place:end])
        self.place, self.whole, self.identifier = place, header + size, octets[place]
        self.content_place = place + header
        self.content = octets[place + header:place + header + size]
        self.inside = []
        inner = self.content_place
        while self.identifier & 0x20 and inner < place + self.whole:
            self.inside.append(Element(octets, inner, place + self.whole))
            inner += self.inside[-1].whole


class Parts:
    """The elements inside a container, taken from left to right; a part is chosen by identifier alone."""

    def __init__(self, container):
        self.container, self.left = container, list(container.inside)

    def next_is(self, identifiers):
        return bool(self.left) and self.left[0].identifier in identifiers

    def may(self, *identifiers):
        return self.left.pop(0) if self.next_is(identifiers) else None

    def must(self, *identifiers):
        if not self.left:
            raise Break(self.container, GrammarDetail.PART_MISSING)
        if not self.next_is(identifiers):
            raise Break(self.left[0], GrammarDetail.FITS_NO_PART)
        return self.left.pop(0)

    def end(self):
        if self.left:
            raise Break(self.left[0], GrammarDetail.FITS_NO_PART)


def hold(element, rule):
    """The element is the place where its value breaks its rule."""
    if not rule:
        raise Break(element, GrammarDetail.VALUE_BREAKS_RULE)


def typed(element, identifier):
    """An implicitly tagged element keeps the content rule of the type with that identifier."""
    hold(element, nest_model.content_rule(identifier, element.content))


def integer_to(element, most):
    typed(element, Type.INTEGER)
    hold(element, 0 <= int.from_bytes(element.content, "big", signed=True) <= most)


class Walk:
    """Walks a batch. `rows` and `differences` have what was met: the rows, and (place, edition, difference)."""

    def __init__(self, editions):
        self.editions, self.rows, self.differences, self.ids = editions, [], [], []

    def row(self, kind, element, parent):
        self.rows.append(Row(kind, element.place, element.whole, parent, element.content_place))
        return len(self.rows) - 1

    def alone(self, edition, difference, element, detail=GrammarDetail.FITS_NO_PART):
        """The element is in a form that one edition alone allows; in the other one the walk stops at it, with this detail."""
        if edition not in self.editions:
            raise Break(element, detail)
        self.differences.append((element.place, edition, difference))

    # "Batch 30: message+. Message 30: certReq, proof?, regInfo?."
    def batch(self, element):
        if element.identifier != 0x30:
            raise Break(element, GrammarDetail.FITS_NO_PART)
        row = self.row(Kind.BATCH, element, 0)
        parts = Parts(element)
        self.message(parts.must(0x30), row)
        while parts.next_is([0x30]):
            self.message(parts.must(0x30), row)
        parts.end()

    def message(self, element, parent):
        row = self.row(Kind.MESSAGE, element, parent)
        parts = Parts(element)
        self.cert_req(parts.must(0x30), row)
        proof = parts.may(0x80, 0xA1, 0xA2, 0xA3)
        if proof:
            self.proof(proof, row)
        info = parts.may(0x30)
        if info:
            self.items(info, row, Kind.REG_INFO, self.info)
        parts.end()

    # "certReq 30: certReqId 02, template 30, controls 30?."
    def cert_req(self, element, parent):
        row = self.row(Kind.CERT_REQ, element, parent)
        parts = Parts(element)
        number = parts.must(0x02)
        self.row(Kind.CERT_REQ_ID, number, row)
        self.ids.append(number)
        self.template(parts.must(0x30), row)
        controls = parts.may(0x30)
        if controls:
            self.items(controls, row, Kind.CONTROLS, self.control)
        parts.end()

    # "Template, each optional, in order"
    def template(self, element, parent):
        row = self.row(Kind.CERT_TEMPLATE, element, parent)
        parts = Parts(element)
        fields = [
            (VERSION, lambda field, own: typed(field, Type.INTEGER)),
            (0x81, lambda field, own: typed(field, Type.INTEGER)),
            (0xA2, lambda field, own: self.alg_id(field)),
            (0xA3, lambda field, own: self.wrapped_name(field)),
            (0xA4, self.validity),
            (0xA5, lambda field, own: self.wrapped_name(field)),
            (0xA6, lambda field, own: self.alg_id_and_bits(field)),
            (0x87, lambda field, own: typed(field, Type.BIT_STRING)),
            (0x88, lambda field, own: typed(field, Type.BIT_STRING)),
            (0xA9, self.extensions),
        ]
        for identifier, judge in fields:
            field = parts.may(identifier)
            if field:
                self.request_field(field)
                judge(field, self.row(Kind(TEMPLATE_FIELD + identifier % 16), field, row))
        parts.end()

    # "In edition 2 those four now fit no part, and any version but 2 breaks its rule. They join the list as D4, edition 1 only, with the
    # template field as its place"
    def request_field(self, element):
        if element.identifier in OMITTED:
            self.alone(1, Difference.TEMPLATE_FIELD, element)
        elif element.identifier == VERSION and element.content != b"\x02":
            self.alone(1, Difference.TEMPLATE_FIELD, element, GrammarDetail.VALUE_BREAKS_RULE)

    # "Validity: notBefore A0 (Time)?, notAfter A1 (Time)?, at least one." "notAfter isn't earlier than notBefore"
    def validity(self, element, own):
        parts, moments = Parts(element), []
        if not parts.left:
            raise Break(element, GrammarDetail.PART_MISSING)
        for kind, identifier in ((Kind.NOT_BEFORE, 0xA0), (Kind.NOT_AFTER, 0xA1)):
            wrapper = parts.may(identifier)
            if wrapper:
                self.row(kind, wrapper, own)
                inner = Parts(wrapper)
                time = inner.must(moment_model.UTC_TIME, moment_model.GENERALIZED_TIME)
                moments.append(moment_model.moment(time.identifier, time.content))
                hold(time, moments[-1] is not None)
                inner.end()
        parts.end()
        hold(element, moments == sorted(moments))  # judged after the inside

    # a wrapper around one element that is free inside
    def wrapped(self, element, *identifiers):
        parts = Parts(element)
        parts.must(*identifiers)
        parts.end()

    # "AlgId 30: 06, any?."
    def alg_id(self, element):
        parts = Parts(element)
        parts.must(0x06)
        parts.may(*ANY)
        parts.end()

    # "Spki 30: AlgId, 03." and "PkMac 30: AlgId, 03."
    def alg_id_and_bits(self, element):
        parts = Parts(element)
        self.alg_id(parts.must(0x30))
        parts.must(0x03)
        parts.end()

    # "Name 30: (31: (30: 06, any)+)*."
    def wrapped_name(self, element):
        parts = Parts(element)
        rdns = Parts(parts.must(0x30))
        while rdns.next_is([0x31]):
            rdn = Parts(rdns.must(0x31))
            self.attribute(rdn.must(0x30))
            while rdn.next_is([0x30]):
                self.attribute(rdn.must(0x30))
            rdn.end()
        rdns.end()
        parts.end()

    def attribute(self, element):
        parts = Parts(element)
        parts.must(0x06)
        parts.must(*ANY)
        parts.end()

    # "Extensions: Extension+." "Extension 30: 06, 01?, 04, and a BOOLEAN present must be FF."
    def extensions(self, element, own):
        parts = Parts(element)
        while True:
            extension = parts.must(0x30)
            self.row(Kind.EXTENSION, extension, own)
            inner = Parts(extension)
            inner.must(0x06)
            critical = inner.may(0x01)
            if critical:
                hold(critical, critical.content == b"\xff")
            inner.must(0x04)
            inner.end()
            if not parts.next_is([0x30]):
                return parts.end()

    # "Proof: raVerified 80 empty; signature A1: poposkInput A0?, AlgId, 03; keyEncipherment A2 or keyAgreement A3 around one choice"
    def proof(self, element, parent):
        if element.identifier == 0x80:
            self.row(Kind.RA_VERIFIED, element, parent)
            return hold(element, element.content == b"")
        row = self.row(PROOFS[element.identifier], element, parent)
        if element.identifier != 0xA1:
            return self.choice(element, row)
        parts = Parts(element)
        signed = parts.may(0xA0)
        if signed:
            self.row(Kind.POPOSK_INPUT, signed, row)
            self.poposk_input(signed)
        algorithm = parts.must(0x30)
        self.row(Kind.SIGNATURE_ALGORITHM, algorithm, row)
        self.alg_id(algorithm)
        self.row(Kind.SIGNATURE_BITS, parts.must(0x03), row)
        parts.end()

    # "poposkInput: sender A0 (GeneralName) or PkMac, then Spki."
    def poposk_input(self, element):
        parts = Parts(element)
        author = parts.must(0xA0, 0x30)
        if author.identifier == 0xA0:
            self.wrapped(author, *GENERAL_NAME)
        else:
            self.alg_id_and_bits(author)
        self.alg_id_and_bits(parts.must(0x30))
        parts.end()

    # "one choice: 80 BIT STRING; 81 INTEGER 0 or 1; 82 BIT STRING; A3 PkMac content; A4 any nest."
    # "(D1) choices A3 and A4 are edition 2 only; the place is the choice's."
    def choice(self, element, own):
        parts = Parts(element)
        chosen = parts.must(0x80, 0x81, 0x82, 0xA3, 0xA4)
        if chosen.identifier in (0xA3, 0xA4):
            self.alone(2, Difference.CHOICE, chosen)
        self.row(Kind(CHOICE + chosen.identifier % 16), chosen, own)
        if chosen.identifier == 0x81:
            integer_to(chosen, 1)
        elif chosen.identifier == 0xA3:
            self.alg_id_and_bits(chosen)
        elif chosen.identifier != 0xA4:
            typed(chosen, Type.BIT_STRING)
        parts.end()

    # "Controls and regInfo 30: item+. Item 30: type 06, any value."
    def items(self, element, parent, kind, judge):
        row = self.row(kind, element, parent)
        parts = Parts(element)
        while True:
            item = parts.must(0x30)
            inner = Parts(item)
            name = inner.must(0x06).content
            judge(item, name, inner, row)
            inner.end()
            if not parts.next_is([0x30]):
                return parts.end()

    # "Type octets 2B 06 01 05 05 07 05 01 n in controls, n of 1 to 6, fix the value"
    def control(self, item, name, inner, parent):
        known = name[:-1] == CONTROL and 1 <= name[-1] <= 6
        kind = Kind(CONTROL_ITEM + name[-1]) if known else Kind.UNKNOWN_CONTROL
        value = inner.must(*CONTROL_VALUES.get(kind, [0x30]))
        self.row(kind, item, parent)
        if kind == Kind.PKI_PUBLICATION_INFO:
            self.publication(value)
        elif kind == Kind.PKI_ARCHIVE_OPTIONS and value.identifier == 0xA0:  # "A0 around one 30 or A0"
            self.wrapped(value, 0x30, 0xA0)
        elif kind == Kind.PKI_ARCHIVE_OPTIONS and value.identifier == 0x82:
            typed(value, Type.BOOLEAN)
        elif kind == Kind.OLD_CERT_ID:  # "30: GeneralName, 02"
            parts = Parts(value)
            parts.must(*GENERAL_NAME)
            parts.must(0x02)
            parts.end()
        elif kind == Kind.PROTOCOL_ENCR_KEY:
            self.alg_id_and_bits(value)

    # "30: 02 (0 or 1), (30: (30: 02 (0 to 3), GeneralName?)+)?, the list only with 1."
    # "(D3) a location beside method 0 is edition 1 only; the place is the location's."
    def publication(self, element):
        parts = Parts(element)
        action = parts.must(0x02)
        integer_to(action, 1)
        infos = parts.may(0x30)
        if infos:
            inner = Parts(infos)
            while True:
                info = Parts(inner.must(0x30))
                method = info.must(0x02)
                integer_to(method, 3)
                location = info.may(*GENERAL_NAME)
                if location and method.content == b"\x00":
                    self.alone(1, Difference.LOCATION, location, GrammarDetail.LIST_OR_LOCATION)
                info.end()
                if not inner.next_is([0x30]):
                    break
            inner.end()
            if action.content == b"\x00":  # "judged after its inside"
                raise Break(infos, GrammarDetail.LIST_OR_LOCATION)
        parts.end()

    # "In regInfo 2B 06 01 05 05 07 05 02 n: 1: pairs; 2: a certReq."
    # "(D2) pairs are 04 in edition 1, 0C in edition 2; the place is the value's."
    def info(self, item, name, inner, parent):
        if name == INFO + b"\x01":
            value = inner.must(0x04, 0x0C)
            edition = 1 if value.identifier == 0x04 else 2
            self.alone(edition, Difference.PAIRS, value)
            self.row(Kind.OCTET_PAIRS if edition == 1 else Kind.UTF8_PAIRS, item, parent)
        elif name == INFO + b"\x02":
            value = inner.must(0x30)
            self.cert_req(value, self.row(Kind.REG_INFO_CERT_REQ, item, parent))
        else:
            inner.must(*ANY)
            self.row(Kind.UNKNOWN_REG_INFO, item, parent)


def walk(octets, editions):
    """The walk over the first element of octets whose nest is sound, with the forms of these editions alone readable.

    Answers the break, as (place, detail), or None if the batch is in the grammar; and the Walk, which has the rows and differences.
    """
    met = Walk(editions)
    try:
        met.batch(Element(octets, 0, len(octets)))
    except Break as stop:
        return stop.args, met
    return None, met


def read(edition, octets):
    """The reading of a batch: (number, place, rows); a refusal has no rows. NO_ROOM needs a table and isn't here."""
    if edition not in EDITIONS:
        return Answer.UNKNOWN_EDITION, 0, []
    number, place, *_ = nest_model.nest(octets)
    if number != Answer.ACCEPTED:
        return number, place, []
    if place < len(octets):
        return Answer.TRAILING_BYTES, place, []
    stop, own = walk(octets, {edition})
    if stop:
        wrong, other = walk(octets, {3 - edition})
        if wrong:
            return Answer.NOT_IN_GRAMMAR, stop[0], []
        return Answer.OTHER_EDITION, min(place for place, _, _ in other.differences), []
    for number in own.ids:
        if len(number.content) > LONGEST_ID:
            return Answer.LONG_CERT_REQ_ID, number.place, []
    return Answer.ACCEPTED, 0, own.rows
