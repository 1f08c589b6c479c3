"""Writes recipients and enveloped data (RFC 5652, 6) from parts that are given, or says which of them can't be written;
and takes both apart into such parts. It is the second opinion on `der_build_recipient` and `der_build_enveloped`, as
der.h describes them. It asks the library nothing, and shares nothing with tests/support."""
from typing import NamedTuple, Optional

from . import signed
from .building import is_element, is_identifier, written
from .signed import NOTHING, Elements, Refused
from .signed_files import algorithm, any_whole, is_algorithm, is_filled, issuer_and_serial_number, names, version, whole
from .stores import Given, number

ENVELOPED_DATA = bytes.fromhex("2A864886F70D010703")
# The parts of a recipient, and of enveloped data, by their names in der.h, in the order of their numbers, which begin
# with 1.
OF_RECIPIENT = "identifier", "algorithm", "key"
OF_ENVELOPED = "content_type", "algorithm", "content", "recipient", "recipients", "attributes"
RECIPIENT_PARTS, ENVELOPED_PARTS = (
    {name: number for number, name in enumerate(those, 1)} for those in (OF_RECIPIENT, OF_ENVELOPED)
)
# The same by the fields of a recipient, two of which name it.
FIELD_PARTS = {**RECIPIENT_PARTS, **dict.fromkeys(("certificate", "key_identifier"), RECIPIENT_PARTS["identifier"])}
# Tags of recipients (RFC 5652, 6.2): with a key pair, by key agreement, with a key-encryption key, with a password, and
# others.
KEY_PAIR, _, KEK, PASSWORD, OTHER = TAGS = 0x30, 0xA1, 0xA2, 0xA3, 0xA4
# Versions of recipients (6.2.1 and 6.2.3): with a key pair, which issuer and serial number name, or a key identifier;
# and with a key-encryption key.
BY_ISSUER, BY_KEY, OF_KEK = 0, 2, 4


class Recipient(NamedTuple):
    """A der_recipient_given: ranges are places and lengths."""

    is_kek: int = 0
    has_key_identifier: int = 0
    certificate: tuple = NOTHING
    key_identifier: tuple = NOTHING
    algorithm: tuple = NOTHING
    key: tuple = NOTHING

    def numbers(self):
        """All its numbers, in the order of the struct."""
        return [*self[:2], *(number for its in self[2:] for number in its)]


class Enveloped(NamedTuple):
    """A der_enveloped_given, alike."""

    has_content: int = 0
    has_attributes: int = 0
    content_type: tuple = NOTHING
    algorithm: tuple = NOTHING
    content: tuple = NOTHING
    attributes: tuple = NOTHING

    def numbers(self):
        return [*self[:2], *(number for its in self[2:] for number in its)]


class File(NamedTuple):
    """All that der_build_enveloped is given over an input: recipients are ranges."""

    given: Enveloped
    recipients: tuple = ()

    @classmethod
    def of(cls, given, recipients):
        """A file of the fields of what is given, and of ranges."""
        return cls(Enveloped(**given), tuple(recipients))

    def words(self):
        """What the call takes of it: the numbers of a struct, and those of the ranges with how many there are."""
        return [self.given.numbers(), [number for its in self.recipients for number in its], len(self.recipients)]


# Recipients


def named(given):
    """The version of a recipient, and what names it."""
    if given.row.is_kek:
        return OF_KEK, written(0x30, written(0x04, given.part("key_identifier")))
    if given.has("key_identifier"):
        return BY_KEY, written(0x80, given.part("key_identifier"))
    issuer, serial = names(given.part("certificate", names)) or (b"", b"")
    return BY_ISSUER, written(0x30, issuer, written(0x02, serial))


def recipient_text(octets, row):
    """What is written of a row over an input, or None; and the numbers of the parts that keep it from being written."""
    given = Given(octets, row, FIELD_PARTS)
    version, name = named(given)
    parts = number(version), name, given.part("algorithm", is_algorithm), written(0x04, given.part("key"))
    return None if given.wrong else written(KEK if row.is_kek else KEY_PAIR, *parts), given.wrong


def version_of_key_pair(octets):
    """The version at the beginning of a recipient with a key pair. None where there is none."""
    with_tag = Elements(octets, 0, len(octets)).any()
    its = Elements(octets, with_tag.start, with_tag.end)
    try:
        return signed.integer(its, lambda found: len(found) == 1)[0]
    except Refused:
        return None


def is_recipient(octets):
    """Whether octets are one element with the tag of a recipient; one with a key pair has to begin with a version."""
    if not is_element(octets) or octets[0] not in TAGS:
        return False
    return octets[0] != KEY_PAIR or version_of_key_pair(octets) in (BY_ISSUER, BY_KEY)


# Enveloped data


def each_recipient(octets, ranges):
    """The recipients of ranges, and the indices of those that aren't written, with the number of their part."""
    found, wrong = [], []
    for index, (start, size) in enumerate(ranges):
        its = octets[start : start + size]
        found.append(its)
        if start + size > len(octets) or not is_recipient(its):
            wrong.append((index, ENVELOPED_PARTS["recipient"]))
    return found, wrong


def version_of(recipients, has_attributes):
    """The version of enveloped data without originatorInfo (RFC 5652, 6.1)."""
    if any(it[0] in (PASSWORD, OTHER) for it in recipients):
        return 3
    are_of_version_0 = all(it[0] == KEY_PAIR and version_of_key_pair(it) == BY_ISSUER for it in recipients)
    return 0 if are_of_version_0 and not has_attributes else 2


def enveloped_text(octets, file):
    """What is written of a file over an input, or None; and what keeps it from being written: of each part that can't
    be written its index, which is 0 but of a recipient, and its number. Recipients are in the order of X.690, 11.6:
    their octets ascend."""
    given = Given(octets, file.given, ENVELOPED_PARTS)
    info = [written(0x06, given.part("content_type", is_identifier)), given.part("algorithm", is_algorithm)]
    if given.has("content"):
        info.append(written(0x80, given.part("content")))
    its = [b"\xA1" + given.part("attributes", is_filled)[1:]] if given.has("attributes") else []
    recipients, no_recipients = each_recipient(octets, file.recipients)
    if not recipients:
        given.tell("recipients")
    wrong = [*((0, part) for part in given.wrong), *no_recipients]
    if wrong:
        return None, wrong
    version = version_of(recipients, bool(its))
    data = written(0x30, number(version), written(0x31, *sorted(recipients)), written(0x30, *info), *its)
    return written(0x30, written(0x06, ENVELOPED_DATA), written(0xA0, data)), []


# Reading


class TakenRecipient(NamedTuple):
    """The parts of a recipient with a key pair or with a key-encryption key, each as octets. What names it is the
    element of IssuerAndSerialNumber or a key identifier, and the other of the two is None."""

    tag: int
    version: int
    issuer_and_serial_number: Optional[bytes]
    key_identifier: Optional[bytes]
    algorithm: bytes
    key: bytes


class Taken(NamedTuple):
    """The parts of enveloped data, in the order in which they have them: originatorInfo and recipients as elements, the
    encrypted octets, and the set of unprotected attributes with the tag 31. What isn't there is None."""

    version: int
    originator: Optional[bytes]
    recipients: list
    content_type: bytes
    algorithm: bytes
    content: Optional[bytes]
    attributes: Optional[bytes]


def kek_identifier(fields):
    with fields.within() as (_, its):
        return its.octets_of(its.one(0x04))


def recipient_apart(octets):
    """The parts of a recipient with a key pair or with a key-encryption key. Raises Refused."""
    fields, issuer, key = Elements(octets, 0, len(octets)), None, None
    with fields.within(octets[0] if octets[:1] == bytes([KEK]) else KEY_PAIR) as (element, its):
        its_version = version(its)
        if element.tag == KEK:
            key = kek_identifier(its)
        elif its.is_next(0x80):
            key = its.octets_of(its.any())
        else:
            issuer = issuer_and_serial_number(its)
        its_algorithm, encrypted = algorithm(its), its.octets_of(its.one(0x04))
    if fields.at < fields.end:
        raise Refused("malformed", fields.at)
    return TakenRecipient(element.tag, its_version, issuer, key, its_algorithm, encrypted)


def encrypted_content(fields):
    """The type of the content, the algorithm, and the encrypted octets."""
    with fields.within() as (_, its):
        oid, its_algorithm = signed.identifier(its), algorithm(its)
        content = its.octets_of(its.one(0x80)) if its.at < its.end else None
    return oid, its_algorithm, content


def unprotected(fields):
    """The set of unprotected attributes, which may be empty, or None."""
    element, _ = signed.set_of(fields, 0xA1, signed.attribute)
    return b"\x31" + whole(fields, element)[1:] if element else None


def taken_apart(octets):
    """The parts of enveloped data. Raises Refused."""
    fields = Elements(octets, 0, len(octets))
    with fields.within() as (_, info):
        at = info.at
        if signed.identifier(info) != ENVELOPED_DATA:
            raise Refused("invalid", at)
        with info.within(0xA0) as (_, explicit), explicit.within() as (_, data):
            its_version, originator = version(data), any_whole(data) if data.is_next(0xA0) else None
            with data.within(0x31) as (_, its):
                recipients = its.each(any_whole)
            content = encrypted_content(data)
            attributes = unprotected(data)
    if fields.at < fields.end:
        raise Refused("malformed", fields.at)
    return Taken(its_version, originator, recipients, *content, attributes)
