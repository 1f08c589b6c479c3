"""Writes the attributes of signers and signed data (RFC 5652, 5 and 11) from parts that are given, or says which of
them can't be written; and takes signed data apart into such parts. It is the second opinion on `der_build_attributes`
and `der_build_signed`, as der.h describes them. It asks the library nothing, and shares nothing with tests/support."""
import re
from typing import NamedTuple, Optional

from . import signed
from .building import is_element, is_identifier, is_read, written
from .signed import CONTENT_TYPE, DATA, MESSAGE_DIGEST, NOTHING, SIGNED_DATA, Elements, Refused
from .stores import Given, each_attribute, is_set, number, with_value

SIGNING_TIME = bytes.fromhex("2A864886F70D010905")
# The types that der_build_attributes writes of its own parts alone.
ITS_OWN = CONTENT_TYPE, MESSAGE_DIGEST, SIGNING_TIME
# The parts of attributes, and of signed data, by their names in der.h, in the order of their numbers, which begin with
# 1.
OF_ATTRIBUTES = "content_type", "message_digest", "signing_time", "attributes"
OF_SIGNED = (
    "content_type", "content", "certificate", "crl", "identifier", "digest_algorithm", "signed_attributes",
    "signature_algorithm", "signature", "unsigned_attributes",
)
ATTRIBUTES_PARTS, SIGNED_PARTS = (
    {name: number for number, name in enumerate(names, 1)} for names in (OF_ATTRIBUTES, OF_SIGNED)
)
# The same by the fields of a signer, two of which name it.
SIGNER_PARTS = {**SIGNED_PARTS, **dict.fromkeys(("certificate", "key_identifier"), SIGNED_PARTS["identifier"])}
# Tags of certificates (RFC 5652, 10.2.2): X.509, PKCS #6, attribute certificates of versions 1 and 2, and others; and
# of revocation lists (10.2.1): X.509, and others.
_, _, FIRST, SECOND, OTHER_CERTIFICATE = CHOICES = 0x30, 0xA0, 0xA1, 0xA2, 0xA3
_, OTHER_CRL = LISTS = 0x30, 0xA1
OCTET_STRING = 0x04
# Times without a fraction (X.690, 11.7 and 11.8), by their tags. UTCTime has no century.
UTC_TIME, GENERALIZED_TIME = 0x17, 0x18
TIMES = {tag: century + 6 * rb"(\d\d)" + b"Z" for tag, century in ((UTC_TIME, b"()"), (GENERALIZED_TIME, rb"(\d\d)"))}
DAYS = 31, 28, 31, 30, 31, 30, 31, 31, 30, 31, 30, 31


class Attributes(NamedTuple):
    """A der_attributes_given: ranges are places and lengths."""

    has_content_type: int = 0
    has_message_digest: int = 0
    has_signing_time: int = 0
    has_attributes: int = 0
    content_type: tuple = NOTHING
    message_digest: tuple = NOTHING
    signing_time: tuple = NOTHING
    attributes: tuple = NOTHING

    def numbers(self):
        """All its numbers, in the order of the struct."""
        return [*self[:4], *(number for its in self[4:] for number in its)]


class Content(NamedTuple):
    """A der_signed_given, alike."""

    has_content: int = 0
    is_element: int = 0
    content_type: tuple = NOTHING
    content: tuple = NOTHING

    def numbers(self):
        return [*self[:2], *self.content_type, *self.content]


class Signer(NamedTuple):
    """A der_signer_given, alike."""

    has_key_identifier: int = 0
    has_signed_attributes: int = 0
    has_unsigned_attributes: int = 0
    certificate: tuple = NOTHING
    key_identifier: tuple = NOTHING
    digest_algorithm: tuple = NOTHING
    signed_attributes: tuple = NOTHING
    signature_algorithm: tuple = NOTHING
    signature: tuple = NOTHING
    unsigned_attributes: tuple = NOTHING

    def numbers(self):
        return [*self[:3], *(number for its in self[3:] for number in its)]


class File(NamedTuple):
    """All that der_build_signed is given over an input: certificates and revocation lists are ranges."""

    content: Content
    certificates: tuple = ()
    crls: tuple = ()
    signers: tuple = ()

    @classmethod
    def of(cls, content, certificates, crls, signers):
        """A file of the fields of the content, of ranges, and of the fields of each signer."""
        return cls(Content(**content), tuple(certificates), tuple(crls), tuple(Signer(**it) for it in signers))

    def words(self):
        """What the call takes of it: the numbers of a struct, and of each array with how many items it has."""
        found = [self.content.numbers()]
        for ranges in (self.certificates, self.crls):
            found += [[number for its in ranges for number in its], len(ranges)]
        return [*found, [number for its in self.signers for number in its.numbers()], len(self.signers)]


# Attributes


def year_of(tag, octets):
    """The year of a time, by its tag and its contents octets. None where it is no time: there is no month of that
    number, or no such day, hour, minute or second."""
    found = re.fullmatch(TIMES[tag], octets)
    if not found:
        return None
    century, year, month, day, hour, minute, second = (int(it) if it else None for it in found.groups())
    # RFC 5280, 4.1.2.5.1
    year += 100 * (century if century is not None else 19 if year >= 50 else 20)
    is_leap = year % 4 == 0 and (year % 100 != 0 or year % 400 == 0)
    if not 1 <= month <= 12 or not 1 <= day <= DAYS[month - 1] + (is_leap and month == 2):
        return None
    return year if hour < 24 and minute < 60 and second < 60 else None


def is_time(octets):
    return year_of(GENERALIZED_TIME, octets) is not None


def time(octets):
    """A time of signing (RFC 5652, 11.3)."""
    year = year_of(GENERALIZED_TIME, octets)
    is_short = year is not None and 1950 <= year <= 2049
    return written(UTC_TIME, octets[2:]) if is_short else written(GENERALIZED_TIME, octets)


def attributes_text(octets, row):
    """What is written of a row over an input, or None; and the numbers of the parts that keep it from being written."""
    given, found = Given(octets, row, ATTRIBUTES_PARTS), []
    if given.has("content_type"):
        found.append(with_value(CONTENT_TYPE, written(0x06, given.part("content_type", is_identifier))))
    if given.has("message_digest"):
        found.append(with_value(MESSAGE_DIGEST, written(0x04, given.part("message_digest"))))
    if given.has("signing_time"):
        found.append(with_value(SIGNING_TIME, time(given.part("signing_time", is_time))))
    if given.has("attributes"):
        those = given.part("attributes", is_set)
        found += [text for oid, text in (each_attribute(those) if is_set(those) else []) if oid not in ITS_OWN]
    return None if given.wrong else written(0x31, *sorted(found)), given.wrong


# Signers


def is_algorithm(octets):
    return is_read(octets, signed.algorithm)


def names(octets):
    """The octets of the issuer and of the serial number of a certificate. None of what is no certificate."""
    if not is_element(octets):
        return None
    its = signed.names_of(octets, Elements(octets, 0, len(octets)).any())
    return its[0][1:] if its else None


def is_filled(octets):
    """Whether octets are a SET OF Attribute with some."""
    return is_set(octets) and octets[1] != 0


def are_allowed(octets, content_type):
    """Whether RFC 5652, 11.1 to 11.3 allows signed attributes with content of a type."""
    with Elements(octets, 0, len(octets)).within(0x31) as (_, its):
        found = its.each(signed.attribute)
    times = [values for oid, values in found if oid == SIGNING_TIME]
    try:
        signed.digest_of(octets, found, content_type)
    except signed.BadAttributes:
        return False
    return not times or len(times) == 1 and len(times[0]) == 1 and is_signing_time(octets, times[0][0])


def is_signing_time(octets, element):
    return element.tag in TIMES and year_of(element.tag, octets[element.start : element.end]) is not None


def signed_attributes(given, content_type):
    """The signed attributes of a signer under [0], or none. The type of the content is None where it isn't one, with
    which they aren't compared."""
    def are_right(octets):
        return is_filled(octets) and (content_type is None or are_allowed(octets, content_type))

    if given.has("signed_attributes"):
        return b"\xA0" + given.part("signed_attributes", are_right)[1:]
    if content_type not in (None, DATA):
        given.tell("signed_attributes")
    return b""


def signer_text(octets, row, content_type):
    """The version of a signer (RFC 5652, 5.3), its digest algorithm, its encoding, and the numbers of the parts that
    can't be written."""
    given = Given(octets, row, SIGNER_PARTS)
    if given.has("key_identifier"):
        version, named = 3, written(0x80, given.part("key_identifier"))
    else:
        issuer, serial = names(given.part("certificate", names)) or (b"", b"")
        version, named = 1, written(0x30, issuer, written(0x02, serial))
    digest_algorithm = given.part("digest_algorithm", is_algorithm)
    parts = [number(version), named, digest_algorithm, signed_attributes(given, content_type)]
    parts += [given.part("signature_algorithm", is_algorithm), written(0x04, given.part("signature"))]
    if given.has("unsigned_attributes"):
        parts.append(b"\xA1" + given.part("unsigned_attributes", is_filled)[1:])
    return version, digest_algorithm, written(0x30, *parts), given.wrong


# Signed data


def tagged(octets, ranges, tags, part):
    """The elements of ranges, and the indices of those that aren't one element with one of the tags, with the number of
    their part."""
    found, wrong = [], []
    for index, (start, size) in enumerate(ranges):
        its = octets[start : start + size]
        found.append(its)
        if start + size > len(octets) or not is_element(its) or its[0] not in tags:
            wrong.append((index, SIGNED_PARTS[part]))
    return found, wrong


def version_of(is_other, certificates, crls, versions):
    """The version of signed data (RFC 5652, 5.1), by the tags of certificates and of revocation lists, and the versions
    of the signers; and whether its content is of CMS and of another type than id-data."""
    if OTHER_CERTIFICATE in certificates or OTHER_CRL in crls:
        return 5
    if SECOND in certificates:
        return 4
    return 3 if FIRST in certificates or 3 in versions or is_other else 1


def content_of(given):
    """The content under [0], if it is there, and whether it is as RFC 5652, 5.2 has it, and not RFC 2315, 7."""
    if not given.has("content"):
        return [], True
    if not given.row.is_element:
        return [written(0xA0, written(OCTET_STRING, given.part("content")))], True
    element = given.part("content", is_element)
    return [written(0xA0, element)], element[:1] == bytes([OCTET_STRING])


def set_of(tag, elements):
    """A set in the order of X.690, 11.6: the octets of its elements ascend."""
    return written(tag, *sorted(elements))


def some_of(tag, elements):
    """The same, or nothing where there are none."""
    return set_of(tag, elements) if elements else b""


def signed_text(octets, file):
    """What is written of a file over an input, or None; and what keeps it from being written: of each part that can't
    be written its index, and its number. Where the type of the content isn't one, nothing is compared with it."""
    given = Given(octets, file.content, SIGNED_PARTS)
    oid = given.part("content_type", is_identifier)
    is_known = not given.wrong
    content, is_of_cms = content_of(given)
    if not file.signers and (content or is_known and oid != DATA):
        given.tell("content")
    certificates, no_certificates = tagged(octets, file.certificates, CHOICES, "certificate")
    crls, no_crls = tagged(octets, file.crls, LISTS, "crl")
    signers = [signer_text(octets, row, oid if is_known else None) for row in file.signers]
    wrong = [*((0, part) for part in dict.fromkeys(given.wrong)), *no_certificates, *no_crls]
    wrong += [(index, part) for index, its in enumerate(signers) for part in its[3]]
    if wrong:
        return None, wrong
    tags = ([it[0] for it in its] for its in (certificates, crls))
    version = version_of(is_of_cms and oid != DATA, *tags, [its[0] for its in signers])
    data = written(
        0x30, number(version), set_of(0x31, {its[1] for its in signers}), written(0x30, written(0x06, oid), *content),
        some_of(0xA0, certificates), some_of(0xA1, crls), set_of(0x31, [its[2] for its in signers]),
    )
    return written(0x30, written(0x06, SIGNED_DATA), written(0xA0, data)), []


# Reading


class TakenSigner(NamedTuple):
    """The parts of a signer in signed data, each as octets, and None where it isn't there. What names it is the element
    of IssuerAndSerialNumber or a key identifier, and the sets of attributes have the tag 31."""

    version: int
    issuer_and_serial_number: Optional[bytes]
    key_identifier: Optional[bytes]
    digest_algorithm: bytes
    signed_attributes: Optional[bytes]
    signature_algorithm: bytes
    signature: bytes
    unsigned_attributes: Optional[bytes]


class Taken(NamedTuple):
    """The parts of signed data, in the order in which it has them. The content is an element, and None where it isn't
    there. So are certificates and revocation lists where there is no set of them."""

    version: int
    digest_algorithms: list
    content_type: bytes
    content: Optional[bytes]
    certificates: Optional[list]
    crls: Optional[list]
    signers: list


def version(fields):
    octets = signed.integer(fields, lambda its: len(its) == 1 and its[0] <= signed.LAST_VERSION)
    return octets[0]


def whole(fields, element):
    return fields.octets[element.at : element.end]


def any_whole(fields):
    return whole(fields, fields.any())


def algorithm(fields):
    return whole(fields, signed.algorithm(fields))


def attributes(fields, tag):
    """A set of attributes, which aren't none, or None."""
    at = fields.at
    element, those = signed.set_of(fields, tag, signed.attribute)
    if element and not those:
        raise Refused("missing", at)
    return b"\x31" + whole(fields, element)[1:] if element else None


def issuer_and_serial_number(fields):
    with fields.within() as (element, its):
        signed.name(its)
        signed.integer(its)
    return whole(fields, element)


def signer(fields):
    with fields.within() as (_, its):
        its_version, is_by_key = version(its), its.is_next(0x80)
        key = its.octets_of(its.any()) if is_by_key else None
        issuer = None if is_by_key else issuer_and_serial_number(its)
        digest_algorithm, its_signed = algorithm(its), attributes(its, 0xA0)
        signature_algorithm, signature = algorithm(its), its.octets_of(its.one(0x04))
        its_unsigned = attributes(its, 0xA1)
    return TakenSigner(
        its_version, issuer, key, digest_algorithm, its_signed, signature_algorithm, signature, its_unsigned
    )


def each_in(fields, tag, taken):
    """What is taken of each in a set, or None where there is no set."""
    element, found = signed.set_of(fields, tag, taken)
    return found if element else None


def encapsulated(fields):
    """The type of the content, and the content."""
    with fields.within() as (_, its):
        oid, content = signed.identifier(its), None
        if its.is_next(0xA0):
            with its.within(0xA0) as (_, held):
                content = any_whole(held)
    return oid, content


def taken_apart(octets):
    """The parts of signed data. Raises Refused."""
    fields = Elements(octets, 0, len(octets))
    with fields.within() as (_, info):
        at = info.at
        if signed.identifier(info) != SIGNED_DATA:
            raise Refused("invalid", at)
        with info.within(0xA0) as (_, explicit), explicit.within() as (_, data):
            its_version, algorithms = version(data), each_in(data, 0x31, algorithm)
            oid, content = encapsulated(data)
            certificates, crls = each_in(data, 0xA0, any_whole), each_in(data, 0xA1, any_whole)
            with data.within(0x31) as (_, its):
                signers = its.each(signer)
    if fields.at < fields.end:
        raise Refused("malformed", fields.at)
    return Taken(its_version, algorithms, oid, content, certificates, crls, signers)
