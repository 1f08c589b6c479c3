#!/usr/bin/env python3
"""Finds in signed data (RFC 5652, 5.1) where all is that a verification of each signer needs, element by element: of
signers of each version, over content of any type, as der.h says it of `der_signer_rows`: the second opinion on that
call. It shares nothing with tests/support.

Usage: tests/oracle/signed.py FILE. Prints a line for each signer, with ranges as START+LENGTH, or why the file is
refused, and where."""
import contextlib
import sys
from typing import NamedTuple

DATA, SIGNED_DATA = bytes.fromhex("2A864886F70D010701"), bytes.fromhex("2A864886F70D010702")
CONTENT_TYPE, MESSAGE_DIGEST = bytes.fromhex("2A864886F70D010903"), bytes.fromhex("2A864886F70D010904")
SUBJECT_KEY_IDENTIFIER = bytes.fromhex("551D0E")
# The greatest of the versions of signed data and of signers (RFC 5652, 10.2.5).
LAST_VERSION = 5
NOTHING = (0, 0)


class Refused(Exception):
    """Why an input is refused, by the word of a status, and where."""


class BadAttributes(Exception):
    """Signed attributes that RFC 5652 forbids, or none where it asks for them (5.3, 11.1, 11.2)."""


class Element(NamedTuple):
    """An element: its tag, where it begins, and where its contents begin and end."""

    tag: int
    at: int
    start: int
    end: int

    def whole(self):
        return self.at, self.end - self.at

    def contents(self):
        return self.start, self.end - self.start


class Signer(NamedTuple):
    """A row of der_signer_rows: ranges are places and lengths."""

    status: int = 12
    over_attributes: int = 0
    has_content: int = 0
    has_certificate: int = 0
    covered: tuple = NOTHING
    digest: tuple = NOTHING
    content: tuple = NOTHING
    digest_algorithm: tuple = NOTHING
    signature_algorithm: tuple = NOTHING
    signature: tuple = NOTHING
    certificate: tuple = NOTHING

    def numbers(self):
        """All its numbers, in the order of the struct."""
        return [*self[:4], *(number for its in self[4:] for number in its)]


class Elements:
    """The elements of some octets from one place to another, taken one after another."""

    def __init__(self, octets, at, end):
        self.octets, self.at, self.end = octets, at, end

    def octets_of(self, element):
        return self.octets[element.start : element.end]

    def any(self):
        """The next element (X.690, 8.1.2.2 and 10.1): a tag of one octet, and a length in the fewest."""
        octets, at, end = self.octets, self.at, self.end
        if at == end:
            raise Refused("missing", end)
        if octets[at] % 32 == 31 or at + 1 == end:
            raise Refused("malformed", at)
        size, start = octets[at + 1], at + 2
        if size >= 128:
            count = size - 128
            size = int.from_bytes(octets[start : start + count], "big")
            fewest = 1 <= count <= 8 and size >= max(128, 1 << 8 * (count - 1))
            if not fewest or start + count > end:
                raise Refused("malformed", at)
            start += count
        if start + size > end:
            raise Refused("malformed", at)
        self.at = start + size
        return Element(octets[at], at, start, start + size)

    def one(self, tag):
        """The next element, which has to have the tag."""
        element = self.any()
        if element.tag != tag:
            raise Refused("invalid", element.at)
        return element

    def is_next(self, tag):
        return self.at < self.end and self.octets[self.at] == tag

    @contextlib.contextmanager
    def within(self, tag=0x30):
        """The next element, which has to have the tag, and the elements in it, all of which are to be taken."""
        element = self.one(tag)
        its = Elements(self.octets, element.start, element.end)
        yield element, its
        if its.at < its.end:
            raise Refused("malformed", its.at)

    def each(self, taken):
        """What `taken` makes of the elements, to the last."""
        found = []
        while self.at < self.end:
            found.append(taken(self))
        return found


def identifier(fields):
    """The contents octets of an object identifier (X.690, 8.19): each number in the fewest octets."""
    element = fields.one(0x06)
    octets = fields.octets_of(element)
    begins = [True, *(octet < 0x80 for octet in octets)]
    if not octets or octets[-1] >= 0x80 or any(new and it == 0x80 for new, it in zip(begins, octets)):
        raise Refused("invalid", element.at)
    return octets


def integer(fields, is_right=bool):
    """The contents octets of an INTEGER."""
    element = fields.one(0x02)
    octets = fields.octets_of(element)
    if not is_right(octets):
        raise Refused("invalid", element.at)
    return octets


def version(fields, last=LAST_VERSION):
    integer(fields, lambda octets: len(octets) == 1 and octets[0] <= last)


def algorithm(fields):
    with fields.within() as (element, its):
        identifier(its)
        if its.at < its.end:
            its.any()
    return element


def bits(fields):
    """The element of a BIT STRING (X.690, 8.6.2): its first octet counts unused bits."""
    element = fields.one(0x03)
    octets = fields.octets_of(element)
    if not octets or octets[0] > 7 or (len(octets) == 1 and octets[0]):
        raise Refused("invalid", element.at)
    return element


def name(fields):
    """The octets of a Name (RFC 5280, 4.1.2.4)."""
    def value(its):
        with its.within() as (_, pair):
            identifier(pair)
            pair.any()

    def relative(its):
        with its.within(0x31) as (_, values):
            values.each(value)

    with fields.within() as (element, its):
        its.each(relative)
    return fields.octets[element.at : element.end]


def attribute(fields):
    """The object identifier of an attribute, and its values."""
    with fields.within() as (_, its):
        oid = identifier(its)
        with its.within(0x31) as (_, values):
            return oid, values.each(Elements.any)


def set_of(fields, tag, taken):
    """The element of a set that may be absent, and what is taken of those in it."""
    if not fields.is_next(tag):
        return None, []
    with fields.within(tag) as (element, its):
        return element, its.each(taken)


def only_value(attributes, oid):
    values = [value for its, value in attributes if its == oid]
    if len(values) != 1 or len(values[0]) != 1:
        raise BadAttributes
    return values[0][0]


def digest_of(octets, attributes, content_type):
    """The element of messageDigest, of signed attributes that are as RFC 5652 asks."""
    named, digest = only_value(attributes, CONTENT_TYPE), only_value(attributes, MESSAGE_DIGEST)
    if named.tag != 0x06 or octets[named.start : named.end] != content_type or digest.tag != 0x04:
        raise BadAttributes
    return digest


def names_of(octets, element):
    """How a signer may name a certificate (RFC 5280, 4.1): by issuer and serial number, and by the key's identifier, if
    it has one. None of what is no certificate."""
    found = Elements(octets, element.at, element.end)
    try:
        with found.within() as (_, its):
            with its.within() as (_, tbs):
                if tbs.is_next(0xA0):
                    with tbs.within(0xA0) as (_, explicit):
                        version(explicit, 2)
                serial = integer(tbs)
                algorithm(tbs)
                issuer = name(tbs)
                tbs.any()
                name(tbs)
                tbs.any()
                rest = tbs.each(Elements.any)
            algorithm(its)
            bits(its)
    except Refused:
        return []
    keys = [key_of(octets, it) for it in rest if it.tag == 0xA3][:1]
    return [("issuer", issuer, serial), *(("key", octets[key.start : key.end]) for key in keys if key)]


def key_of(octets, element):
    """The element of the first subjectKeyIdentifier (RFC 5280, 4.2.1.2) of extensions under [3]."""
    def extension(its):
        with its.within() as (_, parts):
            oid = identifier(parts)
            if parts.is_next(0x01) and its.octets_of(parts.one(0x01)) not in (b"\0", b"\xFF"):
                raise Refused("invalid", parts.at)
            return oid, parts.one(0x04)

    try:
        with Elements(octets, element.at, element.end).within(0xA3) as (_, explicit):
            with explicit.within() as (_, its):
                found = [value for oid, value in its.each(extension) if oid == SUBJECT_KEY_IDENTIFIER]
        for value in found[:1]:
            inner = Elements(octets, *value[2:])
            key = inner.one(0x04)
            return key if inner.at == inner.end else None
    except Refused:
        pass
    return None


def signer_name(fields):
    if fields.is_next(0x80):
        return "key", fields.octets_of(fields.any())
    with fields.within() as (_, its):
        return "issuer", name(its), integer(its)


def signer(fields):
    """What a signer is named by, its signed attributes, and the parts that are where they are in each."""
    with fields.within() as (_, its):
        version(its)
        named, digest_algorithm = signer_name(its), algorithm(its)
        over, attributes = set_of(its, 0xA0, attribute)
        signature_algorithm, signature = algorithm(its), its.one(0x04)
        set_of(its, 0xA1, attribute)
    ranges = {
        "digest_algorithm": digest_algorithm.whole(),
        "signature_algorithm": signature_algorithm.whole(),
        "signature": signature.contents(),
    }
    return named, over, attributes, ranges


def signed_data(octets):
    """The content's type, its element or None, the certificates, and the signers."""
    fields = Elements(octets, 0, len(octets))
    with fields.within() as (element, whole):
        at = whole.at
        if identifier(whole) != SIGNED_DATA:
            raise Refused("invalid", at)
        with whole.within(0xA0) as (_, explicit), explicit.within() as (_, data):
            version(data)
            with data.within(0x31) as (_, its):
                its.each(algorithm)
            content = None
            with data.within() as (_, its):
                content_type = identifier(its)
                if its.is_next(0xA0):
                    with its.within(0xA0) as (_, held):
                        content = held.any()
            certificates = set_of(data, 0xA0, Elements.any)[1]
            set_of(data, 0xA1, Elements.any)
            with data.within(0x31) as (_, its):
                signers = its.each(signer)
    if element.end < len(octets):
        raise Refused("malformed", element.end)
    return content_type, content, certificates, signers


def row(octets, content_type, content, certificates, parts):
    named, over, attributes, ranges = parts
    if content:
        ranges |= {"has_content": 1, "content": content.contents(), "covered": content.contents()}
    if not over and content_type != DATA:
        return Signer()
    if over:
        try:
            digest = digest_of(octets, attributes, content_type)
        except BadAttributes:
            return Signer()
        ranges |= {"over_attributes": 1, "covered": over.whole(), "digest": digest.contents()}
    if named in certificates:
        ranges |= {"has_certificate": 1, "certificate": certificates[named].whole()}
    return Signer(status=0, **ranges)


def rows(octets):
    """A row for each signer. Raises Refused where the octets are no signed data."""
    content_type, content, certificates, signers = signed_data(octets)
    by_name = {}
    for element in certificates:
        for named in names_of(octets, element):
            by_name.setdefault(named, element)
    return [row(octets, content_type, content, by_name, parts) for parts in signers]


def main(path):
    with open(path, "rb") as file:
        octets = file.read()
    try:
        found = rows(octets)
    except Refused as refused:
        sys.exit("refused: {} at {}".format(*refused.args))
    for number, its in enumerate(found):
        ranges = (f"{part} {start}+{size}" for part, (start, size) in zip(its._fields[4:], its[4:]))
        print(f"signer {number}: " + ("bad attributes" if its.status else ", ".join(ranges)))


if __name__ == "__main__":
    main(*sys.argv[1:])
