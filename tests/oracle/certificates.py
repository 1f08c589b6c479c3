"""Finds where an X.509 certificate has its parts (RFC 5280, 4.1), element by element: the second opinion on
`der_certificate`, as der.h describes it. It shares nothing with tests/support."""
from typing import NamedTuple

from . import signed
from .signed import NOTHING, Elements, Refused


class Certificate(NamedTuple):
    """What der_certificate writes: ranges are places and lengths."""

    has_key: int = 0
    has_key_parameters: int = 0
    has_extensions: int = 0
    has_key_identifier: int = 0
    serial_number: tuple = NOTHING
    issuer: tuple = NOTHING
    validity: tuple = NOTHING
    subject: tuple = NOTHING
    subject_public_key_info: tuple = NOTHING
    key_algorithm: tuple = NOTHING
    key_parameters: tuple = NOTHING
    public_key: tuple = NOTHING
    extensions: tuple = NOTHING
    key_identifier: tuple = NOTHING

    def numbers(self):
        """All its numbers, in the order of the struct."""
        return [*self[:4], *(number for its in self[4:] for number in its)]


def taken(fields, read):
    """The next element, which is read."""
    element = Elements(fields.octets, fields.at, fields.end).any()
    read(fields)
    return element


def of_key(octets, element):
    """The parts of a key, if it is one."""
    try:
        with Elements(octets, element.at, element.end).within() as (_, its):
            with its.within() as (_, algorithm):
                oid = taken(algorithm, signed.identifier)
                parameters = algorithm.any() if algorithm.at < algorithm.end else None
            key = signed.bits(its)
    except Refused:
        return {}
    found = {"has_key": 1, "key_algorithm": oid.contents(), "public_key": (key.start + 1, key.end - key.start - 1)}
    return found | ({"has_key_parameters": 1, "key_parameters": parameters.whole()} if parameters else {})


def of_extensions(octets, element):
    """What is under [3], and the identifier of the key, if there is one."""
    found = {"has_extensions": 1, "extensions": element.contents()}
    key = signed.key_of(octets, element)
    return found | ({"has_key_identifier": 1, "key_identifier": key.contents()} if key else {})


def row(octets):
    """Where a certificate has its parts. Raises Refused where the octets are none."""
    fields = Elements(octets, 0, len(octets))
    with fields.within() as (element, whole):
        with whole.within() as (_, its):
            if its.is_next(0xA0):
                with its.within(0xA0) as (_, explicit):
                    signed.version(explicit, 2)
            serial_number = taken(its, signed.integer)
            signed.algorithm(its)
            issuer, validity = taken(its, signed.name), its.any()
            subject, key = taken(its, signed.name), its.any()
            extensions = [it for it in its.each(Elements.any) if it.tag == 0xA3][:1]
        signed.algorithm(whole)
        signed.bits(whole)
    if element.end < len(octets):
        raise Refused("malformed", element.end)
    names = {"issuer": issuer.whole(), "validity": validity.whole(), "subject": subject.whole()}
    its_key = {"subject_public_key_info": key.whole(), **of_key(octets, key)}
    found = of_extensions(octets, extensions[0]) if extensions else {}
    return Certificate(serial_number=serial_number.contents(), **names, **its_key, **found)
