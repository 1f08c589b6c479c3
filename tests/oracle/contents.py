"""Finds where signed data has the parts of its content, element by element: of indirect data, which Authenticode signs,
and of a trust list; and writes indirect data from parts that are given, or says which of them can't be written. It is
the second opinion on `der_indirect`, `der_build_indirect`, `der_trust_list` and `der_trust_rows`, as der.h describes
them, and shares nothing with tests/support."""
import datetime
import re
from typing import NamedTuple

from . import signed
from .building import is_element, is_identifier, is_read, written
from .certificates import taken
from .signed import NOTHING, Elements, Refused
from .stores import Given

INDIRECT_DATA, IMAGE = bytes.fromhex("2B060104018237020104"), bytes.fromhex("2B06010401823702010F")
TRUST_LIST = bytes.fromhex("2B0601040182370A01")
# Times by their tags: the year, in two digits or in four, the month, day, hour, minute and second.
TIMES = {0x17: re.compile(rb"(\d\d)" + 5 * rb"(\d\d)" + b"Z"), 0x18: re.compile(rb"(\d{4})" + 5 * rb"(\d\d)" + b"Z")}
# Parts of a trust list whose contents octets are found; of the others the whole elements are.
BY_CONTENTS = "version", "list_identifier", "sequence_number"


class TrustList(NamedTuple):
    """What der_trust_list writes: ranges are places and lengths."""

    has_version: int = 0
    has_list_identifier: int = 0
    has_sequence_number: int = 0
    has_next_update: int = 0
    has_extensions: int = 0
    version: tuple = NOTHING
    usages: tuple = NOTHING
    list_identifier: tuple = NOTHING
    sequence_number: tuple = NOTHING
    this_update: tuple = NOTHING
    next_update: tuple = NOTHING
    algorithm: tuple = NOTHING
    extensions: tuple = NOTHING

    def numbers(self):
        """All its numbers, in the order of the struct."""
        return [*self[:5], *(number for its in self[5:] for number in its)]


class TrustEntry(NamedTuple):
    """A row of der_trust_rows."""

    has_attributes: int
    identifier: tuple
    attributes: tuple

    def numbers(self):
        """All its numbers, in the order of the struct."""
        return [self.has_attributes, *self.identifier, *self.attributes]


class Indirect(NamedTuple):
    """What der_indirect writes, and der_build_indirect is given: ranges are places and lengths."""

    has_attribute_value: int = 0
    is_image: int = 0
    has_image_flags: int = 0
    has_image_link: int = 0
    attribute_type: tuple = NOTHING
    attribute_value: tuple = NOTHING
    digest_algorithm: tuple = NOTHING
    digest: tuple = NOTHING
    image_flags: tuple = NOTHING
    image_link: tuple = NOTHING

    def numbers(self):
        """All its numbers, in the order of the struct."""
        return [*self[:4], *(number for its in self[4:] for number in its)]


def of_image(octets, element):
    """The parts of image data, if the element is that: SEQUENCE { BIT STRING OPTIONAL, [0] EXPLICIT ANY OPTIONAL }."""
    flags = link = None
    try:
        with Elements(octets, element.at, element.end).within() as (_, its):
            if its.is_next(0x03):
                flags = signed.bits(its)
            if its.is_next(0xA0):
                with its.within(0xA0) as (_, explicit):
                    link = explicit.any()
    except Refused:
        return {}
    found = {"has_image_flags": 1, "image_flags": flags.contents()} if flags else {}
    return {"is_image": 1, **found} | ({"has_image_link": 1, "image_link": link.whole()} if link else {})


def of_attribute(octets, kind, value):
    """The parts of an attribute, of its type and of its value, if it has one."""
    found = {"attribute_type": kind.contents()}
    if value:
        found |= {"has_attribute_value": 1, "attribute_value": value.whole()}
    is_image = value and octets[kind.start : kind.end] == IMAGE
    return found | (of_image(octets, value) if is_image else {})


def row(octets):
    """Where signed data has the parts of its indirect data. Raises Refused where the octets are no signed data, and
    where content of that type doesn't read; by "no part" where the content is of another type, or there is none."""
    content_type, content, _, _ = signed.signed_data(octets)
    if content_type != INDIRECT_DATA or content is None:
        raise Refused("no part", 0)
    with Elements(octets, content.at, content.end).within() as (_, its):
        with its.within() as (_, data):
            kind = taken(data, signed.identifier)
            value = data.any() if data.at < data.end else None
        with its.within() as (_, info):
            algorithm, digest = signed.algorithm(info), info.one(0x04)
    ranges = {"digest_algorithm": algorithm.whole(), "digest": digest.contents()}
    return Indirect(**of_attribute(octets, kind, value), **ranges)


# The numbers of the parts of indirect data, by their names in der.h.
INDIRECT_PARTS = {name: number for number, name in enumerate(Indirect._fields[4:], 1)}


def image_written(given):
    """Image data with the parts that are given."""
    its = []
    if given.has("image_flags"):
        its.append(written(0x03, given.part("image_flags", lambda it: is_read(written(0x03, it), signed.bits))))
    if given.has("image_link"):
        its.append(written(0xA0, given.part("image_link", is_element)))
    return written(0x30, *its)


def attribute_written(given):
    """The attribute, which is that of a program, or is given."""
    if given.row.is_image:
        return written(0x30, written(0x06, IMAGE), image_written(given))
    its = [written(0x06, given.part("attribute_type", is_identifier))]
    its += [given.part("attribute_value", is_element)] if given.has("attribute_value") else []
    return written(0x30, *its)


def indirect_text(octets, row):
    """What is written of a row over an input, or None; and the numbers of the parts that keep it from being written."""
    given = Given(octets, row, INDIRECT_PARTS)
    attribute = attribute_written(given)
    algorithm = given.part("digest_algorithm", lambda its: is_read(its, signed.algorithm))
    text = written(0x30, attribute, written(0x30, algorithm, written(0x04, given.part("digest"))))
    return None if given.wrong else text, given.wrong


def time(fields):
    """The element of a Time (RFC 5280, 4.1.2.5): in UTC, in whole seconds, on a day that the calendar has. A year of
    two digits is one from 1950 to 2049."""
    element = fields.one(0x17 if fields.is_next(0x17) else 0x18)
    found = TIMES[element.tag].fullmatch(fields.octets_of(element))
    try:
        if not found:
            raise ValueError
        year, *others = map(int, found.groups())
        if element.tag == 0x17:
            year += 1900 if year >= 50 else 2000
        # the calendar begins anew every 400 years; datetime has no year 0
        datetime.datetime(2000 + year % 400, *others)
    except ValueError:
        raise Refused("invalid", element.at) from None
    return element


def optional(fields, tag, read):
    """The next element, which is read, where it has the tag; else None."""
    return taken(fields, read) if fields.is_next(tag) else None


def usages(fields):
    """The object identifiers of a SEQUENCE of these."""
    with fields.within() as (_, its):
        its.each(signed.identifier)


def entry(fields):
    """The identifier of an entry, and the element of its attributes, None where it has none."""
    with fields.within() as (_, its):
        return its.one(0x04), signed.set_of(its, 0x31, signed.attribute)[0]


def explicit(fields):
    """The one element under [0], None where that is absent."""
    if not fields.is_next(0xA0):
        return None
    with fields.within(0xA0) as (_, its):
        return its.any()


def parts_of_list(octets):
    """The elements of the parts of a trust list by their names, None of one that isn't there, and its entries. Raises
    Refused where the octets are no signed data, and where content of that type is no list; by "no part" where the
    content is of another type, or there is none."""
    content_type, content, _, _ = signed.signed_data(octets)
    if content_type != TRUST_LIST or content is None:
        raise Refused("no part", 0)
    with Elements(octets, content.at, content.end).within() as (_, its):
        found = {
            "version": optional(its, 0x02, signed.integer),
            "usages": taken(its, usages),
            "list_identifier": optional(its, 0x04, Elements.any),
            "sequence_number": optional(its, 0x02, signed.integer),
            "this_update": time(its),
            "next_update": time(its) if its.is_next(0x17) or its.is_next(0x18) else None,
            "algorithm": signed.algorithm(its),
        }
        entries = signed.set_of(its, 0x30, entry)[1]
        found["extensions"] = explicit(its)
    return found, entries


def trust_list(octets):
    """Where signed data has the parts of its trust list, but the entries. Raises Refused as parts_of_list does."""
    found = {part: element for part, element in parts_of_list(octets)[0].items() if element}
    places = {part: it.contents() if part in BY_CONTENTS else it.whole() for part, it in found.items()}
    flags = {name: 1 for name in TrustList._fields[:5] if name.removeprefix("has_") in found}
    return TrustList(**flags, **places)


def trust_rows(octets):
    """Where signed data has each entry of its trust list. Raises Refused as parts_of_list does."""
    rows = []
    for identifier, attributes in parts_of_list(octets)[1]:
        its_own = (1, identifier.contents(), attributes.whole()) if attributes else (0, identifier.contents(), NOTHING)
        rows.append(TrustEntry(*its_own))
    return rows
