"""Writes bags of a PKCS #12 store, what is around them, and a store (RFC 7292, 4) from parts that are given, or says
which of them can't be written; and texts in UTF-16. It is the second opinion on `der_build_bags`, `der_build_safe`,
`der_build_store` and `der_text_utf16`, as der.h describes them. It asks the library nothing, also not whether an
encrypted key is one, and shares nothing with tests/support."""
from typing import NamedTuple

from . import bags, signed
from .building import is_element, is_identifier, is_read, written
from .signed import NOTHING, Elements, Refused

# The parts of a bag and of a store by their names in der.h, in the order of their numbers, which begin with 1.
OF_BAG = "kind", "identifier", "value", "friendly_name", "local_key_id", "attributes"
OF_STORE = "safe", "digest_algorithm", "digest_parameters", "digest", "salt", "iterations"
BAG_PARTS, STORE_PARTS = ({name: number for number, name in enumerate(names, 1)} for names in (OF_BAG, OF_STORE))
# Kinds of bags by the last number of their object identifiers, of which 0 is none.
SHROUDED_KEY, SECRET, SAFE_CONTENTS, LAST_KIND = 2, 5, 6, 6
# How many lists of bags may be in one another: a bag is in 64 others at most.
LISTS = bags.LEVELS + 1
# SHA-1, SHA-224, SHA-256, SHA-384 and SHA-512, whose parameters are NULL.
KNOWN_DIGESTS = {bytes.fromhex("2B0E03021A"), *(bytes.fromhex(f"60864801650304020{last}") for last in "1234")}
NULL = written(0x05)


class Bag(NamedTuple):
    """A der_bag_given: ranges are places and lengths."""

    kind: int = 0
    has_friendly_name: int = 0
    has_local_key_id: int = 0
    has_attributes: int = 0
    identifier: tuple = NOTHING
    value: tuple = NOTHING
    friendly_name: tuple = NOTHING
    local_key_id: tuple = NOTHING
    attributes: tuple = NOTHING

    def numbers(self):
        """All its numbers, in the order of the struct."""
        return [*self[:4], *(number for its in self[4:] for number in its)]


class Content(NamedTuple):
    """A der_content_given, alike."""

    is_data: int = 0
    octets: tuple = NOTHING

    def numbers(self):
        return [self.is_data, *self.octets]


class Store(NamedTuple):
    """A der_store_given, alike."""

    has_mac: int = 0
    has_digest_parameters: int = 0
    iterations: int = 0
    safe: tuple = NOTHING
    digest_algorithm: tuple = NOTHING
    digest_parameters: tuple = NOTHING
    digest: tuple = NOTHING
    salt: tuple = NOTHING

    def numbers(self):
        return [*self[:3], *(number for its in self[3:] for number in its)]


class Given:
    """The parts of a row over an input, and the numbers of those that can't be written, in the order of der.h."""

    def __init__(self, octets, row, numbers):
        self.octets, self.row, self.numbers, self.wrong = octets, row, numbers, []

    def tell(self, name):
        self.wrong.append(self.numbers[name])

    def part(self, name, is_right=lambda octets: True):
        """The octets of a range, which have to be right."""
        start, size = getattr(self.row, name)
        octets = self.octets[start : start + size]
        if start + size > len(self.octets) or not is_right(octets):
            self.tell(name)
        return octets

    def has(self, name):
        return getattr(self.row, f"has_{name}") != 0


# What bags hold


def secret(fields):
    """A SecretBag (RFC 7292, 4.2.5)."""
    with fields.within() as (_, its):
        signed.identifier(its)
        bags.held_in(its)


def is_safe(octets, lists):
    """Whether octets are a SafeContents, with so many lists of bags in one another at most."""
    fields = Elements(octets, 0, len(octets))
    try:
        found = bags.safe_contents(fields)
    except Refused:
        return False
    inner = [octets[held.at : held.end] for _, oid, held, _ in found if oid == bags.BAG + bytes([SAFE_CONTENTS])]
    return lists > 0 and fields.at == fields.end and all(is_safe(it, lists - 1) for it in inner)


def is_of_kind(kind, octets):
    """Whether an element is what a bag of a kind holds."""
    if kind == SHROUDED_KEY:
        return is_read(octets, bags.encrypted_key)
    if kind == SECRET:
        return is_read(octets, secret)
    return kind != SAFE_CONTENTS or is_safe(octets, LISTS - 1)


def held(kind, octets):
    """What is under [0] in a bag."""
    if kind in bags.X509:
        return written(0x30, written(0x06, bags.X509[kind]), written(0xA0, written(0x04, octets)))
    return octets


# Attributes


def with_value(oid, value):
    """An attribute with one value."""
    return written(0x30, written(0x06, oid), written(0x31, value))


def attribute(fields):
    """The object identifier of an attribute, and all its octets."""
    at = fields.at
    oid, _ = signed.attribute(fields)
    return oid, fields.octets[at : fields.at]


def each_attribute(octets):
    """The attributes of a set, each alike. Raises Refused."""
    fields = Elements(octets, 0, len(octets))
    with fields.within(0x31) as (_, its):
        found = its.each(attribute)
    if fields.at < fields.end:
        raise Refused("malformed", fields.at)
    return found


def is_set(octets):
    try:
        each_attribute(octets)
    except Refused:
        return False
    return True


def is_utf16(octets):
    try:
        octets.decode("utf-16-be")
    except UnicodeDecodeError:
        return False
    return True


def attributes(given):
    """The attributes of a bag in the order of X.690, 11.6: their octets ascend."""
    found = []
    if given.has("friendly_name"):
        name = given.part("friendly_name", is_utf16)
        found.append(with_value(bags.FRIENDLY_NAME, written(0x1E, name)))
    if given.has("local_key_id"):
        found.append(with_value(bags.LOCAL_KEY_ID, written(0x04, given.part("local_key_id"))))
    if given.has("attributes"):
        those = given.part("attributes", is_set)
        its_own = bags.FRIENDLY_NAME, bags.LOCAL_KEY_ID
        found += [text for oid, text in (each_attribute(those) if is_set(those) else []) if oid not in its_own]
    return sorted(found)


# What is written


def identifier(given):
    """The contents octets of the object identifier of a bag."""
    kind = given.row.kind
    if kind > LAST_KIND:
        given.tell("kind")
    if kind:
        return bags.BAG + bytes([kind % 256])
    known = [bags.BAG + bytes([number]) for number in range(1, LAST_KIND + 1)]
    return given.part("identifier", lambda octets: is_identifier(octets) and octets not in known)


def bag_text(octets, row):
    """The encoding of a bag, and the numbers of the parts that can't be written."""
    given = Given(octets, row, BAG_PARTS)
    oid = identifier(given)
    value = given.part("value", lambda it: is_element(it) and is_of_kind(row.kind, it))
    those = attributes(given)
    its_set = [written(0x31, *those)] if those else []
    return written(0x30, written(0x06, oid), written(0xA0, held(row.kind, value)), *its_set), given.wrong


def bags_text(octets, rows):
    """What is written of the bags of some rows over an input, or None; and the indices of those that can't be written,
    each with the numbers of the parts that keep it from that: the first is told."""
    made = [bag_text(octets, row) for row in rows]
    wrong = [(index, parts) for index, (_, parts) in enumerate(made) if parts]
    return None if wrong else written(0x30, *(text for text, _ in made)), wrong


def content_text(octets, row):
    """The encoding of a content, or None."""
    start, size = row.octets
    its = octets[start : start + size]
    if start + size > len(octets):
        return None
    if row.is_data:
        data = written(0x30, written(0x06, bags.DATA), written(0xA0, written(0x04, its)))
        return data if is_safe(its, LISTS) else None
    fields = Elements(its, 0, len(its))
    try:
        _, oid, _ = bags.content_info(fields)
    except Refused:
        return None
    return its if oid != bags.DATA and fields.at == fields.end else None


def safe_text(octets, rows):
    """What is written of the contents of some rows over an input, or None; and the indices of those that can't be
    written."""
    made = [content_text(octets, row) for row in rows]
    wrong = [index for index, text in enumerate(made) if text is None]
    return None if wrong else written(0x30, *made), wrong


def is_authenticated_safe(octets):
    """Whether octets are a SEQUENCE OF ContentInfo, whatever these hold."""
    def safe(fields):
        with fields.within() as (_, its):
            its.each(bags.content_info)

    return is_read(octets, safe)


def number(found):
    """An INTEGER that isn't negative."""
    return written(0x02, found.to_bytes(found.bit_length() // 8 + 1, "big"))


def mac_data(given):
    """MacData (RFC 7292, 4)."""
    oid = given.part("digest_algorithm", is_identifier)
    parameters = given.part("digest_parameters", is_element) if given.has("digest_parameters") else NULL
    algorithm = written(0x30, written(0x06, oid), NULL if oid in KNOWN_DIGESTS else parameters)
    digest, salt = written(0x04, given.part("digest")), written(0x04, given.part("salt"))
    count = given.row.iterations
    if count >= 1 << 32:
        given.tell("iterations")
    return written(0x30, written(0x30, algorithm, digest), salt, *([] if count == 1 else [number(count)]))


def store_text(octets, row):
    """What is written of a row over an input, or None; and the numbers of the parts that keep it from being written, of
    which the first is told."""
    given = Given(octets, row, STORE_PARTS)
    safe = written(0x04, given.part("safe", is_authenticated_safe))
    mac = [mac_data(given)] if given.has("mac") else []
    text = written(0x30, number(3), written(0x30, written(0x06, bags.DATA), written(0xA0, safe)), *mac)
    return None if given.wrong else text, given.wrong


def utf16(octets):
    """A text in UTF-8 as UTF-16, the high octet of each unit first. None where it is no UTF-8."""
    try:
        return octets.decode("utf-8").encode("utf-16-be")
    except UnicodeDecodeError:
        return None
