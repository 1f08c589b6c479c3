"""The inputs of the tests of callers: of the worked examples, changed ones, containers that are longer than a row, and
what is made by hand."""
import functools
import os
import random

from . import encrypted, oids, rows
from .containers import (
    NULL, SHA256, attribute, content_info, long_signed, long_stores, mac_data, nested, recipients_alike, signers_alike,
    store,
)
from .elements import element, explicit, integer, octet_string, part, parts, sequence, set_of
from .oids import oid
from .signed_attributes import wrong_attributes
from .signing import INDIRECT_DATA

# Of each kind at most so many inputs, of each so many changed ones, and how many octets the longest has.
INPUTS, CHANGES, LONGEST = 6, 3, 4096
# Types of which der_part_octets takes parts, by the words of the rows.
SIGNED, STORES = ("pkcs7certificate", "rawpkcs7certificate"), ("pfx", "rawpfx", "rawbagspfx")
# What the attribute of indirect data says was hashed (Authenticode): a program, a cabinet, a script.
IMAGE, CABINET, SCRIPT = (f"1.3.6.1.4.1.311.2.1.{number}" for number in (15, 25, 30))
# What all parts of a file have where a place can't be found by its octets.
SAME = b"A" * 16
# The type of a trust list, what a list of roots is for, and the attribute with an entry's name (Microsoft); times.
TRUST_LIST, ROOTS, NAME_OF_ENTRY = (f"1.3.6.1.4.1.311.10.{numbers}" for numbers in ("1", "3.9", "11.11"))
UTC_TIME, GENERALIZED_TIME = element(0x17, b"261129120000Z"), element(0x18, b"20501129120000Z")
# The parts of a trust list that may be absent, by their names in der.h, and its entries.
MAY_BE_ABSENT = "version", "list_identifier", "sequence_number", "next_update", "entries", "extensions"


@functools.lru_cache(maxsize=None)
def of_rows():
    """Inputs of the worked examples by the words of their types, of each some that are normal, loose and refused."""
    found = {}
    for row in rows.examples():
        if "*" in row.spelt and len(row.spelt) < 40:
            continue
        ranked = found.setdefault(row.type, {"normal": [], "loose": [], "refused:": []})
        if len(row.spelt) < 3 * LONGEST:
            ranked[row.said.split()[0]].append(row.octets())
    return {word: by["normal"][:4] + by["loose"][:1] + by["refused:"][:1] for word, by in found.items()}


@functools.lru_cache(maxsize=None)
def with_parts():
    """All inputs of the worked examples that are read for their parts, but for the longest."""
    return [
        (row.type, row.octets())
        for row in rows.examples()
        if row.type in SIGNED + STORES
        and "within" not in row.words
        and not row.said.startswith("refused")
        and len(row.spelt) < 9 * LONGEST
    ]


@functools.lru_cache(maxsize=None)
def signed_data():
    """Signed data of the worked examples, what isn't quite that, and signers whose parts have the same octets."""
    found = [row.octets() for row in rows.examples() if row.type in SIGNED and len(row.spelt) < 9 * LONGEST]
    return [*found, signers_alike(SAME)]


@functools.lru_cache(maxsize=None)
def certificates():
    """The certificates in signed data of the worked examples, or other choices."""
    found = []
    for row in rows.examples():
        if row.type in SIGNED and row.said.startswith("normal") and len(row.spelt) < 9 * LONGEST:
            held = [field for field in parts(part(row.octets(), 1, 0))[3:] if field[0] == 0xA0]
            found += [it for field in held for it in parts(field)]
    return found


def enveloped_data():
    """Enveloped data of the worked examples, under their content type, and recipients of the same octets throughout."""
    yield recipients_alike(SAME)
    for row in rows.examples():
        if row.type == "envelopeddata" and row.said.startswith("normal"):
            yield content_info("enveloped data", row.octets())


def bad_attributes(over_attributes):
    """Signed data of the worked examples with a signer whose attributes are changed, so that RFC 5652 forbids them. The
    call says of signed data whether their first signer is over signed attributes."""
    return [made for text in signed_data() if over_attributes(text) for made in wrong_attributes(text)]


def signed_over(content_type, *content):
    """Signed data without a signer, over content of a type, which is one element, or over none."""
    info = sequence(oid(content_type), *(explicit(0, it) for it in content))
    return content_info("signed data", sequence(integer(1), set_of(SHA256), info, set_of()))


def indirect_data(attribute_type, *value):
    """SpcIndirectDataContent (Authenticode) with an attribute of a type, which has a value or none."""
    return sequence(sequence(oid(attribute_type), *value), sequence(SHA256, octet_string(32 * b"\x11")))


@functools.lru_cache(maxsize=None)
def over_indirect_data():
    """Signed data over indirect data: of a program, with each part of image data and without it, with a value that
    isn't image data, and without a value; of a cabinet; and over what isn't indirect data, under its type."""
    flags, link = element(0x03, b"\5\x80"), explicit(0, explicit(2, element(0x80)))
    values = sequence(flags, link), sequence(flags), sequence(link), sequence(), sequence(link, flags)
    found = [*(indirect_data(IMAGE, it) for it in values), indirect_data(IMAGE), indirect_data(CABINET, link)]
    found += [sequence(), octet_string(b""), sequence(sequence(oid(IMAGE)), sequence(SHA256, octet_string(b"")), NULL)]
    return [signed_over(INDIRECT_DATA, it) for it in found]


def wide(text):
    """A text as Microsoft has it: UTF-16, the low octet of each unit first, with a zero at the end."""
    return f"{text}\0".encode("utf-16-le")


def trust_entry(identifier, *attributes):
    """An entry of a trust list: its identifier, and the SET of its attributes, if there is one."""
    return sequence(octet_string(identifier), *attributes)


def trust_list(**others):
    """CertificateTrustList with all that one may have, and others in the place of some parts, by their names in der.h:
    no octets in the place of one that is to be absent."""
    name = attribute(NAME_OF_ENTRY, octet_string(wide("Some root")))
    its = {
        "version": integer(0),
        "usages": sequence(oid(ROOTS)),
        "list_identifier": octet_string(wide("Roots")),
        "sequence_number": integer(7),
        "this_update": UTC_TIME,
        "next_update": GENERALIZED_TIME,
        "algorithm": sequence(oid("SHA-1"), NULL),
        "entries": sequence(trust_entry(20 * b"\x11"), trust_entry(20 * b"\x22", set_of(name))),
        "extensions": explicit(0, sequence()),
    }
    return sequence(*{**its, **others}.values())


def equal_parts():
    """Parts of a trust list, of which each has the octets of another one, or of what is in another one."""
    same, attributes = sequence(oid("SHA-1")), set_of(attribute("SHA-1", NULL))
    return {
        "version": integer(7),
        "usages": same,
        "list_identifier": octet_string(attributes),
        "sequence_number": integer(7),
        "this_update": UTC_TIME,
        "next_update": UTC_TIME,
        "algorithm": same,
        "entries": sequence(*3 * [trust_entry(attributes, attributes)]),
        "extensions": explicit(0, same),
    }


def refused_trust_lists():
    """Signed data over what is no trust list, under its type, and why and where each is refused."""
    no_number, no_time = element(0x02), element(0x17, b"261329120000Z")
    # a reason, a part, what is in its place, and where in that it is refused
    wrong = [
        ("invalid", "version", no_number, 0),
        ("invalid", "usages", sequence(element(0x06, b"\x80\1")), 2),
        ("invalid", "list_identifier", integer(7) + octet_string(b"after the number"), 3),
        ("invalid", "sequence_number", no_number, 0),
        ("invalid", "this_update", no_time, 0),
        ("invalid", "next_update", UTC_TIME + GENERALIZED_TIME, len(UTC_TIME)),
        ("invalid", "algorithm", NULL, 0),
        ("missing", "entries", sequence(sequence()), 4),
        ("invalid", "entries", sequence(trust_entry(b"1", set_of(NULL))), 9),
        ("malformed", "entries", sequence(trust_entry(b"1", set_of(), NULL)), 9),
        ("missing", "extensions", explicit(0), 2),
        ("malformed", "extensions", explicit(0, NULL, NULL), 4),
        ("malformed", "extensions", explicit(0, NULL) + NULL, 4),
    ]
    for reason, part, octets, at in wrong:
        text = signed_over(TRUST_LIST, trust_list(**{part: octets}))
        yield text, reason, text.index(octets, text.index(oid(TRUST_LIST))) + at


@functools.lru_cache(maxsize=None)
def trust_lists():
    """Signed data over trust lists: with all parts, without those that may be absent, all of them and each by itself,
    with other times and other entries, with parts of the same octets; and at the end over what is no trust list."""
    found = [{}, dict.fromkeys(MAY_BE_ABSENT, b""), *({part: b""} for part in MAY_BE_ABSENT)]
    found += [{"next_update": UTC_TIME}, {"this_update": GENERALIZED_TIME}, {"usages": sequence()}]
    entries = [trust_entry(b""), trust_entry(b"", set_of()), trust_entry(b"1", set_of(*2 * [attribute("SHA-1")]))]
    found += [{"entries": sequence(*its)} for its in ([], *([it] for it in entries), entries)]
    lists = [trust_list(**others) for others in (*found, equal_parts())]
    return [*(signed_over(TRUST_LIST, it) for it in lists), *(text for text, _, _ in refused_trust_lists())]


def changed(chance, whole):
    """The input with a byte or two changed, or cut short."""
    new = bytearray(whole)
    for _ in range(chance.choice((1, 1, 2))):
        if new:
            new[chance.randrange(len(new))] = chance.randrange(256)
    return bytes(new[: chance.randrange(len(new))] if new and chance.random() < 0.2 else new)


def by_hand():
    """Inputs that are too long for rows, words that are no kind's, and PFXs that are refused or hold other than data."""
    data = store("data", octet_string(sequence()))
    signed = store("signed data", sequence())
    stores = data, signed, store("data", b"", 2), data + b"\0", data[:-1], b"\x30\x80\0\0", b""
    mac = mac_data(b"\1" * 32, b"\2" * 8, 300)
    # what is no DER: no octet, one, BER, two elements, an element cut short, and as many octets as no element has
    inner = b"", b"\0", b"\x24\x80\x04\x01\x07\0\0", NULL + NULL, b"\x30\x82", b"\xFF" * 130
    ends = (3, mac), (3, b""), (2, mac)
    kept = [store("data", octet_string(octets), *end) for octets in inner for end in ends]
    deep = sequence(content_info("data", octet_string(nested(65))))
    words = "p12", "RawPfx", "rawpfx ", "", os.fsdecode(b"rawpfx\xFF")
    return [
        *(("safecontents", nested(levels)) for levels in (63, 64, 65)),
        ("pfx", store("data", octet_string(deep))),
        *((word, data) for word in words),
        *(("rawpfx", text) for text in (*stores, *kept, store("signed data", NULL, 3, mac), *rows.ber())),
    ]


def checked(kinds):
    """Inputs of all kinds, and of each of them some that are changed."""
    chance = random.Random(7)
    for kind in kinds:
        for whole in of_rows()[kind][:INPUTS]:
            for text in [whole, *(changed(chance, whole) for _ in range(CHANGES))]:
                yield kind, text


def cases(kinds, over_attributes):
    """Inputs of all kinds, those by hand, what der_name_text, der_oid_text, der_oid_octets, der_certificate and
    der_password_parameters take, which no kind reads, signed data with signers whose attributes are bad, which
    `over_attributes` is asked for, and signed data over indirect data and trust lists."""
    inputs = of_rows()
    found = by_hand()
    found += [("name", text) for text in inputs["name"]]
    names = "subjectKeyIdentifier", "key bag"
    found += [("oid", it) for name in names for it in (oids.octets(name), oids.ARCS[name].encode())]
    found += [("certificate", text) for text in certificates()[:4]]
    schemes = encrypted.pbes2(), encrypted.pbes1(), encrypted.pkcs12()
    found += [("password", encrypted.held(holder, it)) for holder in encrypted.HOLDERS for it in schemes]
    signed = [*inputs["rawpkcs7certificate"], *bad_attributes(over_attributes)][:20]
    signed += [*over_indirect_data(), *trust_lists()[:2], trust_lists()[-1]]
    found += [("rawpkcs7certificate", text) for text in signed]
    return found + [(kind, text) for kind in kinds for text in inputs[kind][:INPUTS]]


@functools.lru_cache(maxsize=None)
def long():
    """Containers of more than 64 KB, with more parts than one octet counts: normal, loose, and refused in each way."""
    chance = random.Random(11)
    bags, stores = long_stores(chance)
    signed = long_signed(chance)
    key_bag, bag_in_bags = oid("key bag"), oid("safe contents bag")
    last = key_bag, key_bag + element(0xA1, NULL), bag_in_bags + explicit(0, nested(64))
    return [
        *((kind, text) for kind in ("pfx", "rawpfx") for text in stores),
        ("rawpfx", store("signed data", signed)),
        ("pkcs7certificate", signed),
        ("pkcs7certificate", signed[:-1]),
        *(("safecontents", sequence(bags, sequence(refused))) for refused in last),
    ]


def limited(kinds):
    """Inputs with a limit of nesting levels, and the line that is said of them: the worked examples that have one, and
    bags in bags at limits on both sides of their levels, and at some that are more than 64."""
    for row in rows.examples():
        if len(row.words) == 3 and row.words[0] == "within" and row.type in kinds:
            yield row.type, int(row.words[1]), row.octets(), row.said
    for levels in (1, 2, 63, 64, 65):
        text = nested(levels)
        for limit in (0, levels - 1, levels, 64, 255, 256, 2**32 - 1):
            line = f"normal {len(text)}" if levels <= min(limit, 64) else "refused: too deep"
            yield "safecontents", limit, text, line
