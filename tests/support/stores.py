"""Bags of stores by hand, each as a set of parts (given_stores.py) and as octets; the bags of a SafeContents as they
are read again; and what Python has of a set of parts, and what it builds."""
import itertools

from . import built, elements  # the first is where the package vuyhanip is made to be found
from .containers import NULL, attribute, bag, bare_bag, bmp_string, content_info
from .elements import element, explicit, integer, octet_string, parts, sequence, set_of
from .given_stores import CERTIFICATE, CRL, KEY, NAMES_OF_KINDS, OTHER, SAFE_CONTENTS, SECRET, SHROUDED_KEY
from .oids import contents, oid
from vuyhanip import der
from vuyhanip.der import BadBag, BadContent, BadStore, BagKind, GivenBag


def plain(kind, value, **others):
    """A set of parts of a bag with no other parts than these."""
    absent = {"has_friendly_name": 0, "has_local_key_id": 0, "has_attributes": 0}
    return {"kind": kind, "value": value, **absent, **{f"has_{name}": 1 for name in others}, **others}


def other(identifier, value):
    """The same of a bag of another kind."""
    return {**plain(OTHER, value), "identifier": contents(identifier)}


def read_bags(text):
    """The bags of a SafeContents, each by its parts, as tests/support reads them: its kind, the contents octets of its
    object identifier, what it holds, and all its attributes, None where there is no set of them."""
    names = {oid(name): kind for kind, name in NAMES_OF_KINDS.items()}
    for it in parts(text):
        kind, held, *its_set = parts(it)
        number, [value] = names.get(kind, OTHER), parts(held)
        if number in (CERTIFICATE, CRL):
            name = "X.509 certificate" if number == CERTIFICATE else "X.509 list"
            its_oid, explicit_value = parts(value)
            value = elements.contents(parts(explicit_value)[0]) if its_oid == oid(name) else None
        yield number, elements.contents(kind), value, parts(its_set[0]) if its_set else None


# By hand

NAME, KEY_ID = "me".encode("utf-16-be"), b"\1\2\3"
NAMED, WITH_ID = attribute("friendlyName", bmp_string(NAME)), attribute("localKeyId", octet_string(KEY_ID))
# Attributes in the order of DER: shorter ones first, and of these a smaller one.
FURTHER = [attribute("1.2.3", integer(5)), attribute("1.2.3", integer(6)), attribute("1.2.4", integer(5))]
LONG = attribute("1.2.3", octet_string(bytes(128)))
# A name of one unit is shorter than an identifier of two octets.
SHORT_NAME, SHORT = "a".encode("utf-16-be"), attribute("friendlyName", bmp_string("a".encode("utf-16-be")))
TWO = attribute("localKeyId", octet_string(b"id"))
CERTIFICATE_OF = content_info("X.509 certificate", octet_string(sequence()))
KEY_INFO = sequence(sequence(oid("PBES2"), sequence(*2 * [sequence(oid("1.2.3"))])), octet_string(b"encrypted"))
SECRET_OF = sequence(oid("1.2.3"), explicit(0, NULL))
# A certificate and a revocation list of other types than X.509: the first of SDSI.
SDSI = sequence(oid("1.2.840.113549.1.9.22.2"), explicit(0, element(0x16, b"sdsi")))
OF_OTHER_TYPES = sequence(bare_bag("certificate bag", SDSI), bare_bag("list bag", content_info("1.2.3", NULL)))


def bags_by_hand():
    """Sets of parts of bags, and the bag of each as tests/support makes it."""
    yield plain(KEY, NULL), bare_bag("key bag", NULL)
    yield plain(SHROUDED_KEY, KEY_INFO), bare_bag("shrouded key bag", KEY_INFO)
    yield plain(CERTIFICATE, sequence()), bare_bag("certificate bag", CERTIFICATE_OF)
    yield plain(CRL, sequence()), bare_bag("list bag", content_info("X.509 list", octet_string(sequence())))
    yield plain(SECRET, SECRET_OF), bare_bag("secret bag", SECRET_OF)
    yield plain(SAFE_CONTENTS, sequence()), bare_bag("safe contents bag", sequence())
    inner = sequence(bag("key bag", NULL, NAMED), bare_bag("safe contents bag", sequence(bare_bag("1.2.3", NULL))))
    yield plain(SAFE_CONTENTS, inner, friendly_name=NAME), bag("safe contents bag", inner, NAMED)
    yield other("1.2.3.4", integer(7)), bare_bag("1.2.3.4", integer(7))
    for near in ("1.2.840.113549.1.12.10.1", "1.2.840.113549.1.12.10.1.7", "1.2.840.113549.1.12.10.1.3.1"):
        yield other(near, NULL), bare_bag(near, NULL)
    both = {"friendly_name": NAME, "local_key_id": KEY_ID}
    yield plain(KEY, NULL, friendly_name=NAME), bag("key bag", NULL, NAMED)
    yield plain(KEY, NULL, local_key_id=KEY_ID), bag("key bag", NULL, WITH_ID)
    # of attributes that are as long, the name has the smaller type
    yield plain(CERTIFICATE, sequence(), **both), bag("certificate bag", CERTIFICATE_OF, WITH_ID, NAMED)
    shorter = {"friendly_name": SHORT_NAME, "local_key_id": b"id"}
    yield plain(KEY, NULL, **shorter), bag("key bag", NULL, SHORT, TWO)
    for those in itertools.permutations([*FURTHER, LONG]):
        wanted = bag("key bag", NULL, *FURTHER, WITH_ID, NAMED, LONG)
        yield plain(KEY, NULL, attributes=set_of(*those), **both), wanted
    twice = set_of(FURTHER[1], FURTHER[0], FURTHER[1])
    yield plain(KEY, NULL, attributes=twice), bag("key bag", NULL, FURTHER[0], FURTHER[1], FURTHER[1])
    # the values of an attribute stay in their order, also where DER has another one, and an attribute without a value
    values = attribute("1.2.3", integer(9), integer(5), NULL, integer(9))
    yield plain(KEY, NULL, attributes=set_of(values)), bag("key bag", NULL, values)
    yield plain(KEY, NULL, attributes=set_of(attribute("1.2.3"))), bag("key bag", NULL, attribute("1.2.3"))
    yield plain(KEY, NULL, attributes=set_of()), bare_bag("key bag", NULL)


def not_written():
    """Names and identifiers among further attributes, with values of any number and type."""
    for name in ("friendlyName", "localKeyId"):
        for values in ([bmp_string(b"\0z")], [octet_string(b"z")], [NULL], [], 2 * [NULL], [bmp_string(b"\xD8\x3D")]):
            yield attribute(name, *values)


# Python


def in_python(its):
    """A set of parts of a bag as Python has it."""
    return GivenBag(
        BagKind(its["kind"]),
        its["value"],
        its["friendly_name"].decode("utf-16-be") if its["has_friendly_name"] else None,
        its["local_key_id"] if its["has_local_key_id"] else None,
        parts(its["attributes"]) if its["has_attributes"] else (),
        der.dotted(its["identifier"]) if its["kind"] == OTHER else None,
    )


# Lists of attributes one of which isn't one Attribute, though octets of several may be together.
NO_ATTRIBUTES = [
    *([it] for it in (NULL, sequence(), b"", b"\0", b"\x30", b"\x30\x82\0", sequence(oid("1.2.3")))), [FURTHER[0], b""],
    [b"".join(FURTHER)], [*FURTHER, FURTHER[0] + LONG], [LONG + b"\0"], [LONG[:-1]], [LONG[:2], LONG[2:]],
    [FURTHER[0][:1], FURTHER[0][1:]], [FURTHER[0], FURTHER[1][:5], FURTHER[1][5:]],
]


def in_other_ways(octets):
    """The same octets where they can be written, and where they don't follow one another."""
    yield bytearray(octets)
    yield memoryview(bytearray(octets))
    yield memoryview(b"".join(bytes([octet, 0xEE]) for octet in octets))[::2]
    yield memoryview(octets[::-1])[::-1]


def made_in_python(call, *words):
    """What a call in Python makes, or what it says can't be written."""
    try:
        return call(*words)
    except BadBag as bad:
        return bad.bag, bad.part
    except BadContent as bad:
        return bad.content
    except BadStore as bad:
        return bad.part
