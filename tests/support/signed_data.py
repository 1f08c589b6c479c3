"""Signed data (RFC 5652, 5) and attributes of signers by hand, each as a set of parts (given_signed.py) and as octets;
and what Python has of sets of parts, and what it builds."""
import datetime
import itertools

from . import built, given_signed  # the first is where the package vuyhanip is made to be found
from .containers import NULL, attribute, content_info
from .elements import contents, element, integer, octet_string, part, parts, sequence, set_of
from .given_signed import DATA, NAMES_OF_SIGNER, RANGES_OF_ATTRIBUTES, TIMES
from .oids import contents as contents_of_oid
from .oids import oid
from .stores import FURTHER, LONG, in_other_ways
from vuyhanip.der import BadAttributes, BadSigned, GivenSigner

OTHER_TYPE = contents_of_oid("1.2.3.4")
# The attributes of a signer of data, in the order of DER: shorter ones come first.
DIGEST, TYPE = attribute("messageDigest", octet_string(b"digest")), attribute("contentType", oid("data"))
UTC_TIME = element(0x17, b"261130144504Z")
TIME = attribute("signingTime", UTC_TIME)
# The same as parts.
OF_DATA = {"content_type": DATA, "message_digest": b"digest", "signing_time": TIMES[0]}
# An algorithm, a certificate, and how a signer names that.
SHORT = sequence(oid("1.2.3"))
NAME = sequence(set_of(sequence(oid("commonName"), element(0x0C, b"A"))))
CERTIFICATE = given_signed.certificate_of(NAME, integer(128))
ISSUER_AND_SERIAL = sequence(NAME, integer(128))
NO_CONTENT, NO_CONTENT_OF_OTHER = ({"content_type": it, "has_content": 0} for it in (DATA, OTHER_TYPE))


# Attributes


def plain(**others):
    """A set of parts of attributes with no other parts than these."""
    absent = dict.fromkeys((f"has_{name}" for name in RANGES_OF_ATTRIBUTES), 0)
    return {**absent, **{f"has_{name}": 1 for name in others}, **others}


def attributes_by_hand():
    """Sets of parts of attributes, and the attributes of each in the order of DER."""
    yield plain(), []
    yield plain(content_type=DATA), [TYPE]
    yield plain(message_digest=b"digest"), [DIGEST]
    yield plain(signing_time=TIMES[0]), [TIME]
    yield plain(content_type=OTHER_TYPE), [attribute("contentType", oid("1.2.3.4"))]
    yield plain(message_digest=b""), [attribute("messageDigest", octet_string(b""))]
    yield plain(**OF_DATA), [DIGEST, TYPE, TIME]
    long = attribute("messageDigest", octet_string(bytes(32)))
    yield plain(**{**OF_DATA, "message_digest": bytes(32)}), [TYPE, TIME, long]
    yield plain(attributes=set_of()), []
    for those in itertools.permutations([*FURTHER, LONG]):
        yield plain(attributes=set_of(*those)), [*FURTHER, LONG]
        yield plain(**OF_DATA, attributes=set_of(*those)), [*FURTHER, DIGEST, TYPE, TIME, LONG]
    yield plain(attributes=set_of(FURTHER[1], FURTHER[0], FURTHER[1])), [FURTHER[0], FURTHER[1], FURTHER[1]]
    # the values of an attribute stay in their order, also where DER has another one
    values = attribute("1.2.3", integer(9), integer(5), NULL, integer(9))
    yield plain(attributes=set_of(values, attribute("1.2.3"))), [attribute("1.2.3"), values]


def not_written():
    """Attributes of a signer's own types among further ones, with values of any number and type."""
    for name in given_signed.ITS_OWN:
        for values in ([oid("data")], [octet_string(b"digest")], [UTC_TIME], [NULL], [], 2 * [NULL]):
            yield attribute(name, *values)


def attributes_of(its):
    """The attributes in the order of DER of a set of parts."""
    found = parts(its["attributes"]) if its["has_attributes"] else []
    found = [it for it in found if part(it, 0) not in map(oid, given_signed.ITS_OWN)]
    if its["has_content_type"]:
        found.append(attribute("contentType", element(0x06, its["content_type"])))
    if its["has_message_digest"]:
        found.append(attribute("messageDigest", octet_string(its["message_digest"])))
    if its["has_signing_time"]:
        found.append(attribute("signingTime", given_signed.signing_time(its["signing_time"])))
    return sorted(found)


# Signers, and what is around them


def by_certificate(certificate=CERTIFICATE, attributes=None, **others):
    """A set of parts of a signer that is named by its certificate, with signed attributes or without."""
    its = {"has_key_identifier": 0, "certificate": certificate, "has_signed_attributes": int(attributes is not None)}
    its |= {"digest_algorithm": SHORT, "signature_algorithm": SHORT, "signature": b"s", "has_unsigned_attributes": 0}
    return {**its, **({} if attributes is None else {"signed_attributes": attributes}), **others}


def by_key(identifier=b"key", **others):
    """The same of a signer that is named by a key identifier."""
    return {**by_certificate(**others), "has_key_identifier": 1, "key_identifier": identifier}


def unsigned(*attributes):
    """Unsigned attributes of a signer."""
    return {"has_unsigned_attributes": 1, "unsigned_attributes": set_of(*attributes)}


def octets_of(text, content_type=DATA):
    """A set of parts of content that is octets."""
    return {"content_type": content_type, "has_content": 1, "is_element": 0, "content": text}


def element_of(whole, content_type=DATA):
    """The same of an element."""
    return {"content_type": content_type, "has_content": 1, "is_element": 1, "content": whole}


def signer_info(version, named, signed=b"", unsigned_attributes=b""):
    """A SignerInfo of what names it, and attributes under their tags."""
    return sequence(integer(version), named, SHORT, signed, SHORT, octet_string(b"s"), unsigned_attributes)


def whole(version, *signers, algorithms=(SHORT,), info=sequence(oid("data")), lists=()):
    """Signed data, of data without content where no other content is given."""
    fields = integer(version), set_of(*algorithms), info, *lists, set_of(*signers)
    return content_info("signed data", sequence(*fields))


def version_in(text):
    return contents(part(text, 1, 0, 0))[0]


def issuer_and_serial(certificate):
    """The elements of the issuer and the serial number of a certificate."""
    its = parts(part(certificate, 0))
    first = 1 if its[0][0] == 0xA0 else 0
    return its[first + 2], its[first]


def as_read(those):
    """What the reader of tests/oracle has to find in what is built of parts, but for the version: the type of the
    content, the content, certificates, lists, digest algorithms, and in any order signers."""
    content = those.content.get("content") if those.content["has_content"] else None
    if content is not None and not those.content["is_element"]:
        content = octet_string(content)
    algorithms = sorted({it["digest_algorithm"] for it in those.signers})
    lists = sorted(those.certificates) or None, sorted(those.crls) or None
    signers = sorted(map(signer_as_read, those.signers), key=repr)
    return those.content["content_type"], content, *lists, algorithms, signers


def signer_as_read(its):
    """The same of a signer, with its version."""
    is_by_key = its["has_key_identifier"]
    issuer = None if is_by_key else sequence(*issuer_and_serial(its["certificate"]))
    sets = {name: its[name] if its[f"has_{name}"] else None for name in ("signed_attributes", "unsigned_attributes")}
    return (
        3 if is_by_key else 1, issuer, its["key_identifier"] if is_by_key else None, its["digest_algorithm"],
        sets["signed_attributes"], its["signature_algorithm"], its["signature"], sets["unsigned_attributes"],
    )


def read_as(taken):
    """The same of what that reader found."""
    signers = sorted(map(tuple, taken.signers), key=repr)
    return taken.content_type, taken.content, taken.certificates, taken.crls, taken.digest_algorithms, signers


# Python


def time_in_python(time):
    """A time as Python has it, by its 15 characters."""
    its = (time[start:end] for start, end in ((0, 4), (4, 6), (6, 8), (8, 10), (10, 12), (12, 14)))
    return datetime.datetime(*map(int, its), tzinfo=datetime.timezone.utc)


def each_of(its, name):
    """Each attribute that a set of parts has in a part of this name."""
    return parts(its[name]) if its[f"has_{name}"] else []


def attributes_in_python(its):
    """What build_attributes takes of a set of parts."""
    found = {name: its[name] for name in RANGES_OF_ATTRIBUTES if its[f"has_{name}"]}
    found |= {"signing_time": time_in_python(its["signing_time"])} if "signing_time" in found else {}
    return {**found, "attributes": each_of(its, "attributes")}


def signer_in_python(its):
    """What build_signed takes of a set of parts of a signer."""
    name = NAMES_OF_SIGNER[its["has_key_identifier"]]
    signed = its["signed_attributes"] if its["has_signed_attributes"] else None
    return GivenSigner(
        its["digest_algorithm"], its["signature_algorithm"], its["signature"], **{name: its[name]},
        signed_attributes=signed, unsigned_attributes=each_of(its, "unsigned_attributes"),
    )


def signed_in_python(those):
    """What build_signed takes of parts."""
    found = {"content_type": those.content["content_type"], "is_element": bool(those.content.get("is_element"))}
    found |= {"content": those.content["content"]} if those.content["has_content"] else {}
    signers = list(map(signer_in_python, those.signers))
    return {**found, "certificates": those.certificates, "crls": those.crls, "signers": signers}


def otherwise(value):
    """The same octets where they can be written, and the same of all in a list or in a signer; others as they are."""
    if isinstance(value, GivenSigner):
        those = list(map(otherwise, value.unsigned_attributes))
        return GivenSigner(*map(otherwise, value[:-1]), those)
    if isinstance(value, list):
        return map(otherwise, value)
    return next(in_other_ways(value)) if isinstance(value, bytes) else value


def made_in_python(call, *words, **named):
    """What a call in Python makes, or what it says can't be written."""
    try:
        return call(*words, **named)
    except BadAttributes as bad:
        return bad.part
    except BadSigned as bad:
        return bad.index, bad.part
