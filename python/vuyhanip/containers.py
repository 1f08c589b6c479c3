"""The parts of containers that are shown and extracted: certificates, bags, signed data, signers, attributes.

What a verification of signers needs, the library for C says of all of them in one reading. The rest is found in what it
accepted, element by element.
"""
from typing import Iterable, Iterator, List, NamedTuple, Optional, Tuple, Union

from . import der, library
from .elements import (
    GENERALIZED_TIME,
    INTEGER,
    OCTET_STRING,
    SEQUENCE,
    UTC_TIME,
    Element,
    NotThere,
    child,
    path_to,
    whole,
)
from .values import name, oid, serial, time

DATA, SIGNED_DATA, TST_INFO = "1.2.840.113549.1.7.1", "1.2.840.113549.1.7.2", "1.2.840.113549.1.9.16.1.4"
SIGNING_TIME, COUNTER_SIGNATURE = "1.2.840.113549.1.9.5", "1.2.840.113549.1.9.6"
TIME_STAMPS = ("1.2.840.113549.1.9.16.2.14", "1.3.6.1.4.1.311.3.3.1")
NESTED_SIGNATURE = "1.3.6.1.4.1.311.2.4.1"
SUBJECT_KEY_IDENTIFIER = "2.5.29.14"
KEY_BAG, SHROUDED_KEY_BAG, CERT_BAG = (f"1.2.840.113549.1.12.10.1.{it}" for it in (1, 2, 3))
CRL_BAG, SAFE_CONTENTS_BAG = (f"1.2.840.113549.1.12.10.1.{it}" for it in (4, 6))
X509_CERTIFICATE, X509_CRL = "1.2.840.113549.1.9.22.1", "1.2.840.113549.1.9.23.1"
# How many octets certificates may have where each signer has its own, though the file has it once.
MOST_OF_SIGNERS = 1 << 27


class Attribute(NamedTuple):
    """An attribute of a signer or of a bag."""

    oid: str
    values: List[Element]


def attributes(inside: Element) -> List[Attribute]:
    """The attributes in an element, whatever its tag is."""
    found = []
    for element in inside.children():
        parts = element.children()
        if len(parts) == 2:
            found.append(Attribute(oid(parts[0]), parts[1].children()))
    return found


class Certificate(NamedTuple):
    """What is shown of an X.509 certificate (RFC 5280, 4.1)."""

    encoding: bytes
    serial: bytes
    issuer: Element
    subject: Element
    not_before: str
    not_after: str
    key: Element
    signature_algorithm: Element
    key_identifier: Optional[bytes]


def certificate(encoding: bytes) -> Certificate:
    """Reads a certificate. Raises NotThere where it is none."""
    parts = whole(encoding).children()
    if len(parts) < 3:
        raise NotThere("no certificate")
    fields = parts[0].children()
    if fields and fields[0].tag == 0xA0:
        del fields[0]
    if len(fields) < 6 or fields[0].tag != INTEGER:
        raise NotThere("no certificate")
    number, _, issuer, validity, subject, key, *more = fields
    times = [time(it) for it in validity.children() if it.tag in (UTC_TIME, GENERALIZED_TIME)]
    if len(times) != 2:
        raise NotThere("no validity")
    found = next((it for it in more if it.tag == 0xA3), None)
    identifier = _key_identifier(found) if found is not None else None
    return Certificate(encoding, number.contents, issuer, subject, times[0], times[1], key, parts[1], identifier)


def _key_identifier(extensions: Element) -> Optional[bytes]:
    """The octets of the subject key identifier among extensions under their tag."""
    for extension in extensions.inside().children():
        parts = extension.children()
        if len(parts) > 1 and oid(parts[0]) == SUBJECT_KEY_IDENTIFIER and parts[-1].tag == OCTET_STRING:
            return whole(parts[-1].contents).contents
    return None


def bags_refused(store: bytes, kind: str) -> Optional[str]:
    """Why the bags of a PKCS #12 file aren't read that was accepted as pfx, which asks this of them, or as rawpfx."""
    try:
        if kind != "pfx":
            library().bags(store)
    except der.Refused as refused:
        return _refusal(store, refused)
    return None


def bags(store: bytes) -> Iterator[Tuple[int, Element]]:
    """The bags of a PKCS #12 file that are read (RFC 7292, 4), each before those in it, and in how many bags it is."""
    kind, *content = whole(store).children()[1].children()
    if oid(kind) != DATA or not content:
        return
    for safe in whole(content[0].inside().contents).children():
        parts = safe.children()
        if oid(parts[0]) == DATA and len(parts) > 1:
            yield from _bags_in(whole(parts[1].inside().contents), 0)


def _bags_in(contents: Element, level: int) -> Iterator[Tuple[int, Element]]:
    """The bags of SafeContents, each before the bags in it."""
    for bag in contents.children():
        yield level, bag
        if oid(bag.inside()) == SAFE_CONTENTS_BAG:
            yield from _bags_in(child(bag, 1).inside(), level + 1)


def bag_values(store: bytes, which: str) -> Iterator[Element]:
    """The values of the bags of one kind."""
    return (child(bag, 1).inside() for _, bag in bags(store) if oid(bag.inside()) == which)


def x509_values(store: bytes, which: str, kind: str) -> Iterator[bytes]:
    """The X.509 certificates or revocation lists of a PKCS #12 file."""
    for value in bag_values(store, which):
        if oid(value.inside()) == kind:
            yield child(value, 1).inside().contents


class Signer(NamedTuple):
    """A signer of signed data (RFC 5652, 5.3)."""

    # what a verifier needs, as the library says it; what follows is shown, and is found by the reader of elements
    parts: Union[der.Signer, der.BadAttributes]
    identifier: Element
    digest_algorithm: Element
    signature_algorithm: Element
    signature: bytes
    # the element of the signed attributes, where there are any, and these
    covered: Optional[Element]
    signed: List[Attribute]
    unsigned: List[Attribute]

    @property
    def certificate(self) -> Optional[Certificate]:
        """The first certificate of the file that it names. Raises NotThere where that can't be shown."""
        if isinstance(self.parts, der.BadAttributes) or self.parts.certificate is None:
            return None
        return certificate(bytes(self.parts.certificate))

    @property
    def named(self) -> str:
        """How it names its certificate."""
        if self.identifier.tag != SEQUENCE:
            return f"key identifier {self.identifier.contents.hex(':').upper()}"
        issuer, number = self.identifier.children()
        return f"issuer {name(issuer)}, serial number {serial(number.contents)}"


class Signed(NamedTuple):
    """Signed data with its content type."""

    content_type: str
    # the octets that are hashed, none where they are elsewhere
    content: Optional[bytes]
    certificates: List[bytes]
    crls: List[bytes]
    signers: List[Signer]


def _signer(parts: Union[der.Signer, der.BadAttributes], element: Element) -> Signer:
    """The signer that an element is, with what the library says of it."""
    _, identifier, digest_algorithm, *more = element.children()
    covered = more.pop(0) if more[0].tag == 0xA0 else None
    algorithm, signature, *unsigned = more
    return Signer(
        parts,
        identifier,
        digest_algorithm,
        algorithm,
        signature.contents,
        covered,
        attributes(covered) if covered is not None else [],
        attributes(unsigned[0]) if unsigned else [],
    )


def signed(octets: bytes) -> Signed:
    """Reads signed data. Raises der.Refused where they are none."""
    it = library().signed(octets)
    elements = (whole(bytes(info.element)) for info in it.signer_infos)
    return Signed(
        it.content_type,
        None if it.content is None else bytes(it.content),
        list(map(bytes, it.certificates)),
        list(map(bytes, it.crls)),
        list(map(_signer, it.signers, elements)),
    )


def too_long_for_each(count: int, certificates: Iterable[bytes]) -> str:
    """Why a certificate isn't taken once for each of so many signers or time stamps, or nothing: a file of some
    megabytes asks for terabytes."""
    is_too_long = count * max(map(len, certificates), default=0) > MOST_OF_SIGNERS
    return f"more than {MOST_OF_SIGNERS} octets, a certificate for each signer or time stamp" if is_too_long else ""


def is_signed(octets: bytes) -> bool:
    """Whether content (RFC 5652, 3) is of the type signed data."""
    return oid(whole(octets).inside()) == SIGNED_DATA


def _refusal(octets: bytes, refused: der.Refused) -> str:
    """Why octets are refused, and where."""
    path = path_to(octets, refused.place, refused.reason)
    return f"refused: {refused}{f' ({path})' if path else ''}"


def refused_as_signed(octets: bytes, refused: der.Refused) -> str:
    """Why octets are refused as signed data, and where."""
    return f"{_refusal(octets, refused)}, as signed data"


def time_stamp_token(octets: bytes) -> Optional[bytes]:
    """The token in a TimeStampResp (RFC 3161, 2.4.2), where the octets are one that has a token."""
    try:
        status, token = whole(octets).first(3)
        if status.tag == SEQUENCE and status.inside().tag == INTEGER and oid(token.inside()) == SIGNED_DATA:
            return token.encoding
    except (NotThere, ValueError):
        pass
    return None


class Stamp(NamedTuple):
    """What a time stamp signs (RFC 3161, 2.4.2)."""

    policy: str
    digest_algorithm: Element
    digest: bytes
    serial: bytes
    time: str


def stamp(content: bytes) -> Stamp:
    """Reads a TSTInfo. Raises NotThere where it is none."""
    parts = whole(content).children()
    if len(parts) < 5:
        raise NotThere("no TSTInfo")
    scheme, digest = parts[2].children()[:2]
    return Stamp(oid(parts[1]), scheme, digest.contents, parts[3].contents, time(parts[4]))
