"""Checks and rewritings of DER, the parts of containers that a verifier needs, as octets, and conversions of BER to
DER, from Python.

    library = Library("libder.so")
    library.check("pfx", data)       Verdict(is_normal=True, length=1010, loose_end=None)
    library.rewrite("pfx", data)     the normal (canonical) encoding, as bytes
    library.mac_range(data)          range(30, 943), or None
    library.mac(data)                Mac(covered=range(30, 943), digest_algorithm='2.16.840.1.101.3.4.2.1', ..), or None
    library.part(Part.SIGNATURE, signed, 0)   the octets of a part, or None
    library.ranges(Part.CERTIFICATE, signed)  [range(58, 912), ..], of all certificates
    library.certificates(signed)     each of them, as memoryviews of signed
    library.signers(signed)          [Signer(is_over_attributes=True, covered=b'1..', ..), BadAttributes()]
    library.signed(signed)           a SignedData: its content, certificates and signers
    library.bags(store)              all Bag(kind=BagKind.CERTIFICATE, friendly_name='me', ..) that aren't encrypted
    library.store(store)             a Store: its bags, certificates and keys, the key of a certificate, its MAC
    library.certificate(data)        a Certificate: serial number, names, key, extensions, key identifier
    library.indirect(signed)         an IndirectData: which digest an Authenticode signature has, and of what; or None
    library.trust_list(signed)       a TrustList: what a trust list is for, its number, times and algorithm; or None
    library.trust_entries(signed)    all TrustEntry(identifier=.., attributes=..) of a trust list; or None
    library.password_parameters(key, PasswordHolder.KEY)   PasswordParameters: how a key is encrypted with a password
    library.build_parameters(PasswordHolder.KEY, its)      the DER of a key that is encrypted so, as bytes
    library.build_bags([GivenBag(BagKind.CERTIFICATE, its)])   the DER of bags of a store, a SafeContents, as bytes
    library.build_safe([GivenContent(bags, True)])         that of what a store holds, which its MAC covers
    library.build_store(safe, GivenMac(..))                that of the store itself, with a MAC or none
    library.build_attributes(octets, digest, time)         that of a signer's attributes, which its signature covers
    library.build_signed(octets, content, signers=[GivenSigner(..)])   that of signed data, around their signatures
    library.build_indirect(GivenIndirect(algorithm, digest, GivenImage(..)))   that of what Authenticode signs
    library.build_recipient(GivenRecipient(algorithm, key, certificate))       that of a recipient, with its key
    library.build_enveloped(octets, content, algorithm, [recipient])           that of enveloped data, as bytes
    library.oid_octets("1.3.14.3.2.26")   the contents octets of an object identifier, as bytes
    library.text_utf16("me")         a text in UTF-16, as bytes
    library.from_ber(data)           the DER of an input in BER, as bytes
    library.mac_ber(der)             as mac, of a file that from_ber returned
    library.kinds()                  ["macdata", ..]

A kind is the name of a type in lower case. What is no encoding of its kind raises Refused, with the reason and the
place.
Only from_ber takes BER. Pass every other call what it returned, and mac_ber where the MAC of a PKCS #12 file is to be
verified.
The calls are those of der.h, which says what is proved of them. Calls share nothing, so threads may make them side by
side. Where something is of another type than a call takes, TypeError is raised.

Octets that come back as memoryviews are of what was given, and of a copy where that could be written, as a bytearray. A
file that is mapped to be read alone isn't copied: whoever can write into that file changes what was given, also while a
call runs, and ends the program by making the file shorter. Who can't exclude that gives bytes(mapped).

The shared library is made of the static ones, at the top of a clone, after `rt lib` in crates/der_c:

    cc -shared -o libder.so -Wl,--whole-archive crates/der_c/out/libder_c.a -Wl,--no-whole-archive \\
        "$(dirname "$(rt doc)")/c/liblibc_c.a"
"""
import ctypes
import dataclasses
import datetime
import enum
import functools
import hashlib
import mmap
import operator
import os
import re
from typing import Any, Callable, Dict, Iterable, Iterator, List, NamedTuple, Optional, Sequence, Tuple, TypeVar, Union

from . import _calls

# The most levels of nesting that an input may have.
MAX_NESTING = _calls.MAX_NESTING

NORMAL = _calls.NORMAL
LOOSE = _calls.LOOSE
UNKNOWN_KIND = _calls.UNKNOWN_KIND
TOO_LONG = _calls.TOO_LONG
NO_MEMORY = _calls.NO_MEMORY
NO_ROOM = _calls.NO_ROOM
NO_RANGE = _calls.NO_RANGE
NO_PART = _calls.NO_PART
# How many signers are asked for at first: where there are more, the input is read a second time.
FEW_SIGNERS = 64
# How many ranges there is room for at first, alike.
FEW_RANGES = 1024
# How many bags there is room for at first, alike.
FEW_BAGS = 64
# How many entries of a trust list there is room for at first, alike.
FEW_ENTRIES = 64
# What a call gets as a number that isn't given, or that no size_t holds, and as the place of a part that isn't given:
# where it looks at that, it refuses it.
NOT_GIVEN = (1 << 64) - 1
# How many contents octets of an object identifier dotted shows as numbers. A UUID under 2.25 has 20; and the longer a
# number is, the longer each of its octets takes.
MAX_DOTTED = 64
# Tags of elements; of a signer's signed attributes and of its unsigned ones, and of crls in signed data.
SEQUENCE, SET, UTC_TIME, GENERALIZED_TIME = 0x30, 0x31, 0x17, 0x18
SIGNED, UNSIGNED, CRLS = 0xA0, 0xA1, 0xA1
# The attribute signingTime (RFC 5652, 11.3).
SIGNING_TIME = "1.2.840.113549.1.9.5"
# Digests by their object identifiers, as hashlib names them.
DIGESTS = {
    "1.2.840.113549.2.5": "md5",
    "1.3.14.3.2.26": "sha1",
    "2.16.840.1.101.3.4.2.1": "sha256",
    "2.16.840.1.101.3.4.2.2": "sha384",
    "2.16.840.1.101.3.4.2.3": "sha512",
    "2.16.840.1.101.3.4.2.4": "sha224",
    "2.16.840.1.101.3.4.2.5": "sha512_224",
    "2.16.840.1.101.3.4.2.6": "sha512_256",
    "2.16.840.1.101.3.4.2.7": "sha3_224",
    "2.16.840.1.101.3.4.2.8": "sha3_256",
    "2.16.840.1.101.3.4.2.9": "sha3_384",
    "2.16.840.1.101.3.4.2.10": "sha3_512",
}

# The digests of pseudorandom functions (RFC 8018, B.1), by the object identifiers of these, as hashlib names them; and
# the function where PBKDF2 names none.
PRFS = {
    "1.2.840.113549.2.7": "sha1",
    "1.2.840.113549.2.8": "sha224",
    "1.2.840.113549.2.9": "sha256",
    "1.2.840.113549.2.10": "sha384",
    "1.2.840.113549.2.11": "sha512",
    "1.2.840.113549.2.12": "sha512_224",
    "1.2.840.113549.2.13": "sha512_256",
}
HMAC_WITH_SHA1 = "1.2.840.113549.2.7"

Bytes = Union[bytes, bytearray, memoryview]
# The octets of an input as they are kept.
_Whole = Union[bytes, memoryview]
# What is given, one by one.
_Item = TypeVar("_Item")
# A call of the library, which returns a status.
Call = Callable[..., int]


class Reason(str, enum.Enum):
    """Why an input is refused: a text, as "malformed", that is one of these."""

    MALFORMED = "malformed"
    MISSING = "missing"
    INVALID = "invalid"
    TOO_DEEP = "too deep"
    NO_RANGE = "no range"

    def __str__(self) -> str:
        return str(self.value)


# The reasons by their statuses in der.h.
REASONS = {
    _calls.MALFORMED: Reason.MALFORMED,
    _calls.MISSING: Reason.MISSING,
    _calls.INVALID: Reason.INVALID,
    _calls.TOO_DEEP: Reason.TOO_DEEP,
}


class Refused(ValueError):
    """An input that is no encoding of its kind, or of from_ber one that has no DER.

    reason is a Reason, and place the offset at which the input is refused: where
    the element begins that is invalid, nested too deep or none, or the end of the contents in which one is missing; of
    a set of one value that has two, where the first of them begins.
    """

    def __init__(self, reason: Reason, place: int) -> None:
        super().__init__(reason, place)
        self.reason = reason
        self.place = place

    def __str__(self) -> str:
        return f"{self.reason} at {self.place}"


class UnknownKind(LookupError):
    """A word that no kind has."""


class BadAttributes(ValueError):
    """A signer whose signed attributes break RFC 5652 (5.3, 11.1, 11.2), so that its signature counts for nothing.

    They are an empty set, lack messageDigest or contentType, have one of them several times, with no value or with
    several, or contentType is another than the content's; or there are none, and the content's type isn't id-data. It
    has none of the fields of a Signer, so it can't be verified by mistake; and unlike None it is true, so a list
    without false items still has it.

    Or attributes that build_attributes doesn't write: then part is an AttributesPart; where several parts can't be
    written, it is one of them. Of a signer that was read part is None. signer is None, but where build.signed raises
    it: there it is the index of the signer, from 0 on.
    """

    def __init__(self, part: Optional["AttributesPart"] = None, signer: Optional[int] = None) -> None:
        super().__init__(*([] if part is None else [part, signer]))
        self.part = part
        self.signer = signer

    def __str__(self) -> str:
        if self.part is None:
            return "signed attributes that RFC 5652 forbids"
        its_signer = "" if self.signer is None else f" of signer {self.signer}"
        return f"{self.part.name.lower()}{its_signer} can't be written"


class Verdict(NamedTuple):
    """What an accepted input is."""

    # whether it is the normal encoding of its value
    is_normal: bool
    # how many bytes that encoding has
    length: int
    # in a loose input, the offset from which on it ends as that encoding does
    loose_end: Optional[int]


class Part(enum.Enum):
    """A part of a container, by its number in der.h."""

    # of signed data, whatever the index is: the octets of its content that are hashed, none where that is detached
    HASHED_CONTENT = _calls.PART_HASHED_CONTENT
    # certificate number index, or another choice, as it is
    CERTIFICATE = _calls.PART_CERTIFICATE
    # of signer number index: what its signature covers where there are signed attributes, their encoding as a SET OF
    SIGNED_ATTRIBUTES = _calls.PART_SIGNED_ATTRIBUTES
    # the encoding of its issuer's Name, and the contents octets of the serial number, an INTEGER
    ISSUER = _calls.PART_ISSUER
    SERIAL_NUMBER = _calls.PART_SERIAL_NUMBER
    # the octets of its key identifier, where it is named by that
    KEY_IDENTIFIER = _calls.PART_KEY_IDENTIFIER
    # the contents octets of the object identifier (dotted makes text of them)
    DIGEST_ALGORITHM = _calls.PART_DIGEST_ALGORITHM
    # the encoding of its signature algorithm, and the octets of its signature
    SIGNATURE_ALGORITHM = _calls.PART_SIGNATURE_ALGORITHM
    SIGNATURE = _calls.PART_SIGNATURE
    # of a PKCS #12 file, without what is encrypted: X.509 certificate number index
    STORE_CERTIFICATE = _calls.PART_STORE_CERTIFICATE
    # PrivateKeyInfo number index, and EncryptedPrivateKeyInfo number index
    STORE_KEY = _calls.PART_STORE_KEY
    STORE_ENCRYPTED_KEY = _calls.PART_STORE_ENCRYPTED_KEY
    # bag number index, with all that it holds
    STORE_BAG = _calls.PART_STORE_BAG
    # of its MAC, whatever the index is
    MAC_DIGEST_ALGORITHM = _calls.PART_MAC_DIGEST_ALGORITHM
    MAC_DIGEST = _calls.PART_MAC_DIGEST
    MAC_SALT = _calls.PART_MAC_SALT


# The parts of a MAC.
MAC_PARTS = (Part.MAC_DIGEST_ALGORITHM, Part.MAC_DIGEST, Part.MAC_SALT)


class EnvelopePart(enum.Enum):
    """A part of enveloped data under its content type, a ContentInfo, whose items ranges lists."""

    # each RecipientInfo, as it is
    RECIPIENT = _calls.PART_RECIPIENT
    # contentEncryptionAlgorithm, with its parameters: one range
    ENCRYPTION_ALGORITHM = _calls.PART_ENCRYPTION_ALGORITHM
    # the octets of encryptedContent: one range, or none where they are elsewhere
    ENCRYPTED_CONTENT = _calls.PART_ENCRYPTED_CONTENT


# These, and their numbers, which no Part has.
_ENVELOPE_PARTS: Tuple[object, ...] = (*EnvelopePart, *(it.value for it in EnvelopePart))


class Mac(NamedTuple):
    """What a verifier of a PKCS #12 file's MAC needs beside the password. Whether the MAC is right isn't said here."""

    # where the file has the octets that the MAC covers
    covered: range
    # the object identifier of the digest algorithm, as "1.3.14.3.2.26"
    digest_algorithm: str
    # the MAC that the file has
    digest: bytes
    salt: bytes
    # how often the key derivation hashes
    iterations: int
    # the octets that the MAC covers
    octets: memoryview

    def __repr__(self) -> str:
        return _shown(self, **self._asdict())

    def __reduce__(self) -> Tuple[object, ...]:
        return Mac, _plain(self)


def _shown(of: object, **fields: object) -> str:
    """How an object with some fields is shown: octets of the input by their number."""
    said = {name: f"{len(it)} octets" if isinstance(it, memoryview) else repr(it) for name, it in fields.items()}
    return f"{type(of).__name__}({', '.join(f'{name}={it}' for name, it in said.items())})"


def _plain(fields: Iterable[object]) -> Tuple[object, ...]:
    """Fields as they are pickled: memoryviews, also in lists, as octets of their own."""
    return tuple(map(_plain_field, fields))


def _plain_field(it: object) -> object:
    """The same of one field. A field that is a NamedTuple is pickled by itself."""
    if isinstance(it, memoryview):
        return bytes(it)
    return type(it)(map(_plain_field, it)) if type(it) is list or type(it) is tuple else it


class _Element(NamedTuple):
    """An element in what the library accepted."""

    tag: int
    # with its tag and length, and without
    whole: memoryview
    contents: memoryview


class _SignedFile:
    """The elements of signed data that the library accepted, found once they are asked for."""

    def __init__(self, data: _Whole) -> None:
        self.octets = memoryview(data)

    def __reduce__(self) -> Tuple[object, ...]:
        return _SignedFile, (bytes(self.octets),)

    @functools.cached_property
    def fields(self) -> List[_Element]:
        """The components of SignedData (RFC 5652, 5.1)."""
        _, explicit = _inside(self.octets)
        return list(_inside(explicit.contents))

    @functools.cached_property
    def signers(self) -> List[memoryview]:
        """Each SignerInfo."""
        return [it.whole for it in _elements(self.fields[-1].contents)]

    def items(self, tag: int) -> Iterator[memoryview]:
        """The elements in a component that may be absent."""
        return (it.whole for part in self.fields[3:] if part.tag == tag for it in _elements(part.contents))


@dataclasses.dataclass(frozen=True, eq=False, repr=False)
class SignerInfo:
    """A signer as signed data have it (RFC 5652, 5.3). Nothing of it is verified: whoever made the file chose it."""

    _file: _SignedFile = dataclasses.field(repr=False, compare=False)
    # which of the signers it is, from 0 on
    index: int

    def __repr__(self) -> str:
        return _shown(self, index=self.index, element=self.element)

    def __reduce__(self) -> Tuple[object, ...]:
        return type(self), _plain(getattr(self, it.name) for it in dataclasses.fields(self))

    @property
    def element(self) -> memoryview:
        """The whole SignerInfo."""
        return self._file.signers[self.index]

    @property
    def issuer(self) -> Optional[memoryview]:
        """The issuer's Name, which name_text takes. None where a key identifier names the certificate."""
        named = self._parts[1]
        return next(_inside(named.whole)).whole if named.tag == SEQUENCE else None

    @property
    def serial_number(self) -> Optional[int]:
        """The serial number of the certificate, None where there is no issuer."""
        named = self._parts[1]
        if named.tag != SEQUENCE:
            return None
        _, number = _inside(named.whole)
        return int.from_bytes(number.contents, "big", signed=True)

    @property
    def key_identifier(self) -> Optional[memoryview]:
        """The octets of the key identifier that names the certificate. None where an issuer does."""
        named = self._parts[1]
        return None if named.tag == SEQUENCE else named.contents

    @property
    def attributes(self) -> Tuple[memoryview, ...]:
        """Each signed Attribute, in order: attribute_oid says its type, and attribute_values its values."""
        return self._attributes(SIGNED)

    @property
    def unsigned_attributes(self) -> Tuple[memoryview, ...]:
        """Each unsigned Attribute, as countersignatures and time stamps are."""
        return self._attributes(UNSIGNED)

    @property
    def signing_time(self) -> Optional[datetime.datetime]:
        """When the signer says that it signed, in UTC; None where it doesn't say.

        Raises ValueError where that is no time of RFC 5652, 11.3: in UTC, and in whole seconds.
        """
        found = [it for it in self.attributes if attribute_oid(it) == SIGNING_TIME]
        if not found:
            return None
        values = [value for it in found for value in attribute_values(it)]
        if len(values) != 1:
            raise ValueError(f"signingTime has {len(values)} values")
        return _time(*_elements(values[0]))

    @property
    def _parts(self) -> List[_Element]:
        """The components of the SignerInfo."""
        return list(_inside(self.element))

    def _attributes(self, tag: int) -> Tuple[memoryview, ...]:
        """Each Attribute in the set with a tag, if there is one."""
        return tuple(it.whole for part in self._parts[3:] if part.tag == tag for it in _elements(part.contents))


@dataclasses.dataclass(frozen=True, repr=False)
class Signer(SignerInfo):
    """What a verification of one signer needs (RFC 5652, 5.3 to 5.6), as octets of the input. A verifier

    1. where is_over_attributes is true, hashes the content by digest_algorithm, and compares with digest;
    2. verifies signature over covered, by signature_algorithm and the certificate's key.

    Where content is None the signature is detached, and the content is the caller's. So is what the signature covers
    where covered is None. That the certificate is to be trusted, and may sign, isn't looked at. A part may be empty,
    and is false then: compare with None.

    Beside that it has what each SignerInfo has, found in the octets that the library accepted.
    """

    # whether the signature covers signed attributes, and not the content itself
    is_over_attributes: bool
    # what it covers: signed attributes as a SET OF, so as bytes of their own; or the content, None where it is detached
    covered: Union[bytes, memoryview, None]
    # messageDigest, which the digest of the content has to be; None without signed attributes
    digest: Optional[memoryview]
    # the contents octets of the content, which are hashed; None where the signature is detached
    content: Optional[memoryview]
    # AlgorithmIdentifiers, with their parameters
    digest_algorithm: memoryview
    signature_algorithm: memoryview
    signature: memoryview
    # the first that has the signer's issuer and serial number, or its key identifier; None where the input has none
    certificate: Optional[memoryview]

    def __repr__(self) -> str:
        names = {"digest_oid": self.digest_oid, "signature_oid": self.signature_oid}
        parts = {"content": self.content, "certificate": self.certificate}
        return _shown(self, index=self.index, is_over_attributes=self.is_over_attributes, **names, **parts)

    @property
    def message_digest(self) -> Optional[memoryview]:
        """The same as digest."""
        return self.digest

    @property
    def digest_oid(self) -> str:
        """The object identifier of digest_algorithm, as "2.16.840.1.101.3.4.2.1"."""
        return _first_oid(self.digest_algorithm)

    @property
    def signature_oid(self) -> str:
        """The object identifier of signature_algorithm."""
        return _first_oid(self.signature_algorithm)


class BagKind(enum.Enum):
    """What a bag of a PKCS #12 store holds: up to SAFE_CONTENTS the last number of its object identifier (RFC 7292,
    4.2).
    """

    OTHER = _calls.BAG_OTHER
    KEY = _calls.BAG_KEY
    SHROUDED_KEY = _calls.BAG_SHROUDED_KEY
    # of X.509
    CERTIFICATE = _calls.BAG_CERTIFICATE
    CRL = _calls.BAG_CRL
    SECRET = _calls.BAG_SECRET
    # bags, which follow it one level down
    SAFE_CONTENTS = _calls.BAG_SAFE_CONTENTS
    # no bag, but a whole ContentInfo that isn't data: encrypted bags, say
    UNREAD = _calls.BAG_UNREAD
    # of another type than X.509, as SDSI
    OTHER_CERTIFICATE = _calls.BAG_OTHER_CERTIFICATE
    OTHER_CRL = _calls.BAG_OTHER_CRL


# What a local key identifier connects.
KEYS, CERTIFICATE_BAGS = (BagKind.KEY, BagKind.SHROUDED_KEY), (BagKind.CERTIFICATE,)


class Bag(NamedTuple):
    """A bag of a PKCS #12 store that isn't encrypted, as octets of the store. A part may be empty, and is false then:
    compare with None.
    """

    kind: BagKind
    # in how many bags it is
    level: int
    # the whole bag
    element: memoryview
    # the DER of the X.509 certificate or revocation list; else the element that the bag holds, or of a certificate or a
    # list of another type that element
    value: memoryview
    # None where it has none
    friendly_name: Optional[str]
    # its octets, which a key and its certificate have in common; None where it has none
    local_key_id: Optional[memoryview]

    def __repr__(self) -> str:
        return _shown(self, **self._asdict())

    def __reduce__(self) -> Tuple[object, ...]:
        return Bag, _plain(self)

    @property
    def name(self) -> str:
        """The friendly name, or nothing where there is none."""
        return self.friendly_name or ""

    @property
    def attributes(self) -> Tuple[memoryview, ...]:
        """Each Attribute of the bag: attribute_oid says its type, and attribute_values its values."""
        if self.kind is BagKind.UNREAD:
            return ()
        return tuple(it.whole for part in list(_inside(self.element))[2:] for it in _elements(part.contents))


class Certificate(NamedTuple):
    """The parts of an X.509 certificate (RFC 5280, 4.1), as octets of it. Nothing of it is judged, neither its signature
    nor its times. A part may be empty, and is false then: compare with None.
    """

    # the contents octets of serialNumber, an INTEGER
    serial_octets: memoryview
    # elements of Names, which name_text takes
    issuer: memoryview
    # the element with both times, whatever is in it
    validity: memoryview
    subject: memoryview
    # the whole element of the key, whatever is in it
    subject_public_key_info: memoryview
    # of a key that reads as SubjectPublicKeyInfo, else None: the contents octets of its algorithm's object identifier
    key_algorithm: Optional[memoryview]
    # the element of the algorithm's parameters, None where there are none
    key_parameters: Optional[memoryview]
    # the octets of subjectPublicKey, a BIT STRING, after the count of unused bits
    public_key: Optional[memoryview]
    # what is in the first [3] after the key: the element of Extensions, where it is one; None where there is no [3]
    extensions: Optional[memoryview]
    # the octets of the first subjectKeyIdentifier, None where there is none that reads as one
    key_identifier: Optional[memoryview]

    def __repr__(self) -> str:
        return _shown(self, **self._asdict())

    def __reduce__(self) -> Tuple[object, ...]:
        return Certificate, _plain(self)

    @property
    def serial_number(self) -> int:
        """The serial number."""
        return int.from_bytes(self.serial_octets, "big", signed=True)

    @property
    def key_oid(self) -> Optional[str]:
        """The object identifier of the key's algorithm, as "1.2.840.113549.1.1.1"."""
        return None if self.key_algorithm is None else dotted(bytes(self.key_algorithm))


class ImageData(NamedTuple):
    """The parts of SpcPeImageData, which an Authenticode signature has of a program, as octets of the signed data."""

    # the contents octets of the flags, a BIT STRING: first the count of unused bits; None where there are none, which
    # means the bits 1 0 0
    flags: Optional[memoryview]
    # the element in file, an SpcLink, without the [0] around it; None where there is none
    link: Optional[memoryview]

    def __repr__(self) -> str:
        return _shown(self, **self._asdict())

    def __reduce__(self) -> Tuple[object, ...]:
        return ImageData, _plain(self)


class IndirectData(NamedTuple):
    """The parts of SpcIndirectDataContent, as octets of the signed data: which digest an Authenticode signature has,
    and of what. No signature is verified, and no digest is compared with a file. A part may be empty, and is false
    then: compare with None.
    """

    # the contents octets of the attribute's object identifier, which says what was hashed: a program, a script
    attribute_type: memoryview
    # the element of the attribute's value, whatever is in it; None where there is none
    attribute_value: Optional[memoryview]
    # the AlgorithmIdentifier of the digest, with its parameters
    digest_algorithm: memoryview
    # the digest of the file that was signed
    digest: memoryview
    # None unless the attribute is that of a program, and its value a SEQUENCE of a BIT STRING and of any element in [0],
    # each of which may be absent
    image: Optional[ImageData]

    def __repr__(self) -> str:
        return _shown(self, **self._asdict())

    def __reduce__(self) -> Tuple[object, ...]:
        return IndirectData, _plain(self)

    @property
    def attribute_oid(self) -> str:
        """The object identifier of the attribute, as "1.3.6.1.4.1.311.2.1.15", which is that of a program."""
        return dotted(bytes(self.attribute_type))

    @property
    def digest_oid(self) -> str:
        """The object identifier of digest_algorithm, as "2.16.840.1.101.3.4.2.1"."""
        return _first_oid(self.digest_algorithm)


class TrustList(NamedTuple):
    """The parts of a trust list (CertificateTrustList) but its entries, as octets of the signed data. Nothing of it is
    judged, neither its signature nor its times. A part may be empty, and is false then: compare with None.
    """

    # the contents octets of version, an INTEGER; None where there is none, which means v1
    version_octets: Optional[memoryview]
    # the element of subjectUsage, a SEQUENCE OF OBJECT IDENTIFIER
    usages: memoryview
    # the octets of listIdentifier, None where there is none
    list_identifier: Optional[memoryview]
    # the contents octets of sequenceNumber, an INTEGER; None where there is none
    sequence_octets: Optional[memoryview]
    # the element of ctlThisUpdate, a UTCTime or a GeneralizedTime
    this_update: memoryview
    # that of ctlNextUpdate, None where the list doesn't say when the next one comes
    next_update: Optional[memoryview]
    # the AlgorithmIdentifier by which the entries are named, with its parameters
    algorithm: memoryview
    # the element in ctlExtensions, without the [0] around it, whatever is in it; None where there are none
    extensions: Optional[memoryview]

    def __repr__(self) -> str:
        return _shown(self, **self._asdict())

    def __reduce__(self) -> Tuple[object, ...]:
        return TrustList, _plain(self)

    @property
    def version(self) -> Optional[int]:
        """The version, None where the list has none."""
        return _number(self.version_octets)

    @property
    def usage_oids(self) -> Tuple[str, ...]:
        """What the list is for: object identifiers, as "1.3.6.1.4.1.311.10.3.9", which is that of a list of roots."""
        return tuple(dotted(bytes(it.contents)) for it in _inside(self.usages))

    @property
    def sequence_number(self) -> Optional[int]:
        """The sequence number, None where the list has none."""
        return _number(self.sequence_octets)

    @property
    def this_update_time(self) -> datetime.datetime:
        """Since when the list is in force, in UTC. ValueError says that it is the year 0, which Python doesn't have."""
        return _time(*_elements(self.this_update))

    @property
    def next_update_time(self) -> Optional[datetime.datetime]:
        """When the next list comes, alike; None where the list doesn't say."""
        return None if self.next_update is None else _time(*_elements(self.next_update))

    @property
    def algorithm_oid(self) -> str:
        """The object identifier of algorithm, as "1.3.14.3.2.26"."""
        return _first_oid(self.algorithm)


class TrustEntry(NamedTuple):
    """An entry of a trust list (TrustedSubject), as octets of the signed data. A part may be empty, and is false then:
    compare with None.
    """

    # the octets of subjectIdentifier: of a certificate its digest, by the list's algorithm
    identifier: memoryview
    # the element of subjectAttributes, a SET OF Attribute; None where there is none
    attributes: Optional[memoryview]

    def __repr__(self) -> str:
        return _shown(self, **self._asdict())

    def __reduce__(self) -> Tuple[object, ...]:
        return TrustEntry, _plain(self)


class PasswordHolder(enum.Enum):
    """What the input of password_parameters is, and what build_parameters makes, by its number in der.h."""

    # an AlgorithmIdentifier
    ALGORITHM = _calls.HOLDER_ALGORITHM
    # an EncryptedPrivateKeyInfo: what Store.encrypted_keys has, or the DER of a file "ENCRYPTED PRIVATE KEY" of PKCS #8
    KEY = _calls.HOLDER_KEY
    # a ContentInfo of encryptedData, of version 0 and without attributes: what Store.unread has may be one
    CONTENTS = _calls.HOLDER_CONTENTS


class PasswordPart(enum.Enum):
    """What of PasswordParameters can't be written, by its number in der.h: a field, in capitals, or the scheme."""

    # it isn't given, or is no object identifier, or not one of PBES1 or of PKCS #12 where a flag says that
    ALGORITHM = _calls.PASSWORD_ALGORITHM
    # it is no element
    PARAMETERS = _calls.PASSWORD_PARAMETERS
    # it isn't given, or is no object identifier
    DERIVATION = _calls.PASSWORD_DERIVATION
    # it is no element
    DERIVATION_PARAMETERS = _calls.PASSWORD_DERIVATION_PARAMETERS
    # it isn't given, of PBES1 or PKCS #12, or of PBKDF2 without derivation_parameters; any octets can be written
    SALT = _calls.PASSWORD_SALT
    # it is no object identifier
    PRF = _calls.PASSWORD_PRF
    # it isn't given, or is no object identifier
    ENCRYPTION = _calls.PASSWORD_ENCRYPTION
    # it is no element
    ENCRYPTION_PARAMETERS = _calls.PASSWORD_ENCRYPTION_PARAMETERS
    # never from Python: any octets can be written
    INITIALIZATION_VECTOR = _calls.PASSWORD_INITIALIZATION_VECTOR
    # of a key: it isn't given
    ENCRYPTED = _calls.PASSWORD_ENCRYPTED
    # it isn't given, or is negative, or 2**32 or more
    ITERATIONS = _calls.PASSWORD_ITERATIONS
    # it is negative, or 2**32 or more
    KEY_LENGTH = _calls.PASSWORD_KEY_LENGTH
    # more than one of is_pbes1, is_pkcs12 and is_pbes2 is true
    SCHEME = _calls.PASSWORD_SCHEME


class BadParameters(ValueError):
    """Parameters that build_parameters doesn't write. part is a PasswordPart: the first that can't be written."""

    def __init__(self, part: PasswordPart) -> None:
        super().__init__(part)
        self.part = part

    def __str__(self) -> str:
        return f"{self.part.name.lower()} can't be written"


class PasswordParameters(NamedTuple):
    """How data is encrypted with a password (RFC 8018; RFC 7292, C), as numbers and octets, which password_parameters
    gives as memoryviews of its input. Nothing is derived, decrypted or judged, and whoever made the input chose all of
    this: limit the count before a key is derived, and compare key_length and the length of the vector with what the
    cipher takes.

    build_parameters writes them: as they were read, with other fields by _replace, or made by a caller, who leaves out
    what isn't written. It writes encrypted as it is given: with another salt, count, function, scheme or vector derive
    the key anew, and encrypt anew, since otherwise nobody can decrypt it.

    A part may be empty, and is false then, as a number may be 0: compare with None.
    """

    # the contents octets of the algorithm's object identifier
    algorithm: Bytes = b""
    # the element of its parameters, whatever is in it; None where there are none
    parameters: Optional[Bytes] = None
    # whether the algorithm is one of PBES1 (RFC 8018, A.3), and these read as PBEParameter: PBKDF1 derives the key, and
    # the vector with it
    is_pbes1: bool = False
    # whether the algorithm is one of pkcs-12PbeIds, and these read as pkcs-12PbeParams: the key and the vector are
    # derived as RFC 7292, B.2, says
    is_pkcs12: bool = False
    # whether the algorithm is id-PBES2, and they read as PBES2-params
    is_pbes2: bool = False
    # of PBES2, else None: the contents octets of the object identifier of the key derivation
    derivation: Optional[Bytes] = None
    # the element of its parameters; None where there are none
    derivation_parameters: Optional[Bytes] = None
    # whether the key derivation is id-PBKDF2, and these read as PBKDF2-params; it is looked at only within PBES2
    is_pbkdf2: bool = False
    # of PBES1, PKCS #12 and PBKDF2, else None: the octets of the salt; None also where PBKDF2 has another source of it
    salt: Optional[Bytes] = None
    # of these three, else None: the iteration count
    iterations: Optional[int] = None
    # of PBKDF2, else None: the length of the key in octets; None also where it isn't said
    key_length: Optional[int] = None
    # of PBKDF2, else None: the contents octets of the object identifier of the pseudorandom function; where is_pbkdf2,
    # None means HMAC with SHA-1
    prf: Optional[Bytes] = None
    # of PBES2, else None: the contents octets of the object identifier of the encryption scheme
    encryption: Optional[Bytes] = None
    # the element of its parameters; None where there are none
    encryption_parameters: Optional[Bytes] = None
    # the octets of these, where they read as OCTET STRING, as those of AES in CBC mode
    initialization_vector: Optional[Bytes] = None
    # what is encrypted: the octets of encryptedData or encryptedContent; None where there are none
    encrypted: Optional[Bytes] = None

    def __repr__(self) -> str:
        return _shown(self, **self._asdict())

    def __reduce__(self) -> Tuple[object, ...]:
        return PasswordParameters, _plain(self)

    @property
    def algorithm_oid(self) -> str:
        """The object identifier of the algorithm, as "1.2.840.113549.1.5.13", which is that of PBES2."""
        return dotted(bytes(self.algorithm))

    @property
    def derivation_oid(self) -> Optional[str]:
        """The object identifier of the key derivation, as "1.2.840.113549.1.5.12"; None where there is none."""
        return None if self.derivation is None else dotted(bytes(self.derivation))

    @property
    def prf_oid(self) -> Optional[str]:
        """The object identifier of the pseudorandom function, which prf_digest takes: where PBKDF2 names none, that of
        HMAC with SHA-1. None unless it is PBKDF2.
        """
        if not self.is_pbkdf2:
            return None
        return HMAC_WITH_SHA1 if self.prf is None else dotted(bytes(self.prf))

    @property
    def encryption_oid(self) -> Optional[str]:
        """The object identifier of the encryption scheme, as "2.16.840.1.101.3.4.1.42"; None where there is none."""
        return None if self.encryption is None else dotted(bytes(self.encryption))


class BagPart(enum.Enum):
    """What of a GivenBag can't be written, by its number in der.h: a field, in capitals."""

    # build_bags writes none of this kind: one past SAFE_CONTENTS
    KIND = _calls.BAG_PART_KIND
    # of BagKind.OTHER: it isn't given, or is no object identifier, or the one of another kind
    IDENTIFIER = _calls.BAG_PART_IDENTIFIER
    # it isn't given, or is no element, or not what a bag of its kind holds
    VALUE = _calls.BAG_PART_VALUE
    # it has a surrogate, which is no character
    FRIENDLY_NAME = _calls.BAG_PART_FRIENDLY_NAME
    # never from Python: any octets can be written
    LOCAL_KEY_ID = _calls.BAG_PART_LOCAL_KEY_ID
    # one of them isn't exactly one Attribute
    ATTRIBUTES = _calls.BAG_PART_ATTRIBUTES


class StorePart(enum.Enum):
    """What build_store can't write, by its number in der.h: what it is given, or a field of a GivenMac, in capitals."""

    # it is no AuthenticatedSafe
    SAFE = _calls.STORE_PART_SAFE
    # it isn't given, or is no object identifier
    DIGEST_ALGORITHM = _calls.STORE_PART_DIGEST_ALGORITHM
    # it is no element
    DIGEST_PARAMETERS = _calls.STORE_PART_DIGEST_PARAMETERS
    # it isn't given; any octets can be written
    DIGEST = _calls.STORE_PART_DIGEST
    # alike
    SALT = _calls.STORE_PART_SALT
    # it is negative, or 2**32 or more
    ITERATIONS = _calls.STORE_PART_ITERATIONS


class AttributesPart(enum.Enum):
    """What build_attributes can't write, by its number in der.h: what it is given, in capitals."""

    # it is no object identifier
    CONTENT_TYPE = _calls.ATTRIBUTES_PART_CONTENT_TYPE
    # never from Python: any octets can be written
    MESSAGE_DIGEST = _calls.ATTRIBUTES_PART_MESSAGE_DIGEST
    # in UTC it is before the year 1, or after the year 9999
    SIGNING_TIME = _calls.ATTRIBUTES_PART_SIGNING_TIME
    # one of them isn't exactly one Attribute
    ATTRIBUTES = _calls.ATTRIBUTES_PART_ATTRIBUTES


class SignedPart(enum.Enum):
    """What build_signed can't write, by its number in der.h: what it is given, or a field of a GivenSigner, in capitals
    and in the singular.
    """

    # it isn't given, or is no object identifier
    CONTENT_TYPE = _calls.SIGNED_PART_CONTENT_TYPE
    # where is_element, it isn't exactly one element, with a tag of one octet; or there are no signers, and content is
    # given, or its type isn't id-data (RFC 5652, 5.2)
    CONTENT = _calls.SIGNED_PART_CONTENT
    # it is no element with the tag of a certificate, or of another choice (RFC 5652, 10.2.2)
    CERTIFICATE = _calls.SIGNED_PART_CERTIFICATE
    # it is no element with the tag of a revocation list, or of the other choice (10.2.1)
    CRL = _calls.SIGNED_PART_CRL
    # of a signer: certificate is none, or neither it nor key_identifier is given, or both are
    IDENTIFIER = _calls.SIGNED_PART_IDENTIFIER
    # it isn't given, or is no AlgorithmIdentifier
    DIGEST_ALGORITHM = _calls.SIGNED_PART_DIGEST_ALGORITHM
    # they are no SET OF Attribute, or an empty one, or not as build_signed asks; or they aren't given, and the type of
    # the content isn't id-data
    SIGNED_ATTRIBUTES = _calls.SIGNED_PART_SIGNED_ATTRIBUTES
    # it isn't given, or is no AlgorithmIdentifier
    SIGNATURE_ALGORITHM = _calls.SIGNED_PART_SIGNATURE_ALGORITHM
    # it isn't given; any octets can be written
    SIGNATURE = _calls.SIGNED_PART_SIGNATURE
    # one of them isn't exactly one Attribute
    UNSIGNED_ATTRIBUTES = _calls.SIGNED_PART_UNSIGNED_ATTRIBUTES


class IndirectPart(enum.Enum):
    """What of a GivenIndirect can't be written, by its number in der.h: a field, or one of its image, in capitals."""

    # there is no image, and it isn't given, or is no object identifier
    ATTRIBUTE_TYPE = _calls.INDIRECT_PART_ATTRIBUTE_TYPE
    # there is no image, and it is no element
    ATTRIBUTE_VALUE = _calls.INDIRECT_PART_ATTRIBUTE_VALUE
    # it isn't given, or is no AlgorithmIdentifier
    DIGEST_ALGORITHM = _calls.INDIRECT_PART_DIGEST_ALGORITHM
    # it isn't given; any octets can be written
    DIGEST = _calls.INDIRECT_PART_DIGEST
    # they are no contents octets of a BIT STRING
    IMAGE_FLAGS = _calls.INDIRECT_PART_IMAGE_FLAGS
    # it is no element
    IMAGE_LINK = _calls.INDIRECT_PART_IMAGE_LINK


class RecipientPart(enum.Enum):
    """What of a GivenRecipient can't be written, by its number in der.h: a field, or what names it, in capitals."""

    # certificate is none, or neither it nor key_identifier is given, or both are; or where is_kek, key_identifier isn't
    # given
    IDENTIFIER = _calls.RECIPIENT_PART_IDENTIFIER
    # it isn't given, or is no AlgorithmIdentifier
    ALGORITHM = _calls.RECIPIENT_PART_ALGORITHM
    # it isn't given; any octets can be written
    KEY = _calls.RECIPIENT_PART_KEY


class EnvelopedPart(enum.Enum):
    """What build_enveloped can't write, by its number in der.h: what it is given, in capitals, and one of the
    recipients in the singular. An EnvelopePart is another thing: one that ranges lists.
    """

    # it isn't given, or is no object identifier
    CONTENT_TYPE = _calls.ENVELOPED_PART_CONTENT_TYPE
    # it isn't given, or is no AlgorithmIdentifier
    ALGORITHM = _calls.ENVELOPED_PART_ALGORITHM
    # never from Python: any octets can be written
    CONTENT = _calls.ENVELOPED_PART_CONTENT
    # it is no element with the tag of a RecipientInfo (RFC 5652, 6.2); or it has that of one with a key pair, and isn't
    # a SEQUENCE that begins with the version 0 or 2
    RECIPIENT = _calls.ENVELOPED_PART_RECIPIENT
    # there are none
    RECIPIENTS = _calls.ENVELOPED_PART_RECIPIENTS
    # they are no SET OF Attribute, or an empty one
    ATTRIBUTES = _calls.ENVELOPED_PART_ATTRIBUTES


class BadBag(ValueError):
    """Bags that build_bags doesn't write. bag is the index of the first that can't be written, from 0 on, and part a
    BagPart: the first of it that can't. content is None, but where build.store raises it: there it is the index of the
    content, from 0 on, and bag that within its list.
    """

    def __init__(self, bag: int, part: BagPart, content: Optional[int] = None) -> None:
        super().__init__(bag, part, content)
        self.bag = bag
        self.part = part
        self.content = content

    def __str__(self) -> str:
        its_content = "" if self.content is None else f" of content {self.content}"
        return f"{self.part.name.lower()} of bag {self.bag}{its_content} can't be written"


class BadContent(ValueError):
    """Contents that build_safe doesn't write. content is the index of the first that can't be written, from 0 on."""

    def __init__(self, content: int) -> None:
        super().__init__(content)
        self.content = content

    def __str__(self) -> str:
        return f"content {self.content} can't be written"


class BadStore(ValueError):
    """What build_store doesn't write. part is a StorePart: the first that can't be written."""

    def __init__(self, part: StorePart) -> None:
        super().__init__(part)
        self.part = part

    def __str__(self) -> str:
        return f"{self.part.name.lower()} can't be written"


class BadSigned(ValueError):
    """Signed data that build_signed doesn't write. part is a SignedPart; where several parts can't be written, it is
    one of them. index is that of the certificate, the revocation list or the signer that it is of, from 0 on; None
    where part is the content or its type.
    """

    def __init__(self, part: SignedPart, index: Optional[int] = None) -> None:
        super().__init__(part, index)
        self.part = part
        self.index = index

    def __str__(self) -> str:
        name = self.part.name.lower()
        if self.index is None:
            return f"{name} can't be written"
        of = "" if self.part in (SignedPart.CERTIFICATE, SignedPart.CRL) else "of signer "
        return f"{name} {of}{self.index} can't be written"


class BadIndirect(ValueError):
    """Indirect data that build_indirect doesn't write. part is an IndirectPart; where several parts can't be written,
    it is one of them.
    """

    def __init__(self, part: IndirectPart) -> None:
        super().__init__(part)
        self.part = part

    def __str__(self) -> str:
        return f"{self.part.name.lower()} can't be written"


class BadRecipient(ValueError):
    """A recipient that build_recipient doesn't write. part is a RecipientPart; where several parts can't be written, it
    is one of them. index is None, but where build.enveloped raises it: there it is the index of the recipient, from 0
    on.
    """

    def __init__(self, part: RecipientPart, index: Optional[int] = None) -> None:
        super().__init__(part, index)
        self.part = part
        self.index = index

    def __str__(self) -> str:
        its_recipient = "" if self.index is None else f" of recipient {self.index}"
        return f"{self.part.name.lower()}{its_recipient} can't be written"


class BadEnveloped(ValueError):
    """Enveloped data that build_enveloped doesn't write. part is an EnvelopedPart; where several parts can't be
    written, it is one of them. index is that of the recipient that it is, from 0 on; None where part is another one.
    """

    def __init__(self, part: EnvelopedPart, index: Optional[int] = None) -> None:
        super().__init__(part, index)
        self.part = part
        self.index = index

    def __str__(self) -> str:
        its_index = "" if self.index is None else f" {self.index}"
        return f"{self.part.name.lower()}{its_index} can't be written"


class GivenBag(NamedTuple):
    """A bag that build_bags writes: in each field what a Bag has in the field of that name, or what it leaves out."""

    # up to BagKind.SAFE_CONTENTS
    kind: BagKind
    # the DER of the X.509 certificate or revocation list; else the element that the bag holds: a PrivateKeyInfo, an
    # EncryptedPrivateKeyInfo that bags reads, a SecretBag (RFC 7292, 4.2.5), or bags, as build_bags writes them
    value: Bytes
    # of any characters; None where it has none
    friendly_name: Optional[str] = None
    # its octets, which a key and its certificate have in common; None where it has none
    local_key_id: Optional[Bytes] = None
    # further ones, each exactly one Attribute, in any order; of these, friendlyName and localKeyId aren't written
    attributes: Sequence[Bytes] = ()
    # of BagKind.OTHER its object identifier, as "1.2.3"
    identifier: Optional[str] = None

    def __reduce__(self) -> Tuple[object, ...]:
        return type(self), _plain(self)


class GivenContent(NamedTuple):
    """A content that build_safe writes."""

    octets: Bytes
    # whether these are bags, as build_bags writes them, which stay in clear; otherwise they are a ContentInfo of
    # another type than data, as encrypted bags
    is_data: bool

    def __reduce__(self) -> Tuple[object, ...]:
        return type(self), _plain(self)


class GivenMac(NamedTuple):
    """The MAC that build_store writes: in each field what a Mac has in the field of that name, or what it leaves out.
    Nothing is hashed or judged: whoever has the password makes the MAC, over what build_safe wrote.
    """

    # an object identifier, as "2.16.840.1.101.3.4.2.1"
    digest_algorithm: str
    # the MAC itself
    digest: Bytes
    salt: Bytes
    # how often the key derivation hashes
    iterations: int
    # the element of the algorithm's parameters. None is NULL, which SHA-1, SHA-224, SHA-256, SHA-384 and SHA-512 have
    # whatever is given
    digest_parameters: Optional[Bytes] = None

    def __reduce__(self) -> Tuple[object, ...]:
        return type(self), _plain(self)


class GivenSigner(NamedTuple):
    """A signer that build_signed writes (RFC 5652, 5.3), which is named by its certificate or by a key identifier: one
    of the two is given. Of a Signer that was read, digest_algorithm, signature_algorithm, signature and
    unsigned_attributes can be given as they are, of certificate and key_identifier that which named it, and covered as
    signed_attributes where is_over_attributes is true. Where certificate and key_identifier are None, issuer and serial
    number name it: give its certificate from elsewhere. Library.signers also reads one with two signing times, or with
    one that isn't as build_signed asks, which build_signed doesn't write.
    """

    # AlgorithmIdentifiers, with their parameters
    digest_algorithm: Bytes
    signature_algorithm: Bytes
    # the signature over signed_attributes, or over the content where these are None
    signature: Bytes
    # the DER of its X.509 certificate, whose issuer and serial number name it
    certificate: Optional[Bytes] = None
    # the octets of that certificate's subjectKeyIdentifier
    key_identifier: Optional[Bytes] = None
    # the element of a SET OF Attribute, as build_attributes writes it
    signed_attributes: Optional[Bytes] = None
    # those that the signature doesn't cover, each exactly one Attribute. They are written in this order: DER (X.690,
    # 11.6) has them sorted by their octets
    unsigned_attributes: Sequence[Bytes] = ()

    def __reduce__(self) -> Tuple[object, ...]:
        return type(self), _plain(self)


class GivenImage(NamedTuple):
    """Image data that build_indirect writes, SpcPeImageData: in each field what ImageData have in the field of that
    name.
    """

    # the contents octets of a BIT STRING: first the count of unused bits. None where there are none: left out they mean
    # includeResources. DER leaves out that default (X.690, 11.5), whether as 07 80 or 05 80; flags that are given are
    # written as they are, also with unused bits that aren't 0, which 11.2.1 forbids
    flags: Optional[Bytes] = None
    # an element, in signatures an SpcLink, without the [0] around it; None where there is none
    link: Optional[Bytes] = None

    def __reduce__(self) -> Tuple[object, ...]:
        return type(self), _plain(self)


class GivenIndirect(NamedTuple):
    """Indirect data that build_indirect writes: in each field what IndirectData have in the field of that name, or what
    they leave out.
    """

    # the AlgorithmIdentifier of the digest, with its parameters
    digest_algorithm: Bytes
    # the digest of the file that is to be signed, which isn't made here
    digest: Bytes
    # of a program; None of another file, which the attribute says
    image: Union[GivenImage, ImageData, None] = None
    # the contents octets of the attribute's object identifier, as oid_octets makes them; not looked at beside an image
    attribute_type: Optional[Bytes] = None
    # the element of its value, whatever is in it; None where it has none; not looked at beside an image
    attribute_value: Optional[Bytes] = None

    def __reduce__(self) -> Tuple[object, ...]:
        return type(self), _plain(self)


class GivenRecipient(NamedTuple):
    """A recipient that build_recipient writes, with a key that the caller encrypted. One that has a key pair
    (KeyTransRecipientInfo; RFC 5652, 6.2.1) is named by its certificate or by a key identifier: one of the two is
    given. One that has a key-encryption key, where is_kek, has a key identifier (KEKRecipientInfo; 6.2.3).
    """

    # an AlgorithmIdentifier, with its parameters: how the key is encrypted
    algorithm: Bytes
    # the encrypted key: the octets of encryptedKey
    key: Bytes
    # the DER of its X.509 certificate, whose issuer and serial number name it
    certificate: Optional[Bytes] = None
    # the octets of that certificate's subjectKeyIdentifier; where is_kek, those that name the key-encryption key
    key_identifier: Optional[Bytes] = None
    # whether it has a key-encryption key, and no key pair
    is_kek: bool = False

    def __reduce__(self) -> Tuple[object, ...]:
        return type(self), _plain(self)


def _number(contents: Optional[memoryview]) -> Optional[int]:
    """The number that the contents octets of an INTEGER hold, None where it isn't there."""
    return None if contents is None else int.from_bytes(contents, "big", signed=True)


def _taken(it: _calls.Range, data: memoryview) -> memoryview:
    """The octets of the input in a range."""
    return data[it.start : it.start + it.len]


def _signer(row: _calls.SignerParts, file: _SignedFile, index: int) -> Union[Signer, BadAttributes]:
    """The signer of the input that has these parts."""
    if row.status != NORMAL:
        return BadAttributes()
    data = file.octets
    content = _taken(row.content, data) if row.has_content else None
    covered = b"\x31" + _taken(row.covered, data)[1:] if row.over_attributes else content
    return Signer(
        file,
        index,
        bool(row.over_attributes),
        covered,
        _taken(row.digest, data) if row.over_attributes else None,
        content,
        _taken(row.digest_algorithm, data),
        _taken(row.signature_algorithm, data),
        _taken(row.signature, data),
        _taken(row.certificate, data) if row.has_certificate else None,
    )


def _bag(row: _calls.BagParts, data: memoryview) -> Bag:
    """The bag of the store that has these parts."""
    name = bytes(_taken(row.friendly_name, data)).decode("utf-16-be") if row.has_friendly_name else None
    return Bag(
        BagKind(row.kind),
        row.level,
        _taken(row.element, data),
        _taken(row.value, data),
        name,
        _taken(row.local_key_id, data) if row.has_local_key_id else None,
    )


def _certificate(parts: _calls.CertificateParts, data: memoryview) -> Certificate:
    """The certificate that has these parts."""
    return Certificate(
        _taken(parts.serial_number, data),
        _taken(parts.issuer, data),
        _taken(parts.validity, data),
        _taken(parts.subject, data),
        _taken(parts.subject_public_key_info, data),
        _taken(parts.key_algorithm, data) if parts.has_key else None,
        _taken(parts.key_parameters, data) if parts.has_key_parameters else None,
        _taken(parts.public_key, data) if parts.has_key else None,
        _taken(parts.extensions, data) if parts.has_extensions else None,
        _taken(parts.key_identifier, data) if parts.has_key_identifier else None,
    )


def _image(parts: _calls.IndirectParts, data: memoryview) -> ImageData:
    """The image data that have these parts."""
    return ImageData(
        _taken(parts.image_flags, data) if parts.has_image_flags else None,
        _taken(parts.image_link, data) if parts.has_image_link else None,
    )


def _indirect(parts: _calls.IndirectParts, data: memoryview) -> IndirectData:
    """The indirect data that have these parts."""
    return IndirectData(
        _taken(parts.attribute_type, data),
        _taken(parts.attribute_value, data) if parts.has_attribute_value else None,
        _taken(parts.digest_algorithm, data),
        _taken(parts.digest, data),
        _image(parts, data) if parts.is_image else None,
    )


def _trust_list(parts: _calls.TrustListParts, data: memoryview) -> TrustList:
    """The trust list that has these parts."""
    return TrustList(
        _taken(parts.version, data) if parts.has_version else None,
        _taken(parts.usages, data),
        _taken(parts.list_identifier, data) if parts.has_list_identifier else None,
        _taken(parts.sequence_number, data) if parts.has_sequence_number else None,
        _taken(parts.this_update, data),
        _taken(parts.next_update, data) if parts.has_next_update else None,
        _taken(parts.algorithm, data),
        _taken(parts.extensions, data) if parts.has_extensions else None,
    )


def _trust_entry(row: _calls.TrustEntryParts, data: memoryview) -> TrustEntry:
    """The entry of a trust list that has these parts."""
    return TrustEntry(_taken(row.identifier, data), _taken(row.attributes, data) if row.has_attributes else None)


def _password_parameters(parts: _calls.PasswordParts, data: memoryview) -> PasswordParameters:
    """The parameters that these parts are of."""
    return PasswordParameters(
        _taken(parts.algorithm, data),
        _taken(parts.parameters, data) if parts.has_parameters else None,
        bool(parts.is_pbes1),
        bool(parts.is_pkcs12),
        bool(parts.is_pbes2),
        _taken(parts.derivation, data) if parts.is_pbes2 else None,
        _taken(parts.derivation_parameters, data) if parts.has_derivation_parameters else None,
        bool(parts.is_pbkdf2),
        _taken(parts.salt, data) if parts.has_salt else None,
        parts.iterations if parts.is_pbes1 or parts.is_pkcs12 or parts.is_pbkdf2 else None,
        parts.key_length if parts.has_key_length else None,
        _taken(parts.prf, data) if parts.has_prf else None,
        _taken(parts.encryption, data) if parts.is_pbes2 else None,
        _taken(parts.encryption_parameters, data) if parts.has_encryption_parameters else None,
        _taken(parts.initialization_vector, data) if parts.has_initialization_vector else None,
        _taken(parts.encrypted, data) if parts.has_encrypted else None,
    )


def _whole_number(number: int) -> int:
    """A number, whatever its type says in comparisons. TypeError where that isn't one of whole numbers, as float."""
    return int(operator.index(number))


def _size(number: Optional[int]) -> int:
    """A number as the calls take it that build."""
    its = NOT_GIVEN if number is None else _whole_number(number)
    return its if 0 <= its <= NOT_GIVEN else NOT_GIVEN


def _index(number: int) -> int:
    """An index. ValueError where it is negative."""
    its = _whole_number(number)
    if its < 0:
        raise ValueError(f"an index of {its}")
    return its


def _type_name(kind: type) -> str:
    """The name of a type, with the module that it is of, as two modules have a Signer."""
    return kind.__name__ if kind.__module__ == "builtins" else f"{kind.__module__}.{kind.__name__}"


def _typed(it: _Item, name: str, *kinds: type) -> _Item:
    """What is of one of these types. TypeError, which says its name, where it is of another."""
    if not isinstance(it, kinds):
        wanted = " or ".join(map(_type_name, kinds))
        raise TypeError(f"{name} has to be of the type {wanted}, not {_type_name(type(it))}")
    return it


def _utf8(text: str, name: str) -> bytes:
    """A text in UTF-8, a surrogate as if it were a character. TypeError, which says its name, where it is none."""
    return str.encode(_typed(text, name, str), "utf-8", "surrogatepass")


def _viewed(it: Any) -> Optional[memoryview]:
    """The octets that something is, as bytes, a bytearray, a memoryview or an array. None where it isn't octets."""
    try:
        return memoryview(it)
    except TypeError:
        return None


def _items(those: Iterable[_Item], name: str) -> Iterable[_Item]:
    """What is in a list, in an iterator or the like. TypeError, which says its name, where one item is in place of it:
    octets, a text, or a NamedTuple as a GivenBag is.
    """
    if isinstance(those, str) or hasattr(those, "_fields") or _viewed(those) is not None:
        raise TypeError(f"{name} have to be a list, not {_type_name(type(those))}")
    return those


def _kept_items(those: Iterable[_Item], name: str) -> List[_Item]:
    """The same of a list or a tuple. TypeError also where it is an iterator, which would be empty at the second use."""
    if not hasattr(those, "__len__"):
        raise TypeError(f"{name} have to be a list, not {_type_name(type(those))}")
    return list(_items(those, name))


class _Parts:
    """The octets of parts, one after another, which are the input of a call that builds."""

    def __init__(self) -> None:
        self._octets: List[_Whole] = []
        self._length = 0

    def put(self, part: Optional[Bytes]) -> _calls.Range:
        """Where a part is among the octets, to which it is added. One that isn't given is nowhere, so it is refused."""
        if part is None:
            return _calls.Range(NOT_GIVEN, 0)
        octets, start = _octets(part), self._length
        self._octets.append(octets)
        self._length += len(octets)
        return _calls.Range(start, len(octets))

    def joined(self) -> bytes:
        """All of them."""
        return b"".join(self._octets)


def _is_one(octets: _Whole) -> bool:
    """Whether octets are as long as the element that they begin with says. The library looks at the rest of it."""
    if len(octets) < 2:
        return False
    count = max(octets[1] - 0x80, 0)
    size = int.from_bytes(octets[2 : 2 + count], "big") if count else octets[1]
    return len(octets) == 2 + count + size


def _encoded(tag: int, contents: bytes) -> bytes:
    """The encoding of an element with a tag of one octet and these contents octets."""
    size, count = len(contents), (len(contents).bit_length() + 7) // 8
    length = bytes([size]) if size <= 0x7F else bytes([0x80 + count]) + size.to_bytes(count, "big")
    return bytes([tag]) + length + contents


def _set_of(items: Sequence[_Whole]) -> Optional[bytes]:
    """The element of a SET OF these items, in their order. None where one of them isn't exactly one element."""
    return _encoded(SET, b"".join(items)) if all(map(_is_one, items)) else None


def _attributes_given(those: Sequence[Bytes], octets: _Parts) -> Tuple[bool, _calls.Range]:
    """Attributes as the calls take them that build: whether there are any, and where the SET OF these is among the
    octets, to which it is added. It has them in their order.
    """
    items = [_octets(it) for it in _kept_items(those, "attributes")]
    return bool(items), octets.put(_set_of(items) if items else None)


def _utf16(text: Optional[str]) -> Optional[bytes]:
    """A text in UTF-16. None where it isn't given, or has a surrogate."""
    try:
        return None if text is None else str.encode(_typed(text, "friendly_name", str), "utf-16-be")
    except UnicodeEncodeError:
        return None


def _password_parts(holder: PasswordHolder, given: PasswordParameters) -> Tuple[_calls.PasswordParts, bytes]:
    """Parameters as the call takes them that writes them: their parts, and the octets that these have ranges of. An
    algorithm has nothing that is encrypted.
    """
    _typed(given, "what is given", PasswordParameters)
    encrypted = None if holder is PasswordHolder.ALGORITHM else given.encrypted
    octets = _Parts()
    put = octets.put
    parts = _calls.PasswordParts(
        has_parameters=given.parameters is not None,
        is_pbes1=bool(given.is_pbes1),
        is_pkcs12=bool(given.is_pkcs12),
        is_pbes2=bool(given.is_pbes2),
        has_derivation_parameters=given.derivation_parameters is not None,
        is_pbkdf2=bool(given.is_pbkdf2),
        has_salt=given.salt is not None,
        has_key_length=given.key_length is not None,
        has_prf=given.prf is not None,
        has_encryption_parameters=given.encryption_parameters is not None,
        has_initialization_vector=given.initialization_vector is not None,
        has_encrypted=encrypted is not None,
        iterations=_size(given.iterations),
        key_length=_size(given.key_length),
        algorithm=put(given.algorithm),
        parameters=put(given.parameters),
        derivation=put(given.derivation),
        derivation_parameters=put(given.derivation_parameters),
        salt=put(given.salt),
        prf=put(given.prf),
        encryption=put(given.encryption),
        encryption_parameters=put(given.encryption_parameters),
        initialization_vector=put(given.initialization_vector),
        encrypted=put(encrypted),
    )
    return parts, octets.joined()


def _time_given(time: Optional[datetime.datetime]) -> Optional[bytes]:
    """A time as the call takes it that writes attributes, in UTC. ValueError where it has no time zone."""
    if time is None:
        return None
    if _typed(time, "signing_time", datetime.datetime).utcoffset() is None:
        raise ValueError("signing_time has no time zone")
    try:
        its = time.astimezone(datetime.timezone.utc)
    except OverflowError:
        raise BadAttributes(AttributesPart.SIGNING_TIME) from None
    # strftime writes some years with fewer than four digits
    return f"{its.year:04}{its:%m%d%H%M%S}Z".encode("ascii")


def _ranges_given(those: Iterable[Bytes], name: str, octets: _Parts) -> Tuple[object, int]:
    """Certificates, revocation lists or recipients as the calls take them that write signed data and enveloped data,
    and how many they are. They are added to these octets.
    """
    rows = [octets.put(it) for it in _items(those, name)]
    return (_calls.Range * len(rows))(*rows), len(rows)


def _content_given(content: GivenContent, index: int, octets: _Parts) -> _calls.ContentGiven:
    """A content as the call takes it that writes all, by its index. Its octets are added to these."""
    _typed(content, f"content {index}", GivenContent)
    return _calls.ContentGiven(is_data=bool(content.is_data), octets=octets.put(content.octets))


def _signer_given(signer: GivenSigner, index: int, octets: _Parts) -> _calls.SignerGiven:
    """A signer as the call takes it that writes signed data, by its index. The octets of its parts are added to these.
    """
    _typed(signer, f"signer {index}", GivenSigner)
    # one that has two names is given none, so it is refused
    has_one_name = signer.certificate is None or signer.key_identifier is None
    has_unsigned, unsigned = _attributes_given(signer.unsigned_attributes, octets)
    return _calls.SignerGiven(
        has_key_identifier=has_one_name and signer.key_identifier is not None,
        has_signed_attributes=signer.signed_attributes is not None,
        has_unsigned_attributes=has_unsigned,
        certificate=octets.put(signer.certificate if has_one_name else None),
        key_identifier=octets.put(signer.key_identifier),
        digest_algorithm=octets.put(signer.digest_algorithm),
        signed_attributes=octets.put(signer.signed_attributes),
        signature_algorithm=octets.put(signer.signature_algorithm),
        signature=octets.put(signer.signature),
        unsigned_attributes=unsigned,
    )


def _recipient_given(given: GivenRecipient, octets: _Parts) -> _calls.RecipientGiven:
    """A recipient as the call takes it that writes one. The octets of its parts are added to these."""
    _typed(given, "a recipient", GivenRecipient)
    # one that has two names is given none, so it is refused
    has_one_name = given.certificate is None or given.key_identifier is None
    return _calls.RecipientGiven(
        is_kek=bool(given.is_kek),
        has_key_identifier=given.key_identifier is not None,
        certificate=octets.put(given.certificate),
        key_identifier=octets.put(given.key_identifier if has_one_name else None),
        algorithm=octets.put(given.algorithm),
        key=octets.put(given.key),
    )


def _indirect_given(given: Union[GivenIndirect, IndirectData], octets: _Parts) -> _calls.IndirectParts:
    """Indirect data as the call takes them that writes them. The octets of their parts are added to these."""
    image = _typed(given, "what is given", GivenIndirect, IndirectData).image
    flags = None if image is None else _typed(image, "image", GivenImage, ImageData).flags
    link = None if image is None else image.link
    return _calls.IndirectParts(
        has_attribute_value=given.attribute_value is not None,
        is_image=image is not None,
        has_image_flags=flags is not None,
        has_image_link=link is not None,
        attribute_type=octets.put(given.attribute_type),
        attribute_value=octets.put(given.attribute_value),
        digest_algorithm=octets.put(given.digest_algorithm),
        digest=octets.put(given.digest),
        image_flags=octets.put(flags),
        image_link=octets.put(link),
    )


class Store:
    """A PKCS #12 store, whose bags that aren't encrypted Library.store found in one reading.

    Octets are memoryviews of the file, and of a copy where that could be written. Nothing is decrypted: unread are contents
    that would have to be, and no MAC is made.
    """

    def __init__(self, library: "Library", data: _Whole, bags: Tuple[Bag, ...]) -> None:
        self._library, self._data, self._bags = library, data, bags

    def __repr__(self) -> str:
        return _shown(self, data=memoryview(self._data), bags=len(self._bags))

    def __reduce__(self) -> Tuple[object, ...]:
        return Library.store, (self._library, bytes(self._data))

    @property
    def bags(self) -> Tuple[Bag, ...]:
        """All bags, in the order of the file, those in a bag after it, and what isn't read, as BagKind.UNREAD."""
        return self._bags

    @property
    def certificates(self) -> Tuple[memoryview, ...]:
        """The DER of each X.509 certificate."""
        return self._values(BagKind.CERTIFICATE)

    @property
    def crls(self) -> Tuple[memoryview, ...]:
        """The DER of each X.509 revocation list."""
        return self._values(BagKind.CRL)

    @property
    def keys(self) -> Tuple[memoryview, ...]:
        """Each key that isn't encrypted, a PrivateKeyInfo (RFC 5208)."""
        return self._values(BagKind.KEY)

    @property
    def encrypted_keys(self) -> Tuple[memoryview, ...]:
        """Each encrypted key, an EncryptedPrivateKeyInfo."""
        return self._values(BagKind.SHROUDED_KEY)

    @property
    def unread(self) -> Tuple[memoryview, ...]:
        """Each ContentInfo that isn't data, as encrypted bags are."""
        return self._values(BagKind.UNREAD)

    def _values(self, kind: BagKind) -> Tuple[memoryview, ...]:
        return tuple(it.value for it in self._bags if it.kind is kind)

    def named(self, name: str) -> Tuple[Bag, ...]:
        """The bags with a friendly name."""
        return tuple(it for it in self._bags if it.friendly_name == name)

    def key_for(self, certificate: Bag) -> Optional[Bag]:
        """The first key, encrypted or not, that has the local key identifier of a certificate's bag. None where there is
        no such key, or the bag has no identifier.
        """
        return None if certificate.local_key_id is None else self._keys_by_id.get(bytes(certificate.local_key_id))

    def certificate_for(self, key: Bag) -> Optional[Bag]:
        """The first X.509 certificate that has the local key identifier of a key's bag, alike."""
        return None if key.local_key_id is None else self._certificates_by_id.get(bytes(key.local_key_id))

    @functools.cached_property
    def _keys_by_id(self) -> Dict[bytes, Bag]:
        return self._by_id(KEYS)

    @functools.cached_property
    def _certificates_by_id(self) -> Dict[bytes, Bag]:
        return self._by_id(CERTIFICATE_BAGS)

    def _by_id(self, kinds: Tuple[BagKind, ...]) -> Dict[bytes, Bag]:
        """The first bag of some kinds with each local key identifier."""
        found: Dict[bytes, Bag] = {}
        for bag in self._bags:
            if bag.kind in kinds and bag.local_key_id is not None:
                found.setdefault(bytes(bag.local_key_id), bag)
        return found

    @functools.cached_property
    def mac(self) -> Optional[Mac]:
        """What a verifier of the MAC needs. None where there is no MAC."""
        return self._library.mac(self._data)


class SignedData:
    """Signed data of any CMSVersion and over content of any type (RFC 5652, 5.1), that Library.signed accepted.

    Octets are memoryviews of the file, and of a copy where that could be written. What a verification needs of signers and of
    certificates the library says; the rest is found, element by element, in what it accepted.
    """

    def __init__(
        self, library: "Library", file: _SignedFile, data: _Whole, rows: List[_calls.SignerParts]
    ) -> None:
        self._library, self._file, self._data, self._rows = library, file, data, rows

    def __repr__(self) -> str:
        return _shown(self, data=self._file.octets, content_type=self.content_type, signers=len(self._rows))

    def __reduce__(self) -> Tuple[object, ...]:
        return Library.signed, (self._library, bytes(self._data))

    @property
    def content_type(self) -> str:
        """The object identifier of the content's type, as "1.2.840.113549.1.7.1"."""
        return _first_oid(self._file.fields[2].whole)

    @property
    def content(self) -> Optional[memoryview]:
        """The contents octets of the content, which are hashed. None where the signature is detached."""
        for row in self._rows:
            if row.status == NORMAL:
                return _taken(row.content, self._file.octets) if row.has_content else None
        _, *explicit = _inside(self._file.fields[2].whole)
        return next(_inside(explicit[0].whole)).contents if explicit else None

    @property
    def content_tag(self) -> Optional[int]:
        """The tag of the content, 4 where that is an OCTET STRING. None where the signature is detached."""
        _, *explicit = _inside(self._file.fields[2].whole)
        return next(_inside(explicit[0].whole)).tag if explicit else None

    @functools.cached_property
    def indirect(self) -> Optional[IndirectData]:
        """The parts of the content, as Library.indirect gives them: None where its type isn't that of Authenticode.

        Raises Refused where it is, and the content doesn't read.
        """
        return self._library.indirect(self._data)

    @functools.cached_property
    def trust_list(self) -> Optional[TrustList]:
        """The parts of the content, as Library.trust_list gives them: None where its type isn't that of a trust list.

        Raises Refused where it is, and the content doesn't read.
        """
        return self._library.trust_list(self._data)

    @functools.cached_property
    def trust_entries(self) -> Optional[Tuple[TrustEntry, ...]]:
        """All entries of the trust list, as Library.trust_entries gives them. None, and Refused, as of trust_list."""
        return self._library.trust_entries(self._data)

    @functools.cached_property
    def certificates(self) -> Tuple[memoryview, ...]:
        """All certificates, or other choices, in order."""
        return self._library.certificates(self._data)

    @functools.cached_property
    def crls(self) -> Tuple[memoryview, ...]:
        """All revocation lists, or other revocation information, in order."""
        return tuple(self._file.items(CRLS))

    @functools.cached_property
    def signers(self) -> Tuple[Union[Signer, BadAttributes], ...]:
        """All signers, as Library.signers gives them."""
        return tuple(_signer(row, self._file, index) for index, row in enumerate(self._rows))

    @functools.cached_property
    def signer_infos(self) -> Tuple[SignerInfo, ...]:
        """All signers as they are, also those whose signed attributes break RFC 5652."""
        return tuple(SignerInfo(self._file, index) for index in range(len(self._rows)))


class Library:
    """The calls of a shared library that der_c was made into."""

    def __init__(self, path: Union[str, "os.PathLike[str]"]) -> None:
        self._path = os.path.realpath(path)
        self._library = ctypes.CDLL(self._path)
        for name, arguments in _calls.ARGUMENTS.items():
            call = getattr(self._library, name)
            call.argtypes, call.restype = arguments, _calls.STATUS

    def __repr__(self) -> str:
        return _shown(self, path=self._path)

    def __reduce__(self) -> Tuple[object, ...]:
        return Library, (self._path,)

    def check(self, kind: str, data: Bytes, limit: int = MAX_NESTING) -> Verdict:
        """What an input of a kind is, with at most limit levels of nesting (a limit above 64 counts as 64)."""
        data = _octets(data)
        length, place = ctypes.c_size_t(), ctypes.c_size_t()
        status = self._library.der_check_word_limited(
            *_input(kind, data, limit), ctypes.byref(length), ctypes.byref(place)
        )
        _raise_for(status, kind, place.value)
        return Verdict(status == NORMAL, length.value, place.value if status == LOOSE else None)

    def rewrite(self, kind: str, data: Bytes, limit: int = MAX_NESTING) -> bytes:
        """The normal encoding of an input of a kind."""
        data = _octets(data)
        call, given = self._library.der_rewrite_word_limited, _input(kind, data, limit)
        status, octets = _written(call, given, len(data) + 64)
        if status in REASONS:
            self.check(kind, data, limit)
        _raise_for(status, kind, 0)
        return octets

    def mac_range(self, data: Bytes) -> Optional[range]:
        """Where a PKCS #12 file has the octets that its MAC covers. None where its authSafe isn't data."""
        data = _octets(data)
        start, length = ctypes.c_size_t(), ctypes.c_size_t()
        status = self._library.der_mac_range(*_given(data), ctypes.byref(start), ctypes.byref(length))
        if status == NO_RANGE:
            return None
        if status in REASONS:
            self.check("rawpfx", data)
        _raise_for(status, "rawpfx", 0)
        return range(start.value, start.value + length.value)

    def mac(self, data: Bytes) -> Optional[Mac]:
        """What a verifier of a PKCS #12 file's MAC needs. None where its authSafe isn't data, or it has no MAC."""
        return self._mac(self._library.der_mac, self.part, data)

    def mac_ber(self, data: Bytes) -> Optional[Mac]:
        """The same of a file that from_ber returned, whose MAC may cover BER. The range is in what from_ber returned.

        Raises Refused where it is no PKCS #12 file, as a check as "rawpfx" does, which refuses it too.
        """
        return self._mac(self._library.der_mac_ber, self.mac_part_ber, data)

    def _mac(self, call: Call, part: Callable[[Part, Bytes], Optional[bytes]], data: Bytes) -> Optional[Mac]:
        """What a call says of a MAC, with the parts of it that another one gives."""
        data = _octets(data)
        start, length, iterations = ctypes.c_size_t(), ctypes.c_size_t(), ctypes.c_size_t()
        status = call(*_given(data), *map(ctypes.byref, (start, length, iterations)))
        if status in (NO_RANGE, NO_PART):
            return None
        if status in REASONS:
            self.check("rawpfx", data)
        _raise_for(status, "rawpfx", 0)
        return Mac(
            range(start.value, start.value + length.value),
            dotted(part(Part.MAC_DIGEST_ALGORITHM, data) or b""),
            part(Part.MAC_DIGEST, data) or b"",
            part(Part.MAC_SALT, data) or b"",
            iterations.value,
            memoryview(data)[start.value : start.value + length.value],
        )

    def from_ber(self, data: Bytes) -> bytes:
        """The DER of an input in BER, with at most 64 levels of nesting. DER that isn't refused comes back as it is.

        Raises Refused where there is none. der.h says what is refused, and which element of indefinite length, of two
        readings, is joined. Of a definite length it keeps its segments.
        """
        data = _octets(data)
        place = ctypes.c_size_t()
        call, given = self._library.der_from_ber, _given(data)
        status, octets = _written(call, given, len(data) + 64, ctypes.byref(place))
        _raise_for(status, "", place.value)
        return octets

    def part(self, part: Part, data: Bytes, index: int = 0) -> Optional[bytes]:
        """A part of a container, as octets: of certificates, signers, keys and bags that with the index, from 0 on.

        None where the container has no such part, or not so many. Raises Refused where the input isn't such a container,
        or something in a store doesn't read as its type.
        """
        number = _index(index)
        if number >= 1 << 64:
            return None
        data = _octets(data)
        place = ctypes.c_size_t()
        call, given = self._library.der_part_octets, (Part(part).value, number, *_given(data))
        status, octets = _written(call, given, len(data) + 64, ctypes.byref(place))
        if status == NO_PART:
            return None
        _raise_for_range(status, place.value)
        return octets

    def ranges(self, part: Union[Part, EnvelopePart], data: Bytes) -> List[range]:
        """Where the input has each item of a part, in order: of Part.CERTIFICATE, all certificates of signed data.

        Of an EnvelopePart those of enveloped data. Reads data once, or twice where there are more than FEW_RANGES.
        Signed data are taken of any CMSVersion and over content of any type. Raises Refused where data are none, and
        ValueError where the items of the part aren't listed.
        """
        part = EnvelopePart(part) if part in _ENVELOPE_PARTS else Part(part)
        return [range(start, start + size) for start, size in self._places(part, _octets(data))]

    def certificates(self, data: Bytes) -> Tuple[memoryview, ...]:
        """All certificates of signed data, or other choices, in order, as memoryviews of data, and of a copy where data
        can be written. Raises Refused where data are no signed data.
        """
        octets = _octets(data)
        whole = memoryview(octets)
        return tuple(whole[start : start + size] for start, size in self._places(Part.CERTIFICATE, octets))

    def recipients(self, data: Bytes) -> Tuple[memoryview, ...]:
        """All recipients of enveloped data, as certificates does. Raises Refused where data are no enveloped data."""
        octets = _octets(data)
        whole = memoryview(octets)
        return tuple(whole[start : start + size] for start, size in self._places(EnvelopePart.RECIPIENT, octets))

    def attributes(self, data: Bytes, index: int, is_signed: bool = True) -> Optional[List[memoryview]]:
        """Each Attribute of the signer with an index, from 0 on, in order, as certificates does: signed ones, or unsigned
        ones. None where there are fewer signers.
        """
        which, octets = (bool(is_signed), min(_index(index), (1 << 64) - 1)), _octets(data)
        found = self._listed(self._library.der_attribute_ranges, which, octets)
        whole = memoryview(octets)
        return None if found is None else [whole[start : start + size] for start, size in found]

    def _places(self, part: Union[Part, EnvelopePart], data: _Whole) -> Iterator[Tuple[int, int]]:
        """The start and the length of each item of a part."""
        found = self._listed(self._library.der_part_ranges, (part.value,), data)
        if found is None:
            raise ValueError(f"the items of {part.name} aren't listed")
        return found

    def _listed(self, call: Call, which: Tuple[int, ...], data: _Whole) -> Optional[Iterator[Tuple[int, int]]]:
        """The start and the length of each range that a call writes. None where there is no such part."""
        room, count, place = FEW_RANGES, ctypes.c_size_t(), ctypes.c_size_t()
        while True:
            # numbers are taken out of an array of them in one step, and out of ranges one by one
            out = (ctypes.c_size_t * (2 * room))()
            ranges = ctypes.cast(out, ctypes.POINTER(_calls.Range))
            status = call(*which, *_given(data), ranges, room, ctypes.byref(count), ctypes.byref(place))
            if status == NORMAL:
                return zip(out[0 : 2 * count.value : 2], out[1 : 2 * count.value : 2])
            if status in (UNKNOWN_KIND, NO_PART):
                return None
            _raise_for_range(status, place.value)
            room = count.value

    def bags(self, data: Bytes) -> Tuple[Bag, ...]:
        """All bags of a PKCS #12 store that aren't encrypted, in order, those in a bag after it, in one reading or two.

        The parts are memoryviews of data, and of a copy where data could be written. What is encrypted is of kind
        BagKind.UNREAD. Raises Refused where data are no store, or a part doesn't read as its type.
        """
        octets = _octets(data)
        room, count, place = FEW_BAGS, ctypes.c_size_t(), ctypes.c_size_t()
        while True:
            rows = (_calls.BagParts * room)()
            status = self._library.der_bag_rows(
                *_given(octets), rows, room, ctypes.byref(count), ctypes.byref(place)
            )
            if status == NORMAL:
                whole = memoryview(octets)
                return tuple(_bag(row, whole) for row in rows[: count.value])
            _raise_for_range(status, place.value)
            room = count.value

    def store(self, data: Bytes) -> Store:
        """The bags of a PKCS #12 store, by what they hold. Raises Refused as bags does."""
        octets = _octets(data)
        return Store(self, octets, self.bags(octets))

    def certificate(self, data: Bytes) -> Certificate:
        """The parts of an X.509 certificate of any version, in one reading. They are memoryviews of data, and of a copy
        where data could be written. Raises Refused where data are no certificate.
        """
        octets = _octets(data)
        parts, place = _calls.CertificateParts(), ctypes.c_size_t()
        status = self._library.der_certificate(*_given(octets), ctypes.byref(parts), ctypes.byref(place))
        _raise_for(status, "", place.value)
        return _certificate(parts, memoryview(octets))

    def indirect(self, data: Bytes) -> Optional[IndirectData]:
        """The parts of the content of signed data, where that is SpcIndirectDataContent (Authenticode): they say which
        digest is signed, and of what. None where the content is of another type, or there is none.

        They are memoryviews of data, and of a copy where data could be written. Raises Refused where data are no signed
        data, and where content of the type SpcIndirectDataContent doesn't read as that.
        """
        octets = _octets(data)
        parts, place = _calls.IndirectParts(), ctypes.c_size_t()
        status = self._library.der_indirect(*_given(octets), ctypes.byref(parts), ctypes.byref(place))
        if status == NO_PART:
            return None
        _raise_for(status, "", place.value)
        return _indirect(parts, memoryview(octets))

    def trust_list(self, data: Bytes) -> Optional[TrustList]:
        """The parts of the content of signed data, where that is a trust list (CertificateTrustList), but its entries,
        which trust_entries gives. None where the content is of another type, or there is none.

        They are memoryviews of data, and of a copy where data could be written. Raises Refused where data are no signed
        data, and where content of the type of a trust list doesn't read as one, with its entries.
        """
        octets = _octets(data)
        parts, place = _calls.TrustListParts(), ctypes.c_size_t()
        status = self._library.der_trust_list(*_given(octets), ctypes.byref(parts), ctypes.byref(place))
        if status == NO_PART:
            return None
        _raise_for(status, "", place.value)
        return _trust_list(parts, memoryview(octets))

    def trust_entries(self, data: Bytes) -> Optional[Tuple[TrustEntry, ...]]:
        """All entries of the trust list that is the content of signed data, in order, in one reading or two. A list
        without trustedSubjects has none. None where the content is of another type, or there is none.

        The parts are memoryviews, and Refused is raised, as of trust_list.
        """
        octets = _octets(data)
        room, count, place = FEW_ENTRIES, ctypes.c_size_t(), ctypes.c_size_t()
        while True:
            rows = (_calls.TrustEntryParts * room)()
            status = self._library.der_trust_rows(
                *_given(octets), rows, room, ctypes.byref(count), ctypes.byref(place)
            )
            if status == NORMAL:
                whole = memoryview(octets)
                return tuple(_trust_entry(row, whole) for row in rows[: count.value])
            if status == NO_PART:
                return None
            _raise_for(status, "", place.value)
            room = count.value

    def password_parameters(self, data: Bytes, holder: PasswordHolder) -> PasswordParameters:
        """How data is encrypted with a password: the parameters of an algorithm, of an encrypted key, as
        Store.encrypted_keys has it, or of encrypted contents, as those that Store.unread has. The holder says which of
        these data are. With the parameters a caller opens a store by PBES1, by the algorithms of PKCS #12, or by PBES2
        with PBKDF2 and AES in CBC mode, and reads no DER but what is decrypted.

        The octets are memoryviews of data, and of a copy where data could be written. Raises Refused where data aren't
        what the holder says; parameters of other algorithms, as those of scrypt, are no refusal.
        """
        octets = _octets(data)
        parts, place = _calls.PasswordParts(), ctypes.c_size_t()
        status = self._library.der_password_parameters(
            PasswordHolder(holder).value, *_given(octets), ctypes.byref(parts), ctypes.byref(place)
        )
        _raise_for(status, "", place.value)
        return _password_parameters(parts, memoryview(octets))

    def build_parameters(self, holder: PasswordHolder, given: PasswordParameters) -> bytes:
        """The DER of an algorithm, of an encrypted key or of encrypted contents, as the holder says, with these
        parameters, which password_parameters reads of it again. The type of contents is data, as in PKCS #12. Nothing
        is derived, encrypted or judged: neither a number nor a length. What password_parameters returned may be given
        as it is, or changed. But encrypted is written as it is given: with another salt, count, function, scheme or
        vector derive the key anew, and encrypt anew, since otherwise nobody can decrypt it:

            its._replace(salt=salt, iterations=600_000, initialization_vector=vector, encrypted=octets)

        What is written:

        - where is_pbes1 or is_pkcs12, algorithm, salt and iterations;
        - where is_pbes2, a key derivation: PBKDF2 with salt, iterations, key_length and prf, whose parameters are NULL
          (RFC 8018, B.1), where is_pbkdf2 and salt isn't None; otherwise derivation and derivation_parameters, which
          may be None unless is_pbkdf2;
        - and an encryption scheme: encryption and initialization_vector; where that is None, encryption and
          encryption_parameters;
        - where none of the three, algorithm and parameters;
        - of a key encrypted, and of contents too, unless it is None.

        The rest may be anything. For HMAC with SHA-1 give None as prf: DER leaves it out as the default (X.690, 11.5),
        and what is given is written. Raises BadParameters where a part can't be written.
        """
        holder, part = PasswordHolder(holder), ctypes.c_size_t()
        parts, octets = _password_parts(holder, given)
        arguments = holder.value, *_given(octets), ctypes.byref(parts)
        # headers, numbers and the object identifiers that aren't given take less than 256 octets
        status, text = _written(self._library.der_build_parameters, arguments, len(octets) + 256, ctypes.byref(part))
        if status == _calls.INVALID:
            raise BadParameters(PasswordPart(part.value))
        _raise_for(status, "", 0)
        return text

    def build_bags(self, bags: Iterable[Union[GivenBag, Bag]]) -> bytes:
        """The DER of a SafeContents (RFC 7292, 4.2) with these bags, in their order: what build_safe takes, or what is
        to be encrypted, or the value of a bag of BagKind.SAFE_CONTENTS.

        A bag that was read may be given as it is, or with other fields by _replace, as with another name or none. One
        whose level isn't 0 is in the value of the bag that it is in, so it isn't given beside that:

            library.build_bags(it._replace(friendly_name="new") for it in bags if it.level == 0)

        Attributes are written in the order of DER (X.690, 11.6), also where they were read in another one. A name with
        characters past U+FFFF is written with surrogates, as keytool does: bags, the kind "rawpfx" and Java read it,
        the kind "pfx" refuses it, and openssl shows another name.

        An encrypted key has to be one that bags reads. build_parameters makes others only where an algorithm that bags
        knows, as PBES2, is given parameters that aren't its own. A secret has to be a SecretBag, and bags in a bag a
        SafeContents. At most 64 of these may be in one another; what else bags hold that are in a bag, and the values of
        their attributes, isn't looked at, so bags may refuse them. Of what other kinds hold is only asked that it is
        one element. Raises BadBag where a bag can't be written.
        """
        octets, bag, part = _Parts(), ctypes.c_size_t(), ctypes.c_size_t()
        rows = [self._bag_given(it, index, octets) for index, it in enumerate(_items(bags, "bags"))]
        whole = octets.joined()
        arguments = *_given(whole), (_calls.BagGiven * len(rows))(*rows), len(rows)
        # what is around the parts of a bag takes less than 128 octets, unless it is very long
        room, places = len(whole) + 128 * len(rows) + 16, (ctypes.byref(bag), ctypes.byref(part))
        status, text = _written(self._library.der_build_bags, arguments, room, *places)
        if status == _calls.INVALID:
            raise BadBag(bag.value, BagPart(part.value))
        _raise_for(status, "", 0)
        return text

    def _bag_given(self, bag: Union[GivenBag, Bag], index: int, octets: _Parts) -> _calls.BagGiven:
        """A bag as the call takes it that writes bags, by its index. The octets of its parts are added to these."""
        _typed(bag, f"bag {index}", GivenBag, Bag)
        kind, (has_attributes, attributes) = BagKind(bag.kind), _attributes_given(bag.attributes, octets)
        return _calls.BagGiven(
            kind=kind.value,
            has_friendly_name=bag.friendly_name is not None,
            has_local_key_id=bag.local_key_id is not None,
            has_attributes=has_attributes,
            identifier=octets.put(self._identifier_given(bag) if kind is BagKind.OTHER else None),
            value=octets.put(bag.value),
            friendly_name=octets.put(_utf16(bag.friendly_name)),
            local_key_id=octets.put(bag.local_key_id),
            attributes=attributes,
        )

    def _identifier_given(self, bag: Union[GivenBag, Bag]) -> Optional[Bytes]:
        """The contents octets of the object identifier of a bag. None where it isn't given, or the text spells none."""
        return next(_inside(bag.element)).contents if isinstance(bag, Bag) else self._oid_given(bag.identifier)

    def _oid_given(self, text: Optional[str]) -> Optional[bytes]:
        """The contents octets that a text spells, alike."""
        try:
            return None if text is None else self.oid_octets(text)
        except Refused:
            return None

    def build_safe(self, contents: Iterable[GivenContent]) -> bytes:
        """The DER of an AuthenticatedSafe (RFC 7292, 4.1) with these contents, in their order: what build_store takes,
        all of which a MAC covers.

        Raises BadContent where a content can't be written: one that is to be bags isn't, or has a bag that is in more
        than 64 others; or another is no ContentInfo, or is of the type data, of which the bags are to be given.
        """
        octets, content = _Parts(), ctypes.c_size_t()
        rows = [_content_given(it, index, octets) for index, it in enumerate(_items(contents, "contents"))]
        whole = octets.joined()
        arguments = *_given(whole), (_calls.ContentGiven * len(rows))(*rows), len(rows)
        # what is around the octets of a content takes less than 64
        room = len(whole) + 64 * len(rows) + 16
        status, text = _written(self._library.der_build_safe, arguments, room, ctypes.byref(content))
        if status == _calls.INVALID:
            raise BadContent(content.value)
        _raise_for(status, "", 0)
        return text

    def build_store(self, safe: Bytes, mac: Optional[GivenMac] = None) -> bytes:
        """The DER of a PKCS #12 store (RFC 7292, 4), around what build_safe wrote, with a MAC or none. Whether the MAC
        is right isn't looked at. A count of 1 is left out, as the default. Raises BadStore where a part can't be
        written.
        """
        octets, part = _Parts(), ctypes.c_size_t()
        given = _calls.StoreGiven(has_mac=mac is not None, safe=octets.put(safe))
        if mac is not None:
            _typed(mac, "a MAC", GivenMac)
            given.has_digest_parameters = mac.digest_parameters is not None
            given.iterations = _size(mac.iterations)
            given.digest_algorithm = octets.put(self._oid_given(mac.digest_algorithm))
            given.digest_parameters = octets.put(mac.digest_parameters)
            given.digest, given.salt = octets.put(mac.digest), octets.put(mac.salt)
        whole = octets.joined()
        arguments = *_given(whole), ctypes.byref(given)
        # headers, numbers and object identifiers take less than 256 octets
        status, text = _written(self._library.der_build_store, arguments, len(whole) + 256, ctypes.byref(part))
        if status == _calls.INVALID:
            raise BadStore(StorePart(part.value))
        _raise_for(status, "", 0)
        return text

    def build_attributes(
        self,
        content_type: Optional[Bytes] = None,
        message_digest: Optional[Bytes] = None,
        signing_time: Optional[datetime.datetime] = None,
        attributes: Sequence[Bytes] = (),
    ) -> bytes:
        """The DER of the attributes of a signer (RFC 5652, 5.3 and 11), a SET OF Attribute in the order of DER (X.690,
        11.6): what its signature covers (5.4), and signed_attributes of a GivenSigner. These have to have content_type
        and message_digest.

        content_type is the contents octets of an object identifier, as oid_octets makes them, and message_digest the
        digest of the content, which isn't made here. signing_time has to have a time zone. It is written in UTC and in
        whole seconds, without its microseconds: as UTCTime in the years 1950 to 2049, and otherwise as GeneralizedTime
        (11.3). attributes are further ones, each exactly one Attribute, in any order, of which contentType,
        messageDigest and signingTime aren't written.

        Raises BadAttributes where a part can't be written, and ValueError where signing_time has no time zone.
        """
        octets, part, time = _Parts(), ctypes.c_size_t(), _time_given(signing_time)
        has_attributes, further = _attributes_given(attributes, octets)
        given = _calls.AttributesGiven(
            has_content_type=content_type is not None,
            has_message_digest=message_digest is not None,
            has_signing_time=time is not None,
            has_attributes=has_attributes,
            content_type=octets.put(content_type),
            message_digest=octets.put(message_digest),
            signing_time=octets.put(time),
            attributes=further,
        )
        whole = octets.joined()
        arguments = *_given(whole), ctypes.byref(given)
        # headers and object identifiers take less than 128 octets
        status, text = _written(self._library.der_build_attributes, arguments, len(whole) + 128, ctypes.byref(part))
        if status == _calls.INVALID:
            raise BadAttributes(AttributesPart(part.value))
        _raise_for(status, "", 0)
        return text

    def build_signed(
        self,
        content_type: Bytes,
        content: Optional[Bytes] = None,
        *,
        is_element: bool = False,
        certificates: Iterable[Bytes] = (),
        crls: Iterable[Bytes] = (),
        signers: Iterable[GivenSigner] = (),
    ) -> bytes:
        """The DER of signed data under its content type, a ContentInfo (RFC 5652, 3 and 5), around signatures that the
        caller made, over what build_attributes wrote or over the content. Nothing is hashed, signed or verified.

        content_type is the contents octets of an object identifier, as oid_octets makes them. content is the octets of
        an OCTET STRING, or where is_element any element of PKCS #7 (RFC 2315, 7), and None where it isn't in the file.
        certificates has elements, also those of signers, which are in the file only by that; so has crls. Versions are
        those of RFC 5652, 5.1 and 5.3; but content that is an element other than an OCTET STRING is that of PKCS #7,
        whose type doesn't raise them (RFC 2315, 9.1). Sets are in the order of DER, so that signers may be in another
        than here, but for a signer's attributes, which stay in theirs.

        The signed attributes of a signer have to have one contentType, which is content_type, one messageDigest and at
        most one signingTime, each with one value: an OBJECT IDENTIFIER, an OCTET STRING, and a UTCTime or
        GeneralizedTime in whole seconds that ends in Z (11.1 to 11.3). They may be None where content_type is id-data
        (5.3). Without signers it is that, and content is None: the file has certificates and crls alone (5.2). What is
        in these, but for the certificate of a signer, isn't looked at. Raises BadSigned where a part can't be written.
        """
        octets, index, part = _Parts(), ctypes.c_size_t(), ctypes.c_size_t()
        flags = {"has_content": content is not None, "is_element": bool(is_element)}
        given = _calls.SignedGiven(content_type=octets.put(content_type), content=octets.put(content), **flags)
        lists = *_ranges_given(certificates, "certificates", octets), *_ranges_given(crls, "crls", octets)
        rows = [_signer_given(it, index, octets) for index, it in enumerate(_items(signers, "signers"))]
        whole, its_signers = octets.joined(), ((_calls.SignerGiven * len(rows))(*rows), len(rows))
        arguments = *_given(whole), ctypes.byref(given), *lists, *its_signers
        # what is around the parts of a signer takes less than 128 octets, unless it is very long
        room, places = len(whole) + 128 * len(rows) + 128, (ctypes.byref(index), ctypes.byref(part))
        status, text = _written(self._library.der_build_signed, arguments, room, *places)
        if status == _calls.INVALID:
            wrong = SignedPart(part.value)
            raise BadSigned(wrong, None if wrong in (SignedPart.CONTENT_TYPE, SignedPart.CONTENT) else index.value)
        _raise_for(status, "", 0)
        return text

    def build_indirect(self, given: Union[GivenIndirect, IndirectData]) -> bytes:
        """The DER of indirect data, SpcIndirectDataContent (Authenticode): the element that build_signed takes as
        content under the type 1.3.6.1.4.1.311.2.1.4, and whose contents octets, as hashed_octets takes them out, the
        messageDigest of its signers is over. Nothing is hashed or judged.

        With an image it is that of a program: the attribute is of the type SPC_PE_IMAGE_DATA_OBJID, and its value has
        the flags and the link of the image. Otherwise it has attribute_type and attribute_value. Indirect data that
        were read may be given as they are, or with other fields by _replace, as with another digest:

            library.build_indirect(library.indirect(signed)._replace(digest=digest))

        Of a program image is what counts: attribute_type and attribute_value are written only with image=None.

        Raises BadIndirect where a part can't be written.
        """
        octets, part = _Parts(), ctypes.c_size_t()
        parts = _indirect_given(given, octets)
        whole = octets.joined()
        arguments = *_given(whole), ctypes.byref(parts)
        # headers and the object identifier of a program take less than 128 octets
        status, text = _written(self._library.der_build_indirect, arguments, len(whole) + 128, ctypes.byref(part))
        if status == _calls.INVALID:
            raise BadIndirect(IndirectPart(part.value))
        _raise_for(status, "", 0)
        return text

    def build_recipient(self, given: GivenRecipient) -> bytes:
        """The DER of a recipient, one RecipientInfo (RFC 5652, 6.2), which build_enveloped takes: of a key pair
        KeyTransRecipientInfo, of version 0 where its certificate names it and of version 2 where a key identifier does;
        of a key-encryption key KEKRecipientInfo under [2], without a date and without another attribute. Recipients by
        key agreement, by a password and of other kinds aren't made here: their elements come from elsewhere.

        Nothing is encrypted: key is written as it is given. That the certificate belongs to whom it names, is valid or
        may encrypt keys isn't looked at. Raises BadRecipient where a part can't be written.
        """
        octets, part = _Parts(), ctypes.c_size_t()
        parts = _recipient_given(given, octets)
        whole = octets.joined()
        arguments = *_given(whole), ctypes.byref(parts)
        # headers and a version take less than 128 octets
        status, text = _written(self._library.der_build_recipient, arguments, len(whole) + 128, ctypes.byref(part))
        if status == _calls.INVALID:
            raise BadRecipient(RecipientPart(part.value))
        _raise_for(status, "", 0)
        return text

    def build_enveloped(
        self,
        content_type: Bytes,
        content: Optional[Bytes],
        algorithm: Bytes,
        recipients: Iterable[Bytes],
        attributes: Optional[Bytes] = None,
    ) -> bytes:
        """The DER of enveloped data under its content type, a ContentInfo (RFC 5652, 3 and 6), without originatorInfo
        and of the version that 6.1 says, around what the caller encrypted. Nothing is encrypted, padded or derived.

        content_type is the contents octets of an object identifier, as oid_octets makes them: the type of what was
        encrypted. content is the encrypted octets, and None where they aren't in the file. algorithm is an
        AlgorithmIdentifier with its parameters, as a vector: how the content is encrypted. recipients has elements,
        each a RecipientInfo of any kind, as build_recipient makes it or recipients reads it. In the file they are in
        the order of DER, and one that is given twice is there twice. attributes is the element of a SET OF Attribute,
        as build_attributes makes it, which isn't encrypted, and None where there are none. Its order stays.

        Raises BadEnveloped where a part can't be written. What is in a recipient isn't looked at, but for the version
        of one that has a key pair.
        """
        octets, index, part = _Parts(), ctypes.c_size_t(), ctypes.c_size_t()
        given = _calls.EnvelopedGiven(
            has_content=content is not None,
            has_attributes=attributes is not None,
            content_type=octets.put(content_type),
            algorithm=octets.put(algorithm),
            content=octets.put(content),
            attributes=octets.put(attributes),
        )
        ranges = _ranges_given(recipients, "recipients", octets)
        whole = octets.joined()
        arguments = *_given(whole), ctypes.byref(given), *ranges
        # headers, a version and the object identifier of enveloped data take less than 128 octets
        room, places = len(whole) + 128, (ctypes.byref(index), ctypes.byref(part))
        status, text = _written(self._library.der_build_enveloped, arguments, room, *places)
        if status == _calls.INVALID:
            wrong = EnvelopedPart(part.value)
            raise BadEnveloped(wrong, index.value if wrong is EnvelopedPart.RECIPIENT else None)
        _raise_for(status, "", 0)
        return text

    def signed(self, data: Bytes) -> SignedData:
        """Signed data, with all that is in them. Raises Refused as signers does."""
        octets = _octets(data)
        rows, count = self._signer_rows(octets, 0, FEW_SIGNERS)
        if count > FEW_SIGNERS:
            rows += self._signer_rows(octets, FEW_SIGNERS, count - FEW_SIGNERS)[0]
        return SignedData(self, _SignedFile(octets), octets, rows)

    def signers(self, data: Bytes) -> List[Union[Signer, BadAttributes]]:
        """All signers of signed data, of any CMSVersion and over content of any type, in one reading or two.

        A BadAttributes is in the place of a signer that breaks RFC 5652: ask isinstance(it, Signer) of each. Where
        there are no signers the list is empty, and nothing is signed. The parts are memoryviews of data, and of a copy
        where data can be written. Raises Refused where they are no signed data.
        """
        return list(self.signed(data).signers)

    def signer(self, data: Bytes, index: int) -> Optional[Signer]:
        """The signer with an index, from 0 on. None where there are fewer.

        Raises BadAttributes where it breaks RFC 5652, and Refused as signers does.
        """
        number, octets = _index(index), _octets(data)
        rows, _ = self._signer_rows(octets, min(number, (1 << 64) - 1), 1)
        if not rows:
            return None
        found = _signer(rows[0], _SignedFile(octets), number)
        if isinstance(found, BadAttributes):
            raise found
        return found

    def _signer_rows(self, data: _Whole, first: int, room: int) -> Tuple[List[_calls.SignerParts], int]:
        """The parts of signers from one on, at most so many, and how many signers there are in all."""
        rows, count, place = (_calls.SignerParts * room)(), ctypes.c_size_t(), ctypes.c_size_t()
        status = self._library.der_signer_rows(
            *_given(data), first, rows, room, ctypes.byref(count), ctypes.byref(place)
        )
        _raise_for_range(status, place.value)
        return rows[: min(room, max(count.value - first, 0))], count.value

    def mac_part_ber(self, part: Part, data: Bytes) -> Optional[bytes]:
        """A part of the MAC of a PKCS #12 file that from_ber returned. None where it has no MAC.

        Raises Refused as mac_ber does.
        """
        part = Part(part)
        if part not in MAC_PARTS:
            raise ValueError(f"{part.name} is no part of a MAC")
        data = _octets(data)
        status, octets = _written(self._library.der_mac_part_ber, (part.value, *_given(data)), len(data) + 64)
        if status == NO_PART:
            return None
        if status in REASONS:
            self.check("rawpfx", data)
        _raise_for(status, "rawpfx", 0)
        return octets

    def name_text(self, encoding: Bytes) -> str:
        """A Name as text (RFC 4514), as "CN=A,O=B". Raises Refused where the encoding is none."""
        return self._text(self._library.der_name_text, encoding)

    def oid_text(self, contents: Bytes) -> str:
        """An object identifier, as "1.3.14.3.2.26", by its contents octets. Raises Refused where they are none."""
        return self._text(self._library.der_oid_text, contents)

    def oid_octets(self, text: str) -> bytes:
        """The contents octets of an object identifier, by its text, as "1.3.14.3.2.26": numbers without leading zeros,
        joined by dots. Raises Refused where it spells none, or has a number that 64 bits don't hold.
        """
        data = _utf8(text, "an object identifier")
        status, octets = _written(self._library.der_oid_octets, _given(data), len(data) + 16)
        _raise_for(status, "", 0)
        return octets

    def oid_name(self, contents: Bytes) -> Optional[str]:
        """The name of an object identifier, as "sha256", by its contents octets.

        It is the long name that openssl 3.0 prints, or where it has none that of the document that defines it. None where
        the library knows none.
        """
        data = _octets(contents)
        status, name = _written(self._library.der_oid_name, _given(data), 64)
        return name.decode() if status == NORMAL else None

    def integer_text(self, contents: Bytes) -> str:
        """The number that the contents octets of an INTEGER hold, in decimal. Raises Refused where there are none, or
        more than 1,024.
        """
        return self._text(self._library.der_integer_text, contents)

    def utf16_text(self, octets: Bytes) -> str:
        """The text of UTF-16, two octets for each unit, the high one first, as a bag has its friendly name.

        Raises Refused where the octets are none: an odd number of them, or a surrogate without its other half.
        """
        return self._text(self._library.der_utf16_text, octets)

    def text_utf16(self, text: str) -> bytes:
        """A text in UTF-16, two octets for each unit, the high one first, as a bag has its friendly name, and as the
        password that the keys of PKCS #12 are derived of, with two zero octets after it (RFC 7292, B.1).

        Raises Refused where it has a surrogate, which is no character.
        """
        data = _utf8(text, "a text")
        status, octets = _written(self._library.der_text_utf16, _given(data), 2 * len(data) + 16)
        _raise_for(status, "", 0)
        return octets

    def _text(self, call: Call, data: Bytes) -> str:
        """What a call writes as text of some octets."""
        data = _octets(data)
        status, text = _written(call, _given(data), 4 * len(data) + 16)
        _raise_for(status, "", 0)
        return text.decode()

    def kinds(self) -> List[str]:
        """The words of all kinds."""
        words: List[str] = []
        out, written = ctypes.create_string_buffer(64), ctypes.c_size_t()
        while self._library.der_kind_word(len(words), out, len(out), ctypes.byref(written)) == NORMAL:
            words.append(out.raw[: written.value].decode())
        return words


def dotted(contents: bytes) -> str:
    """An object identifier, as "1.3.14.3.2.26", by its contents octets: where these are more than 64 they come back
    themselves, in hexadecimal, as "2A:86:48". All that has one as text has it so, as Mac.digest_algorithm.
    """
    octets = bytes(_octets(contents))
    if len(octets) > MAX_DOTTED:
        return octets.hex(":").upper()
    arcs: List[int] = []
    arc = 0
    for octet in octets:
        arc = arc << 7 | octet & 0x7F
        if octet < 0x80:
            arcs += [arc] if arcs else [min(arc // 40, 2), arc - 40 * min(arc // 40, 2)]
            arc = 0
    return ".".join(map(str, arcs))


def attribute_oid(attribute: memoryview) -> str:
    """The type of an Attribute of a signer or of a bag, as "1.2.840.113549.1.9.5"."""
    return _first_oid(attribute)


def attribute_values(attribute: memoryview) -> Tuple[memoryview, ...]:
    """The values of an Attribute of a signer or of a bag, each an element."""
    _, values = _inside(attribute)
    return tuple(it.whole for it in _elements(values.contents))


def hashed_octets(element: Bytes) -> bytes:
    """The contents octets of an element, without its tag and length: what the digest of content is over that is an
    element (RFC 2315, 9.3). Raises ValueError where octets aren't exactly one element, as DER has it, with a tag of one
    octet.
    """
    octets = bytes(_octets(element))
    contents = bytes(next(_elements(memoryview(octets))).contents) if _is_one(octets) else b""
    if _encoded(octets[0] if octets else 0, contents) != octets or octets[0] & 0x1F == 0x1F:
        raise ValueError("octets aren't exactly one element with a tag of one octet")
    return contents


def digest_name(oid: str) -> Optional[str]:
    """The name in hashlib of a digest, where it has that digest."""
    name = DIGESTS.get(oid)
    return name if name in hashlib.algorithms_available else None


def prf_digest(oid: Optional[str]) -> Optional[str]:
    """The name in hashlib of the digest of a pseudorandom function, where it has that digest: of HMAC with SHA-256
    "sha256", which hashlib.pbkdf2_hmac takes. None of None.
    """
    name = None if oid is None else PRFS.get(oid)
    return name if name in hashlib.algorithms_available else None


def _elements(octets: memoryview) -> Iterator[_Element]:
    """The elements that octets are, in what the library accepted: their lengths are as DER writes them."""
    at = 0
    while at < len(octets):
        size, start = octets[at + 1], at + 2
        if size > 0x7F:
            start += size - 0x80
            size = int.from_bytes(octets[at + 2 : start], "big")
        end = start + size
        yield _Element(octets[at], octets[at:end], octets[start:end])
        at = end


def _inside(octets: memoryview) -> Iterator[_Element]:
    """The elements in an element."""
    return _elements(next(_elements(octets)).contents)


def _first_oid(octets: memoryview) -> str:
    """The object identifier that is the first element in an element."""
    return dotted(bytes(next(_inside(octets)).contents))


def _time(element: _Element) -> datetime.datetime:
    """The time that an element is. Raises ValueError where it isn't one in UTC and in whole seconds."""
    text = bytes(element.contents).decode("ascii", "replace")
    if element.tag == UTC_TIME:
        text = ("20" if text < "50" else "19") + text
    if element.tag not in (UTC_TIME, GENERALIZED_TIME) or not re.fullmatch(r"\d{14}Z", text, re.ASCII):
        raise ValueError("signingTime isn't a time in UTC and in whole seconds")
    return datetime.datetime.strptime(text, "%Y%m%d%H%M%SZ").replace(tzinfo=datetime.timezone.utc)


def _octets(data: Bytes) -> _Whole:
    """The octets of an input, whatever its items are: of a copy unless it is bytes, or mapped to be read alone, or a view
    of one of these whose octets follow one another. No other thread can write into what is kept, but whoever can write
    a mapped file can. TypeError where it has none.
    """
    # an object of a subclass may say another length than it has
    if type(data) is bytes:
        return data
    view = memoryview(data)
    is_kept = isinstance(view.obj, (bytes, mmap.mmap)) and view.readonly and view.c_contiguous
    return view.cast("B") if is_kept and hasattr(ctypes, "pythonapi") else bytes(view)


class _Buffer(ctypes.Structure):
    """A Py_buffer of Python's C API."""

    _fields_ = [
        *(("buf", ctypes.c_void_p), ("obj", ctypes.c_void_p), ("len", ctypes.c_ssize_t)),
        *(("itemsize", ctypes.c_ssize_t), ("readonly", ctypes.c_int), ("ndim", ctypes.c_int)),
        *((name, ctypes.c_void_p) for name in ("format", "shape", "strides", "suboffsets", "internal")),
    ]
    buf: Optional[int]


def _given(data: _Whole) -> Tuple[object, int]:
    """An input as the calls take it: a pointer, and a length. The memoryview keeps its octets where they are."""
    if type(data) is bytes:
        return data, len(data)
    buffer = _Buffer()
    ctypes.pythonapi.PyObject_GetBuffer(ctypes.py_object(data), ctypes.byref(buffer), 0)
    at = buffer.buf
    ctypes.pythonapi.PyBuffer_Release(ctypes.byref(buffer))
    return at or b"", len(data)


def _written(call: Call, given: Tuple[object, ...], room: int, *place: object) -> Tuple[int, bytes]:
    """What a call answers that writes octets, and these, in so much room or in as much as it asks for."""
    written = ctypes.c_size_t()
    while True:
        out = ctypes.create_string_buffer(room)
        status = call(*given, out, room, ctypes.byref(written), *place)
        if status != NO_ROOM:
            return status, ctypes.string_at(out, written.value)
        room = written.value


def _input(kind: str, data: _Whole, limit: int) -> Tuple[object, ...]:
    """The arguments that say what is asked of which input."""
    levels, word = _whole_number(limit), _utf8(kind, "a kind")
    if levels < 0:
        raise ValueError(f"a limit of {levels} levels")
    return word, len(word), min(levels, MAX_NESTING), *_given(data)


def _raise_for_range(status: int, place: int) -> None:
    """The same of a call that looks for parts in the input."""
    if status == NO_RANGE:
        raise Refused(Reason.NO_RANGE, 0)
    _raise_for(status, "", place)


def _raise_for(status: int, kind: str, place: int) -> None:
    """Raises what a status means that is no answer."""
    if status in REASONS:
        raise Refused(REASONS[status], place)
    if status == UNKNOWN_KIND:
        raise UnknownKind(kind)
    if status == TOO_LONG:
        raise OverflowError("the normal encoding has 2**64 bytes or more")
    if status == NO_MEMORY:
        raise MemoryError
