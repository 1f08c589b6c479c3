"""What is refused here beyond what openssl refuses: a table of rules, each with the section of the standard it is of.

A rule answers why it refuses a case, or nothing. Of a store the case is its MAC; else it is signed data with a signer.
"""
import enum
import functools
import hashlib
from typing import Callable, FrozenSet, List, NamedTuple, Optional, Sequence, Tuple, Union

from . import der, library
from .containers import COUNTER_SIGNATURE, DATA
from .elements import OCTET_STRING, SEQUENCE, NotThere, whole
from .judging import Facts, StampFacts, facts, has_right_key
from .names import name_of
from .values import integer, oid

INDIRECT_DATA = "1.3.6.1.4.1.311.2.1.4"
# The encoding of the type messageDigest, and the tag of an OCTET STRING in segments.
MESSAGE_DIGEST, SEGMENTS = b"\x06\x09\x2a\x86\x48\x86\xf7\x0d\x01\x09\x04", 0x24
# Attributes that name the signer's certificate by a digest, and that digest where they say none (RFC 5035, 5.4).
NAMES_CERTIFICATE = {"1.2.840.113549.1.9.16.2.47": "sha256", "1.2.840.113549.1.9.16.2.12": "sha1"}
# Digests, and algorithms of signatures that have one in them: MD2, MD4, MD5 and SHA-1.
WEAK_DIGESTS = ("1.2.840.113549.2.2", "1.2.840.113549.2.4", "1.2.840.113549.2.5", "1.3.14.3.2.26")
WEAK_SIGNATURES = (
    *(f"1.2.840.113549.1.1.{it}" for it in (2, 3, 4, 5)),
    *(f"1.3.14.3.2.{it}" for it in (3, 27, 29)),
    *("1.2.840.10045.4.1", "1.2.840.10040.4.3"),
)
# openssl takes the name of such an algorithm for its digest's.
WEAK_AS_DIGESTS = (*WEAK_DIGESTS, *WEAK_SIGNATURES)
# What is in the names of the same by which openssl prints what a time stamp is over.
WEAK_NAMES = ("md2", "md4", "md5", "sha1")
# How many bits a modulus and the field of a curve need; and an exponent, beside a modulus of more bits, has at most.
LEAST_RSA, LEAST_CURVE, MOST_EXPONENT, SMALL_RSA = 2048, 224, 64, 3072
# What a signer's algorithm may be for a key, as openssl names its algorithm. ECDSA, DSA and RSA may be named without a
# digest; a key for RSASSA-PSS takes that alone (RFC 4055, 1.2).
RSA, CURVE, PSS, NIST = "rsaEncryption", "id-ecPublicKey", "1.2.840.113549.1.1.10", "2.16.840.1.101.3.4.3"
# The tag of saltLength in the parameters of RSASSA-PSS.
SALT_LENGTH = 0xA2
ALGORITHMS = {
    RSA: (
        *(f"1.2.840.113549.1.1.{it}" for it in (1, 2, 3, 4, 5, 10, 11, 12, 13, 14, 15, 16)),
        *("1.3.14.3.2.3", "1.3.14.3.2.29"),
        *(f"{NIST}.{it}" for it in (13, 14, 15, 16)),
    ),
    "rsassaPss": (PSS,),
    CURVE: (
        *("1.2.840.10045.2.1", "1.2.840.10045.4.1"),
        *(f"1.2.840.10045.4.3.{it}" for it in range(1, 5)),
        *(f"{NIST}.{it}" for it in (9, 10, 11, 12)),
    ),
    "dsaEncryption": (
        *("1.2.840.10040.4.1", "1.2.840.10040.4.3", "1.3.14.3.2.12", "1.3.14.3.2.13", "1.3.14.3.2.27"),
        *(f"{NIST}.{it}" for it in range(1, 9)),
    ),
    "ED25519": ("1.3.101.112",),
    "ED448": ("1.3.101.113",),
}
# The digest in an algorithm of signatures, where it has one: of RSA, ECDSA and DSA (RFC 8017, RFC 5758, NIST).
MD5, SHA1, SHA = "1.2.840.113549.2.5", "1.3.14.3.2.26", "2.16.840.1.101.3.4.2"
DIGEST_OF = {
    **dict.fromkeys(("1.2.840.113549.1.1.4", "1.3.14.3.2.3"), MD5),
    **dict.fromkeys(("1.2.840.113549.1.1.5", "1.3.14.3.2.29", "1.2.840.10045.4.1"), SHA1),
    **dict.fromkeys(("1.2.840.10040.4.3", "1.3.14.3.2.27"), SHA1),
    **{f"1.2.840.113549.1.1.{10 + it}": f"{SHA}.{it}" for it in range(1, 7)},
    **{f"1.2.840.10045.4.3.{at}": f"{SHA}.{it}" for at, it in enumerate((4, 1, 2, 3), 1)},
    **{f"{NIST}.{at}": f"{SHA}.{it}" for at, it in enumerate((4, 1, 2, 3, *(3 * (7, 8, 9, 10))), 1)},
}


class Case(NamedTuple):
    """Signed data that openssl is asked about."""

    data: der.SignedData
    signers: List[Union[der.Signer, der.BadAttributes]]
    infos: List[der.SignerInfo]
    # what --content gives or what a time stamp has to be of, and what is signed or stamped: that or what the file has
    given: Optional[bytes]
    content: Optional[bytes]
    is_stamp: bool
    # the certificates of the file, and those beside them: of the file around it, and of --certificate
    certificates: List[bytes]
    others: List[bytes]
    # of each signer the certificates that may be its own: one where it is known which
    own: Sequence[Sequence[bytes]] = ()
    stamp: Optional[StampFacts] = None

    @property
    def is_of_cms(self) -> bool:
        """Whether openssl reads it by cms; else it does by smime or ts, as PKCS #7 has them."""
        is_string = self.data.content_tag in (None, OCTET_STRING, SEGMENTS)
        return not self.is_stamp and (is_string or self.data.content_type == DATA)

    def facts_of(self, number: int) -> List[Facts]:
        """What the certificates that may be a signer's hold."""
        return [it for it in map(facts, self.own[number]) if it is not None]


class Effect(enum.Enum):
    """What comes of a rule that says why."""

    REFUSES = "refused"
    # it is refused, unless --allow-weak is given
    WEAK = "weak"
    # right at best for what openssl compared
    UNCOMPARED = "not compared"
    # it is told
    TELLS = "told"
    # it is not right, and openssl isn't asked
    UNASKED = "not checked"


class Of(enum.Enum):
    """What a rule is asked about."""

    FILE = "signed data"
    SIGNER = "a signer of them"
    STORE = "a store's MAC"


class Rule(NamedTuple):
    """A rule."""

    name: str
    section: str
    function: Callable[..., str]
    of: Of
    effect: Effect = Effect.REFUSES


# Of signed data


def no_signers(case: Case) -> str:
    """Where there are no signers nothing is signed."""
    return "" if case.signers else "no signers"


def other_content(case: Case) -> str:
    """Content of the file's own is what is signed, whatever is given beside it."""
    has_both = case.data.content_tag is not None and case.given is not None and not case.is_stamp
    return "the content in the file isn't that which is given" if has_both and case.content != case.given else ""


def content_form(case: Case) -> str:
    """Data are an OCTET STRING; the tag isn't signed. Segments of one that couldn't be joined are what isn't signed."""
    tag = case.data.content_tag
    is_other = tag == SEGMENTS or case.data.content_type == DATA and tag not in (None, OCTET_STRING)
    return "its content is no OCTET STRING of one piece" if is_other else ""


def stamp_signers(case: Case) -> str:
    """A time stamp has one signer."""
    return "a time stamp with more than one signer" if case.is_stamp and len(case.signers) > 1 else ""


# Of a signer


def bad_attributes(case: Case, number: int) -> str:
    """Signed attributes have one messageDigest and one contentType, and are there unless the content is data."""
    signer = case.signers[number]
    return str(signer) if isinstance(signer, der.BadAttributes) else ""


def attributes_as_content(case: Case, number: int) -> str:
    """A signature over signed attributes is one over content that these are, once they are left out: a SET OF, and in
    it the type messageDigest."""
    signer, content = case.signers[number], case.content or b""
    is_over_content = isinstance(signer, der.Signer) and not signer.is_over_attributes
    if is_over_content and content[:1] == b"\x31" and _has_digest(content):
        return "its content may be the signed attributes of another signature"
    return ""


@functools.lru_cache(maxsize=1)
def _has_digest(content: bytes) -> bool:
    """Whether content has the type messageDigest in it, which is looked for once for all signers."""
    return MESSAGE_DIGEST in content


def unread_certificate(case: Case, number: int) -> str:
    """A certificate that isn't read may be a signer's to another reader, and openssl passes some of them over; of a key
    that isn't known the rules below say nothing."""
    for at, it in enumerate([*case.certificates, *case.others], 1):
        if facts(it) is None:
            return f"openssl doesn't read certificate {at}"
    return "" if case.facts_of(number) else "its certificate isn't known"


def same_issuer_and_serial(case: Case, number: int) -> str:
    """An authority gives no two certificates one serial number, so one of them isn't the signer's."""
    names = {(it.issuer, it.serial) for it in case.facts_of(number)}
    held = {_in_der(it) for it in (*case.certificates, *case.others, *case.own[number])}
    those = [it for it in map(facts, held) if it is not None and (it.issuer, it.serial) in names]
    return "two certificates that differ have its issuer and serial number" if len(those) > len(names) else ""


@functools.lru_cache(maxsize=512)
def _in_der(certificate: bytes) -> bytes:
    """A certificate as the library reads it: openssl writes that of a signer as it is in the file, which may be BER."""
    try:
        return library().from_ber(certificate)
    except der.Refused:
        return certificate


def signing_certificate(case: Case, number: int) -> str:
    """The certificate that signed attributes name is the signer's: another one of the same key says another name, and
    what else names a certificate isn't signed. openssl looks at that in time stamps alone, and there at one of several
    that may be the signer's. Of each type there is one value."""
    if isinstance(case.signers[number], der.BadAttributes):
        return ""
    values = [
        (bytes(value), NAMES_CERTIFICATE[which])
        for attribute in case.infos[number].attributes
        if (which := der.attribute_oid(attribute)) in NAMES_CERTIFICATE
        for value in der.attribute_values(attribute)
    ]
    if len(values) > len({digest for _, digest in values}):
        return "its signed attributes name more than one certificate"
    is_so = all(_names(value, digest, it) for value, digest in values for it in case.own[number])
    return "" if is_so else "its signed attributes name another certificate"


def _names(value: bytes, digest: str, certificate: bytes) -> bool:
    """Whether the first identifier in an attribute is a certificate's: its digest, before which an algorithm may be."""
    try:
        first, *more = whole(value).first(1)[0].first(1)[0].first(2)
        if first.tag == SEQUENCE:
            digest, first = der.DIGESTS[oid(first.inside())], more[0]
        made = _digests(digest, certificate)
        return first.tag == OCTET_STRING and first.contents in made
    except (LookupError, ValueError):
        return False


@functools.lru_cache(maxsize=64)
def _digests(digest: str, certificate: bytes) -> FrozenSet[bytes]:
    """The digests of a certificate as it is and in DER, which are made once for all that names it."""
    return frozenset(hashlib.new(digest, it).digest() for it in (certificate, _in_der(certificate)))


def algorithm_of_key(case: Case, number: int) -> str:
    """The signature is by an algorithm of the key: with a key on a curve openssl doesn't look at what is said of it,
    nor with any in PKCS #7, where a key of RSA signs as PKCS #1 v1.5 has it."""
    signer = case.signers[number]
    if isinstance(signer, der.BadAttributes):
        return ""
    for it in case.facts_of(number):
        is_other = signer.signature_oid == PSS and it.key == RSA and not case.is_of_cms
        if is_other or signer.signature_oid not in ALGORITHMS.get(it.key, ()):
            return f"{name_of(signer.signature_oid)} by a key of {name_of(it.key)}"
    return ""


def digest_of_signature(case: Case, number: int) -> str:
    """The digest in the name of a signature's algorithm is the signer's, which openssl takes whatever is named. Some
    signers name that algorithm as their digest's."""
    signer = case.signers[number]
    if isinstance(signer, der.BadAttributes):
        return ""
    which, digest = signer.signature_oid, signer.digest_oid
    is_same = DIGEST_OF.get(which, digest) == digest or which == digest
    return "" if is_same else f"{name_of(which)} over the digest {name_of(digest)}"


def salt_length(case: Case, number: int) -> str:
    """openssl takes the last 32 bits of the length of a salt, whatever is before them."""
    signer = case.signers[number]
    if isinstance(signer, der.BadAttributes) or signer.signature_oid != PSS:
        return ""
    try:
        parameters = whole(bytes(signer.signature_algorithm)).children()[1:]
        lengths = [integer(it.inside()) for those in parameters for it in those.children() if it.tag == SALT_LENGTH]
    except NotThere:
        return "parameters of RSASSA-PSS that aren't read"
    return "a salt length that isn't a number of 31 bits" if any(not 0 <= it < 1 << 31 for it in lengths) else ""


def exponent(case: Case, number: int) -> str:
    """An exponent of RSA is odd and at least 3; a long one beside a long modulus takes hours."""
    for it in _rsa(case, number):
        if it.exponent is None or it.bits is None:
            return "an RSA key that isn't read"
        if it.exponent < 3 or it.exponent % 2 == 0:
            return "an RSA key whose exponent is even, or below 3"
        if it.exponent.bit_length() > MOST_EXPONENT and it.bits > SMALL_RSA:
            return f"an RSA key whose exponent has more than {MOST_EXPONENT} bits"
    return ""


def named_curve(case: Case, number: int) -> str:
    """A curve has a name: with one that is written out in numbers, which may be of a small group, anyone may sign; and
    with a key that is the point at infinity, of which openssl writes no curve."""
    is_so = all(it.is_named for it in case.facts_of(number) if it.key == CURVE)
    return "" if is_so else "a key on a curve without a name"


def public_key(case: Case, number: int) -> str:
    """A key has the numbers of one: with a modulus that is prime, or a point of small order, anyone may sign."""
    return "" if all(map(has_right_key, case.own[number])) else "openssl doesn't find its key right"


def _rsa(case: Case, number: int) -> List[Facts]:
    """Keys of RSA."""
    return [it for it in case.facts_of(number) if it.key.startswith("rsa")]


def weak_digest(case: Case, number: int) -> str:
    """MD5 and SHA-1 have collisions that were found."""
    signer = case.signers[number]
    if isinstance(signer, der.BadAttributes):
        return ""
    if signer.digest_oid in WEAK_AS_DIGESTS:
        return f"the digest {name_of(signer.digest_oid)}"
    if signer.signature_oid in WEAK_SIGNATURES:
        return f"the signature algorithm {name_of(signer.signature_oid)}"
    if case.stamp is not None and any(it in case.stamp.digest.lower() for it in WEAK_NAMES):
        return f"the digest {case.stamp.digest} of what is stamped"
    return ""


def weak_rsa(case: Case, number: int) -> str:
    """RSA of fewer bits isn't taken for safe any more."""
    found = min((it.bits or 0 for it in _rsa(case, number)), default=LEAST_RSA)
    return f"RSA of {found} bits" if found < LEAST_RSA else ""


def weak_curve(case: Case, number: int) -> str:
    """Nor is ECDSA of fewer bits."""
    found = min((it.bits or 0 for it in case.facts_of(number) if it.key == CURVE), default=LEAST_CURVE)
    return f"a curve of {found} bits" if found < LEAST_CURVE else ""


def weak_dsa(case: Case, number: int) -> str:
    """DSA isn't approved any more."""
    return "DSA" if any(it.key.startswith("dsa") for it in case.facts_of(number)) else ""


def indirect_data(case: Case, number: int) -> str:
    """Indirect data are the digest of a program, which isn't there."""
    return "over the digest of a program, which isn't compared" if case.data.content_type == INDIRECT_DATA else ""


def counter_signature(case: Case, number: int) -> str:
    """A counter signature is a signature of the signer's."""
    types = map(der.attribute_oid, case.infos[number].unsigned_attributes)
    return "counter signature not checked" if COUNTER_SIGNATURE in types else ""


# Of a store


def no_mac(mac: Optional[der.Mac]) -> str:
    """Without a MAC openssl takes a store under any password."""
    return "in the file" if mac is None else ""


def iterations(mac: Optional[der.Mac]) -> str:
    """A key is derived by at least one iteration."""
    return "0 iterations" if mac is not None and mac.iterations == 0 else ""


def mac_digest(mac: Optional[der.Mac]) -> str:
    """A digest that isn't known, PBMAC1 among them, is left to newer tools."""
    if mac is None or mac.digest_algorithm in der.DIGESTS:
        return ""
    return f"the digest {name_of(mac.digest_algorithm)} is not known"


RULES: Tuple[Rule, ...] = (
    Rule("no-signers", "RFC 5652, 5.1", no_signers, Of.FILE),
    Rule("other-content", "RFC 5652, 5.2", other_content, Of.FILE),
    Rule("content-form", "RFC 5652, 4 and 5.2", content_form, Of.FILE),
    Rule("stamp-signers", "RFC 3161, 2.4.2", stamp_signers, Of.FILE),
    Rule("bad-attributes", "RFC 5652, 5.3, 11.1 and 11.2", bad_attributes, Of.SIGNER),
    Rule("attributes-as-content", "RFC 5652, 5.4", attributes_as_content, Of.SIGNER),
    Rule("unread-certificate", "RFC 5652, 10.2.2", unread_certificate, Of.SIGNER),
    Rule("same-issuer-and-serial", "RFC 5280, 4.1.2.2", same_issuer_and_serial, Of.SIGNER),
    Rule("signing-certificate", "RFC 5035, 5.4", signing_certificate, Of.SIGNER),
    Rule("algorithm-of-key", "RFC 5652, 5.3", algorithm_of_key, Of.SIGNER),
    Rule("digest-of-signature", "RFC 5652, 5.3", digest_of_signature, Of.SIGNER),
    Rule("salt-length", "RFC 8017, A.2.3", salt_length, Of.SIGNER),
    Rule("exponent", "RFC 8017, 3.1", exponent, Of.SIGNER),
    Rule("named-curve", "RFC 5480, 2.1.1", named_curve, Of.SIGNER),
    Rule("public-key", "NIST SP 800-89, 4 and 5", public_key, Of.SIGNER),
    Rule("weak-digest", "RFC 6151, 2.1 and RFC 6194, 3.1", weak_digest, Of.SIGNER, Effect.WEAK),
    Rule("weak-rsa", "NIST SP 800-131A, 3", weak_rsa, Of.SIGNER, Effect.WEAK),
    Rule("weak-curve", "NIST SP 800-131A, 3", weak_curve, Of.SIGNER, Effect.WEAK),
    Rule("weak-dsa", "FIPS 186-5, 4", weak_dsa, Of.SIGNER, Effect.WEAK),
    Rule("indirect-data", "Windows Authenticode PE Signature Format", indirect_data, Of.SIGNER, Effect.UNCOMPARED),
    Rule("counter-signature", "RFC 5652, 11.4", counter_signature, Of.SIGNER, Effect.TELLS),
    Rule("no-mac", "RFC 7292, 4", no_mac, Of.STORE),
    Rule("iterations", "RFC 7292, 4", iterations, Of.STORE),
    Rule("mac-digest", "RFC 7292, 4", mac_digest, Of.STORE, Effect.UNASKED),
)


def found(of: Of, *asked: object) -> List[Tuple[Rule, str]]:
    """The rules about something that say why, and what they say."""
    said = ((rule, rule.function(*asked)) for rule in RULES if rule.of is of)
    return [(rule, why) for rule, why in said if why]
