"""Parameters of encryption with a password, made from scratch, and what is built with them; stores of PKCS #12 (RFC
7292); signed data of CMS (RFC 5652) and PKCS #7; what Authenticode signs; and enveloped data of CMS. All is DER:

    its = build.pbes2(
        build.AES_256_CBC, initialization_vector=vector, salt=salt, iterations=600_000, prf=build.HMAC_WITH_SHA256,
        encrypted=octets,
    )
    build.encrypted_key(its)         what a file "ENCRYPTED PRIVATE KEY" of PKCS #8 has
    build.encrypted_contents(its)    encrypted contents of a PKCS #12 store
    build.parameters(PasswordHolder.ALGORITHM, its)   the algorithm alone

    octets = build.bags([build.Bag(BagKind.CERTIFICATE, certificate, "me", key_id)])   bags, to be encrypted
    made = build.store([contents, [build.Bag(BagKind.SHROUDED_KEY, key, "me", key_id)]])
    made.covered                     what a MAC covers
    made.finish(build.Mac(build.SHA256, digest, salt, iterations))   the store with that MAC

    signer = build.Signer(
        build.algorithm(build.SHA256), build.algorithm(build.RSA, build.NULL), certificate, digest=digest,
        signing_time=now,
    )
    made = build.signed(content, [signer])
    made.covered                     what the signature of each signer covers
    made.finish([signature])         the file with these signatures, which openssl cms -verify takes

    content = build.program(build.algorithm(build.SHA256, build.NULL), digest)   what a signature of a program signs
    build.hashed_octets(content)     what the digest of that is over, which the signer has
    build.signed(content, [signer], content_type=build.INDIRECT_DATA, is_element=True)

    its = build.Recipient(build.algorithm(build.RSA, build.NULL), encrypted_key, certificate)
    build.enveloped(encrypted, [its], build.algorithm(build.AES_256_CBC, parameters))   a file for that recipient

Nothing is derived, encrypted, hashed, signed or judged here. Take a new random salt (RFC 8018, 4.1) and a new random
vector each time, derive the key by the same salt, count and function, and encrypt by that key and the vector: encrypted
is written as it is given, and so are the digest of a MAC, the digest of a content or of a program, a signature, and
what enveloped data hold and the keys of their recipients. Object identifiers are text, as "1.3.14.3.2.26". Where a part
can't be written, BadParameters is raised, BadBag, BadContent, BadStore, BadAttributes, BadSigned, BadIndirect,
BadRecipient or BadEnveloped; and Refused where pbes2, pbes1, pkcs12, algorithm, signed, indirect or enveloped is given
what is no object identifier, or utf16 a surrogate. Where something is of another type, TypeError is raised.
"""
import datetime
from typing import Iterable, List, NamedTuple, Optional, Sequence, Tuple, Union, cast

from . import der, library
from .der import Bytes, GivenContent, GivenImage, GivenIndirect, GivenSigner, PasswordHolder, PasswordParameters
from .der import hashed_octets as hashed_octets

# A bag, a MAC and a recipient that are made from scratch.
Bag = der.GivenBag
Mac = der.GivenMac
Recipient = der.GivenRecipient

# PBES2 (RFC 8018, A.4) and PBKDF2 (A.2).
PBES2, PBKDF2 = "1.2.840.113549.1.5.13", "1.2.840.113549.1.5.12"
# Encryption schemes (RFC 8018, B.2.5), whose vector has 16 octets.
AES_128_CBC, AES_192_CBC = "2.16.840.1.101.3.4.1.2", "2.16.840.1.101.3.4.1.22"
AES_256_CBC = "2.16.840.1.101.3.4.1.42"
# A pseudorandom function (RFC 8018, B.1.2); der.PRFS has all.
HMAC_WITH_SHA256 = "1.2.840.113549.2.9"
# A digest, as that of a MAC or of a signer; der.DIGESTS has others.
SHA256 = "2.16.840.1.101.3.4.2.1"
# The type of content that is any octets, id-data (RFC 5652, 4).
DATA = "1.2.840.113549.1.7.1"
# Signature algorithms. rsaEncryption (RFC 3370, 3.2) and sha256WithRSAEncryption (RFC 5754, 3.2) have NULL as
# parameters, ecdsa-with-SHA256 (RFC 5754, 3.3) and Ed25519 (RFC 8419), whose digest is SHA-512, have none.
RSA, SHA256_WITH_RSA = "1.2.840.113549.1.1.1", "1.2.840.113549.1.1.11"
ECDSA_WITH_SHA256, ED25519 = "1.2.840.10045.4.3.2", "1.3.101.112"
NULL = b"\x05\x00"
# The type of content that Authenticode signs, SPC_INDIRECT_DATA_OBJID; and what osslsigncode writes into that of a
# program: flags, of which one bit is set, includeResources, and a link, an SpcLink whose file is a text.
INDIRECT_DATA = "1.3.6.1.4.1.311.2.1.4"
INCLUDE_RESOURCES = b"\x07\x80"
OBSOLETE_LINK = b"\xA2\x1E\x80\x1C" + "<<<Obsolete>>>".encode("utf-16-be")
# How the key of a recipient is encrypted. RSA, above, is PKCS #1 v1.5 there (RFC 3370, 4.2.1); RSAES-OAEP has
# parameters (RFC 4055, 4.1), here those of SHA-256 and of MGF1 with SHA-256, as openssl writes them. The AES Key Wrap,
# for a recipient with a key-encryption key, has none (RFC 3565, 2.3.2).
RSAES_OAEP = "1.2.840.113549.1.1.7"
OAEP_WITH_SHA256 = bytes.fromhex(
    "302BA00D300B0609608648016503040201A11A301806092A864886F70D010108300B0609608648016503040201"
)
AES_128_WRAP, AES_192_WRAP = "2.16.840.1.101.3.4.1.5", "2.16.840.1.101.3.4.1.25"
AES_256_WRAP = "2.16.840.1.101.3.4.1.45"


def parameters(holder: PasswordHolder, given: PasswordParameters) -> bytes:
    """What a holder says, with these parameters, as Library.build_parameters makes it."""
    return library().build_parameters(holder, given)


def encrypted_key(given: PasswordParameters) -> bytes:
    """A key that is encrypted so, an EncryptedPrivateKeyInfo (RFC 5958, 3)."""
    return parameters(PasswordHolder.KEY, given)


def encrypted_contents(given: PasswordParameters) -> bytes:
    """Contents that are encrypted so, a ContentInfo of encryptedData, as PKCS #12 has them (RFC 7292, 4.1)."""
    return parameters(PasswordHolder.CONTENTS, given)


def algorithm(oid: str, parameters: Optional[Bytes] = None) -> bytes:
    """An AlgorithmIdentifier with the element of its parameters, or without any: that of a digest or of a signature."""
    given = PasswordParameters(library().oid_octets(oid), parameters)
    return library().build_parameters(PasswordHolder.ALGORITHM, given)


def _needed(octets: Bytes, name: str) -> Bytes:
    """Octets that have to be given, though there may be none of them. Raises TypeError for None."""
    if octets is None:
        raise TypeError(f"{name} has to be octets, not None")
    return octets


def pbes2(
    encryption: str,
    *,
    initialization_vector: Bytes,
    salt: Bytes,
    iterations: int,
    prf: Optional[str],
    key_length: Optional[int] = None,
    encrypted: Optional[Bytes] = None,
) -> PasswordParameters:
    """PBES2 with PBKDF2 (RFC 8018, 6.2 and 5.2), and an encryption scheme whose parameters are its vector, as AES, DES
    and triple DES in CBC mode have them (B.2). None as prf means HMAC with SHA-1, which is left out. key_length is in
    octets; it may be None where all keys of the scheme have one length.
    """
    octets = library().oid_octets
    return PasswordParameters(
        algorithm=octets(PBES2),
        is_pbes2=True,
        derivation=octets(PBKDF2),
        is_pbkdf2=True,
        salt=_needed(salt, "salt"),
        iterations=iterations,
        key_length=key_length,
        prf=None if prf is None else octets(prf),
        encryption=octets(encryption),
        initialization_vector=_needed(initialization_vector, "initialization_vector"),
        encrypted=encrypted,
    )


def pbes1(algorithm: str, *, salt: Bytes, iterations: int, encrypted: Optional[Bytes] = None) -> PasswordParameters:
    """An algorithm of PBES1 (RFC 8018, 6.1 and A.3), as "1.2.840.113549.1.5.10", pbeWithSHA1AndDES-CBC. RFC 8018
    asks for a salt of 8 octets, which isn't checked. For new applications it recommends PBES2.
    """
    identifier, salt = library().oid_octets(algorithm), _needed(salt, "salt")
    return PasswordParameters(identifier, is_pbes1=True, salt=salt, iterations=iterations, encrypted=encrypted)


def pkcs12(algorithm: str, *, salt: Bytes, iterations: int, encrypted: Optional[Bytes] = None) -> PasswordParameters:
    """An algorithm of PKCS #12 (RFC 7292, C), as "1.2.840.113549.1.12.1.3", pbeWithSHAAnd3-KeyTripleDES-CBC. For new
    usage RFC 7292, B, deprecates them in favor of PBES2.
    """
    identifier, salt = library().oid_octets(algorithm), _needed(salt, "salt")
    return PasswordParameters(identifier, is_pkcs12=True, salt=salt, iterations=iterations, encrypted=encrypted)


# A bag to be written: made from scratch, or found by Library.bags.
AnyBag = Union[der.GivenBag, der.Bag]


class Store(NamedTuple):
    """What a PKCS #12 store holds, to which a MAC is to be added, or none."""

    # what the MAC covers: an AuthenticatedSafe
    covered: bytes

    def finish(self, mac: Optional[Mac] = None) -> bytes:
        """The store, as Library.build_store makes it."""
        return library().build_store(self.covered, mac)


def bags(given: Iterable[AnyBag]) -> bytes:
    """Bags, a SafeContents, as Library.build_bags makes it: to be encrypted, or as the value of a bag of
    BagKind.SAFE_CONTENTS.
    """
    return library().build_bags(given)


def store(contents: Iterable[Union[Bytes, Iterable[AnyBag]]]) -> Store:
    """A store with these contents, in their order. Each is a list of bags, which stay in clear, or octets: a
    ContentInfo of another type than data, as encrypted_contents makes it.

    Raises BadBag where a bag can't be written: its content is the index of the first list that has such a bag, and its
    bag the index in that list. Otherwise raises BadContent where octets are no such ContentInfo.
    """
    those = der._items(contents, "contents")
    return Store(library().build_safe([_content(index, it) for index, it in enumerate(those)]))


def _content(index: int, given: Union[Bytes, Iterable[AnyBag]]) -> GivenContent:
    """A content as build_safe takes it, by its index."""
    octets = der._viewed(given)
    if octets is not None:
        return GivenContent(octets, False)
    if isinstance(given, (str, dict)) or hasattr(given, "_fields"):
        wrong = der._type_name(type(given))
        raise TypeError(f"content {index} has to be a list of bags, or octets, not {wrong}")
    its_bags = list(cast(Iterable[AnyBag], given))
    try:
        return GivenContent(bags(its_bags), True)
    except der.BadBag as bad:
        raise der.BadBag(bad.bag, bad.part, index) from None


class Signer(NamedTuple):
    """A signer that signed writes, which is named by its certificate or by a key identifier: one of the two is given.
    With a digest it has signed attributes, which its signature covers; without one the signature covers the content.
    """

    # AlgorithmIdentifiers, as algorithm makes them: that of digest; without one, that by which the signature hashes the
    # content
    digest_algorithm: Bytes
    # and that of its signature
    signature_algorithm: Bytes
    # the DER of its X.509 certificate, whose issuer and serial number name it
    certificate: Optional[Bytes] = None
    # the octets of that certificate's subjectKeyIdentifier
    key_identifier: Optional[Bytes] = None
    # the digest of the content, and where that is an element of its contents octets (RFC 2315, 9.3)
    digest: Optional[Bytes] = None
    # when it signs, with a time zone, as of Library.build_attributes
    signing_time: Optional[datetime.datetime] = None
    # further signed attributes, each exactly one Attribute, in any order, as of Library.build_attributes
    attributes: Sequence[Bytes] = ()
    # those that its signature doesn't cover, each exactly one Attribute, in any order
    unsigned_attributes: Sequence[Bytes] = ()

    def __reduce__(self) -> Tuple[object, ...]:
        return type(self), der._plain(self)


class Signed(NamedTuple):
    """Signed data, to which signatures are to be added."""

    # what the signature of each signer covers, in their order: signed attributes, a SET OF Attribute, or the content
    covered: List[bytes]
    # the rest is what Library.build_signed takes, with signatures of no octets
    content_type: bytes
    content: Optional[bytes]
    is_element: bool
    certificates: Tuple[bytes, ...]
    crls: Tuple[bytes, ...]
    signers: Tuple[GivenSigner, ...]

    def finish(self, signatures: Iterable[Bytes]) -> bytes:
        """The file with these signatures, as Library.build_signed makes it: one for each signer, in their order. Raises
        ValueError where there are more or fewer. Whether they are right isn't looked at.
        """
        given = list(der._items(signatures, "signatures"))
        if len(given) != len(self.signers):
            raise ValueError(f"{len(self.signers)} signatures are needed, and {len(given)} are given")
        return library().build_signed(
            self.content_type,
            self.content,
            is_element=self.is_element,
            certificates=self.certificates,
            crls=self.crls,
            signers=[signer._replace(signature=it) for signer, it in zip(self.signers, given)],
        )


def signed(
    content: Optional[Bytes],
    signers: Iterable[Signer],
    *,
    content_type: str = DATA,
    is_element: bool = False,
    detached: bool = False,
    certificates: Optional[Iterable[Bytes]] = None,
    crls: Iterable[Bytes] = (),
) -> Signed:
    """Signed data over content: octets, or where is_element any element, as in PKCS #7 (RFC 2315, 7). Where detached,
    or where content is None, it isn't in the file: then it counts as content of CMS, also where it is an element, so
    that any type but DATA gives version 3 (RFC 5652, 5.1). None as certificates means those of the signers, each once,
    and of a signer that is named by a key identifier none. Where certificates is given, these alone are in the file:
    the signers' have to be among them. Without signers the file has certificates and crls alone (5.2), and content has
    to be None. Signed and unsigned attributes are written in the order of DER (X.690, 11.6). All octets are copied, so
    that they may be changed before finish.

    Raises BadAttributes, whose signer is the index of a signer, or BadSigned where something can't be written, so that
    nothing is signed in vain. Raises ValueError where a signing time has no time zone; and of a signer without a
    digest, where it has signed attributes, or content is None or an element.
    """
    given, its_type = list(der._items(signers, "signers")), library().oid_octets(content_type)
    for index, it in enumerate(given):
        der._typed(it, f"signer {index}", Signer)
    if not given and content is not None:
        # nobody signs it: it is refused also where it isn't to be in the file
        raise der.BadSigned(der.SignedPart.CONTENT)
    # the octets that a signature covers have to be those that are written
    octets = None if content is None else _kept(content)
    covered = [_covered(index, it, its_type, None if is_element else octets) for index, it in enumerate(given)]
    if certificates is None:
        certificates = dict.fromkeys(_kept(it.certificate) for it in given if it.certificate is not None)
    its_signers, its_content = tuple(map(_signer, given, covered)), None if detached else octets
    lists = _kept_list(certificates, "certificates"), _kept_list(crls, "crls")
    made = Signed(covered, its_type, its_content, is_element, *lists, its_signers)
    # any octets are a signature, and any are content that is no element, so all else is tried here: an element also
    # where it isn't to be in the file
    tried = octets if is_element else None if its_content is None else b""
    made._replace(content=tried).finish(len(given) * [b""])
    return made


def _kept(octets: Bytes) -> bytes:
    """Octets as they are now, whatever is written into them afterwards. TypeError where it has none."""
    # an object of a subclass may say other octets than it has
    return octets if type(octets) is bytes else bytes(memoryview(octets))


def _kept_or_none(octets: Optional[Bytes]) -> Optional[bytes]:
    """The same of octets that may be None."""
    return None if octets is None else _kept(octets)


def _kept_list(those: Iterable[Bytes], name: str) -> Tuple[bytes, ...]:
    """The same of each in a list. TypeError, which says its name, where octets are in place of that."""
    return tuple(map(_kept, der._items(those, name)))


def _covered(index: int, signer: Signer, content_type: bytes, content: Optional[bytes]) -> bytes:
    """What the signature of a signer covers, by its index, where the content is of these octets, or of none."""
    if signer.digest is not None:
        return _attributes(index, signer, content_type)
    if signer.signing_time is not None or der._kept_items(signer.attributes, "attributes"):
        raise ValueError(f"signer {index} has signed attributes, so it has to have a digest")
    if content is None:
        raise ValueError(f"signer {index} has to have a digest, as the content isn't given as octets")
    return content


def _attributes(index: int, signer: Signer, content_type: bytes) -> bytes:
    """The signed attributes of a signer, by its index."""
    time = signer.signing_time
    if time is not None and der._typed(time, "signing_time", datetime.datetime).utcoffset() is None:
        raise ValueError(f"signing_time of signer {index} has no time zone")
    try:
        return library().build_attributes(content_type, signer.digest, time, signer.attributes)
    except der.BadAttributes as bad:
        raise der.BadAttributes(bad.part, index) from None


def _signer(signer: Signer, covered: bytes) -> GivenSigner:
    """A signer as build_signed takes it, with a signature of no octets."""
    # build_signed tells where one isn't given
    needed = signer.digest_algorithm, signer.signature_algorithm
    digest_algorithm, signature_algorithm = (_kept(it) if it is not None else it for it in needed)
    # the order of DER, as no encoding is a proper beginning of another
    unsigned = tuple(sorted(map(_kept, der._kept_items(signer.unsigned_attributes, "unsigned_attributes"))))
    return GivenSigner(
        digest_algorithm,
        signature_algorithm,
        b"",
        _kept_or_none(signer.certificate),
        _kept_or_none(signer.key_identifier),
        None if signer.digest is None else covered,
        unsigned,
    )


def program(
    digest_algorithm: Bytes,
    digest: Bytes,
    *,
    flags: Optional[Bytes] = INCLUDE_RESOURCES,
    link: Optional[Bytes] = OBSOLETE_LINK,
) -> bytes:
    """What a signature of a program for Windows signs: the element of its indirect data (SpcIndirectDataContent), as
    Library.build_indirect makes it. By default flags and link are those of osslsigncode.

    digest_algorithm is an AlgorithmIdentifier, as algorithm makes it: osslsigncode writes NULL as its parameters.
    digest is that of the program without its checksum, without its signatures, and without the entry of the data
    directory that says where these are; an unsigned program is hashed as if zeros filled it up to a multiple of 8
    octets. flags are the contents octets of a BIT STRING, of no bits one octet, 0. link is an element, an SpcLink. None
    as flags or link leaves them out, which osslsigncode 2.9 doesn't read. Raises BadIndirect where a part can't be
    written.
    """
    return library().build_indirect(GivenIndirect(digest_algorithm, digest, GivenImage(flags, link)))


def indirect(
    digest_algorithm: Bytes, digest: Bytes, attribute_type: str, attribute_value: Optional[Bytes] = None
) -> bytes:
    """The same of another file than a program, or with another value: attribute_type says what was hashed, as
    "1.3.6.1.4.1.311.2.1.25", a cabinet, and attribute_value is the element of its value, None where it has none.
    """
    its_type = library().oid_octets(attribute_type)
    return library().build_indirect(GivenIndirect(digest_algorithm, digest, None, its_type, attribute_value))


def recipient(recipient: Recipient) -> bytes:
    """A recipient, one RecipientInfo, as Library.build_recipient makes it: enveloped takes it too. Raises BadRecipient
    where a part can't be written.
    """
    return library().build_recipient(recipient)


def enveloped(
    content: Optional[Bytes],
    recipients: Iterable[Union[Recipient, Bytes]],
    algorithm: Bytes,
    *,
    content_type: str = DATA,
    attributes: Optional[Bytes] = b"",
) -> bytes:
    """Enveloped data, as Library.build_enveloped makes them, around content that is encrypted already: None where it
    isn't in the file. A recipient is a Recipient, or octets: a RecipientInfo of any kind, as it is. In the file they
    are in the order of DER. algorithm is the AlgorithmIdentifier by which the content is encrypted, with the element of
    its parameters: of AES in CBC mode its vector, an OCTET STRING. content_type is the type of what was encrypted, and
    attributes the element of a SET OF Attribute that isn't encrypted, as Library.build_attributes makes it, or None or
    no octets where there are none.

    Nothing in the file says whether it was changed: content that is changed, or a vector, is decrypted to something
    else. Raises BadRecipient, whose index is that of a recipient, or BadEnveloped where something can't be written.
    """
    its_type = library().oid_octets(content_type)
    its_recipients = [_recipient(index, it) for index, it in enumerate(der._items(recipients, "recipients"))]
    its_attributes = None if attributes is None or memoryview(attributes).nbytes == 0 else attributes
    return library().build_enveloped(its_type, content, algorithm, its_recipients, its_attributes)


def _recipient(index: int, given: Union[Recipient, Bytes]) -> Bytes:
    """The RecipientInfo of a recipient, by its index."""
    if not isinstance(given, der.GivenRecipient):
        return given
    try:
        return recipient(given)
    except der.BadRecipient as bad:
        raise der.BadRecipient(bad.part, index) from None


def utf16(text: str) -> bytes:
    """A text in UTF-16, as Library.text_utf16 makes it: with two zero octets after it, a password as the keys of PKCS
    #12 are derived of it (RFC 7292, B.1).
    """
    return library().text_utf16(text)
