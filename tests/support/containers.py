"""Makes PKCS #12 stores and signed data octet by octet, from their ASN.1 (RFC 7292, 4; RFC 5652, 5; RFC 5280, 4.1):
what tests need and no tool makes. The keys, signatures and certificates in them are made up."""
import random

from .elements import element, elements, explicit, inside, integer, octet_string, sequence, set_of
from .oids import oid

# How many keys, certificates and signers the long containers have: more than one octet counts.
MANY = 300
NULL = element(0x05)
SHA256 = sequence(oid("SHA-256"), NULL)
RSA_ENCRYPTION = sequence(oid("rsaEncryption"), NULL)
# A Name of one common name.
NAME = sequence(set_of(sequence(oid("commonName"), element(0x0C, b"A"))))


def content_info(content_type, *content):
    """A ContentInfo: the name of its type, and what is under [0]."""
    return sequence(oid(content_type), explicit(0, *content))


def attribute(attribute_type, *values):
    """An Attribute: the name of its type, and its values."""
    return sequence(oid(attribute_type), set_of(*values))


def bit_string(octets):
    return element(0x03, b"\0", octets)


def bmp_string(octets):
    return element(0x1E, octets)


def store(content_type, content, version=3, mac=b""):
    """A PFX whose authSafe is of a type."""
    return sequence(integer(version), content_info(content_type, content), mac)


def store_around(safe_contents):
    """A store with these SafeContents."""
    return store("data", octet_string(sequence(content_info("data", octet_string(safe_contents)))))


def store_of(*bags):
    return store_around(sequence(*bags))


def mac_data(digest, salt, iterations, algorithm=SHA256):
    return sequence(sequence(algorithm, octet_string(digest)), octet_string(salt), integer(iterations))


def nested(levels):
    """Safe contents in safe contents, so many levels deep."""
    text = sequence()
    for _ in range(levels):
        text = sequence(sequence(oid("safe contents bag"), explicit(0, text)))
    return text


def bag(bag_type, value, *attributes):
    return sequence(oid(bag_type), explicit(0, value), set_of(*attributes))


def bare_bag(bag_type, *value):
    """A bag without attributes."""
    return sequence(oid(bag_type), explicit(0, *value))


def numbered_bag(bag_type, value, number):
    """A bag with a name and a key identifier."""
    name = attribute("friendlyName", bmp_string(f"bag {number}".encode("utf-16-be")))
    return bag(bag_type, value, name, attribute("localKeyId", octet_string(number.to_bytes(4, "big"))))


def secret_bag(*attributes):
    return bag("secret bag", sequence(oid("SHA-256"), explicit(0, NULL)), *attributes)


def certificate(chance, number):
    """An element in the place of a certificate, which isn't looked into."""
    return sequence(integer(number), bit_string(chance.randbytes(chance.randrange(60, 200))))


def many_bags(chance):
    """The bags of a long key store: keys, encrypted keys and certificates, every hundredth of them in bags in a bag."""
    found = b""
    for number in range(MANY):
        key = sequence(integer(0), sequence(oid("Ed25519")), octet_string(octet_string(chance.randbytes(32))))
        parameters = sequence(octet_string(chance.randbytes(8)), integer(2048))
        scheme = sequence(oid("pbeWithSHAAnd3-KeyTripleDES-CBC"), parameters)
        encrypted = sequence(scheme, octet_string(chance.randbytes(chance.randrange(40, 150))))
        held = content_info("X.509 certificate", octet_string(certificate(chance, number)))
        three = (
            numbered_bag("key bag", key, number)
            + numbered_bag("shrouded key bag", encrypted, number)
            + numbered_bag("certificate bag", held, number)
        )
        found += three if number % 100 else numbered_bag("safe contents bag", sequence(three), number)
    return found


def long_stores(chance):
    """The bags of a long store, and PFXs with them: with a normal MAC and a loose one, with none, with an octet after
    the end, and of another version."""
    bags = many_bags(chance)
    safe = octet_string(sequence(content_info("data", octet_string(sequence(bags)))))
    digest, salt = chance.randbytes(32), chance.randbytes(8)
    mac, loose = (mac_data(digest, salt, 2048, sequence(oid("SHA-256"), parameters)) for parameters in (NULL, b""))
    whole = store("data", safe, 3, mac)
    others = store("data", safe, 3, loose), store("data", safe), whole + b"\0", store("data", safe, 2, mac)
    return bags, [whole, *others]


def refused_stores():
    """Stores in which a part is refused: why, where, and whether the kind "pfx" is refused there too. That takes a
    second name, and says of an attribute where its value is."""
    x509 = content_info("X.509 certificate", octet_string(b"any octets"))
    held = bare_bag("certificate bag", x509)
    no_octets = bare_bag("certificate bag", content_info("X.509 certificate", NULL))
    text = store_of(held, no_octets)
    yield text, "invalid", text.index(NULL), True
    text = store_of(held, sequence(oid("certificate bag"), explicit(0, x509), NULL))
    yield text, "malformed", text.index(NULL), True
    no_key = sequence(integer(7), octet_string(b"encrypted"))
    text = store_of(bare_bag("shrouded key bag", no_key))
    yield text, "invalid", text.index(integer(7)), True
    cut = sequence(sequence(oid("SHA-256")))
    text = store_of(bare_bag("shrouded key bag", cut), held)
    yield text, "missing", text.index(cut) + len(cut), True
    for wrong in wrong_bag_attributes():
        text = store_of(held, secret_bag(wrong))
        yield text, "invalid", text.index(wrong), False
    text = store("data", octet_string(sequence(sequence(oid("data")))))
    yield text, "missing", len(text), True
    text = store_around(nested(65))
    yield text, "too deep", len(text) - 2, True


def wrong_bag_attributes():
    """Attributes of a bag that RFC 7292 or UTF-16 forbids: two names, a name of two values, half a unit, half a pair of
    surrogates, and a key identifier of another type, and twice."""
    name = attribute("friendlyName", bmp_string(b"\0a"))
    key_id = attribute("localKeyId", octet_string(b"id"))
    odd, half = (attribute("friendlyName", bmp_string(octets)) for octets in (b"\0a\0", b"\0a\xD8\x3D"))
    two = attribute("friendlyName", *2 * [bmp_string(b"\0a")])
    return name + name, two, odd, half, attribute("localKeyId", element(0x0C, b"id")), key_id + key_id


def signer(chance, number, version=1, key=None, content_type="data"):
    """A signer with signed attributes, who is named by an issuer, or each third by a key identifier."""
    by_name = sequence(NAME, integer(number))
    by_key = element(0x80, key or chance.randbytes(20))
    digest = attribute("messageDigest", octet_string(chance.randbytes(32)))
    return sequence(
        integer(version),
        by_name if number % 3 else by_key,
        SHA256,
        explicit(0, attribute("contentType", oid(content_type)), digest),
        RSA_ENCRYPTION,
        octet_string(chance.randbytes(chance.randrange(60, 200))),
    )


def signed_file(content, certificates, signers, version=1):
    """Signed data: their encapContentInfo, and each certificate and signer."""
    sets = explicit(0, *certificates) + set_of(*signers)
    return content_info("signed data", sequence(integer(version), set_of(SHA256), content, sets))


def long_signed(chance):
    """Signed data with many certificates and signers."""
    content = content_info("data", octet_string(chance.randbytes(70_000)))
    certificates = [certificate(chance, number) for number in range(MANY)]
    return signed_file(content, certificates, [signer(chance, number) for number in range(MANY)])


def x509_certificate(chance, number, key):
    """An X.509 certificate (RFC 5280, 4.1), whose key, times and signature are made up."""
    bits = bit_string(chance.randbytes(60))
    extension = sequence(oid("subjectKeyIdentifier"), octet_string(octet_string(key)))
    names = integer(number), RSA_ENCRYPTION, NAME, sequence(), NAME
    key_there = sequence(RSA_ENCRYPTION, bits)
    tbs = sequence(explicit(0, integer(2)), *names, key_there, explicit(3, sequence(extension)))
    return sequence(tbs, RSA_ENCRYPTION, bits)


def signers_alike(same):
    """Signed data of four signers, twice the same two, one named by a number and one by a key identifier. Their names,
    signed digests, values of other attributes and signatures, the content, and what names the certificate, which is
    there twice, are all of the same octets."""
    number, key = int.from_bytes(same, "big"), element(0x80, same)
    made = x509_certificate(random.Random(19), number, same)
    other = attribute("1.2.3.4", octet_string(same))
    signed = attribute("contentType", oid("data")), attribute("messageDigest", octet_string(same)), other
    last = RSA_ENCRYPTION, octet_string(same), element(0xA1, other, other)
    named = (1, sequence(NAME, integer(number))), (3, key)
    signers = (sequence(integer(version), name, SHA256, explicit(0, *signed), *last) for version, name in 2 * named)
    return signed_file(content_info("data", octet_string(same)), [made, made], signers, 3)


def recipients_alike(same):
    """Enveloped data of two equal recipients by a key, whose keys, key identifiers and octets are the same, as are the
    vector and the encrypted content."""
    key = octet_string(same)
    recipient = element(0xA2, integer(4), sequence(key), sequence(oid("2.16.840.1.101.3.4.1.5")), key)
    encryption = sequence(oid("2.16.840.1.101.3.4.1.2"), key)
    content = sequence(oid("data"), encryption, element(0x80, same))
    return content_info("enveloped data", sequence(integer(2), set_of(recipient, recipient), content))


def long_signers():
    """Signed data with many signers, and what is known of each: whether its attributes are bad, and the index of its
    certificate or None. The first has signers of versions 1 and 3 over a time stamp's content, whose certificates are
    in another order, some twice and some not there; in the second all signers are equal, and all certificates."""
    chance = random.Random(12)
    keys = [chance.randbytes(20) for _ in range(MANY)]
    content = content_info("TSTInfo", octet_string(chance.randbytes(70_000)))
    numbers = [number for number in range(MANY) if number % 7] + list(range(1, MANY, 10))
    chance.shuffle(numbers)
    certificates = [x509_certificate(chance, number, keys[number]) for number in numbers]
    types = ["data" if number % 11 == 5 else "TSTInfo" for number in range(MANY)]
    found = [signer(chance, nth, 1 if nth % 3 else 3, keys[nth], types[nth]) for nth in range(MANY)]
    known = [(nth % 11 == 5, numbers.index(nth) if nth in numbers else None) for nth in range(MANY)]
    yield signed_file(content, certificates, found, 3), known
    one = x509_certificate(chance, 1, keys[1])
    data = content_info("data", octet_string(b""))
    yield signed_file(data, MANY * [one], MANY * [signer(chance, 1)]), MANY * [(False, 0)]


def in_ber(octets, cuts=False):
    """An encoding with indefinite lengths, and with two segments for each OCTET STRING where these are to be cut."""
    [whole] = elements(octets)
    half = (whole.start + whole.end) // 2
    if whole.tag == 0x04 and cuts:
        segments = octet_string(octets[whole.start : half]) + octet_string(octets[half : whole.end])
        return b"\x24\x80" + segments + b"\0\0"
    if whole.tag & 0x20 == 0:
        return octets
    kept = (in_ber(part.of(octets), cuts) for part in inside(octets, whole))
    return bytes([whole.tag, 0x80]) + b"".join(kept) + b"\0\0"
