"""Makes octet by octet what is encrypted with a password, from its ASN.1: algorithms with their parameters (RFC 8018,
A; RFC 7292, C), and what has one: keys (RFC 5958, 3) and contents (RFC 5652, 8). What is in the place of encrypted
octets is made up."""
from .containers import NULL, bare_bag, content_info, secret_bag, store, store_of
from .elements import element, integer, octet_string, sequence
from .oids import oid

SALT, VECTOR, ENCRYPTED = bytes(range(16)), bytes(range(32, 48)), 32 * b"\x11"
# The numbers of holders in der.h.
ALGORITHM, KEY, CONTENTS = HOLDERS = range(3)
# An algorithm of RFC 8018, A.3, and one of RFC 7292, C, which have a salt and a count.
MD5_DES, TRIPLE_DES = "pbeWithMD5AndDES-CBC", "pbeWithSHAAnd3-KeyTripleDES-CBC"
# An algorithm of Java's own, whose parameters are a salt and a count too.
OF_JAVA = "1.3.6.1.4.1.42.2.19.1"


def algorithm(kind, *parameters):
    """An AlgorithmIdentifier: the name of its object identifier, and its parameters, if it has some."""
    return sequence(oid(kind), *parameters)


HMAC, AES = algorithm("hmacWithSHA256", NULL), algorithm("AES-256-CBC", octet_string(VECTOR))


def pbkdf2_parameters(**others):
    """PBKDF2-params with all that they may have, and others in the place of some parts, by their names in der.h: no
    octets in the place of one that is to be absent."""
    its = {"salt": octet_string(SALT), "iterations": integer(2048), "key_length": integer(32), "prf": HMAC}
    return sequence(*{**its, **others}.values())


def pbkdf2(**others):
    """PBKDF2 with these parameters."""
    return algorithm("PBKDF2", pbkdf2_parameters(**others))


def pbes2(derivation=None, encryption=AES):
    """PBES2, by a key derivation and an encryption scheme."""
    return algorithm("PBES2", sequence(pbkdf2() if derivation is None else derivation, encryption))


def salted(kind, salt=octet_string(SALT[:8]), iterations=integer(2048)):
    """An algorithm whose parameters are a salt and a count, or of other kinds what looks like these."""
    return algorithm(kind, sequence(salt, iterations))


def pbes1(**others):
    """An algorithm of PBES1, with others in the place of its salt or its count."""
    return salted(MD5_DES, **others)


def pkcs12(**others):
    """An algorithm of RFC 7292, C, alike."""
    return salted(TRIPLE_DES, **others)


def scrypt():
    """The key derivation of RFC 7914."""
    return algorithm("scrypt", sequence(octet_string(SALT), integer(16384), integer(8), integer(1)))


def encrypted_key(its, encrypted=ENCRYPTED):
    """An EncryptedPrivateKeyInfo by an algorithm."""
    return sequence(its, octet_string(encrypted))


def encrypted_info(its, *encrypted):
    """EncryptedContentInfo by an algorithm, with what is under [0] or without it."""
    return sequence(oid("data"), its, *(element(0x80, octets) for octets in encrypted))


def encrypted_contents(its, *encrypted):
    """A ContentInfo of encryptedData by an algorithm, with what is encrypted or without it."""
    return content_info("encrypted data", sequence(integer(0), encrypted_info(its, *encrypted)))


def held(holder, its):
    """What a holder has an algorithm in, by its number."""
    if holder == ALGORITHM:
        return its
    return encrypted_key(its) if holder == KEY else encrypted_contents(its, ENCRYPTED)


def refused_algorithms():
    """What is no AlgorithmIdentifier: why, what it is, a part of it, and where in that part it is refused."""
    its, wrong = pbes2(), element(0x06, b"\x80\1")
    # a tag of several octets, and a length that isn't said
    others = b"\x1F\x1F\0", b"\x30\x80\0\0"
    return [
        *(("malformed", algorithm(kind, it), it, 0) for kind in ("PBES2", TRIPLE_DES) for it in others),
        ("missing", b"", b"", 0),
        ("invalid", NULL, NULL, 0),
        ("missing", sequence(), b"", 2),
        ("invalid", sequence(NULL), NULL, 0),
        ("invalid", sequence(wrong, NULL), wrong, 0),
        ("malformed", algorithm("PBES2", sequence(), NULL), NULL, 0),
        ("malformed", algorithm("PBES2") + NULL, NULL, 0),
        ("malformed", its[:-1], b"", 0),
        ("invalid", encrypted_key(its), its, 0),
    ]


def refused_keys():
    """What is no EncryptedPrivateKeyInfo, alike."""
    its, segments, attributes = pbes2(), element(0x24, octet_string(b"")), element(0xA0, NULL)
    octets = octet_string(ENCRYPTED)
    return [
        ("invalid", its, oid("PBES2"), 0),
        ("missing", sequence(its), its, len(its)),
        ("invalid", sequence(its, segments), segments, 0),
        ("invalid", sequence(octets, its), octets, 0),
        ("malformed", sequence(its, octets, attributes), attributes, 0),
        ("malformed", encrypted_key(its) + b"\0", octets, len(octets)),
        ("missing", encrypted_key(sequence()), sequence(), 2),
    ]


def refused_contents():
    """What is no ContentInfo of encryptedData, alike."""
    its, kind, attributes = pbes2(), oid("encrypted data"), element(0xA1, NULL)
    info, segments, other = encrypted_info(its, ENCRYPTED), element(0xA0, octet_string(b"")), element(0x81)

    def data(*parts):
        return content_info("encrypted data", sequence(*parts))

    return [
        ("invalid", encrypted_key(its), its, 0),
        ("invalid", content_info("enveloped data", sequence(integer(0), info)), oid("enveloped data"), 0),
        ("missing", sequence(kind), kind, len(kind)),
        ("invalid", sequence(kind, attributes), attributes, 0),
        ("missing", content_info("encrypted data"), kind, len(kind) + 2),
        ("malformed", content_info("encrypted data", sequence(integer(0), info), NULL), info, len(info)),
        ("invalid", data(integer(2), info), integer(2), 0),
        ("invalid", data(element(0x02, b"\0\0"), info), element(0x02, b"\0\0"), 0),
        ("malformed", data(integer(0), info, attributes), attributes, 0),
        ("missing", data(integer(0)), integer(0), 3),
        ("invalid", encrypted_contents(oid("PBES2")), oid("PBES2"), 0),
        ("malformed", encrypted_contents(its + segments), segments, 0),
        ("malformed", encrypted_contents(its + other), other, 0),
        ("malformed", encrypted_contents(its, ENCRYPTED, b""), ENCRYPTED, len(ENCRYPTED)),
    ]


def refused_holders():
    """What is no holder, with the number of that holder, and why and where it is refused."""
    found = refused_algorithms(), refused_keys(), refused_contents()
    for holder, those in zip(HOLDERS, found):
        for reason, text, part, at in those:
            yield holder, text, reason, text.index(part) + at


def stores_of_examples():
    """Stores, and the lines that c/examples/parameters.c and python/examples/parameters.py say of each: of keys by
    algorithms that are known and that aren't, of contents that are encrypted, and of such as have another type or
    version."""
    least = pbkdf2(salt=algorithm("1.2.3"), iterations=integer(0), key_length=b"", prf=b"")
    keys = {
        pbes2(): "PBES2, PBKDF2, 2048 iterations, salt of 16 octets, hmacWithSHA256, aes-256-cbc",
        pbes2(least, algorithm("1.2.3.4")): "PBES2, PBKDF2, 0 iterations, hmacWithSHA1, 1.2.3.4",
        pbes2(scrypt()): "PBES2, scrypt, aes-256-cbc",
        pbes1(): "pbeWithMD5AndDES-CBC, 2048 iterations, salt of 8 octets",
        pkcs12(): "pbeWithSHA1And3-KeyTripleDES-CBC, 2048 iterations, salt of 8 octets",
        salted("AES-256-GCM", octet_string(VECTOR[:12]), integer(16)): "aes-256-gcm",
        salted(OF_JAVA): OF_JAVA,
        algorithm("1.2.3.5"): "1.2.3.5",
    }
    bags = [bare_bag("shrouded key bag", encrypted_key(it)) for it in keys]
    yield store_of(*bags, secret_bag()), [f"key: {said}" for said in keys.values()]
    later = content_info("encrypted data", sequence(integer(2), encrypted_info(pbes2())))
    those = encrypted_contents(pbes1()), later, content_info("data", octet_string(sequence(*bags[-1:])))
    lines = [f"contents: {keys[pbes1()]}", "contents: refused: invalid", "key: 1.2.3.5"]
    yield store("data", octet_string(sequence(*those))), lines
    yield store("signed data", NULL), ["contents: refused: invalid"]
    yield store_of(), []
