"""Object identifiers that tests need, by name: as contents octets and as whole elements (X.690, 8.19)."""
from .elements import element

ARCS = {
    "data": "1.2.840.113549.1.7.1",
    "signed data": "1.2.840.113549.1.7.2",
    "enveloped data": "1.2.840.113549.1.7.3",
    "encrypted data": "1.2.840.113549.1.7.6",
    "TSTInfo": "1.2.840.113549.1.9.16.1.4",
    "key bag": "1.2.840.113549.1.12.10.1.1",
    "shrouded key bag": "1.2.840.113549.1.12.10.1.2",
    "certificate bag": "1.2.840.113549.1.12.10.1.3",
    "list bag": "1.2.840.113549.1.12.10.1.4",
    "secret bag": "1.2.840.113549.1.12.10.1.5",
    "safe contents bag": "1.2.840.113549.1.12.10.1.6",
    "X.509 certificate": "1.2.840.113549.1.9.22.1",
    "X.509 list": "1.2.840.113549.1.9.23.1",
    "friendlyName": "1.2.840.113549.1.9.20",
    "localKeyId": "1.2.840.113549.1.9.21",
    "contentType": "1.2.840.113549.1.9.3",
    "messageDigest": "1.2.840.113549.1.9.4",
    "signingTime": "1.2.840.113549.1.9.5",
    "subjectKeyIdentifier": "2.5.29.14",
    "commonName": "2.5.4.3",
    "SHA-1": "1.3.14.3.2.26",
    "SHA-256": "2.16.840.1.101.3.4.2.1",
    "SHA-512": "2.16.840.1.101.3.4.2.3",
    "rsaEncryption": "1.2.840.113549.1.1.1",
    "Ed25519": "1.3.101.112",
    "pbeWithMD5AndDES-CBC": "1.2.840.113549.1.5.3",
    "pbeWithSHAAnd3-KeyTripleDES-CBC": "1.2.840.113549.1.12.1.3",
    "PBKDF2": "1.2.840.113549.1.5.12",
    "PBES2": "1.2.840.113549.1.5.13",
    "scrypt": "1.3.6.1.4.1.11591.4.11",
    "hmacWithSHA256": "1.2.840.113549.2.9",
    "AES-256-CBC": "2.16.840.1.101.3.4.1.42",
    "AES-256-GCM": "2.16.840.1.101.3.4.1.46",
    "AES-256-CCM": "2.16.840.1.101.3.4.1.47",
    "RC2-CBC": "1.2.840.113549.3.2",
}


def base_128(number):
    """The octets of an arc."""
    octets = [number % 128]
    while number := number // 128:
        octets.insert(0, 128 + number % 128)
    return bytes(octets)


def contents(dotted):
    """The contents octets of an object identifier in dotted form."""
    first, second, *rest = map(int, dotted.split("."))
    return b"".join(map(base_128, [40 * first + second, *rest]))


def spelt(text):
    """The contents octets of the object identifier that a text of octets spells, as der_oid_octets takes it: numbers in
    decimal without leading zeros, joined by dots. None where it spells none, or a number that 64 bits don't hold."""
    arcs = text.split(b".")
    # a number with more digits than 2^64 isn't made a number of
    if len(arcs) < 2 or not all(it.isdigit() and len(it) <= 20 and str(int(it)).encode() == it for it in arcs):
        return None
    first, second, *rest = map(int, arcs)
    if first > 2 or (first < 2 and second > 39) or max(40 * first + second, *rest, 0) >= 2**64:
        return None
    return contents(text.decode())


def octets(name):
    """The contents octets of an object identifier by its name above."""
    return contents(ARCS[name])


def oid(name):
    """The encoding of an object identifier by its name above, or in dotted form."""
    return element(0x06, contents(ARCS.get(name, name)))
