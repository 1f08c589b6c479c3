"""Finds how data is encrypted with a password (RFC 8018, A; RFC 7292, C), element by element: in an algorithm, in an
encrypted key (RFC 5958, 3) and in encrypted contents (RFC 5652, 8). It is the second opinion on
`der_password_parameters`, as der.h describes it, and shares nothing with tests/support."""
from typing import NamedTuple

from . import signed
from .signed import NOTHING, Elements, Refused

# Object identifiers: of schemes, by RFC 8018, A.3 and A.4, and by RFC 7292, C; of PBKDF2 (RFC 8018, A.2).
PBES1 = tuple("1.2.840.113549.1.5." + arc for arc in ("1", "3", "4", "6", "10", "11"))
PKCS12 = tuple("1.2.840.113549.1.12.1." + arc for arc in "123456")
PBES2, PBKDF2 = "1.2.840.113549.1.5.13", "1.2.840.113549.1.5.12"
ENCRYPTED_DATA = bytes.fromhex("2A864886F70D010706")


class Parameters(NamedTuple):
    """What der_password_parameters writes: ranges are places and lengths."""

    has_parameters: int = 0
    is_pbes1: int = 0
    is_pkcs12: int = 0
    is_pbes2: int = 0
    has_derivation_parameters: int = 0
    is_pbkdf2: int = 0
    has_salt: int = 0
    has_key_length: int = 0
    has_prf: int = 0
    has_encryption_parameters: int = 0
    has_initialization_vector: int = 0
    has_encrypted: int = 0
    iterations: int = 0
    key_length: int = 0
    algorithm: tuple = NOTHING
    parameters: tuple = NOTHING
    derivation: tuple = NOTHING
    derivation_parameters: tuple = NOTHING
    salt: tuple = NOTHING
    prf: tuple = NOTHING
    encryption: tuple = NOTHING
    encryption_parameters: tuple = NOTHING
    initialization_vector: tuple = NOTHING
    encrypted: tuple = NOTHING

    def numbers(self):
        """All its numbers, in the order of the struct."""
        return [*self[:14], *(number for its in self[14:] for number in its)]


class Algorithm(NamedTuple):
    """Where an AlgorithmIdentifier has the contents octets of its object identifier, the dotted form of this, and the
    element of its parameters, None where there are none."""

    place: tuple
    oid: str
    parameters: tuple


def dotted(octets):
    """The dotted form of an object identifier, of its contents octets (X.690, 8.19)."""
    arcs = [0]
    for octet in octets:
        arcs[-1] = arcs[-1] * 128 + octet % 128
        arcs += [0] if octet < 128 else []
    first = min(arcs[0] // 40, 2)
    return ".".join(map(str, [first, arcs[0] - 40 * first, *arcs[1:-1]]))


def algorithm(fields):
    """The next element as an AlgorithmIdentifier (RFC 5280, 4.1.1.2)."""
    with fields.within() as (_, its):
        octets = signed.identifier(its)
        place = its.at - len(octets), len(octets)
        return Algorithm(place, dotted(octets), its.any() if its.at < its.end else None)


def number(fields):
    """The number of an INTEGER (X.690, 8.3) that isn't negative, and is below 2^32."""
    at = fields.at
    octets = signed.integer(fields)
    found = int.from_bytes(octets, "big", signed=True)
    if not 0 <= found < 1 << 32 or len(octets) != found.bit_length() // 8 + 1:
        raise Refused("invalid", at)
    return found


def inside(octets, element, read):
    """What is read of a SEQUENCE, or nothing where it can't be read as that."""
    try:
        with Elements(octets, element.at, element.end).within() as (_, its):
            return read(its)
    except Refused:
        return {}


def of_pbes1(its):
    """PBEParameter (RFC 8018, A.3), with a salt of any length."""
    salt = its.one(0x04)
    return {"is_pbes1": 1, "has_salt": 1, "salt": salt.contents(), "iterations": number(its)}


def of_pkcs12(its):
    """pkcs-12PbeParams (RFC 7292, C)."""
    salt = its.one(0x04)
    return {"is_pkcs12": 1, "has_salt": 1, "salt": salt.contents(), "iterations": number(its)}


def of_pbkdf2(its):
    """PBKDF2-params (RFC 8018, A.2)."""
    found = {"is_pbkdf2": 1}
    if its.is_next(0x04):
        found |= {"has_salt": 1, "salt": its.any().contents()}
    else:
        algorithm(its)
    found["iterations"] = number(its)
    if its.is_next(0x02):
        found |= {"has_key_length": 1, "key_length": number(its)}
    if its.is_next(0x30):
        found |= {"has_prf": 1, "prf": algorithm(its).place}
    return found


def of_pbes2(its):
    """PBES2-params (RFC 8018, A.4), and what is in the parameters in it."""
    derivation, encryption = algorithm(its), algorithm(its)
    found = {"is_pbes2": 1, "derivation": derivation.place, "encryption": encryption.place}
    element = derivation.parameters
    if element:
        found |= {"has_derivation_parameters": 1, "derivation_parameters": element.whole()}
        found |= inside(its.octets, element, of_pbkdf2) if derivation.oid == PBKDF2 else {}
    element = encryption.parameters
    if element:
        found |= {"has_encryption_parameters": 1, "encryption_parameters": element.whole()}
        is_vector = element.tag == 0x04
        found |= {"has_initialization_vector": 1, "initialization_vector": element.contents()} if is_vector else {}
    return found


def of_key(fields):
    """The algorithm of an EncryptedPrivateKeyInfo, and what is encrypted."""
    with fields.within() as (_, its):
        return algorithm(its), its.one(0x04)


def of_contents(fields):
    """The algorithm of a ContentInfo of encryptedData, and what is encrypted, None where that is elsewhere."""
    with fields.within() as (_, whole):
        at = whole.at
        if signed.identifier(whole) != ENCRYPTED_DATA:
            raise Refused("invalid", at)
        with whole.within(0xA0) as (_, explicit), explicit.within() as (_, data):
            signed.version(data, 0)
            with data.within() as (_, info):
                signed.identifier(info)
                return algorithm(info), info.any() if info.is_next(0x80) else None


# The readers of parameters, by the object identifiers of algorithms.
SCHEMES = {**dict.fromkeys(PBES1, of_pbes1), **dict.fromkeys(PKCS12, of_pkcs12), PBES2: of_pbes2}
# The readers of holders, by their numbers.
HOLDERS = {0: lambda fields: (algorithm(fields), None), 1: of_key, 2: of_contents}


def row(holder, octets):
    """How data is encrypted with a password, of the holder with that number. Raises Refused where the octets are no
    such thing, and by "unknown kind" where no holder has the number."""
    if holder not in HOLDERS:
        raise Refused("unknown kind", 0)
    fields = Elements(octets, 0, len(octets))
    its, encrypted = HOLDERS[holder](fields)
    if fields.at < fields.end:
        raise Refused("malformed", fields.at)
    found = {"algorithm": its.place}
    if its.parameters:
        found |= {"has_parameters": 1, "parameters": its.parameters.whole()}
        found |= inside(octets, its.parameters, SCHEMES[its.oid]) if its.oid in SCHEMES else {}
    if encrypted:
        found |= {"has_encrypted": 1, "encrypted": encrypted.contents()}
    return Parameters(**found)
