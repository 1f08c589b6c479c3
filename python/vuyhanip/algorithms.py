"""Algorithm identifiers in words."""
from typing import Optional

from .elements import BIT_STRING, INTEGER, NULL, OBJECT_IDENTIFIER, OCTET_STRING, SEQUENCE, Element, NotThere, whole
from .names import name_of
from .values import integer, oid

RSA, PSS, OAEP, EC = "1.2.840.113549.1.1.1", "1.2.840.113549.1.1.10", "1.2.840.113549.1.1.7", "1.2.840.10045.2.1"
PBES2, PBKDF2, SCRYPT = "1.2.840.113549.1.5.13", "1.2.840.113549.1.5.12", "1.3.6.1.4.1.11591.4.11"
PBES1 = ("1.2.840.113549.1.12.1.", "1.2.840.113549.1.5.")
SHA1 = "1.3.14.3.2.26"


def parameters(element: Element) -> Optional[Element]:
    """The parameters of an AlgorithmIdentifier, where there are some that aren't NULL."""
    parts = element.children()
    return parts[1] if len(parts) > 1 and parts[1].tag != NULL else None


def algorithm_oid(element: Element) -> str:
    """The object identifier in an AlgorithmIdentifier. Raises NotThere."""
    return oid(element.inside())


def algorithm(element: Element) -> str:
    """An AlgorithmIdentifier in words, with what its parameters say, as far as they are known."""
    try:
        said = _details(algorithm_oid(element), parameters(element))
    except NotThere:
        said = ""
    name = name_of(algorithm_oid(element))
    return f"{name} {said}" if said else name


def _details(which: str, given: Optional[Element]) -> str:
    """What parameters say of an algorithm, or nothing."""
    if given is None:
        return f"with {name_of(SHA1)}" if which == PSS else ""
    if which == PBES2:
        return f"with {algorithm(given.children()[0])} and {algorithm(given.children()[1])}"
    if which == PBKDF2:
        return _pbkdf2(given)
    if which == SCRYPT:
        cost, block, parallel = map(integer, given.children()[1:4])
        return f"(cost {cost}, block size {block}, parallelization {parallel})"
    if which.startswith(PBES1):
        salt, count = given.children()[:2]
        return f"({integer(count)} iterations, salt of {len(salt.contents)} octets)"
    if which in (PSS, OAEP):
        return f"with {name_of(_digest_of(given))}"
    return name_of(oid(given)) if given.tag == OBJECT_IDENTIFIER else ""


def _pbkdf2(given: Element) -> str:
    """The parameters of PBKDF2 (RFC 8018, A.2)."""
    salt, count, *more = given.children()
    prf = next((algorithm(it) for it in more if it.tag == SEQUENCE), "hmacWithSHA1")
    length = f", salt of {len(salt.contents)} octets" if salt.tag == OCTET_STRING else ""
    return f"({prf}, {integer(count)} iterations{length})"


def _digest_of(given: Element) -> str:
    """The digest in RSASSA-PSS-params or RSAES-OAEP-params, SHA-1 where they name none (RFC 8017, A.2.1 and A.2.3)."""
    return next((algorithm_oid(it.inside()) for it in given.children() if it.tag == 0xA0), SHA1)


def public_key(element: Element) -> str:
    """A SubjectPublicKeyInfo in words: "RSA, 2048 bits"."""
    try:
        scheme, key = element.children()[:2]
        if algorithm_oid(scheme) in (RSA, PSS) and key.tag == BIT_STRING:
            modulus = whole(key.contents[1:]).inside()
            return f"{'RSA' if algorithm_oid(scheme) == RSA else 'RSA-PSS'}, {integer(modulus).bit_length()} bits"
        return algorithm(scheme)
    except (NotThere, ValueError):
        return "not known"
