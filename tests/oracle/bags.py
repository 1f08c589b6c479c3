"""Finds where a PKCS #12 store has each bag (RFC 7292, 4), element by element: the second opinion on `der_bag_rows`, as
der.h describes it. Of the library it asks only whether a store is a "rawpfx". It shares nothing with tests/support."""
import contextlib

from . import passwords, signed
from .signed import Refused

DATA = bytes.fromhex("2A864886F70D010701")
BAG = bytes.fromhex("2A864886F70D010C0A01")
FRIENDLY_NAME, LOCAL_KEY_ID = bytes.fromhex("2A864886F70D010914"), bytes.fromhex("2A864886F70D010915")
# Types of what bags of certificates and of revocation lists hold, whose DER is in an OCTET STRING, and the kinds of
# those of other types.
X509 = {3: bytes.fromhex("2A864886F70D01091601"), 4: bytes.fromhex("2A864886F70D01091701")}
OTHERS = {3: 8, 4: 9}
# pbeWithSHAAnd3-KeyTripleDES-CBC and pbewithSHAAnd40BitRC2-CBC (RFC 7292, C), and AES in CBC mode (RFC 8018, B.2.5):
# with PBES2 and PBKDF2 the algorithms of an encrypted key whose parameters are looked at.
PKCS12 = "1.2.840.113549.1.12.1.3", "1.2.840.113549.1.12.1.6"
AES = tuple(f"2.16.840.1.101.3.4.1.{last}" for last in (2, 22, 42))
# In how many others a bag may be.
LEVELS = 64


def held_in(fields):
    """The element under [0] that has to be there."""
    with fields.within(0xA0) as (_, explicit):
        return explicit.any()


@contextlib.contextmanager
def one_in(data, element):
    """The elements in one that holds one more."""
    its = signed.Elements(data, element.start, element.end)
    yield its
    if its.at < its.end:
        raise Refused("malformed", its.at)


def content_info(fields):
    """The element of a ContentInfo, its object identifier, and the element that it holds, None without one."""
    with fields.within() as (element, its):
        oid = signed.identifier(its)
        return element, oid, held_in(its) if its.is_next(0xA0) else None


def attribute(fields):
    """Where an attribute begins, its object identifier and its values."""
    at = fields.at
    return at, *signed.attribute(fields)


def safe_bag(fields):
    """The element of a bag, its object identifier, the element that it holds, and its attributes."""
    with fields.within() as (element, its):
        oid, held = signed.identifier(its), held_in(its)
        return element, oid, held, signed.set_of(its, 0x31, attribute)[1]


def safe_contents(fields):
    with fields.within() as (_, its):
        return its.each(safe_bag)


def algorithm(fields, known):
    """An AlgorithmIdentifier (RFC 5280, 4.1.1.2). Parameters of one that is known have to be what its reader takes, and
    those of others are any element, or absent."""
    with fields.within() as (_, its):
        oid = passwords.dotted(signed.identifier(its))
        if oid in known:
            known[oid](its)
        elif its.at < its.end:
            its.any()


def in_sequence(read):
    """A reader of a SEQUENCE, of one that reads what is in it."""
    def sequence(fields):
        with fields.within() as (_, its):
            read(its)

    return sequence


def pbes2(fields):
    """PBES2-params (RFC 8018, A.4)."""
    algorithm(fields, {passwords.PBKDF2: in_sequence(passwords.of_pbkdf2)})
    algorithm(fields, dict.fromkeys(AES, lambda its: its.one(0x04)))


def encrypted_key(fields):
    """An EncryptedPrivateKeyInfo (RFC 5958, 3)."""
    known = {passwords.PBES2: in_sequence(pbes2), **dict.fromkeys(PKCS12, in_sequence(passwords.of_pkcs12))}
    with fields.within() as (_, its):
        algorithm(its, known)
        its.one(0x04)


def only_value(data, attributes, kind, tag):
    """Where the octets of an attribute's value are: whether there is one, the place and the length."""
    found = [it for it in attributes if it[1] == kind]
    if not found:
        return 0, 0, 0
    at, _, values = found[0]
    if len(found) > 1 or len(values) != 1 or values[0].tag != tag:
        raise Refused("invalid", at)
    return 1, *values[0].contents()


def name_of(data, attributes):
    """The same of a friendly name, which has to be UTF-16."""
    is_there, start, size = only_value(data, attributes, FRIENDLY_NAME, 0x1E)
    try:
        data[start : start + size].decode("utf-16-be")
    except UnicodeDecodeError:
        raise Refused("invalid", next(at for at, oid, _ in attributes if oid == FRIENDLY_NAME)) from None
    return is_there, start, size


def x509_place(data, number, held):
    """The kind of a certificate or a revocation list, and where it is."""
    with signed.Elements(data, held.at, held.end).within() as (_, its):
        is_x509 = signed.identifier(its) == X509[number]
        with its.within(0xA0) as (_, explicit):
            inner = explicit.one(0x04) if is_x509 else explicit.any()
    return (number, inner.contents()) if is_x509 else (OTHERS[number], inner.whole())


def rows_of(data, bags, level):
    """The numbers of each bag of a SafeContents, found element by element."""
    for element, oid, held, attributes in bags:
        number = oid[-1] if oid[:-1] == BAG and 1 <= oid[-1] <= 6 else 0
        kind, place = x509_place(data, number, held) if number in X509 else (number, held.whole())
        if number == 2:
            encrypted_key(signed.Elements(data, held.at, held.end))
        name, key_id = name_of(data, attributes), only_value(data, attributes, LOCAL_KEY_ID, 0x04)
        yield kind, level, name[0], key_id[0], *element.whole(), *place, *name[1:], *key_id[1:]
        if number == 6:
            inner = safe_contents(signed.Elements(data, held.at, held.end))
            if level == LEVELS:
                raise Refused("too deep", held.at)
            yield from rows_of(data, inner, level + 1)


def unread(element):
    """The numbers of the row of a ContentInfo that isn't data."""
    return 7, 0, 0, 0, *element.whole(), *element.whole(), 0, 0, 0, 0


def rows_of_content(data, element, oid, held):
    """The numbers of the rows of a ContentInfo."""
    if oid != DATA:
        return [unread(element)]
    if held is None:
        raise Refused("missing", element.end)
    with one_in(data, signed.Elements(data, held.at, held.end).one(0x04)) as its:
        bags = safe_contents(its)
    return list(rows_of(data, bags, 0))


def rows(check, data):
    """The numbers of each row of a store, found element by element. Raises Refused. `check` takes a kind and octets
    and returns why and where the kind refuses them, or None."""
    refusal = check("rawpfx", data)
    if refusal:
        raise Refused(*refusal)
    with signed.Elements(data, 0, len(data)).within() as (_, its):
        its.any()
        element, oid, held = content_info(its)
        its.each(signed.Elements.any)
    if oid != DATA:
        return [unread(element)]
    with one_in(data, held) as its, its.within() as (_, safe):
        contents = safe.each(content_info)
    return [row for content in contents for row in rows_of_content(data, *content)]
