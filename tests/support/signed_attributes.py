"""Changes the signed attributes of signed data (RFC 5652, 5.3, 11.1, 11.2), as the first signer has them."""
from .elements import element, set_of, tags_and_contents, within
from .oids import oid

CONTENT_TYPE, MESSAGE_DIGEST = oid("contentType"), oid("messageDigest")
# Where signers, and the first of them, are: the last element of signed data is signerInfos.
SIGNER = [0, 1, 0, -1, 0]
# Where the type of the content is.
TYPE_OF_CONTENT = [0, 1, 0, 0x30, 0]
# The tag of the signed attributes in a signer.
ATTRIBUTES = 0xA0


def attributes(file, change):
    """The file with other signed attributes of its first signer: their tags and contents, in a list, are changed."""

    def changed(octets):
        return b"".join(element(*part) for part in change(tags_and_contents(octets)))

    return within(file, [*SIGNER, ATTRIBUTES], changed)


def of_type(oid, change):
    """Changes the contents of each attribute of a type."""
    return lambda found: [(tag, change(contents) if contents.startswith(oid) else contents) for tag, contents in found]


def only_value(oid, contents):
    """The one value of an attribute with these contents."""
    return contents[len(oid) + 2 :]


def without(oid):
    return lambda found: [part for part in found if not part[1].startswith(oid)]


def twice(oid):
    return lambda found: found + [part for part in found if part[1].startswith(oid)]


def no_value(oid):
    return of_type(oid, lambda contents: oid + set_of())


def two_values(oid):
    return of_type(oid, lambda contents: oid + set_of(2 * only_value(oid, contents)))


def other_tag(oid):
    return of_type(oid, lambda contents: oid + set_of(b"\x0C" + only_value(oid, contents)[1:]))


def other_type(found):
    """The attributes with another content type than the content's."""
    return of_type(CONTENT_TYPE, lambda contents: contents[:-1] + bytes([contents[-1] ^ 1]))(found)


def empty(_):
    return []


def wrong_attributes(file):
    """The file with attributes that RFC 5652 forbids (5.3, 11.1, 11.2), of its first signer, in each of many ways."""
    ways = without, twice, no_value, two_values, other_tag
    changes = [way(oid) for way in ways for oid in (CONTENT_TYPE, MESSAGE_DIGEST)]
    return [attributes(file, change) for change in [*changes, other_type, empty]]


def of_another_content(file):
    """The file with content of the type 1.2.3.4, for which RFC 5652 (5.3) asks for signed attributes."""
    return within(file, TYPE_OF_CONTENT, lambda _: bytes.fromhex("2A0304"))
