"""Compares names as der_name_text writes them with what `openssl x509 -nameopt RFC2253` says of a certificate whose
subject they are: attributes with blanks, quotes, signs and letters of many alphabets at each place, as each type of
string, several in one RelativeDistinguishedName, of unknown types. Where openssl's form isn't that of RFC 4514 its text
is turned into that first, and values that openssl shows as characters and der_name_text doesn't are compared with their
encodings. Object identifiers of der_oid_text are compared with their arcs. Names of der_oid_name are compared with
those of `openssl list -objects`, and where openssl has none with the table of tools/oids. Texts of UTF-16 by
der_utf16_text are compared with Python's, of characters on both sides of each length in UTF-8 and UTF-16, of made-up
ones and of octets that are none. Into less room than a text needs nothing is written."""
import ctypes
import random
import re
import unittest

from support import oids
from support.built import library, shared
from support.cases import Comparing
from support.elements import element, integer, sequence, set_of
from support.oids import oid
from support.scripts import script
from support.statuses import INVALID, MALFORMED, MISSING, NO_PART, NO_ROOM, NORMAL
from support.tools import openssl
from vuyhanip.der import Refused

UTF8, PRINTABLE, TELETEX, IA5, UNIVERSAL, BMP = 0x0C, 0x13, 0x14, 0x16, 0x1C, 0x1E
CN, O, OU, C, L, ST, STREET = (f"2.5.4.{last}" for last in (3, 10, 11, 6, 7, 8, 9))
UID, DC = "0.9.2342.19200300.100.1.1", "0.9.2342.19200300.100.1.25"
# Characters at the ends of what takes one to four octets in UTF-8, and two or four in UTF-16, and around surrogates.
ENDS = [0, 0x7F, 0x80, 0x7FF, 0x800, 0xD7FF, 0xE000, 0xFEFF, 0xFFFE, 0xFFFF, 0x10000, 0x103FF, 0x10400, 0x1F600,
        0x10FFFF]
# How many texts are made up, and strings of octets.
MADE_UP = 3000
TEXTS = [
    "a", "", " ", "  ", " a", "a ", " a ", "#", "#a", "a#", " #", "# ", '"', 'a"b', "a+b", "a,b", "a;b", "<a>", "a\\b",
    "\\ ", "=", "a=b", "\0", "a\0b", "a  b", ",+\"\\<>; ", "é", "Ωmega", "日本", "a\u00a0", "x" * 300, "/",
    "CN=a, O=b",
]
# Values of CN that are shown by their encoding, though openssl shows characters.
IN_HEXADECIMAL = [
    (TELETEX, b"\xe9"), (UNIVERSAL, b"\0\0\0a"), (UTF8, b"\xff"), (PRINTABLE, b"\x80"), (IA5, b"\xe9"), (BMP, b"a"),
    (BMP, b"\xd8\x3d\xde\x00"), (0x12, b"1"), (4, b"a"), (2, b"\5"),
]
DOTTED = ["0.0", "0.39", "1.0", "1.39.1", "2.5.4.3", "2.999.1", "2.47", "1.2.840.113549.1.1.11", f"2.{2**64 - 81}",
          f"1.2.{2**64 - 1}"]


def pair(kind, tag, octets):
    """An AttributeTypeAndValue."""
    return sequence(oid(kind), element(tag, octets))


def name(*sets):
    """A Name of RelativeDistinguishedNames."""
    return sequence(*(set_of(*it) for it in sets))


def names():
    """Names as the sets of which they consist, by what is tried."""
    for text in TEXTS:
        yield [[pair(CN, UTF8, text.encode())]]
        yield [[pair(O, BMP, text.encode("utf-16-be"))], [pair(CN, UTF8, b"b")]]
        if text.isascii():
            for tag in (PRINTABLE, IA5, TELETEX):
                yield [[pair(OU, tag, text.encode())]]
    yield []
    yield [[pair(kind, PRINTABLE, b"v")] for kind in (CN, O, OU, L, ST, STREET, UID, DC)]
    yield [[pair(CN, UTF8, b"a"), pair(O, UTF8, b"b"), pair(OU, UTF8, b"c")], [pair(C, PRINTABLE, b"DE")]]
    yield [[pair("1.2.3.4", UTF8, b"a")], [pair(CN, UTF8, b"b"), pair("2.999.1", 3, b"\0\2")]]
    yield [[pair(CN, 3, b"\0\xff")], [pair(CN, 0x30, b"\5\0")]]


def certificate(subject):
    """What openssl reads as a certificate with that subject. Nothing verifies its signature."""
    algorithm = sequence(oid("Ed25519"))
    key = sequence(algorithm, element(3, bytes(33)))
    validity = sequence(2 * element(0x17, b"260101000000Z"))
    body = sequence(integer(1), algorithm, name(), validity, subject, key)
    return sequence(body, algorithm, element(3, bytes(65)))


def by_openssl(subject):
    """The text of openssl in the form of RFC 4514."""
    said = openssl("x509", "-inform", "DER", "-noout", "-subject", "-nameopt", "RFC2253", text=certificate(subject))
    said = said[len(b"subject=") : -1]
    # \XX past ASCII as characters, the short name of streetAddress, and a lone `#`, which openssl doesn't escape
    said = re.sub(rb"\\\\|\\([89A-F][0-9A-F])", lambda it: bytes.fromhex(it[1].decode()) if it[1] else it[0], said)
    return re.sub(r"=#(?=[,+]|$)", r"=\\#", said.decode().replace("street=", "STREET="))


def utf16_texts():
    """Octets that may be UTF-16: at the ends of what a character takes, of made-up characters, and of any octets."""
    chance = random.Random(18)
    for first in ENDS:
        yield from ((chr(first) + chr(last)).encode("utf-16-be") for last in ENDS)
    surrogates = [chr(it) for it in (0xD800, 0xDBFF, 0xDC00, 0xDFFF)]
    for both in (*surrogates, *(one + other for one in surrogates for other in [*surrogates, "a", "\U00010000"])):
        yield from (it.encode("utf-16-be", "surrogatepass") for it in (both, "a" + both, both + "b"))
    for _ in range(MADE_UP):
        codes = [chance.choice((0x7F, 0x7FF, 0xFFFF, 0x10FFFF)) for _ in range(chance.randrange(8))]
        made = "".join(chr(chance.randrange(it)) for it in codes).encode("utf-16-be", "surrogatepass")
        yield from (made, made[:-1], made + chance.randbytes(1), chance.randbytes(chance.randrange(9)))


def refused_or(call, octets):
    """What a call says of octets, or the reason and the place for which it refuses them."""
    try:
        return call(octets)
    except Refused as refused:
        return refused.reason, refused.place


class Names(Comparing):
    def test_names_are_those_of_openssl(self):
        tried = [name(*sets) for sets in names()]
        self.at_least(len(tried), 158, "names")
        for subject in tried:
            self.same(library().name_text(subject), by_openssl(subject), subject)

    def test_values_that_are_no_text_are_shown_by_their_encodings(self):
        for tag, octets in IN_HEXADECIMAL:
            subject = name([pair(CN, tag, octets)])
            self.same(library().name_text(subject), f"CN=#{element(tag, octets).hex().upper()}", subject)


class ObjectIdentifiers(Comparing):
    def test_texts_have_the_arcs(self):
        for dotted in DOTTED:
            self.same(library().oid_text(oids.contents(dotted)), dotted, "the text of", dotted)

    def test_what_is_none_has_no_text(self):
        for octets in (b"", b"\x80", b"\x2a\x80\x01", b"\x2a\x86", oids.contents(f"1.2.{2**64}")):
            self.same(isinstance(refused_or(library().oid_text, octets), tuple), True, octets, "is refused")

    def test_names_are_those_of_openssl_and_of_the_table(self):
        table = script("tools/oids")
        theirs, named = table.openssl_names(), {row.dotted: row.name for group in table.groups() for row in group.rows}
        self.at_least(len(theirs.keys() & named.keys()), 300, "names that openssl has too")
        for dotted in sorted({*theirs, *named} - {it for it in theirs if it.count(".") == 0 or it.endswith(".")}):
            wanted = theirs.get(dotted, named[dotted]) if dotted in named else None
            self.same(library().oid_name(oids.contents(dotted)), wanted, "the name of", dotted)

    def test_what_is_none_has_no_name(self):
        for octets in (b"", b"\x80", oids.contents(CN) + b"\x00", oids.contents(CN)[:-1]):
            self.same(library().oid_name(octets), None, "the name of", octets)


class Utf16(Comparing):
    def test_texts_are_those_of_python(self):
        texts, others = 0, 0
        for octets in utf16_texts():
            try:
                wanted = octets.decode("utf-16-be")
                texts += 1
            except UnicodeDecodeError:
                wanted = "invalid", 0
                others += 1
            self.same(refused_or(library().utf16_text, octets), wanted, octets)
        self.at_least(min(texts, others), MADE_UP + 1, "texts, and strings that are none")


class Rooms(Comparing):
    """Tries rooms that are just enough for a text, and shorter ones, and octets that have no text."""

    def into(self, call, octets, room, status, said):
        """Asks that a call into so many octets ends with a status, and says how long a text is. No more is written than
        the text, and that only where it has room."""
        size, function = ctypes.c_size_t, getattr(ctypes.CDLL(str(shared())), call)
        out, length = ctypes.create_string_buffer(b"\xee" * 80, 80), size(7)
        ended = function(octets, size(len(octets)), out, size(room), ctypes.byref(length))
        written = (said if status == NORMAL else b"").ljust(80, b"\xee")
        self.same((ended, length.value, out.raw), (status, len(said), written), call, octets, "into", room)

    def test_a_name_is_written_where_it_has_room(self):
        subject, text = name([pair(CN, UTF8, "é+".encode())]), "CN=é\\+".encode()
        for octets, room, status, said in (
            (subject, len(text), NORMAL, text), (subject, len(text) - 1, NO_ROOM, text), (subject, 0, NO_ROOM, text),
            (subject[:-1], 64, MALFORMED, b""), (b"", 64, MISSING, b""), (set_of(), 64, INVALID, b""),
        ):
            self.into("der_name_text", octets, room, status, said)

    def test_a_name_of_an_object_identifier_is_written_where_it_has_room(self):
        octets, text = oids.contents(CN), b"commonName"
        for room, status in ((10, NORMAL), (9, NO_ROOM), (0, NO_ROOM)):
            self.into("der_oid_name", octets, room, status, text)
        self.into("der_oid_name", oids.contents("1.2.3.4"), 64, NO_PART, b"")

    def test_a_text_of_utf16_is_written_where_it_has_room(self):
        text = "aß日\U0001F600"
        octets, made = text.encode("utf-16-be"), text.encode()
        for data, room, status, said in (
            (octets, len(made), NORMAL, made), (octets, len(made) - 1, NO_ROOM, made), (octets, 0, NO_ROOM, made),
            (b"", 0, NORMAL, b""), (octets[:-1], 64, INVALID, b""), (octets[:-2], 64, INVALID, b""),
        ):
            self.into("der_utf16_text", data, room, status, said)


if __name__ == "__main__":
    unittest.main()
