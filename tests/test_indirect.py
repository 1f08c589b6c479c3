"""Where der_indirect says that signed data has the parts of its indirect data, which Authenticode signs: beside what
openssl shows of signatures that osslsigncode makes of programs, a cabinet and a script, whose digests it makes anew;
and beside the reader of tests/oracle, of signed data of the worked examples, made by hand and changed, also where they
are refused. What is written is looked at between marks. `vuyhanip show` and python/examples/digest.py say the digests
of the same signatures."""
import functools
import pickle
import random
import re
import sys
import unittest
from typing import NamedTuple

from support import built, inputs, making
from support.command import Command
from support.containers import NULL, SHA256, content_info, signed_file, signer
from support.elements import Element, element, explicit, integer, octet_string, sequence, set_of
from support.foreign import OSSLSIGNCODE
from support.inputs import CABINET, IMAGE, SCRIPT, indirect_data, signed_over
from support.oids import contents, oid
from support.rooms import INDIRECT, InRooms, in_struct, marked, octets_of
from support.signing import INDIRECT_DATA
from support.statuses import INVALID, MALFORMED, MISSING, NO_PART, NORMAL, REFUSALS, answered
from support.tools import ended, needs, openssl
from oracle import answers
from vuyhanip import der

# How many changed ones of each signed data are asked for their parts.
CHANGES = 60
# Files that osslsigncode signs: their octets, its options, and the type of what it says that it hashed.
FILES = {
    "small.exe": (making.image(), "", IMAGE),
    "section.exe": (making.image_with_a_section(), "-ph -h sha384", IMAGE),
    "old.exe": (making.image_of_32_bits(), "-h sha512", IMAGE),
    "small.cab": (making.cabinet(), "-h sha1", CABINET),
    "small.ps1": (b"Write-Output 1\r\n", "", SCRIPT),
}
# The names of these types.
NAMES = {IMAGE: "SpcPeImageData", CABINET: "SpcCabData", SCRIPT: "SpcSipInfo"}
# What osslsigncode says of a file that it signed, and a line of openssl asn1parse.
SAID = re.compile(r"Message digest algorithm *: (\w+)\n.*\nCalculated message digest *: (\w+)")
LINE = re.compile(r" *(\d+):d=(\d+) +hl=(\d+) l= *(\d+) (?:prim|cons): ")


class Signed(NamedTuple):
    """A signature of osslsigncode, and the digest that it makes anew of the file, after the algorithm."""

    octets: bytes
    algorithm: str
    digest: str


@functools.lru_cache(maxsize=None)
def signatures():
    """What osslsigncode signs, by the names of the files."""
    room, found = built.room() / "indirect", {}
    room.mkdir()
    with making.inside(room):
        making.certificate("one")
        for name, (octets, words, _) in FILES.items():
            making.put(name, octets)
            making.run(f"osslsigncode sign -certs one.pem -key one.key {words} -in {name} -out signed-{name}")
            making.run(f"osslsigncode extract-signature -in signed-{name} -out {name}.p7")
            # its status says that it doesn't trust the certificate
            said = ended("osslsigncode", "verify", f"signed-{name}").stdout.decode()
            algorithm, digest = SAID.search(said).groups()
            found[name] = Signed((room / f"{name}.p7").read_bytes(), algorithm.lower(), digest.lower())
    return found


def shown(text):
    """The elements of a text as openssl shows them, each with its depth. Their tags aren't looked at."""
    lines = openssl("asn1parse", "-inform", "DER", text=text).decode("latin-1").splitlines()
    for at, depth, head, size in (map(int, found.groups()) for found in map(LINE.match, lines) if found):
        yield depth, Element(None, at, at + head, at + head + size)


def places_of(text, is_image):
    """Where openssl shows the parts of indirect data, by their names in der.h."""
    lines = list(shown(text))

    def inside(outer):
        depth = next(depth for depth, it in lines if it == outer)
        return [it for deep, it in lines if deep == depth + 1 and outer.start <= it.at < outer.end]

    _, signed_data = inside(lines[0][1])
    _, _, info, *_ = inside(inside(signed_data)[0])
    _, held = inside(info)
    data, digest_info = inside(inside(held)[0])
    (kind, value), (algorithm, digest) = inside(data), inside(digest_info)
    found = {
        "attribute_type": kind.contents_place(), "attribute_value": value.place(),
        "digest_algorithm": algorithm.place(), "digest": digest.contents_place(),
    }
    if is_image:
        *flags, file = inside(value)
        found |= {"image_flags": it.contents_place() for it in flags} | {"image_link": inside(file)[0].place()}
    return found


def taken(text, row):
    """The parts in a row as Python has them, with octets of their own."""
    def octets(place, is_there=1):
        return text[place[0] : sum(place)] if is_there else None

    flags, link = octets(row.image_flags, row.has_image_flags), octets(row.image_link, row.has_image_link)
    value = octets(row.attribute_value, row.has_attribute_value)
    image = der.ImageData(flags, link) if row.is_image else None
    return der.IndirectData(octets(row.attribute_type), value, octets(row.digest_algorithm), octets(row.digest), image)


class Comparison(InRooms):
    """A test that compares where the parts are said to be."""

    def same_parts(self, text):
        """Compares where the parts are said to be, and what Python is told. Returns the status and the row."""
        status, row, where = answers.indirect(text)
        wanted = status, where, marked(octets_of([row.numbers()]), INDIRECT)
        self.same(in_struct("der_indirect", text, INDIRECT), wanted, "der_indirect", text)
        parts = taken(text, row) if status == NORMAL else None
        wanted = NORMAL if status == NO_PART else status, parts, where
        self.same(answered(built.library().indirect, text), wanted, "indirect data in Python", text)
        self.same(answered(lambda: built.library().signed(text).indirect), wanted, "those of SignedData", text)
        return status, row


# What is made by hand


def values():
    """What may be in the place of an attribute's value: image data, with each part and without it, what isn't quite
    that, other elements, none, and several."""
    link = explicit(2, element(0x80))
    flags = [element(0x03, it) for it in (b"\0", b"\5\x80", b"\7\xFF", bytes(200), b"", b"\x08\0", b"\1")]
    files = [explicit(0, it) for it in (link, NULL, bytes(2) + link, b"", b"\xA2\5")]
    found = [sequence(), *map(sequence, [*flags, *files]), *(sequence(one, other) for one in flags for other in files)]
    found += [sequence(files[0], flags[0]), sequence(flags[0], flags[0]), sequence(flags[0], files[0], NULL)]
    found += [set_of(flags[0], files[0]), octet_string(sequence()), integer(7), link, oid(IMAGE), NULL]
    return [*found, b"", NULL + NULL, sequence() + link, sequence()[:1], b"\x30\x80"]


def types():
    """What may be in the place of an attribute's type: object identifiers, and what is none."""
    found = [oid(it) for it in (IMAGE, CABINET, SCRIPT, "1.2.3", IMAGE[:-1], IMAGE + ".0")]
    found += [element(0x06, it) for it in (b"", b"\x80\1", contents(IMAGE) + b"\x80")]
    return [*found, element(0x80, contents(IMAGE)), NULL, b""]


def digests():
    """What may be in the place of a DigestInfo."""
    other, digest = sequence(oid("SHA-1")), octet_string(bytes(20))
    algorithms = [SHA256, other, sequence(oid("SHA-1"), sequence(digest))]
    found = [sequence(it, text) for it in algorithms for text in (digest, octet_string(b""), octet_string(bytes(300)))]
    no_algorithms = sequence(oid("SHA-1"), NULL, NULL), sequence(NULL), sequence(), oid("SHA-1")
    found += [sequence(it, digest) for it in no_algorithms]
    found += [sequence(other), sequence(digest), sequence(digest, other), sequence(other, digest, NULL), sequence()]
    found += [sequence(other, it) for it in (element(0x03, b"\0"), element(0x24, digest), NULL, digest[:-1])]
    return [*found, set_of(other, digest), NULL, b"", sequence(other, digest) + NULL]


class TestByHand(Comparison):
    """Signed data that are made by hand."""

    def test_parts_of_the_other_reader_where_indirect_data_are_made_by_hand(self):
        right = sequence(SHA256, octet_string(bytes(32)))
        found = [sequence(sequence(kind, value), right) for kind in types() for value in values()]
        value = sequence(element(0x03, b"\0"), explicit(0, NULL))
        found += [sequence(sequence(oid(IMAGE), it), digest) for it in (value, NULL, b"") for digest in digests()]
        found += [sequence(), sequence(right), NULL, set_of(sequence(oid(IMAGE)), right), octet_string(right)]
        kinds = {}
        for it in found:
            status, row = self.same_parts(signed_over(INDIRECT_DATA, it))
            kind = status, *row[:4]
            kinds[kind] = kinds.get(kind, 0) + 1
        for flags in ((1, 1, 1, 1), (1, 1, 1, 0), (1, 1, 0, 1), (1, 1, 0, 0), (1, 0, 0, 0), (0, 0, 0, 0)):
            self.at_least(kinds.get((NORMAL, *flags), 0), 1, f"indirect data with {flags}")
        for status in (MALFORMED, MISSING, INVALID):
            self.at_least(kinds.get((status, 0, 0, 0, 0), 0), 10, f"refusals by {status}")

    def test_of_content_of_another_type_and_of_none_there_are_no_parts(self):
        """Also where it has the form of indirect data."""
        for content_type in ("data", "1.2.3.4", IMAGE, INDIRECT_DATA[:-2], INDIRECT_DATA + ".0"):
            for content in (indirect_data(IMAGE, sequence()), octet_string(b""), sequence(), NULL):
                self.same(self.same_parts(signed_over(content_type, content))[0], NO_PART, content_type, content)
        self.same(self.same_parts(signed_over(INDIRECT_DATA))[0], NO_PART, "no content")

    def test_what_is_no_signed_data_is_refused_first(self):
        """Also where its content doesn't read as indirect data, before what is wrong."""
        for text in inputs.over_indirect_data():
            others = text + b"\0", text[:-2], text[:-2] + NULL, text[:-1] + b"\1", content_info("data", text), b""
            for whole in others:
                status, _ = self.same_parts(whole)
                self.same((status in REFUSALS, answers.signers(whole)[0]), (True, status), "a refusal of", whole)

    def test_each_part_has_its_own_place_where_others_have_the_same_octets(self):
        """The digest has the octets of the type, and the value is the DigestInfo again; or the link is the algorithm
        again, and the digest has the octets of the flags. Each certificate is the content again."""
        chance = random.Random(3)
        info = sequence(SHA256, octet_string(contents(CABINET)))
        flags = element(0x03, b"\0", contents(IMAGE))
        image = sequence(oid(IMAGE), sequence(flags, explicit(0, SHA256)))
        of_image = sequence(image, sequence(SHA256, octet_string(flags[2:])))
        for content in (sequence(sequence(oid(CABINET), info), info), of_image):
            signers = [signer(chance, number, version, None, INDIRECT_DATA) for number, version in ((1, 1), (3, 3))]
            text = signed_file(content_info(INDIRECT_DATA, content), 2 * [content], signers, 3)
            status, row = self.same_parts(text)
            start = text.index(content)
            self.same((status, text.count(content)), (NORMAL, 3), "the content is there", text)
            places = [place for place in row[4:] if place[1]]
            self.same([place for place in places if not start < place[0] < start + len(content)], [], "places outside")
            self.same(len({text[at : at + size] for at, size in places}) < len(set(places)), True, "equal octets", text)

    def test_parts_are_those_of_the_other_reader_also_of_changed_signed_data(self):
        chance, counts = random.Random(29), {}
        for text in [*inputs.over_indirect_data(), *inputs.signed_data()]:
            for its in [text, *(inputs.changed(chance, text) for _ in range(CHANGES))]:
                status, row = self.same_parts(its)
                is_of_content = status in REFUSALS and answers.signers(its)[0] == NORMAL
                kind = status, is_of_content, *row[:4]
                counts[kind] = counts.get(kind, 0) + 1
        wanted = [(NORMAL, False, *flags) for flags in ((1, 1, 1, 1), (1, 1, 0, 1), (1, 0, 0, 0), (0, 0, 0, 0))]
        wanted += [(status, False, 0, 0, 0, 0) for status in (MALFORMED, MISSING, INVALID, NO_PART)]
        wanted += [(status, True, 0, 0, 0, 0) for status in (MALFORMED, INVALID)]
        for kind in wanted:
            self.at_least(counts.get(kind, 0), 10, f"signed data with {kind}")

    def test_objects_say_what_they_are_and_go_to_another_process(self):
        text = inputs.over_indirect_data()[0]
        found = built.library().indirect(text)
        image = "ImageData(flags=2 octets, link=4 octets)"
        wanted = "attribute_type=10 octets, attribute_value=12 octets, digest_algorithm=15 octets, digest=32 octets"
        self.same(repr(found), f"IndirectData({wanted}, image={image})", "how it is shown")
        self.same((found.attribute_oid, found.digest_oid), (IMAGE, "2.16.840.1.101.3.4.2.1"), "object identifiers")
        self.same(pickle.loads(pickle.dumps(found)), found, "what comes back")
        self.same(found.digest.obj is text, True, "octets aren't copied")
        written = bytearray(text)
        kept = built.library().indirect(written)
        written[:] = bytes(len(written))
        self.same(kept, found, "what can be written is copied")


@needs(*OSSLSIGNCODE)
class TestSignatures(Comparison):
    """Signatures of osslsigncode."""

    def test_parts_are_where_openssl_shows_them(self):
        for name, signed in signatures().items():
            status, row = self.same_parts(signed.octets)
            parts = row._asdict().items()
            found = {part: place for part, place in parts if part[:4] not in ("has_", "is_i") and place != (0, 0)}
            wanted = NORMAL, places_of(signed.octets, FILES[name][2] == IMAGE)
            self.same((status, found), wanted, name, signed.octets)

    def test_the_digest_is_that_which_osslsigncode_makes_anew(self):
        for name, signed in signatures().items():
            found = built.library().indirect(signed.octets)
            said = found.attribute_oid, der.digest_name(found.digest_oid), found.digest.hex()
            self.same(said, (FILES[name][2], signed.algorithm, signed.digest), name)
            self.same(found.image is None, FILES[name][2] != IMAGE, name, "whether it is of no program")


class TestCommand(Command):
    """What `vuyhanip show` and python/examples/digest.py say."""

    def says_of_example(self, file, status, said, complaint):
        """Asks what the example says of a file."""
        words = sys.executable, built.TOP / "python/examples/digest.py", file
        ran = ended(*words, cwd=self.room, env=self.environment())
        self.assertEqual((ran.returncode, ran.stdout.decode(), ran.stderr.decode()), (status, said, complaint))

    @needs(*OSSLSIGNCODE)
    def test_the_digest_of_each_file_is_said(self):
        for name, signed in signatures().items():
            self.put("signature.p7s", signed.octets)
            what, digest = NAMES[FILES[name][2]], bytes.fromhex(signed.digest).hex(":").upper()
            wanted = [r"^  content +SpcIndirectDataContent, \d+ octets$", rf"^    hashed +{what}$"]
            self.finds(["show", "signature.p7s"], [*wanted, rf"^    digest +{signed.algorithm} {digest}$"])
            self.says_of_example("signature.p7s", 0, f"{what} {signed.algorithm} {signed.digest}\n", "")

    def test_a_type_without_a_name_is_dotted(self):
        self.put("other.p7s", signed_over(INDIRECT_DATA, indirect_data("1.2.3.4", NULL)))
        digest = 32 * b"\x11"
        wanted = ["^    hashed +1.2.3.4$", f"^    digest +sha256 {digest.hex(':')}$"]
        self.finds(["show", "other.p7s"], wanted)
        self.says_of_example("other.p7s", 0, f"1.2.3.4 sha256 {digest.hex()}\n", "")

    def test_content_that_is_no_indirect_data_is_said(self):
        content = sequence(sequence(oid(IMAGE)), sequence(SHA256))
        text = signed_over(INDIRECT_DATA, content)
        place = text.index(content) + len(content)
        self.put("unread.p7s", text)
        wanted = ["^  content +SpcIndirectDataContent", f"^    refused +missing at {place}, as indirect data$"]
        said = self.finds(["show", "unread.p7s"], wanted, 1)
        self.assertNotRegex(said, "hashed")
        self.says_of_example("unread.p7s", 1, "", f"refused: missing at {place}\n")

    def test_of_other_content_no_digest_of_a_file_is_said(self):
        self.assertNotRegex(self.finds(["show", "attributes.p7s"], ["content +pkcs7-data"]), "hashed")
        no_digest = "no digest of a file: the content has another type\n"
        self.says_of_example("attributes.p7s", 1, "", no_digest)
        self.put("nothing.p7s", signed_over(INDIRECT_DATA))
        said = self.finds(["show", "nothing.p7s"], [r"content +SpcIndirectDataContent, elsewhere \(a detached"])
        self.assertNotRegex(said, "hashed")


if __name__ == "__main__":
    unittest.main()
