"""What der_build_indirect writes from parts beside the writer of tests/oracle, in just the room that they need and in
less: of programs, with flags and links of each form and without them, and of other files; whatever is where the call
doesn't look. What is written is read as what was given. A part that can't be written is told, of several one, and
nothing is written. In Python the same is built. Indirect data that osslsigncode signs, and those of the worked
examples, are built again octet for octet of where der_indirect says that they have their parts. And programs: what
python/examples/sign_program.py writes is the signature that osslsigncode makes of the same time, but for the octets of
one by an elliptic curve; osslsigncode attaches it, verifies it, and refuses programs of which an octet is changed."""
import copy
import functools
import hashlib
import itertools
import os
import pickle
import random
import sys
import unittest
from pathlib import Path

from support import built, given, given_signed, inputs, making, oids, tools
from support.containers import NULL
from support.elements import element, explicit, octet_string, part, parts, sequence
from support.foreign import OSSLSIGNCODE
from support.given import NO_ELEMENTS, NO_IDENTIFIERS, some_element, some_identifier, some_octets, there_or_not
from support.given_stores import ANYTHING, beside, changed
from support.inputs import CABINET, IMAGE, SCRIPT
from support.oids import oid
from support.rooms import INDIRECT, MARKS, InRooms, in_room, in_struct, marked
from support.signing import INDIRECT_DATA
from support.statuses import INVALID, NO_ROOM, NORMAL
from support.stores import in_other_ways
from support.tools import needs
from oracle import answers, contents
from vuyhanip import build
from vuyhanip.der import (
    BadIndirect, GivenImage, GivenIndirect, ImageData, IndirectData, IndirectPart, digest_name, hashed_octets,
)

CALL = "der_build_indirect"
SIGN_IN_PYTHON = built.TOP / "python/examples/sign_program.py"
# How often sets of each kind are made up, how many changed ones of each input are looked at, and the room of what is
# refused.
ROUNDS, CHANGES, ROOM = 4, 20, 64
# The parts, by the names of their ranges in der.h.
RANGES = contents.Indirect._fields[4:]
OF_IMAGE, OF_OTHER = ("image_flags", "image_link"), ("attribute_type", "attribute_value")
# The contents octets of BIT STRINGs: of no bits, of one and of three, also with unused bits that are set and with bits
# that DER leaves out, and of many; and what is none: without a count of unused bits, with bits unused of none, and with
# more than 7 of them.
FLAGS = b"\0", b"\x07\x80", b"\x05\x80", b"\x05\xA0", b"\x07\xFF", b"\0\0", b"\1\0\0", b"\0\xFF\x80", bytes(200)
NO_FLAGS = b"", b"\1", b"\7", b"\x08", b"\xFF", b"\x08\0", b"\x80\0", b"\xFF\xFF", b"\x08" + bytes(200)
# Links: SpcLink of each form, and other elements, whatever is in them.
OBSOLETE = "<<<Obsolete>>>".encode("utf-16-be")
MONIKER = element(0xA1, octet_string(bytes(16)), octet_string(bytes(300)))
LINKS = (
    explicit(2, element(0x80, OBSOLETE)), explicit(2, element(0x81, b"file")), explicit(2, element(0x80)), MONIKER,
    element(0x80, b"http://a/"), NULL, sequence(), octet_string(bytes(128)), explicit(0, NULL), element(0x30, b"\xFF"),
)
# An algorithm, and a DigestInfo of it.
SHORT, DIGEST = sequence(oid("1.2.3")), b"\7\x08"
DIGEST_INFO = sequence(SHORT, octet_string(DIGEST))


# Sets of parts


def plain(**others):
    """A set of parts of indirect data with no other parts than these: of a program, unless there is a type."""
    absent = {f"has_{name}": 0 for name in (("attribute_value",) if "attribute_type" in others else OF_IMAGE)}
    its = {"is_image": int("attribute_type" not in others), "digest_algorithm": SHORT, "digest": DIGEST, **absent}
    return {**its, **{f"has_{name}": 1 for name in others if f"has_{name}" in absent}, **others}


def some_flags(chance):
    return chance.choice((*FLAGS, bytes([chance.randrange(8)]) + chance.randbytes(chance.choice((1, 2, 127, 300)))))


def sets(chance):
    """Sets of parts: of a program, with each part of image data and without it; and of other files, with a value and
    without one, also of the type of a program."""
    def digest():
        return {"digest_algorithm": given_signed.some_algorithm(chance), "digest": some_octets(chance)}

    for flags in there_or_not("image_flags", some_flags(chance)):
        for link in there_or_not("image_link", chance.choice((some_element(chance), *LINKS))):
            yield {"is_image": 1, **flags, **link, **digest()}
    for kind in (some_identifier(chance), oids.contents(IMAGE)):
        image = sequence(element(0x03, some_flags(chance)), explicit(0, some_element(chance)))
        for value in there_or_not("attribute_value", chance.choice((some_element(chance), image))):
            yield {"is_image": 0, "attribute_type": kind, **value, **digest()}


def broken_sets(its):
    """The set of parts with one of its parts broken, and the name of that part."""
    wrong_parts = {"digest_algorithm": given_signed.wrong_algorithms()}
    if its["is_image"]:
        wrong_parts |= {"image_flags": NO_FLAGS, "image_link": NO_ELEMENTS}
    else:
        wrong_parts |= {"attribute_type": NO_IDENTIFIERS, "attribute_value": NO_ELEMENTS}
    for name, those in wrong_parts.items():
        flag = {f"has_{name}": 1} if f"has_{name}" in its else {}
        yield from ((name, {**its, **flag, name: it}) for it in those)


def laid_out(chance, its):
    """An input that has the parts of a set, and the row that says so."""
    text, fields = given.laid_out(chance, its)
    return text, contents.Indirect(**fields)


def in_python(its):
    """What build_indirect takes of a set of parts."""
    there = {name: its[name] for name in RANGES if name in its and its.get(f"has_{name}", 1)}
    image = GivenImage(*map(there.get, OF_IMAGE)) if its["is_image"] else None
    return GivenIndirect(its["digest_algorithm"], its["digest"], image, *map(there.get, OF_OTHER))


def made_in_python(given_indirect):
    """What is built in Python, or the part that can't be written."""
    try:
        return built.library().build_indirect(given_indirect)
    except BadIndirect as bad:
        return bad.part


def subsets(items):
    """All lists of some of the items."""
    return itertools.chain.from_iterable(itertools.combinations(items, count) for count in range(len(items) + 1))


class OfIndirect(InRooms):
    """A test that compares what is built."""

    def same_built(self, text, row, *what):
        """Compares what the call writes of a row over an input into just the room that it needs, and into less; or,
        where the other writer writes nothing, asks that it tells one of the parts that that finds wrong. Returns what
        is wanted, or told."""
        made, wrong = contents.indirect_text(text, row)
        words = text, len(text), row.numbers()
        if made is not None:
            self.same_octets(CALL, words, made, *what, row, places=1)
            return made
        status, size, told, room = in_room(CALL, words, ROOM, 2)
        said = status, size, told in wrong, room
        self.same(said, (INVALID, 0, True, marked(b"", ROOM)), *what, row, "it tells", told, "and wrong are", wrong)
        return told

    def same_set(self, its, chance, *what):
        """The same of a set of parts, laid out in an input."""
        return self.same_built(*laid_out(chance, its), *what, its)


# By hand


class TestByHand(OfIndirect):
    """Indirect data that are known octet by octet."""

    def test_those_of_a_program_are_what_osslsigncode_2_9_signed(self):
        digest = bytes.fromhex("56E70E93A71609BF69262ADFF61907573A195441E16686547688630EE8D1A810")
        algorithm = bytes.fromhex("300D06096086480165030402010500")
        its = plain(image_flags=b"\x07\x80", image_link=LINKS[0], digest_algorithm=algorithm, digest=digest)
        wanted = bytes.fromhex("30693034060A2B06010401823702010F302603020780A020A21E801C") + OBSOLETE
        wanted += bytes.fromhex("3031") + algorithm + b"\x04\x20" + digest
        self.same(self.same_set(its, random.Random(1)), wanted, "of small.exe")

    def test_flags_and_links_are_those_that_are_given(self):
        chance = random.Random(2)
        for flags, link in itertools.product((None, *FLAGS), (None, *LINKS)):
            those = {name: it for name, it in zip(OF_IMAGE, (flags, link)) if it is not None}
            fields = [b"" if flags is None else element(0x03, flags), b"" if link is None else explicit(0, link)]
            wanted = sequence(sequence(oid(IMAGE), sequence(*fields)), DIGEST_INFO)
            self.same(self.same_set(plain(**those), chance), wanted, "with", flags, link)

    def test_types_and_values_are_those_that_are_given(self):
        chance = random.Random(3)
        image = sequence(element(0x03, b"\0"), explicit(0, NULL))
        for kind in (IMAGE, CABINET, SCRIPT, "1.2.3", "2.999.4294967296", IMAGE[:-1], IMAGE + ".0"):
            for value in (None, image, *LINKS):
                those = {"attribute_type": oids.contents(kind), **({} if value is None else {"attribute_value": value})}
                wanted = sequence(sequence(oid(kind), value or b""), DIGEST_INFO)
                self.same(self.same_set(plain(**those), chance), wanted, "with", kind, value)

    def test_digests_and_algorithms_are_those_that_are_given(self):
        chance = random.Random(4)
        algorithms = SHORT, sequence(oid("SHA-256"), NULL), sequence(oid("SHA-1"), sequence(octet_string(b"")))
        for algorithm, digest in itertools.product(algorithms, (b"", b"\0", bytes(20), bytes(64), bytes(300))):
            info = sequence(algorithm, octet_string(digest))
            for its, subject in (
                (plain(), sequence(oid(IMAGE), sequence())), (plain(attribute_type=b"\x2A"), sequence(oid("1.2"))),
            ):
                said = self.same_set({**its, "digest_algorithm": algorithm, "digest": digest}, chance)
                self.same(said, sequence(subject, info), "with", algorithm, digest)


# Made-up parts


def read(text):
    """The parts of indirect data, as the reader of tests/oracle finds them in signed data over them."""
    whole = inputs.signed_over(INDIRECT_DATA, text)
    status, row, _ = answers.indirect(whole)
    places = {name: getattr(row, name) for name in RANGES if status == NORMAL and getattr(row, f"has_{name}", 1)}
    return row.is_image, {name: whole[start : start + size] for name, (start, size) in places.items()}


class TestMadeUp(OfIndirect):
    """Made-up parts."""

    def test_they_are_written_as_they_are_given_and_read_back(self):
        chance, counts = random.Random(11), {}
        for its in (it for _ in range(5 * ROUNDS) for it in sets(chance)):
            is_image, found = read(self.same_set(its, chance))
            wanted = {name: its[name] for name in RANGES if name in its and its.get(f"has_{name}", 1)}
            of_both = wanted if its["is_image"] else {name: found[name] for name in found if name not in OF_IMAGE}
            self.same({name: found[name] for name in of_both}, wanted, "read", its)
            self.same(is_image or not its["is_image"], True, "it is an image", its)
            kind = its["is_image"], is_image, tuple(wanted)
            counts[kind] = counts.get(kind, 0) + 1
        # of a program, with and without each of two parts; others without a value; and with one that is no image data,
        # or is
        self.same(len(counts), 7, "forms")
        self.at_least(min(counts.values()), ROUNDS, "sets of each form")

    def test_octets_of_any_length_are_written(self):
        """Of a part and of all around it, on both sides of each length that takes an octet more."""
        chance = random.Random(12)
        for size in (*range(60, 270), *range(65536 - 60, 65536 + 2), 70000):
            its, held = bytes(size), octet_string(bytes(size))
            for those in (
                {"digest": its}, {"image_flags": its}, {"image_link": held}, {"attribute_type": b"\x2A" + size * b"\1"},
                {"digest_algorithm": sequence(oid("1.2"), held)}, {"attribute_type": b"\x2A", "attribute_value": held},
            ):
                self.same_set(plain(**those), chance, size)

    def test_what_is_not_looked_at_may_be_anything(self):
        """The type and the value of the attribute of a program; flags and links of another file; and parts that aren't
        there."""
        chance, names = random.Random(13), contents.Indirect()._asdict()
        for its in (it for _ in range(ROUNDS) for it in sets(chance)):
            text, fields = given.laid_out(chance, its)
            wanted = self.same_built(text, contents.Indirect(**fields), its)
            for among in ([1], [2**64 - 1], *4 * [ANYTHING]):
                row = contents.Indirect(**beside(chance, names, fields, among))
                self.same(self.same_built(text, row), wanted, "beside anything", row)

    def test_parts_may_be_in_one_another_and_several_be_the_same_octets(self):
        text = b"\x00" + sequence(oid(IMAGE), NULL)
        algorithm, kind, null, all_of_it = (1, len(text) - 1), (5, 10), (len(text) - 2, 2), (0, len(text))
        row = contents.Indirect(1, 0, 1, 1, kind, algorithm, algorithm, all_of_it, all_of_it, algorithm)
        info = sequence(text[1:], octet_string(text))
        wanted = sequence(sequence(oid(IMAGE), text[1:]), info)
        self.same(self.same_built(text, row), wanted, "of the same octets")
        image = sequence(element(0x03, text), explicit(0, text[1:]))
        wanted = sequence(sequence(oid(IMAGE), image), info)
        self.same(self.same_built(text, row._replace(is_image=1)), wanted, "a program")
        wanted = sequence(sequence(oid(IMAGE), NULL), info)
        self.same(self.same_built(text, row._replace(attribute_value=null)), wanted, "the value")

    def test_an_empty_digest_may_be_anywhere_up_to_the_end(self):
        chance = random.Random(14)
        for its in (plain(digest=b""), plain(digest=b"", attribute_type=b"\x2A")):
            text, row = laid_out(chance, its)
            wanted = self.same_built(text, row, its)
            for at in (0, 1, len(text) - 1, len(text)):
                self.same(self.same_built(text, row._replace(digest=(at, 0))), wanted, "an empty digest at", at)

    def test_changed_ones_are_written_or_told_as_by_the_other_writer(self):
        chance, counts = random.Random(15), dict.fromkeys(("built", *(it.value for it in IndirectPart)), 0)
        for its in (it for _ in range(2 * ROUNDS) for it in sets(chance)):
            text, fields = given.laid_out(chance, its)
            for _ in range(CHANGES):
                row = contents.Indirect(**changed(chance, fields, len(text)))
                said = self.same_built(inputs.changed(chance, text) if chance.random() < 0.2 else text, row)
                counts["built" if isinstance(said, bytes) else said] += 1
        for kind, count in counts.items():
            self.at_least(count, 10, f"{kind!r}, of what is built or of the numbers of parts")


# Parts that are wrong


class TestRefused(OfIndirect):
    """Parts one of which is wrong, or several."""

    def told(self, name, text, row, *what):
        """Asks that a part is told, and nothing is written, whether there is room or not."""
        number = IndirectPart[name.upper()].value
        for room in (0, ROOM, 4096):
            said = in_room(CALL, (text, len(text), row.numbers()), room, 2)
            self.same(said, (INVALID, 0, number, marked(b"", room)), name, *what, "in room for", room)
        self.same(contents.indirect_text(text, row)[1], [number], "the other writer", name, *what)

    def test_each_part_that_is_wrong_is_told(self):
        chance, counts = random.Random(21), {}
        for its in (it for _ in range(2) for it in sets(chance)):
            for name, broken in broken_sets(its):
                self.told(name, *laid_out(chance, broken), broken)
                counts[name] = counts.get(name, 0) + 1
        # any octets are a digest
        self.same(set(counts), set(RANGES) - {"digest"}, "parts that were broken")
        self.at_least(min(counts.values()), 7, "broken parts")

    def test_a_range_that_is_not_in_the_input_is_told(self):
        chance, names = random.Random(22), set()
        for its in (it for _ in range(2) for it in sets(chance)):
            text, fields = given.laid_out(chance, its)
            for name in (it for it in RANGES if it in its and its.get(f"has_{it}", 1)):
                for wrong in given.wrong_ranges(text, fields[name]):
                    self.told(name, text, contents.Indirect(**{**fields, name: wrong}), wrong)
                names.add(name)
        self.same(names, set(RANGES), "parts that are ranges")

    def test_of_several_parts_one_is_told(self):
        chance = random.Random(23)
        for both in (dict(zip(OF_IMAGE, (b"\0", NULL))), {"attribute_type": b"\x2A", "attribute_value": NULL}):
            text, row = laid_out(chance, plain(**both))
            for names in (it for it in subsets(("digest_algorithm", "digest", *both)) if len(it) > 1):
                said = self.same_built(text, row._replace(**dict.fromkeys(names, (len(text), 1))), names)
                self.same(said in [IndirectPart[name.upper()].value for name in names], True, "one of", names)

    def test_nothing_is_found_in_an_empty_input(self):
        """But octets of which there may be none, beside an algorithm."""
        algorithm = {"digest_algorithm": (0, len(SHORT))}
        self.told("digest_algorithm", b"", contents.Indirect(is_image=1), "of nothing")
        for flags in ({"is_image": 1, f"has_{name}": 1} for name in OF_IMAGE):
            name = list(flags)[1].removeprefix("has_")
            self.told(name, SHORT, contents.Indirect(**flags, **algorithm), "of nothing")
        self.told("attribute_type", SHORT, contents.Indirect(**algorithm), "of nothing")
        row = contents.Indirect(has_attribute_value=1, attribute_type=(4, 2), **algorithm)
        self.told("attribute_value", SHORT, row, "of nothing")
        wanted = sequence(sequence(oid(IMAGE), sequence()), sequence(SHORT, octet_string(b"")))
        self.same(self.same_built(SHORT, contents.Indirect(is_image=1, **algorithm)), wanted, "an empty digest")


class TestRooms(OfIndirect):
    """Rooms of many sizes."""

    def test_they_are_written_where_they_have_room_and_nothing_beyond_them(self):
        """Without any room the call says how much it needs."""
        chance = random.Random(31)
        for its in (it for _ in range(ROUNDS) for it in sets(chance)):
            text, row = laid_out(chance, its)
            wanted = self.same_built(text, row, its)
            for room in (0, 1, len(wanted) // 2, len(wanted) - 1, len(wanted), len(wanted) + 1, len(wanted) + 200):
                fits = room >= len(wanted)
                answer = NORMAL if fits else NO_ROOM, len(wanted), 0, marked(wanted if fits else b"", room)
                said = in_room(CALL, (text, len(text), row.numbers()), room, 2)
                self.same(said, answer, its, "in room for", room)

    def test_what_was_built_before_is_built_again(self):
        """A call leaves nothing behind: refused, in too little room, and built, in any order."""
        chance = random.Random(32)
        text, row = laid_out(chance, plain(image_flags=b"\0", image_link=LINKS[0]))
        for _ in range(3):
            self.same(type(self.same_built(text, row)), bytes, "written")
            said = self.same_built(text, row._replace(digest=(len(text), 1)))
            self.same(said, IndirectPart.DIGEST.value, "a wrong digest")


# Python


class TestPython(OfIndirect):
    """What Python builds, and what it says of what can't be written."""

    def setUp(self):
        super().setUp()
        built.use_shared()

    def test_they_are_written_as_they_are_given(self):
        chance = random.Random(41)
        for its in (it for _ in range(ROUNDS) for it in sets(chance)):
            text, python = self.same_set(its, chance), in_python(its)
            self.same(made_in_python(python), text, "in Python", its)
            for name in (it for it in ("digest_algorithm", "digest", *OF_OTHER) if getattr(python, it) is not None):
                for octets in in_other_ways(getattr(python, name)):
                    self.same(made_in_python(python._replace(**{name: octets})), text, "of other octets", its)
            if python.image is not None:
                there = [None if it is None else next(in_other_ways(it)) for it in python.image]
                self.same(made_in_python(python._replace(image=GivenImage(*there))), text, "of other octets", its)
            # as those that were read
            image = None if python.image is None else ImageData(*python.image)
            like_read = IndirectData(*python[3:], *python[:2], image)
            self.same(made_in_python(like_read), text, "as those that were read", its)

    def test_beside_an_image_neither_a_type_nor_a_value_is_looked_at(self):
        python = in_python(plain(image_flags=b"\0", image_link=NULL))
        wanted = made_in_python(python)
        for kind, value in itertools.product((None, *NO_IDENTIFIERS), (None, *NO_ELEMENTS)):
            said = made_in_python(python._replace(attribute_type=kind, attribute_value=value))
            self.same(said, wanted, "beside an image", kind, value)

    def test_a_part_that_is_wrong_is_told(self):
        chance, found = random.Random(42), set()
        for its in sets(chance):
            broken = [(name, in_python(it)) for name, it in broken_sets(its)]
            names = ("digest_algorithm", "digest", *([] if its["is_image"] else ["attribute_type"]))
            for name, it in (*broken, *((name, in_python(its)._replace(**{name: None})) for name in names)):
                self.same(made_in_python(it), IndirectPart[name.upper()], "told", it)
                found.add(name)
        self.same(found, set(RANGES), "parts")

    def test_what_is_not_written_is_said_and_goes_to_another_process(self):
        """In capitals it is the name of the part."""
        for name, wrong in (
            ("digest_algorithm", in_python({**plain(), "digest_algorithm": NULL})),
            ("digest", in_python(plain())._replace(digest=None)), ("image_flags", in_python(plain(image_flags=b""))),
            ("image_link", in_python(plain(image_link=b""))), ("attribute_type", in_python(plain(attribute_type=b""))),
            ("attribute_value", in_python(plain(attribute_type=b"\x2A", attribute_value=b""))),
        ):
            with self.assertRaises(BadIndirect) as raised:
                built.library().build_indirect(wrong)
            wanted = BadIndirect, f"{name} can't be written", {"part": IndirectPart[name.upper()]}
            for bad in (raised.exception, pickle.loads(pickle.dumps(raised.exception)), copy.copy(raised.exception)):
                self.same((type(bad), str(bad), vars(bad)), wanted, "what is said")

    def test_programs_and_other_files_are_built_of_octets_and_texts(self):
        """With the flags and the link of osslsigncode, or with others, and with none."""
        cases = [({}, {"image_flags": b"\x07\x80", "image_link": LINKS[0]})]
        for flags, link in itertools.product((None, *FLAGS), (None, *LINKS)):
            those = {name: it for name, it in zip(OF_IMAGE, (flags, link)) if it is not None}
            cases.append(({"flags": flags, "link": link}, those))
        for named, those in cases:
            wanted = self.same_set(plain(**those), random.Random(43))
            self.same(build.program(SHORT, DIGEST, **named), wanted, "of a program", named)
        for kind, value in itertools.product((CABINET, IMAGE, "1.2.3"), (None, *LINKS)):
            wanted = sequence(sequence(oid(kind), value or b""), DIGEST_INFO)
            self.same(build.indirect(SHORT, DIGEST, kind, value), wanted, "of another file", kind, value)
        self.same(build.indirect(SHORT, DIGEST, CABINET), sequence(sequence(oid(CABINET)), DIGEST_INFO), "no value")

    def test_hashed_octets_are_the_contents_of_one_element(self):
        for tag, size in itertools.product((0x04, 0x30, 0x24, 0xA0, 0x80), (0, 1, 127, 128, 255, 256, 65535, 65536)):
            text, its = element(tag, bytes(size)), bytes(size)
            for octets in (text, bytearray(text), memoryview(text), *in_other_ways(text)):
                self.same(hashed_octets(octets), its, "contents of", tag, size)
        for wrong in (*NO_ELEMENTS, b"\x30\x80" + bytes(128), b"\x1F\0", NULL + NULL):
            with self.assertRaises(ValueError):
                build.hashed_octets(wrong)


# Those that are read


def listed(text):
    """The row that der_indirect writes over signed data. None where there is none."""
    status, _, room = in_struct("der_indirect", text, INDIRECT)
    numbers = memoryview(room[len(MARKS) : len(MARKS) + INDIRECT]).cast("N").tolist()
    return contents.Indirect(*numbers[:4], *zip(numbers[4::2], numbers[5::2])) if status == NORMAL else None


def content_of(text):
    """The element that is the content of signed data."""
    return part(text, 1, 0, 2, 1, 0)


# Files that osslsigncode signs: their octets, and its options; the second has page hashes.
FILES = {
    "small.exe": (making.image(), ""),
    "section.exe": (making.image_with_a_section(), "-ph -h sha384"),
    "old.exe": (making.image_of_32_bits(), "-h sha512"),
    "small.cab": (making.cabinet(), "-h sha1"),
    "small.ps1": (b"Write-Output 1\r\n", ""),
}
PROGRAMS = {name: octets for name, (octets, _) in FILES.items() if name.endswith(".exe")}


@functools.lru_cache(maxsize=None)
def keys():
    """The folder of two keys and of their certificates, in PEM, and as KEY.der in DER."""
    room = built.room() / "programs"
    room.mkdir()
    with making.inside(room):
        making.certificate("one")
        making.certificate("two", key="rsa:2048")
        for key in ("one", "two"):
            making.run(f"openssl x509 -in {key}.pem -outform DER", into=f"{key}.der")
    return room


class InFolder(OfIndirect):
    """A test in a folder of its own, which has the keys."""

    def setUp(self):
        super().setUp()
        built.use_shared()
        folder = making.inside_a_new_folder()
        folder.__enter__()
        self.addCleanup(folder.__exit__, None, None, None)
        for file in keys().iterdir():
            making.put(file.name, file.read_bytes())


def signed_by_osslsigncode(file, options):
    """The signature that osslsigncode makes of a file. It writes into no file that is there, and knows scripts by their
    names."""
    signed, signature = Path(f"signed-{file}"), Path("signature")
    for it in (signed, signature):
        it.unlink(missing_ok=True)
    making.run(f"osslsigncode sign {options} -in {file} -out {signed}")
    making.run(f"osslsigncode extract-signature -in {signed} -out {signature}")
    return signature.read_bytes()


class TestAgain(InFolder):
    """Indirect data that were read."""

    def same_again(self, text):
        """Compares what is built of the row that der_indirect writes with what was read, and what Python builds of what
        it lists. Returns that."""
        found, wanted = built.library().indirect(text), content_of(text)
        self.same(self.same_built(text, listed(text)), wanted, "built again", text)
        self.same(made_in_python(found), wanted, "in Python", text)
        its_type = found.attribute_oid, found.attribute_value
        self.same(build.indirect(found.digest_algorithm, found.digest, *its_type), wanted, "with that value", text)
        return found

    def test_those_of_the_worked_examples_are_built_again(self):
        """Also of changed signed data that der_indirect still reads."""
        chance, counts = random.Random(51), {}
        for text in [*4 * inputs.over_indirect_data(), *inputs.signed_data()]:
            for its in [text, *(inputs.changed(chance, text) for _ in range(CHANGES))]:
                if listed(its) is not None:
                    found = self.same_again(its)
                    kind = found.attribute_value is None, found.image is None
                    counts[kind] = counts.get(kind, 0) + 1
        self.same(set(counts), {(False, False), (False, True), (True, True)}, "forms")
        self.at_least(min(counts.values()), 10, "indirect data of each form")

    @needs(*OSSLSIGNCODE)
    def test_those_that_osslsigncode_signs_are_built_again(self):
        """And its signatures have the digest of the octets that are to be hashed."""
        for name, (octets, options) in FILES.items():
            making.put(name, octets)
            text = signed_by_osslsigncode(name, f"-certs two.pem -key two.key {options}")
            found, content = self.same_again(text), content_of(text)
            if name in PROGRAMS:
                link = {"link": found.image.link} if "-ph" in options else {}
                self.same(build.program(found.digest_algorithm, found.digest, **link), content, "a program", name)
            hashed = hashlib.new(digest_name(found.digest_oid), build.hashed_octets(content)).digest()
            self.same(bytes(built.library().signers(text)[0].digest), hashed, "the digest that is signed", name)
            other = sequence(part(content, 0), sequence(found.digest_algorithm, octet_string(b"other")))
            self.same(made_in_python(found._replace(digest=b"other")), other, "with another digest", name)


# Programs that are signed

# The places of the checksum of each program, which its digest leaves out; how far places are from one another that are
# changed; and algorithms of digests, by the words of osslsigncode and openssl.
CHECKSUM, STEP = range(152, 156), 37
ALGORITHMS = {
    "sha1": "1.3.14.3.2.26", "sha256": build.SHA256, "sha384": "2.16.840.1.101.3.4.2.2",
    "sha512": "2.16.840.1.101.3.4.2.3",
}


def by_example(*words, **others):
    """How python/examples/sign_program.py ends, with other variables in its environment."""
    package = {"VUYHANIP_LIBRARY": str(built.shared()), "PYTHONDONTWRITEBYTECODE": "1"}
    environment = {**tools.ENVIRONMENT, **package, **others}
    words = sys.executable, SIGN_IN_PYTHON, *words
    return tools.ended(*words, env={**environment, "PYTHONPATH": str(built.TOP / "python")})


def is_attached(block, file, key="two"):
    """Whether osslsigncode attaches a signature to a file, as `attached-FILE`, and verifies it."""
    making.put("block", block)
    into = Path(f"attached-{file}")
    into.unlink(missing_ok=True)
    words = "attach-signature", "-sigin", "block", "-CAfile", f"{key}.pem", "-in", file, "-out", into
    return tools.ended("osslsigncode", *words).returncode == 0 and is_verified(into, key)


def is_verified(file, key="two"):
    """Whether osslsigncode verifies the signature of a file."""
    ran = tools.ended("osslsigncode", "verify", "-CAfile", f"{key}.pem", "-in", file)
    return ran.returncode == 0 and b"Signature verification: ok" in ran.stdout


def digest_of(file, name="sha256"):
    """The indirect data that osslsigncode makes of a file."""
    into = Path("data")
    into.unlink(missing_ok=True)
    making.run(f"osslsigncode extract-data -h {name} -in {file} -out {into}")
    return built.library().indirect(into.read_bytes())


def block_of(content, name="sha256"):
    """A signature over indirect data, with the second key, by a digest."""
    algorithm = build.algorithm(ALGORITHMS[name], build.NULL)
    signer = build.Signer(
        algorithm, build.algorithm(build.RSA, build.NULL), Path("two.der").read_bytes(),
        digest=hashlib.new(name, build.hashed_octets(content)).digest(),
    )
    made = build.signed(content, [signer], content_type=build.INDIRECT_DATA, is_element=True)
    return made.finish([making.run(f"openssl dgst -{name} -sign two.key", it) for it in made.covered])


def without_signature(text):
    """The parts of signed data with one signer, but for the signature."""
    *others, signers = making.fields_of(text)
    [signer] = parts(signers)
    return others, parts(signer)[:-1]


@needs(*OSSLSIGNCODE)
class TestPrograms(InFolder):
    """Programs and other files that are signed."""

    def test_what_the_example_signs_is_that_of_osslsigncode(self):
        """Of the same time. A signature by an elliptic curve is another one each time."""
        for key, (name, octets) in itertools.product(("one", "two"), PROGRAMS.items()):
            making.put(name, octets)
            ran = by_example(f"{key}.key", f"{key}.der", name)
            self.same((ran.returncode, ran.stderr), (0, b""), "the example", key, name)
            [signer] = built.library().signers(ran.stdout)
            options = f"-certs {key}.pem -key {key}.key -h sha256 -time {int(signer.signing_time.timestamp())}"
            theirs = signed_by_osslsigncode(name, options)
            self.same(without_signature(ran.stdout), without_signature(theirs), "beside osslsigncode's", key, name)
            self.same(ran.stdout == theirs, key == "two", "octet for octet", key, name)
            self.same(is_attached(ran.stdout, name, key), True, "verified", key, name)
            self.same(is_verified(f"attached-{name}", "one" if key == "two" else "two"), False, "by another", key, name)
            # the signature of a program isn't in its digest
            again = by_example(f"{key}.key", f"{key}.der", f"attached-{name}").stdout
            self.same(content_of(again), content_of(ran.stdout), "of the signed program", key, name)
            self.same(is_attached(again, f"attached-{name}", key), True, "signed anew", key, name)

    def test_a_changed_octet_of_the_program_is_refused(self):
        """But of its checksum, which isn't in the digest."""
        for name, octets in PROGRAMS.items():
            making.put(name, octets)
            self.same(is_attached(by_example("two.key", "two.der", name).stdout, name), True, "verified", name)
            whole = Path(f"attached-{name}").read_bytes()
            for at in sorted({*range(0, len(octets), STEP), *range(150, 158), len(octets) - 1}):
                making.put("changed.exe", whole[:at] + bytes([whole[at] ^ 1]) + whole[at + 1 :])
                self.same(is_verified("changed.exe"), at in CHECKSUM, name, "with a changed octet at", at)

    def test_a_signature_of_another_program_is_refused(self):
        for name, octets in PROGRAMS.items():
            making.put(name, octets)
        blocks = {name: by_example("two.key", "two.der", name).stdout for name in PROGRAMS}
        for (of, block), name in itertools.product(blocks.items(), PROGRAMS):
            self.same(is_attached(block, name), of == name, "the signature of", of, "in", name)

    def test_programs_are_verified_by_each_digest_and_with_flags_and_links_of_each_form(self):
        """osslsigncode takes any flags, and as a link a text or a URL. It asks for both."""
        making.put("small.exe", making.image())
        for name in ALGORITHMS:
            found = digest_of("small.exe", name)
            self.same(is_attached(block_of(made_in_python(found), name), "small.exe"), True, "by", name)
        found = digest_of("small.exe")
        for flags, link in itertools.product((None, *FLAGS), (None, *LINKS[:3], LINKS[4], NULL)):
            content = build.program(found.digest_algorithm, found.digest, flags=flags, link=link)
            wanted = None not in (flags, link) and link != NULL
            self.same(is_attached(block_of(content), "small.exe"), wanted, "with", flags, link)

    def test_other_files_are_signed_too(self):
        """A cabinet and a script."""
        for name in ("small.cab", "small.ps1"):
            octets, _ = FILES[name]
            making.put(name, octets)
            found = digest_of(name)
            its = found.digest_algorithm, found.digest, found.attribute_oid, found.attribute_value
            self.same(is_attached(block_of(build.indirect(*its)), name), True, "verified", name)
            other = found.digest_algorithm, bytes(32), found.attribute_oid, found.attribute_value
            self.same(is_attached(block_of(build.indirect(*other)), name), False, "another digest", name)

    def test_what_the_example_refuses(self):
        for name in ("small.exe", "small.cab"):
            making.put(name, FILES[name][0])
        making.put("empty", b"")
        making.certificate("other", key="ed25519")
        making.run("openssl x509 -in other.pem -outform DER", into="other")
        files = "one.key", "one.der", "small.exe"
        for words in ((), files[:2], (*files, "more")):
            ran = by_example(*words)
            usage = b"usage: sign_program.py KEY CERTIFICATE PROGRAM\n"
            self.same((ran.returncode, ran.stdout, ran.stderr), (2, b"", usage), words)
        wrong = [[*files[:index], it, *files[index + 1 :]] for index in range(3) for it in ("nothing", "empty")]
        wrong += [("one.key", it, "small.exe") for it in ("one.pem", "other")] + [("one.key", "one.der", "small.cab")]
        for words in wrong:
            ran = by_example(*words)
            said = ran.returncode, ran.stdout, b"Traceback" in ran.stderr, ran.stderr == b""
            self.same(said, (1, b"", False, False), words)

    def test_the_example_says_what_is_wrong(self):
        """The key is another's, the certificate is refused, or what osslsigncode writes is refused."""
        making.put("small.exe", making.image())
        another, refused = b"the key isn't that of the certificate\n", b"the certificate is refused: "
        for key, certificate, said in (
            ("one", "two.der", another), ("two", "one.der", another), ("one", "one.pem", refused),
        ):
            ran = by_example(f"{key}.key", certificate, "small.exe")
            self.same((ran.returncode, ran.stdout, ran.stderr.startswith(said)), (1, b"", True), said, ran.stderr)
        # in place of osslsigncode a program that writes NULL
        Path("bin").mkdir()
        program = Path("bin/osslsigncode")
        program.write_text('#!/bin/sh\nfor it; do :; done\nprintf "\\005\\000" > "$it"\n', encoding="ascii")
        program.chmod(0o755)
        ran = by_example("one.key", "one.der", "small.exe", PATH=f"{program.parent.absolute()}:{os.environ['PATH']}")
        said = ran.returncode, ran.stdout, ran.stderr.startswith(b"what osslsigncode writes is refused: ")
        self.same(said, (1, b"", True), "another osslsigncode", ran.stderr)


if __name__ == "__main__":
    unittest.main()
