"""Where der_trust_list and der_trust_rows say that signed data has the parts and the entries of its trust list: beside
what openssl shows of a list, and beside the reader of tests/oracle, of lists that openssl makes, and of those made by
hand, also long and changed ones, and where they are refused. What is written is looked at between marks, rows in rooms
for one more, for just them and for one less. `vuyhanip show` and python/examples/entries.py say what is in lists."""
import datetime
import itertools
import pickle
import random
import re
import sys
import unittest

from support import built, inputs, making
from support.command import Command
from support.containers import NULL, attribute, content_info, signed_file, signer
from support.elements import Element, element, explicit, integer, octet_string, sequence, set_of
from support.inputs import (
    MAY_BE_ABSENT, NAME_OF_ENTRY, ROOTS, TRUST_LIST as LIST_TYPE, UTC_TIME, equal_parts, signed_over, trust_entry,
    trust_list, wide,
)
from support.oids import oid
from support.rooms import TRUST_ENTRY, TRUST_LIST, InRooms, in_struct, marked, octets_of
from support.statuses import INVALID, MALFORMED, MISSING, NO_PART, NORMAL, REFUSALS, WORDS, answered
from support.tools import ended, openssl
from oracle import answers
from vuyhanip import der

# How many changed ones of each signed data are asked for their parts, and how many entries a long list has.
CHANGES, MANY = 60, 1000
# A line of openssl asn1parse.
LINE = re.compile(r" *(\d+):d=(\d+) +hl=(\d+) l= *(\d+) (?:prim|cons): ")
# The parts of a trust list that has all of them, by their names in der.h, and its entries; and those of which the
# contents octets are found, and not the elements.
PARTS = "version usages list_identifier sequence_number this_update next_update algorithm entries extensions".split()
BY_CONTENTS = "version", "list_identifier", "sequence_number"


def shown(text):
    """The elements of a text as openssl shows them, each with its depth. Their tags aren't looked at."""
    lines = openssl("asn1parse", "-inform", "DER", text=text).decode("latin-1").splitlines()
    for at, depth, head, size in (map(int, found.groups()) for found in map(LINE.match, lines) if found):
        yield depth, Element(None, at, at + head, at + head + size)


def places_of(text):
    """Where openssl shows the parts of a trust list that has all of them, and the numbers of the rows of its
    entries."""
    lines = list(shown(text))

    def inside(outer):
        depth = next(depth for depth, it in lines if it == outer)
        return [it for deep, it in lines if deep == depth + 1 and outer.start <= it.at < outer.end]

    _, signed_data = inside(lines[0][1])
    _, _, info, *_ = inside(inside(signed_data)[0])
    parts, rows = dict(zip(PARTS, inside(inside(inside(info)[1])[0]))), []
    for identifier, *attributes in map(inside, inside(parts.pop("entries"))):
        its_own = attributes[0].place() if attributes else (0, 0)
        rows.append([len(attributes), *identifier.contents_place(), *its_own])
    parts["extensions"] = inside(parts["extensions"])[0]
    return {part: it.contents_place() if part in BY_CONTENTS else it.place() for part, it in parts.items()}, rows


def taken(text, row):
    """The parts in a row as Python has them, with octets of their own."""
    def octets(place, is_there=1):
        return text[place[0] : sum(place)] if is_there else None

    return der.TrustList(
        octets(row.version, row.has_version),
        octets(row.usages),
        octets(row.list_identifier, row.has_list_identifier),
        octets(row.sequence_number, row.has_sequence_number),
        octets(row.this_update),
        octets(row.next_update, row.has_next_update),
        octets(row.algorithm),
        octets(row.extensions, row.has_extensions),
    )


def entries_of(text, rows):
    """The entries in rows as Python has them, alike."""
    def octets(place):
        return text[place[0] : sum(place)]

    return tuple(
        der.TrustEntry(octets(row.identifier), octets(row.attributes) if row.has_attributes else None) for row in rows
    )


class Comparison(InRooms):
    """A test that compares where the parts and the entries are said to be."""

    def same_parts(self, text):
        """Compares where the parts and the entries are said to be, and what Python is told. Returns the status, the row
        of the parts and those of the entries."""
        (status, row, where), (of_rows, rows, at) = answers.trust_list(text), answers.trust_rows(text)
        self.same((of_rows, at), (status, where), "the rows of the other reader", text)
        wanted = status, where, marked(octets_of([row.numbers()]), TRUST_LIST)
        self.same(in_struct("der_trust_list", text, TRUST_LIST), wanted, "der_trust_list", text)
        answer = status, [it.numbers() for it in rows], where
        self.same_rows("der_trust_rows", (text, len(text)), answer, TRUST_ENTRY, text)
        is_there = status == NORMAL
        parts, its = taken(text, row) if is_there else None, entries_of(text, rows) if is_there else None
        told, library = NORMAL if status == NO_PART else status, built.library()
        self.same(answered(library.trust_list, text), (told, parts, where), "the list in Python", text)
        self.same(answered(library.trust_entries, text), (told, its, where), "the entries in Python", text)
        self.same(answered(lambda: library.signed(text).trust_list), (told, parts, where), "that of SignedData", text)
        self.same(answered(lambda: library.signed(text).trust_entries), (told, its, where), "those of SignedData", text)
        return status, row, rows


# What is made by hand


def numbers():
    """What may be in the place of an INTEGER that may be absent."""
    contents = b"\0", b"\xFF", b"\0\0\7", bytes(200), b""
    return [b"", *(element(0x02, it) for it in contents), element(0x22, b"\1"), element(0x0A, b"\1"), integer(1)[:2]]


def times():
    """What may be in the place of a time: times at the ends of what each type has, and what is none."""
    short = "500101000000 491231235959 000229000000 960229120000 010229000000 261131000000 260931000000 260001000000 "
    short += "261301000000 261100000000 261132000000 261129240000 261129006000 261129000060 2611290000 26112900000"
    long = "00000101000000 00000229000000 99991231235959 20000229000000 19000229000000 21000229000000 20260230000000 "
    long += "20261129235960 202611290000 2026112900000 261129000000 20261129120000.5"
    found = [element(tag, f"{it}Z".encode()) for tag, its in ((0x17, short), (0x18, long)) for it in its.split()]
    others = [b"261129120000", b"261129120000z", b"2611291200+0100", b"20261129120000Z", b"261129120000Z\n", b""]
    others += [b"26112912000\xB2Z", b" 61129120000Z", b"+61129120000Z", b"26112912000:Z", b"26112912/000Z"]
    found += [element(0x17, it) for it in others]
    return [*found, element(0x37, UTC_TIME), NULL, element(0x0C, b"261129120000Z"), UTC_TIME[:-1]]


def algorithms():
    """What may be in the place of an AlgorithmIdentifier."""
    found = sequence(oid("SHA-1")), sequence(oid("SHA-1"), sequence()), sequence(oid("SHA-1"), NULL, NULL), sequence()
    return [*found, sequence(NULL), oid("SHA-1"), set_of(oid("SHA-1")), sequence(element(0x06)), b""]


def usages():
    """What may be in the place of the usages."""
    several = [sequence(*count * [oid(ROOTS)]) for count in (0, 1, 3, 40)]
    identifiers = [element(0x06, it) for it in (b"", b"\x80\1", b"\x2A\x86", b"\x2A" + 30 * b"\xFF" + b"\1")]
    found = [*several, *map(sequence, identifiers), sequence(oid(ROOTS), NULL), set_of(oid(ROOTS)), oid(ROOTS)]
    return [*found, sequence(oid(ROOTS))[:-1], NULL, b"", sequence() + sequence()]


def entries():
    """What may be in the place of the entries."""
    attributes = [attribute("SHA-1"), attribute("SHA-1", NULL, integer(1)), attribute(ROOTS, sequence()), sequence()]
    attributes += [sequence(oid("SHA-1")), sequence(oid("SHA-1"), NULL), attribute("SHA-1") + NULL, b"", b"\x30\x80"]
    attributes += [sequence(oid("SHA-1"), set_of(), NULL), sequence(element(0x06), set_of()), oid("SHA-1")]
    its = [trust_entry(b"1", set_of(it)) for it in attributes]
    its += [trust_entry(it) for it in (b"", b"1", bytes(300))] + [trust_entry(b"1", it) for it in (set_of(), NULL)]
    its += [trust_entry(b"1", set_of(), set_of()), trust_entry(b"1", sequence(attribute("SHA-1"))), octet_string(b"")]
    its += [sequence(NULL), sequence(), sequence(element(0x24)), set_of(octet_string(b"")), trust_entry(b"1")[:-1]]
    found = [b"", sequence(), *map(sequence, its), *(sequence(trust_entry(b"0"), it) for it in its)]
    return [*found, set_of(trust_entry(b"1")), trust_entry(b"1"), sequence() + sequence(), NULL]


def extensions():
    """What may be in the place of the extensions."""
    found = [explicit(0, it) for it in (sequence(), NULL, bytes(2), b"", NULL + NULL, b"\x30\1", b"\x1F\x1F\0")]
    return [b"", *found, explicit(1, NULL), element(0x80, NULL), explicit(0, NULL) + explicit(0, NULL), NULL]


def alternatives():
    """For each part of a trust list what may be in its place, and what isn't quite that."""
    identifiers = [b"", *map(octet_string, (b"", b"1", bytes(300))), element(0x24), octet_string(b"1")[:-1]]
    found = {"version": numbers(), "usages": usages(), "list_identifier": identifiers, "sequence_number": numbers()}
    found.update(this_update=times() + [b""], next_update=times() + [b""], algorithm=algorithms())
    found.update(entries=entries(), extensions=extensions())
    return [{part: it} for part, its in found.items() for it in its]


def combinations():
    """Each choice of the parts that may be absent."""
    for flags in itertools.product((False, True), repeat=len(MAY_BE_ABSENT)):
        yield {part: b"" for part, is_absent in zip(MAY_BE_ABSENT, flags) if is_absent}


def over(**others):
    """Signed data over a trust list with others in the place of some parts."""
    return signed_over(LIST_TYPE, trust_list(**others))


def many_entries(count):
    """The identifiers of so many entries, and these: every third one has a name."""
    identifiers, found = [number.to_bytes(20, "big") for number in range(count)], []
    for number, identifier in enumerate(identifiers):
        name = attribute(NAME_OF_ENTRY, octet_string(wide(f"root {number}")))
        found.append(trust_entry(identifier, *([] if number % 3 else [set_of(name)])))
    return identifiers, found


def made_by_openssl(sections):
    """Signed data over a trust list, by openssl asn1parse -genconf."""
    with making.inside_a_new_folder() as room:
        making.made_of(sections, "made")
        return (room / "made").read_bytes()


class TestByHand(Comparison):
    """Trust lists that are made by hand."""

    def test_parts_of_the_other_reader_where_lists_are_made_by_hand(self):
        counts = {}
        for others in (*alternatives(), *combinations()):
            status, row, _ = self.same_parts(over(**others))
            counts[status, row[:5]] = counts.get((status, row[:5]), 0) + 1
        for flags in itertools.product((0, 1), repeat=5):
            self.at_least(counts.get((NORMAL, flags), 0), 2, f"lists with {flags}")
        for status, wanted in ((MALFORMED, 20), (MISSING, 5), (INVALID, 80)):
            self.at_least(counts.get((status, 5 * (0,)), 0), wanted, f"refusals by {status}")

    def test_refused_lists_are_refused_where_it_is_known(self):
        for text, reason, where in inputs.refused_trust_lists():
            status, row, rows = self.same_parts(text)
            self.same((status, answers.trust_list(text)[2]), (WORDS.index(reason), where), "the other reader", text)
            self.same((any(row.numbers()), rows), (False, []), "nothing of a refused list", text)

    def test_of_content_of_another_type_and_of_none_there_are_no_parts(self):
        """Also where it has the form of a trust list."""
        others = LIST_TYPE[:-2], LIST_TYPE + ".0", LIST_TYPE[:-1] + "2"
        for content_type in ("data", "1.2.3.4", ROOTS, *others):
            for content in (trust_list(), octet_string(b""), sequence(), NULL):
                self.same(self.same_parts(signed_over(content_type, content))[0], NO_PART, content_type, content)
        self.same(self.same_parts(signed_over(LIST_TYPE))[0], NO_PART, "no content")

    def test_what_is_no_signed_data_is_refused_first(self):
        """Also where its content doesn't read as a trust list, before what is wrong."""
        for text in inputs.trust_lists():
            others = text + b"\0", text[:-2], text[:-2] + NULL, text[:-1] + b"\1", content_info("data", text), b""
            for whole in others:
                status, _, _ = self.same_parts(whole)
                self.same((status in REFUSALS, answers.signers(whole)[0]), (True, status), "a refusal of", whole)

    def test_each_part_has_its_own_place_where_others_have_the_same_octets(self):
        """Numbers, times, identifiers and attributes are each there twice or more; the algorithm is the usages again,
        and the extensions are so once more. Each certificate is the whole list again."""
        chance, content = random.Random(5), trust_list(**equal_parts())
        signers = [signer(chance, number, version, None, LIST_TYPE) for number, version in ((1, 1), (3, 3))]
        text = signed_file(content_info(LIST_TYPE, content), 2 * [content], signers, 3)
        status, row, rows = self.same_parts(text)
        start = text.index(content)
        self.same((status, text.count(content), len(rows)), (NORMAL, 3, 3), "the list is there", text)
        *before, extensions = row[5:]
        places = [*before, *(place for it in rows for place in it[1:]), extensions]
        ends = [start, *(at for place in places for at in (place[0], sum(place))), start + len(content)]
        self.same(ends, sorted(ends), "places in the order of the list", text)
        self.same((len(places), len({text[at : at + size] for at, size in places})), (14, 4), "equal octets", text)

    def test_parts_are_those_of_the_other_reader_also_of_changed_signed_data(self):
        chance, counts = random.Random(31), {}
        for text in [*inputs.trust_lists(), *inputs.signed_data()]:
            for its in [text, *(inputs.changed(chance, text) for _ in range(CHANGES))]:
                status, _, rows = self.same_parts(its)
                is_of_content = status in REFUSALS and answers.signers(its)[0] == NORMAL
                kind = status, is_of_content, len(rows) > 0
                counts[kind] = counts.get(kind, 0) + 1
        wanted = [(NORMAL, False, True), (NORMAL, False, False)]
        wanted += [(status, False, False) for status in (MALFORMED, MISSING, INVALID, NO_PART)]
        wanted += [(status, True, False) for status in (MALFORMED, MISSING, INVALID)]
        for kind in wanted:
            self.at_least(counts.get(kind, 0), 10, f"signed data with {kind}")

    def test_entries_of_long_lists_are_those_that_were_given(self):
        """Also where there are as many as Python has room for at first, one less and one more. Equal ones are each in
        its own place."""
        few = der.FEW_ENTRIES
        for count in (few - 1, few, few + 1, MANY):
            identifiers, its = many_entries(count)
            text = over(entries=sequence(*its))
            status, _, rows = self.same_parts(text)
            self.same((status, len(rows)), (NORMAL, count), count, "entries")
            found = built.library().trust_entries(text)
            self.same([bytes(it.identifier) for it in found], identifiers, count, "identifiers")
            without = [number for number, it in enumerate(found) if it.attributes is None]
            self.same(without, [number for number in range(count) if number % 3], count, "entries without attributes")
        _, _, rows = self.same_parts(over(entries=sequence(*MANY * [trust_entry(b"1", set_of())])))
        self.same(len(set(rows)), MANY, "places of equal entries")

    def test_an_entry_at_the_end_of_a_long_list_refuses_all_of_it(self):
        _, its = many_entries(MANY)
        text = over(entries=sequence(*its, sequence(NULL)))
        status, _, rows = self.same_parts(text)
        self.same((status, rows, answers.trust_rows(text)[2]), (INVALID, [], text.rindex(sequence(NULL)) + 2), "a list")

    def test_parts_are_where_openssl_shows_them(self):
        text = over()
        status, row, rows = self.same_parts(text)
        found = {part: place for part, place in row._asdict().items() if not part.startswith("has_")}
        self.same((status, row[:5]), (NORMAL, 5 * (1,)), "all parts", text)
        self.same((found, [it.numbers() for it in rows]), places_of(text), "what openssl shows", text)

    def test_parts_of_lists_that_openssl_makes(self):
        """With the fewest parts, with attributes and extensions, and with an identifier in the place of the number."""
        made = datetime.datetime(2021, 4, 20, 6, 52, 24, tzinfo=datetime.timezone.utc)
        catalog = ("1.3.6.1.4.1.311.12.1.1",), "1.3.6.1.4.1.311.12.1.2", made
        key = bytes.fromhex(making.KEY)
        lists = (making.CATALOG, 1, None), (making.EXTENDED_LIST, 1, None), (making.FIELDS, None, key)
        for sections, number, identifier in lists:
            text = made_by_openssl(sections)
            self.same(self.same_parts(text)[0], NORMAL, sections)
            found = built.library().trust_list(text)
            self.same((found.sequence_number, found.list_identifier), (number, identifier), sections)
            self.same((found.usage_oids, found.algorithm_oid, found.this_update_time), catalog, sections)
            its = [(bytes(it.identifier), it.attributes is None) for it in built.library().trust_entries(text)]
            self.same(its, [(b"\1", False)], sections)


class TestPython(Comparison):
    """What the objects of the package say."""

    def test_objects_say_what_they_are(self):
        found, (first, second) = (call(over()) for call in (built.library().trust_list, built.library().trust_entries))
        wanted = "version_octets=1 octets, usages=14 octets, list_identifier=12 octets, sequence_octets=1 octets, "
        wanted += "this_update=15 octets, next_update=17 octets, algorithm=11 octets, extensions=2 octets"
        self.same(repr(found), f"TrustList({wanted})", "how a list is shown")
        self.same(repr(first), "TrustEntry(identifier=20 octets, attributes=None)", "how an entry is shown")
        noon = [datetime.datetime(year, 11, 29, 12, tzinfo=datetime.timezone.utc) for year in (2026, 2050)]
        self.same([found.this_update_time, found.next_update_time], noon, "times")
        self.same((found.version, found.sequence_number), (0, 7), "numbers")
        self.same((found.usage_oids, found.algorithm_oid), ((ROOTS,), "1.3.14.3.2.26"), "object identifiers")
        self.same((first.identifier.hex(), second.identifier.hex()), (20 * "11", 20 * "22"), "identifiers")

    def test_what_a_list_has_not_is_none(self):
        text = inputs.trust_lists()[1]
        found = built.library().trust_list(text)
        said = found.version, found.list_identifier, found.sequence_number, found.next_update_time, found.extensions
        self.same(said, 5 * (None,), "absent parts")
        self.same(built.library().trust_entries(text), (), "no entries")

    def test_numbers_and_times_are_read_as_they_are(self):
        """Also numbers below 0 and of more than 64 bits; Python has no year 0."""
        for number in (-1, -128, -129, 2**64, 2**1000):
            contents = number.to_bytes(number.bit_length() // 8 + 1, "big", signed=True)
            found = built.library().trust_list(over(version=element(2, contents), sequence_number=element(2, contents)))
            self.same((found.version, found.sequence_number), (number, number), "numbers")
        for octets, year in ((b"491129120000Z", 2049), (b"501129120000Z", 1950)):
            found = built.library().trust_list(over(next_update=element(0x17, octets)))
            self.same(found.next_update_time.year, year, "a year of two digits")
        found = built.library().trust_list(over(this_update=element(0x18, b"00001129120000Z")))
        self.assertRaises(ValueError, lambda: found.this_update_time)

    def test_objects_go_to_another_process_and_octets_are_not_copied(self):
        text, library = over(), built.library()
        found, its = library.trust_list(text), library.trust_entries(text)
        self.same(pickle.loads(pickle.dumps((found, its))), (found, its), "what comes back")
        self.same({it.obj is text for it in (found.usages, its[0].identifier, its[1].attributes)}, {True}, "no copy")
        written = bytearray(text)
        kept = library.trust_list(written), library.trust_entries(written)
        written[:] = bytes(len(written))
        self.same(kept, (found, its), "what can be written is copied")
        signed = library.signed(text)
        self.same((signed.trust_list, signed.trust_entries), (found, its), "those of SignedData")
        is_same = signed.trust_list is signed.trust_list, signed.trust_entries is signed.trust_entries
        self.same(is_same, (True, True), "what is found once")


class TestCommand(Command):
    """What `vuyhanip show` and python/examples/entries.py say."""

    def says_of_example(self, file, status, said, complaint):
        """Asks what the example says of a file."""
        words = sys.executable, built.TOP / "python/examples/entries.py", file
        ran = ended(*words, cwd=self.room, env=self.environment())
        self.assertEqual((ran.returncode, ran.stdout.decode(), ran.stderr.decode()), (status, said, complaint))

    def test_all_that_a_list_says_is_said(self):
        self.put("all.stl", over())
        wanted = [r"^  content +certTrustList, \d+ octets$", "^    usages +rootListSigner$"]
        wanted += ["^    list identifier +Roots$", "^    sequence number +07$", "^    algorithm +sha1$"]
        wanted += ["^    this update +2026-11-29 12:00:00$", "^    next update +2050-11-29 12:00:00$"]
        identifiers = [(20 * it).hex(":") for it in (b"\x11", b"\x22")]
        wanted += ["^    entries +2$", *(f"^      entry +{it}$" for it in identifiers)]
        self.finds(["show", "all.stl"], [*wanted, f"{identifiers[1]}\n        friendly name +Some root$"])
        self.says_of_example("all.stl", 0, "".join(f"{20 * it}\n" for it in ("11", "22")), "")

    def test_of_what_a_list_has_not_nothing_is_said(self):
        self.put("least.stl", inputs.trust_lists()[1])
        said = self.finds(["show", "least.stl"], ["^    this update +2026-11-29 12:00:00$", "^    entries +0$"])
        self.assertNotRegex(said, "list identifier|sequence number|next update|friendly name|entry")
        self.says_of_example("least.stl", 0, "", "")
        self.put("none.stl", over(usages=sequence(), list_identifier=octet_string(b"")))
        self.finds(["show", "none.stl"], ["^    usages +none$", "^    list identifier$"])

    def test_a_list_that_openssl_makes(self):
        self.put("made.cat", made_by_openssl(making.FIELDS))
        identifier = bytes.fromhex(making.KEY).hex(":").upper()
        wanted = ["^    usages +catalogList$", "^    algorithm +catalogListMember$", "^    entries +1$"]
        wanted += [f"^    list identifier +{identifier}$", "^    this update +2021-04-20 06:52:24$"]
        self.finds(["show", "made.cat"], [*wanted, "^      entry +01$"])
        self.says_of_example("made.cat", 0, "01\n", "")

    def test_identifiers_and_names_of_other_letters(self):
        """An identifier is text where that is ASCII alone: any octets may be letters of some alphabet. A name is always
        text, as far as it is some, with what isn't printable as in Python."""
        identifiers = {b"A\0B\0": "AB", b"A\0B": "41:00:42", b"A\0\n\0": "41:00:0A:00", b"AB": "41:42"}
        files = [self.put(f"{it.hex()}.stl", over(list_identifier=octet_string(it))) for it in identifiers]
        self.finds(["show", *files], [f"^    list identifier +{said}$" for said in identifiers.values()])
        names = {wide("Größe 😀")[:-2]: "Größe 😀", wide("a\nb"): r"a\\nb", b"A\0\0\xD8B\0": "A\ufffdB"}
        its = [attribute(NAME_OF_ENTRY, octet_string(it), NULL) for it in names]
        its = [trust_entry(b"1", set_of(attribute(ROOTS, NULL), it)) for it in its]
        self.put("named.stl", over(entries=sequence(*its)))
        wanted = [f"^      entry +31\n        friendly name +{said}$" for said in names.values()]
        self.assertEqual(self.finds(["show", "named.stl"], wanted).count("friendly name"), len(names))

    def test_of_a_long_list_the_first_entries_are_shown_and_the_example_says_all(self):
        identifiers, its = many_entries(MANY)
        self.put("long.stl", over(entries=sequence(*its)))
        said = self.finds(["show", "long.stl"], [f"^    entries +{MANY}$", rf"^      \.\. +{MANY - 20} more$"])
        self.assertEqual(len(re.findall("^      entry +", said, re.MULTILINE)), 20)
        self.assertEqual(re.findall("friendly name +(.*)", said), [f"root {number}" for number in range(0, 20, 3)])
        self.says_of_example("long.stl", 0, "".join(f"{it.hex()}\n" for it in identifiers), "")

    def test_content_that_is_no_list_is_said(self):
        for reason, (text, where) in {reason: (text, at) for text, reason, at in inputs.refused_trust_lists()}.items():
            self.put("unread.stl", text)
            wanted = ["^  content +certTrustList", f"^    refused +{reason} at {where}, as a trust list$"]
            self.assertNotRegex(self.finds(["show", "unread.stl"], wanted, 1), "usages|entries")
            self.says_of_example("unread.stl", 1, "", f"refused: {reason} at {where}\n")

    def test_of_other_content_no_list_is_said(self):
        self.assertNotRegex(self.finds(["show", "attributes.p7s"], ["content +pkcs7-data"]), "usages|entries")
        no_list = "no trust list: the content has another type\n"
        self.says_of_example("attributes.p7s", 1, "", no_list)
        self.put("nothing.stl", signed_over(LIST_TYPE))
        said = self.finds(["show", "nothing.stl"], [r"content +certTrustList, elsewhere \(a detached"])
        self.assertNotRegex(said, "usages|entries")
        self.says_of_example("nothing.stl", 1, "", no_list)


if __name__ == "__main__":
    unittest.main()
