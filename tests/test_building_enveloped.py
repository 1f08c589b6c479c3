"""What der_build_recipient and der_build_enveloped write from parts beside the writer of tests/oracle, in just the room
that they need and in less: recipients with each name, content and attributes that are there or not, recipients of each
kind in any order, 10,000 of them; whatever is where a call doesn't look. Versions are those of RFC 5652, and recipients
are in the order of DER. 50 files are made up, or as many as the environment variable ENVELOPED says, for a release
1,000; der_part_ranges lists the parts of each, of which the file is built again, and so it is of files that openssl
encrypts, in DER and in BER. A part that can't be written is told, of several one, and nothing is written. In Python the
same is built."""
import copy
import functools
import itertools
import os
import pickle
import random
import unittest
from typing import NamedTuple

from support import built, enveloped_by_openssl, given, given_signed, given_stores, inputs, signing
from support.containers import NULL, attribute, bit_string, content_info
from support.elements import contents, element, explicit, integer, octet_string, part, sequence, set_of
from support.given import NO_ELEMENTS, NO_IDENTIFIERS, some_element, some_identifier, some_octets, there_or_not
from support.given_signed import DATA, some_algorithm, some_certificate
from support.given_stores import ANYTHING, beside, changed, some_attribute
from support.oids import contents as contents_of_oid
from support.oids import oid, spelt
from support.parts import envelope_places
from support.rooms import InRooms, in_room, marked
from support.signed_data import CERTIFICATE, ISSUER_AND_SERIAL, NAME, OTHER_TYPE, SHORT, issuer_and_serial
from support.statuses import INVALID, NORMAL, NO_ROOM, refusal
from support.stores import FURTHER, LONG, in_other_ways
from oracle import enveloped_files
from vuyhanip import build, der
from vuyhanip.der import BadEnveloped, BadRecipient, EnvelopedPart, EnvelopePart, GivenRecipient, RecipientPart

RECIPIENT, ENVELOPED = "der_build_recipient", "der_build_enveloped"
# How many files are made up, how often sets of each kind are, how many recipients a long file has, and the room of what
# is refused.
COUNT, ROUNDS, MANY, ROOM = int(os.environ.get("ENVELOPED", 50)), 3, 10_000, 64
# What has to be in the input: of a recipient, two of which are one part in der.h, and beside recipients.
RANGES_OF_RECIPIENT = "certificate", "key_identifier", "algorithm", "key"
RANGES_OF_ENVELOPED = "content_type", "algorithm", "content", "attributes"


# Parts by hand


def by_certificate(certificate=CERTIFICATE, **others):
    """A set of parts of a recipient with a key pair that is named by its certificate."""
    its = {"is_kek": 0, "has_key_identifier": 0, "certificate": certificate, "algorithm": SHORT, "key": b"k"}
    return {**its, **others}


def by_key(identifier=b"id", **others):
    """The same of one that is named by a key identifier."""
    its = {"is_kek": 0, "has_key_identifier": 1, "key_identifier": identifier, "algorithm": SHORT, "key": b"k"}
    return {**its, **others}


def of_kek(identifier=b"id", **others):
    """The same of one with a key-encryption key."""
    return {"is_kek": 1, "key_identifier": identifier, "algorithm": SHORT, "key": b"k", **others}


# Recipients with each of these, as elements; and of the other kinds (RFC 5652, 6.2).
KEY = octet_string(b"k")
TRANSPORT = sequence(integer(0), ISSUER_AND_SERIAL, SHORT, KEY)
BY_KEY = sequence(integer(2), element(0x80, b"id"), SHORT, KEY)
KEK = element(0xA2, integer(4), sequence(octet_string(b"id")), SHORT, KEY)
AGREED = sequence(sequence(element(0xA0, octet_string(b"id")), KEY))
AGREEMENT = element(0xA1, integer(3), explicit(0, element(0x80, b"id")), SHORT, AGREED)
PASSWORD = element(0xA3, integer(0), SHORT, KEY)
OTHER = element(0xA4, oid("1.2.3"), NULL)
EACH_KIND = TRANSPORT, BY_KEY, AGREEMENT, KEK, PASSWORD, OTHER

NO_CONTENT = {"content_type": DATA, "algorithm": SHORT, "has_content": 0, "has_attributes": 0}


def of_content(octets, **others):
    """A set of parts of enveloped data with content."""
    return {**NO_CONTENT, "has_content": 1, "content": octets, **others}


def with_attributes(*those):
    """Unprotected attributes among parts."""
    return {"has_attributes": 1, "attributes": set_of(*those)}


class Parts(NamedTuple):
    """Parts of enveloped data: as a set what is beside recipients, and these as elements."""

    given: dict
    recipients: list


def whole(version, *recipients, content_type=DATA, content=(), attributes=()):
    """Enveloped data with these recipients in their order, and with content and attributes under their tags."""
    info = sequence(element(0x06, content_type), SHORT, *content)
    return content_info("enveloped data", sequence(integer(version), set_of(*recipients), info, *attributes))


def version_in(text):
    return contents(part(text, 1, 0, 0))[0]


# Made-up parts


def some_set(chance):
    """A set of parts of a recipient."""
    its = {"algorithm": some_algorithm(chance), "key": some_octets(chance)}
    named = by_certificate(some_certificate(chance)), by_key(some_octets(chance)), of_kek(some_octets(chance))
    return {**chance.choice(named), **its}


def written_by_hand(its):
    """The recipient of a set of parts, as the other writer has it."""
    text, fields = given.laid_out(random.Random(1), its)
    return enveloped_files.recipient_text(text, enveloped_files.Recipient(**fields))[0]


def some_agreement(chance):
    """A recipient by key agreement (RFC 5652, 6.2.2)."""
    key_of_its_own = element(0xA1, some_algorithm(chance), bit_string(some_octets(chance)))
    originator = chance.choice((ISSUER_AND_SERIAL, element(0x80, some_octets(chance)), key_of_its_own))
    material = chance.choice(([], [explicit(1, octet_string(some_octets(chance)))]))
    named = chance.choice((ISSUER_AND_SERIAL, element(0xA0, octet_string(some_octets(chance)))))
    keys = chance.randrange(1, 4) * [sequence(named, octet_string(some_octets(chance)))]
    return element(0xA1, integer(3), explicit(0, originator), *material, some_algorithm(chance), sequence(*keys))


def some_password(chance):
    """A recipient with a password (6.2.4)."""
    derivation = chance.choice(([], [element(0xA0, contents(some_algorithm(chance)))]))
    return element(0xA3, integer(0), *derivation, some_algorithm(chance), octet_string(some_octets(chance)))


def some_other(chance):
    """A recipient of another kind (6.2.5)."""
    return element(0xA4, element(0x06, some_identifier(chance)), some_element(chance))


def some_recipient(chance):
    """A recipient of any kind, most often one that der_build_recipient writes."""
    if chance.random() < 0.6:
        return written_by_hand(some_set(chance))
    return chance.choice((some_agreement, some_password, some_other))(chance)


def some_parts(chance):
    """Parts of enveloped data, with recipients in any order, some of them twice."""
    its = {"content_type": given_signed.some_type(chance), "algorithm": some_algorithm(chance)}
    its |= chance.choice(there_or_not("content", some_octets(chance)))
    those = [some_attribute(chance) for _ in range(chance.choice((1, 1, 2, 4)))]
    its |= chance.choice(there_or_not("attributes", set_of(*those)))
    recipients = [some_recipient(chance) for _ in range(chance.choice((1, 1, 2, 3, 5, 9)))]
    recipients += chance.sample(recipients, chance.choice((0, 0, 0, 1)))
    chance.shuffle(recipients)
    return Parts(its, recipients)


def laid_out(chance, those):
    """An input that has some parts of enveloped data, and where."""
    text, (fields, *places) = given_stores.laid_out(chance, [those.given, *({"its": it} for it in those.recipients)])
    return text, enveloped_files.File.of(fields, (it["its"] for it in places))


# What is built


class OfEnveloped(InRooms):
    """A test that compares what is built."""

    def same_built(self, call, words, wanted, wrong, *what):
        """Compares what a call writes into just the room that it needs, and into less; or, where the other writer
        writes nothing, asks that the call tells one of the places that it finds wrong. Returns what is wanted, or
        told."""
        places = 2 if call == ENVELOPED else 1
        if wanted is not None:
            self.same_octets(call, words, wanted, *what, places=places)
            return wanted
        status, size, *told, room = in_room(call, words, ROOM, 1 + places)
        said = status, size, tuple(told) in wrong, room
        self.same(said, (INVALID, 0, True, marked(b"", ROOM)), call, *what, "it tells", told, "and wrong are", wrong)
        return tuple(told)

    def same_row(self, text, row, *what):
        """The same of a recipient from a row over an input, of which the number of a part is told."""
        made, wrong = enveloped_files.recipient_text(text, row)
        return self.same_built(RECIPIENT, (text, len(text), row.numbers()), made, [(it,) for it in wrong], *what)

    def same_recipient(self, its, chance, *what):
        """The same of a set of parts, laid out in an input."""
        text, fields = given.laid_out(chance, its)
        return self.same_row(text, enveloped_files.Recipient(**fields), *what, its)

    def same_file(self, text, file, *what):
        """The same of enveloped data, of which the index of a recipient and the number of a part are told."""
        made, wrong = enveloped_files.enveloped_text(text, file)
        return self.same_built(ENVELOPED, (text, len(text), *file.words()), made, wrong, *what)

    def same_parts(self, those, chance, *what):
        return self.same_file(*laid_out(chance, those), *what)

    def listed_again(self, text, those, *what):
        """Asks that all parts are listed where they are, as they were given, and that the file is built again of the
        ranges that are listed, and of what isn't."""
        its, ranges = those.given, [built.library().ranges(it, text) for it in EnvelopePart]
        places = [[range(start, start + size) for start, size in found] for found in envelope_places(text)]
        self.same(ranges, places, "ranges of", *what)
        found = [[text[it.start : it.stop] for it in its_ranges] for its_ranges in ranges]
        content = [its["content"]] if its["has_content"] else []
        self.same(found, [sorted(those.recipients), [its["algorithm"]], content], "what is listed of", *what)
        # the type of the content and the attributes follow the file in the input
        kind, attributes = its["content_type"], its.get("attributes", b"")
        recipients, [algorithm], content = ([(it.start, len(it)) for it in its_ranges] for its_ranges in ranges)
        row = enveloped_files.Enveloped(
            len(content), its["has_attributes"], (len(text), len(kind)), algorithm, *(content or [(0, 0)]),
            (len(text) + len(kind), len(attributes)),
        )
        again = enveloped_files.File(row, tuple(recipients[::-1]))
        self.same(self.same_file(text + kind + attributes, again, *what), text, "built again", *what)


class TestRecipients(OfEnveloped):
    """Recipients that are known octet by octet, and made-up ones."""

    def test_recipients_are_those_that_are_made_by_hand(self):
        """Of version 0 by their certificate, of 2 by a key identifier, and of 4 with a key-encryption key (RFC 5652,
        6.2.1 and 6.2.3)."""
        chance = random.Random(1)
        for its, wanted in ((by_certificate(), TRANSPORT), (by_key(), BY_KEY), (of_kek(), KEK)):
            self.same(self.same_recipient(its, chance), wanted, "by hand", its)
        for octets in (b"", b"\0", bytes(127), bytes(128), bytes(300)):
            key = octet_string(octets)
            self.same(self.same_recipient(by_certificate(key=octets), chance),
                      sequence(integer(0), ISSUER_AND_SERIAL, SHORT, key), "a key", octets)
            self.same(self.same_recipient(by_key(octets), chance),
                      sequence(integer(2), element(0x80, octets), SHORT, KEY), "a key identifier", octets)
            self.same(self.same_recipient(of_kek(octets, key=octets), chance),
                      element(0xA2, integer(4), sequence(key), SHORT, key), "a name and a key", octets)

    def test_issuers_and_serial_numbers_are_those_of_certificates(self):
        """Names stay as they are, also where DER has another order. Serial numbers may be negative, and long."""
        chance = random.Random(2)
        pairs = [sequence(oid("commonName"), element(0x0C, it)) for it in (b"b", b"a", b"b")]
        numbers = b"\0", b"\1", b"\x7F", b"\0\x80", b"\x80", b"\xFF", b"\x7F" + bytes(19), b"\1" + bytes(200)
        for issuer in (sequence(), sequence(set_of()), NAME, sequence(set_of(*pairs)), sequence(*map(set_of, pairs))):
            for serial in (element(0x02, it) for it in numbers):
                for version in (b"", *(explicit(0, integer(number)) for number in range(3))):
                    certificate = given_signed.certificate_of(issuer, serial, version, explicit(3, NULL))
                    text = self.same_recipient(by_certificate(certificate), chance)
                    wanted = sequence(integer(0), sequence(issuer, serial), SHORT, KEY)
                    self.same(text, wanted, "named by", certificate)

    def test_recipients_are_written_as_they_are_given_and_read_back(self):
        chance, counts = random.Random(3), {}
        for _ in range(60 * ROUNDS):
            its = some_set(chance)
            taken = enveloped_files.recipient_apart(self.same_recipient(its, chance))
            issuer = sequence(*issuer_and_serial(its["certificate"])) if "certificate" in its else None
            version = 4 if its["is_kek"] else 2 if its["has_key_identifier"] else 0
            wanted = 0xA2 if its["is_kek"] else 0x30, version, issuer, its.get("key_identifier")
            self.same(tuple(taken), (*wanted, its["algorithm"], its["key"]), "read back", its)
            counts[version] = counts.get(version, 0) + 1
        self.same(sorted(counts), [0, 2, 4], "versions")
        self.at_least(min(counts.values()), 10, "recipients of each version")

    def test_octets_of_any_length_are_written(self):
        """Of a part and of all around it, on both sides of each length that takes an octet more."""
        chance = random.Random(4)
        for size in (*range(0, 270), *range(65536 - 60, 65536 + 2), 70000):
            its = bytes(size)
            algorithm = sequence(oid("1.2.3"), octet_string(its))
            for those in (by_certificate(key=its), by_key(its), of_kek(its), by_key(algorithm=algorithm)):
                self.same_recipient(those, chance, size)

    def test_what_is_not_looked_at_may_be_anything(self):
        """The certificate of a recipient that is named by its key, the key identifier of one that is named by its
        certificate, and of one with a key-encryption key whether it has a key identifier."""
        chance, names = random.Random(5), enveloped_files.Recipient()._asdict()
        for _ in range(20 * ROUNDS):
            its = some_set(chance)
            text, fields = given.laid_out(chance, its)
            wanted = self.same_row(text, enveloped_files.Recipient(**fields), its)
            for among in ([1], [2**64 - 1], *2 * [ANYTHING]):
                row = enveloped_files.Recipient(**beside(chance, names, fields, among))
                self.same(self.same_row(text, row, row), wanted, "beside anything", row)

    def test_parts_may_be_in_one_another_and_several_be_the_same_octets(self):
        """And empty ones up to the end of the input."""
        text = sequence(CERTIFICATE, SHORT)
        certificate, algorithm, all_of_it = ((text.index(it), len(it)) for it in (CERTIFICATE, SHORT, text))
        row = enveloped_files.Recipient(0, 0, certificate, all_of_it, algorithm, all_of_it)
        wanted = {
            row: sequence(integer(0), ISSUER_AND_SERIAL, SHORT, octet_string(text)),
            row._replace(has_key_identifier=1): sequence(integer(2), element(0x80, text), SHORT, octet_string(text)),
            row._replace(is_kek=1): element(0xA2, integer(4), sequence(octet_string(text)), SHORT, octet_string(text)),
        }
        for its, made in wanted.items():
            self.same(self.same_row(text, its, its), made, "of the same octets", its)
            for at in (0, 1, len(text) - 1, len(text)):
                empty = self.same_row(text, its._replace(key=(at, 0)), its)
                self.same(enveloped_files.recipient_apart(empty).key, b"", "an empty key at", at)

    def test_changed_recipients_are_written_or_told_as_by_the_other_writer(self):
        chance, counts = random.Random(6), dict.fromkeys(("built", *(it.value for it in RecipientPart)), 0)
        for _ in range(40 * ROUNDS):
            text, fields = given.laid_out(chance, some_set(chance))
            for _ in range(20):
                row = enveloped_files.Recipient(**changed(chance, fields, len(text)))
                its_text = inputs.changed(chance, text) if chance.random() < 0.3 else text
                said = self.same_row(its_text, row, row)
                counts["built" if isinstance(said, bytes) else said[0]] += 1
        for kind, count in counts.items():
            self.at_least(count, 10, f"{kind!r}, of what is built or of the numbers of parts")


# Versions of enveloped data (RFC 5652, 6.1), of the recipients and of whether there are unprotected attributes, and
# why.
VERSIONS = (
    ([TRANSPORT], False, 0, "all recipients are of version 0"),
    ([TRANSPORT, TRANSPORT], False, 0, "each of them"),
    ([TRANSPORT], True, 2, "there are attributes"),
    ([BY_KEY], False, 2, "a recipient is of version 2"),
    ([TRANSPORT, BY_KEY], False, 2, "one of them is"),
    ([BY_KEY], True, 2, "for both reasons"),
    ([AGREEMENT], False, 2, "a recipient is of version 3"),
    ([KEK], False, 2, "a recipient is of version 4"),
    ([TRANSPORT, TRANSPORT, KEK], False, 2, "one of them is"),
    ([AGREEMENT, KEK, BY_KEY, TRANSPORT], False, 2, "none has a password or is of another kind"),
    ([AGREEMENT, KEK], True, 2, "none has, and there are attributes"),
    ([PASSWORD], False, 3, "a recipient has a password, though it is of version 0"),
    ([OTHER], False, 3, "a recipient is of another kind"),
    ([TRANSPORT, PASSWORD], False, 3, "one of them has a password"),
    ([TRANSPORT, OTHER], False, 3, "one of them is of another kind"),
    ([PASSWORD], True, 3, "that comes before attributes"),
    ([OTHER, BY_KEY], True, 3, "and before other versions"),
    ([*EACH_KIND], False, 3, "one has a password, and one is of another kind"),
    ([*EACH_KIND], True, 3, "that comes before all"),
    # what is in a recipient isn't looked at, but for the version of one with a key pair
    ([sequence(integer(0))], False, 0, "it begins with the version 0"),
    ([sequence(integer(2))], False, 2, "it begins with the version 2"),
    ([sequence(integer(0), integer(2))], False, 0, "only the first is a version"),
    ([element(0xA1, integer(0))], False, 2, "by its tag it isn't of version 0"),
    ([element(0xA2)], False, 2, "the same without a version"),
    ([element(0xA3)], False, 3, "by its tag it has a password"),
    ([element(0xA4)], False, 3, "by its tag it is of another kind"),
)


class TestEnvelopedByHand(OfEnveloped):
    """Enveloped data that are known octet by octet, and what RFC 5652 says of all."""

    def test_versions_are_those_of_rfc_5652(self):
        """Whether content is in the file, and of which type it is, doesn't count."""
        chance = random.Random(11)
        for recipients, has_attributes, version, why in VERSIONS:
            attributes = with_attributes(LONG) if has_attributes else {}
            for its in (NO_CONTENT, of_content(b"text"), {**NO_CONTENT, "content_type": OTHER_TYPE}):
                text = self.same_parts(Parts({**its, **attributes}, recipients), chance, why)
                self.same(version_in(text), version, "the version where", why)

    def test_versions_with_all_kinds_are_those_of_the_other_writer(self):
        chance, found = random.Random(12), {}
        for count in range(1, len(EACH_KIND) + 1):
            for those in itertools.combinations(EACH_KIND, count):
                for attributes in ({}, with_attributes(LONG)):
                    text = self.same_parts(Parts({**NO_CONTENT, **attributes}, list(those)), chance, those)
                    found[version_in(text)] = found.get(version_in(text), 0) + 1
        self.same(found, {0: 1, 2: 29, 3: 96}, "how many files are of each version")

    def test_parts_are_where_rfc_5652_has_them(self):
        chance, its = random.Random(13), attribute("1.2.3", integer(9), integer(5), integer(9))
        for octets in (b"", b"text", bytes(300)):
            for content_type in (DATA, OTHER_TYPE):
                text = self.same_parts(Parts(of_content(octets, content_type=content_type), [TRANSPORT]), chance)
                wanted = whole(0, TRANSPORT, content_type=content_type, content=[element(0x80, octets)])
                self.same(text, wanted, "content", octets, content_type)
                said = {**NO_CONTENT, "content_type": content_type}
                text = self.same_parts(Parts(said, [KEK]), chance)
                self.same(text, whole(2, KEK, content_type=content_type), "no content", content_type)
        for those in itertools.permutations([*FURTHER, its, its]):
            text = self.same_parts(Parts({**NO_CONTENT, **with_attributes(*those)}, [TRANSPORT]), chance)
            wanted = whole(2, TRANSPORT, attributes=[element(0xA1, *those)])
            self.same(text, wanted, "attributes in the order given", those)

    def test_recipients_in_any_order_give_the_same_file(self):
        """That of DER (X.690, 11.6), and each is there as often as it is given."""
        chance, count = random.Random(14), 0
        for those, version in (
            (EACH_KIND[:4], 2), (EACH_KIND[:5], 3), ([KEK, TRANSPORT, KEK, OTHER], 3),
            ([sequence(integer(0), integer(it)) for it in (5, 128, 7, 5)], 0), ([BY_KEY, BY_KEY, BY_KEY], 2),
            ([element(0xA2, bytes(it)) for it in (128, 127, 2, 0)], 2),
        ):
            wanted = whole(version, *sorted(those))
            for its in itertools.permutations(those):
                self.same(self.same_parts(Parts(NO_CONTENT, list(its)), chance), wanted, "in the order", its)
                count += 1
        self.at_least(count, 100, "orders")
        # of elements of one tag, by hand: shorter ones come first, and of these the smaller ones
        its = [sequence(integer(0)), sequence(integer(2)), sequence(integer(0), NULL), sequence(integer(0), KEY)]
        for those in itertools.permutations(its):
            text = self.same_parts(Parts(NO_CONTENT, list(those)), chance)
            self.same(text, whole(2, *its), "in order", those)

    def test_what_recipients_hold_is_not_looked_at(self):
        """But the version at the beginning of one with a key pair."""
        chance, held = random.Random(15), (b"", b"\0", b"\x30\x80", b"\x30\x05", NULL, bytes(300), b"\xFF" * 130)
        for tag, octets in itertools.product((0xA1, 0xA2, 0xA3, 0xA4), held):
            its = element(tag, octets)
            text = self.same_parts(Parts(NO_CONTENT, [its]), chance, tag)
            self.same(text, whole(3 if tag > 0xA2 else 2, its), "a recipient", its)
        for version, octets in itertools.product((0, 2), held):
            its = sequence(integer(version), octets)
            text = self.same_parts(Parts(NO_CONTENT, [its]), chance, version)
            self.same(text, whole(version, its), "a recipient with a key pair", its)

    def test_10_000_recipients_are_written(self):
        """In the order of DER, and the last of them is told."""
        chance, library = random.Random(16), built.library()
        those = [sequence(integer(0), octet_string(chance.randbytes(4)), SHORT, KEY) for _ in range(MANY)]
        head = DATA + SHORT
        row = enveloped_files.Enveloped(content_type=(0, len(DATA)), algorithm=(len(DATA), len(SHORT)))
        places = list(itertools.accumulate(map(len, those), initial=len(head)))
        file = enveloped_files.File(row, tuple(zip(places, map(len, those))))
        text = self.same_file(head + b"".join(those), file, "many")
        self.same(text, whole(0, *sorted(those)), "many recipients")
        self.same([bytes(it) for it in library.recipients(text)], sorted(those), "recipients that are listed")
        self.same(library.build_enveloped(DATA, None, SHORT, those), text, "many in Python")
        octets = head + b"".join(those[:-1]) + element(0x31, those[-1][2:])
        said = self.same_file(octets, file, "the last of them")
        self.same(said, (MANY - 1, EnvelopedPart.RECIPIENT.value), "what is told of the last")


class TestMadeUp(OfEnveloped):
    """Made-up files."""

    def test_they_are_written_as_they_are_given_and_read_back(self):
        """By the other reader, and as a ContentInfo."""
        chance, versions = random.Random(21), {}
        for _ in range(COUNT):
            those = some_parts(chance)
            text, its = self.same_parts(those, chance, those), those.given
            taken = enveloped_files.taken_apart(text)
            content, attributes = (its.get(it) if its[f"has_{it}"] else None for it in ("content", "attributes"))
            wanted = None, sorted(those.recipients), its["content_type"], its["algorithm"], content, attributes
            self.same(tuple(taken)[1:], wanted, "read back", those)
            self.same(refusal("contentinfo", text), None, "as a kind", those)
            versions[taken.version] = versions.get(taken.version, 0) + 1
        self.at_least(len(versions), min(COUNT // 10, 3), "versions")

    def test_their_parts_are_listed_and_build_them_again(self):
        chance = random.Random(22)
        for _ in range(COUNT):
            those = some_parts(chance)
            self.listed_again(self.same_parts(those, chance), those, those)

    def test_recipients_that_are_built_go_into_files(self):
        """Those of der_build_recipient are those of the other writer, and of each kind."""
        chance = random.Random(23)
        for _ in range(COUNT):
            its = [some_set(chance) for _ in range(3)]
            those = Parts(of_content(b"text"), [self.same_recipient(it, chance) for it in its])
            taken = enveloped_files.taken_apart(self.same_parts(those, chance, its))
            self.same(taken.recipients, sorted(map(written_by_hand, its)), "recipients", its)

    def test_octets_of_any_length_are_written(self):
        chance = random.Random(24)
        for size in (*range(0, 270), *range(65536 - 90, 65536 + 2), 70000):
            its, long = bytes(size), with_attributes(attribute("1.2.3", octet_string(bytes(size))))
            for those in (
                Parts(of_content(its), [TRANSPORT]), Parts(NO_CONTENT, [element(0xA2, its), KEK]),
                Parts({**NO_CONTENT, **long}, [PASSWORD]),
            ):
                self.same_parts(those, chance, size)

    def test_what_is_not_looked_at_may_be_anything(self):
        """Content and attributes that aren't there."""
        chance, names = random.Random(25), enveloped_files.Enveloped()._asdict()
        for _ in range(20 * ROUNDS):
            those = some_parts(chance)
            text, file = laid_out(chance, those)
            wanted = self.same_file(text, file, those)
            fields = {it: getattr(file.given, it) for it in those.given}
            for among in ([1], [2**64 - 1], *2 * [ANYTHING]):
                others = file._replace(given=enveloped_files.Enveloped(**beside(chance, names, fields, among)))
                self.same(self.same_file(text, others, others), wanted, "beside anything", others)

    def test_parts_may_be_in_one_another_and_several_be_the_same_octets(self):
        """And empty content up to the end of the input."""
        text = set_of(attribute("1.2.3", TRANSPORT, SHORT))
        algorithm, recipient, all_of_it = ((text.index(it), len(it)) for it in (SHORT, TRANSPORT, text))
        identifier = algorithm[0] + 4, algorithm[1] - 4
        given_parts = enveloped_files.Enveloped(1, 1, identifier, algorithm, all_of_it, all_of_it)
        made = self.same_file(text, enveloped_files.File(given_parts, 3 * (recipient,)), "of the same octets")
        taken, kind = enveloped_files.taken_apart(made), contents_of_oid("1.2.3")
        self.same(tuple(taken), (2, None, 3 * [TRANSPORT], kind, SHORT, text, text), "its parts")
        for at in (0, 1, len(text) - 1, len(text)):
            file = enveloped_files.File(given_parts._replace(content=(at, 0)), (recipient,))
            self.same(enveloped_files.taken_apart(self.same_file(text, file, at)).content, b"", "empty content at", at)

    def test_changed_files_are_written_or_told_as_by_the_other_writer(self):
        chance = random.Random(26)
        # none of the files is without recipients
        counts = dict.fromkeys(("built", *(it.value for it in EnvelopedPart if it is not EnvelopedPart.RECIPIENTS)), 0)
        for _ in range(40 * ROUNDS):
            text, file = laid_out(chance, some_parts(chance))
            for _ in range(20):
                its_text = inputs.changed(chance, text) if chance.random() < 0.3 else text
                said = self.same_file(its_text, changed_file(chance, file, len(text)))
                counts["built" if isinstance(said, bytes) else said[1]] += 1
        for kind, count in counts.items():
            self.at_least(count, 5, f"{kind!r}, of what is built or of the numbers of parts")


def changed_file(chance, file, size):
    """What is given over an input of a size, with some of its fields changed, or the range of a recipient."""
    if chance.random() < 0.5:
        return file._replace(given=enveloped_files.Enveloped(**changed(chance, file.given._asdict(), size)))
    those, index = list(file.recipients), chance.randrange(len(file.recipients))
    those[index] = changed(chance, {"its": those[index]}, size)["its"]
    return file._replace(recipients=tuple(those))


# Parts that are wrong

# What is no recipient, and why.
NO_RECIPIENTS = (
    ("nothing", b""),
    ("a tag alone", TRANSPORT[:1]),
    ("an octet too few", TRANSPORT[:-1]),
    ("an octet too few of another kind", OTHER[:-1]),
    ("an octet too many", TRANSPORT + b"\0"),
    ("two of them", TRANSPORT + KEK),
    ("a set", element(0x31, contents(TRANSPORT))),
    ("the tag past the last", element(0xA5, contents(KEK))),
    ("the tag before the first", element(0xA0, contents(KEK))),
    ("a primitive tag", element(0x82, contents(KEK))),
    ("a tag of two octets", b"\xBF\x02\0"),
    ("a tag of another class", element(0x62, contents(KEK))),
    ("another type", NULL),
    ("a sequence of nothing", sequence()),
    ("no version", sequence(ISSUER_AND_SERIAL, SHORT, KEY)),
    ("a version in second place", sequence(NULL, integer(0))),
    ("an empty version", sequence(element(0x02))),
    ("a version of another type", sequence(element(0x0A, b"\0"))),
    ("a version under a tag", sequence(explicit(0, integer(0)))),
    ("a version of two octets", sequence(element(0x02, b"\0\0"))),
    ("a version of two octets that is 2", sequence(element(0x02, b"\0\2"))),
    ("a version below 0", sequence(element(0x02, b"\xFE"))),
    ("a version that is cut short", b"\x30\x02\x02\x01"),
    *((f"the version {it}", sequence(integer(it), ISSUER_AND_SERIAL, SHORT, KEY)) for it in (1, 3, 4, 5)),
    *((f"the version {it}", sequence(integer(it))) for it in (1, 6, 127, 256)),
    *(("no element", it) for it in NO_ELEMENTS),
)


def broken_sets(its):
    """The set of parts of a recipient with one of its parts broken, and the name of that part."""
    if not its["is_kek"]:
        named = {**its, "has_key_identifier": 0}
        yield from (("identifier", {**named, "certificate": it}) for it in given_signed.wrong_certificates())
    yield from (("algorithm", {**its, "algorithm": it}) for it in given_signed.wrong_algorithms())


def broken_parts(those):
    """Parts of enveloped data with one of them broken, beside its recipients, and the name of that part."""
    wrong_attributes = *given_stores.wrong_attributes(), set_of()
    wrong_algorithms = given_signed.wrong_algorithms()
    its = {"content_type": NO_IDENTIFIERS, "algorithm": wrong_algorithms, "attributes": wrong_attributes}
    for name, wrong in its.items():
        there = {**those.given, **({"has_attributes": 1} if name == "attributes" else {})}
        yield from ((name, those._replace(given={**there, name: it})) for it in wrong)


class TestRefused(OfEnveloped):
    """Parts one of which is wrong, or several."""

    def told(self, call, words, places, *what):
        """Asks that places are told, and nothing is written, whether there is room or not."""
        for room in (0, ROOM, 4096):
            said = in_room(call, words, room, 1 + len(places))
            self.same(said, (INVALID, 0, *places, marked(b"", room)), call, *what, "in room for", room)

    def told_of_recipient(self, name, text, row, *what):
        number = RecipientPart[name.upper()].value
        self.told(RECIPIENT, (text, len(text), row.numbers()), (number,), name, *what)
        self.same(enveloped_files.recipient_text(text, row)[1], [number], "the other writer", name, *what)

    def told_of_file(self, index, name, text, file, *what):
        """The same of enveloped data: an index, and a part by its name."""
        places = index, EnvelopedPart[name.upper()].value
        self.told(ENVELOPED, (text, len(text), *file.words()), places, name, *what)
        self.same(enveloped_files.enveloped_text(text, file)[1], [places], "the other writer", name, *what)

    def test_each_part_of_a_recipient_that_is_wrong_is_told(self):
        chance, names = random.Random(31), set()
        for its in (by_certificate(), by_key(), of_kek(), *(some_set(chance) for _ in range(6))):
            for name, broken in broken_sets(its):
                text, fields = given.laid_out(chance, broken)
                self.told_of_recipient(name, text, enveloped_files.Recipient(**fields), broken)
                names.add(name)
        self.same(names, {"identifier", "algorithm"}, "parts that were broken")

    def test_a_range_of_a_recipient_that_is_not_in_the_input_is_told(self):
        chance, names = random.Random(32), set()
        for its in (by_certificate(), by_key(), of_kek(), *(some_set(chance) for _ in range(6))):
            text, fields = given.laid_out(chance, its)
            for name in (it for it in RANGES_OF_RECIPIENT if it in its):
                part_name = "identifier" if name in ("certificate", "key_identifier") else name
                for wrong in given.wrong_ranges(text, fields[name]):
                    row = enveloped_files.Recipient(**{**fields, name: wrong})
                    self.told_of_recipient(part_name, text, row, wrong)
                names.add(part_name)
        self.same(names, set(enveloped_files.OF_RECIPIENT), "parts that are ranges")

    def test_each_part_of_enveloped_data_that_is_wrong_is_told(self):
        """Also an empty set of attributes."""
        chance, names = random.Random(33), set()
        for those in (Parts(NO_CONTENT, [TRANSPORT]), *(some_parts(chance) for _ in range(6))):
            for name, broken in broken_parts(those):
                self.told_of_file(0, name, *laid_out(chance, broken), broken)
                names.add(name)
        self.same(names, {"content_type", "algorithm", "attributes"}, "parts that were broken")

    def test_each_recipient_that_is_wrong_is_told_with_its_index(self):
        chance = random.Random(34)
        for why, wrong in NO_RECIPIENTS:
            for its in (NO_CONTENT, of_content(b"text", **with_attributes(LONG))):
                before, after = (chance.choices(EACH_KIND, k=chance.randrange(4)) for _ in range(2))
                those = Parts(its, [*before, wrong, *after])
                self.told_of_file(len(before), "recipient", *laid_out(chance, those), why, those)

    def test_each_tag_is_that_of_a_recipient_or_told(self):
        chance = random.Random(35)
        for tag in (it for it in range(256) if it % 32 != 31):
            those = Parts(NO_CONTENT, [TRANSPORT, element(tag, integer(0), NULL)])
            if tag in (0x30, 0xA1, 0xA2, 0xA3, 0xA4):
                self.same(type(self.same_parts(those, chance, tag)), bytes, "written", tag)
            else:
                self.told_of_file(1, "recipient", *laid_out(chance, those), tag)

    def test_without_recipients_nothing_is_written(self):
        chance = random.Random(36)
        for its in (NO_CONTENT, of_content(b""), of_content(b"text", **with_attributes(LONG))):
            self.told_of_file(0, "recipients", *laid_out(chance, Parts(its, [])), its)

    def test_a_range_of_enveloped_data_that_is_not_in_the_input_is_told(self):
        chance, names = random.Random(37), set()
        for _ in range(12):
            text, file = laid_out(chance, some_parts(chance))
            for index, name, place, with_another in ranges_of(file):
                for wrong in given.wrong_ranges(text, place):
                    self.told_of_file(index, name, text, with_another(file, wrong), wrong)
                names.add(name)
        self.same(names, {*RANGES_OF_ENVELOPED, "recipient"}, "parts that are ranges")

    def test_of_several_parts_one_is_told(self):
        """Of each two ranges of which none is in the input, and of what is broken without recipients."""
        chance, count = random.Random(38), 0
        for its in (of_kek(), by_key(), by_certificate()):
            text, fields = given.laid_out(chance, its)
            for names in itertools.combinations([it for it in RANGES_OF_RECIPIENT if it in its], 2):
                broken = {**fields, **dict.fromkeys(names, (len(text), 1))}
                self.same_row(text, enveloped_files.Recipient(**broken), names)
        text, file = laid_out(chance, Parts(of_content(b"text", **with_attributes(LONG)), [*EACH_KIND]))
        for one, other in itertools.combinations(ranges_of(file), 2):
            broken = functools.reduce(lambda its, it: it[3](its, (len(text), 1)), (one, other), file)
            said = self.same_file(text, broken, one, other)
            wanted = [(index, EnvelopedPart[name.upper()].value) for index, name, *_ in (one, other)]
            self.same(said in wanted, True, "one of", wanted)
            count += 1
        self.at_least(count, 40, "pairs")
        for _, name, _, with_another in ranges_of(file._replace(recipients=())):
            self.same_file(text, with_another(file._replace(recipients=()), (len(text), 1)), "no recipients, and", name)

    def test_nothing_is_found_in_an_empty_input(self):
        self.told_of_recipient("algorithm", b"", enveloped_files.Recipient(1), "of nothing")
        self.told_of_recipient("algorithm", b"", enveloped_files.Recipient(0, 1), "of nothing")
        row = enveloped_files.Recipient(algorithm=(0, len(SHORT)))
        self.told_of_recipient("identifier", SHORT, row, "of nothing")
        text, algorithm = DATA + SHORT + KEK, (len(DATA), len(SHORT))
        recipient = len(DATA + SHORT), len(KEK)
        right = enveloped_files.Enveloped(content_type=(0, len(DATA)), algorithm=algorithm)
        for name in ("content_type", "algorithm"):
            file = enveloped_files.File(right._replace(**{name: (0, 0)}), (recipient,))
            self.told_of_file(0, name, text, file, "of nothing")
        self.told_of_file(0, "recipient", text, enveloped_files.File(right, ((0, 0), recipient)), "of nothing")
        file = enveloped_files.File(right._replace(has_attributes=1), (recipient,))
        self.told_of_file(0, "attributes", text, file, "of nothing")
        file = enveloped_files.File(right._replace(has_content=1), (recipient,))
        self.same(self.same_file(text, file), whole(2, KEK, content=[element(0x80)]), "empty content")


def ranges_of(file):
    """Of each range that is looked at its index, the name of its part in der.h, the range, and what puts another range
    into its place."""
    for name in (it for it in RANGES_OF_ENVELOPED if getattr(file.given, f"has_{it}", 1)):
        yield 0, name, getattr(file.given, name), functools.partial(with_given, name)
    for index, place in enumerate(file.recipients):
        yield index, "recipient", place, functools.partial(with_recipient, index)


def with_given(name, file, place):
    return file._replace(given=file.given._replace(**{name: place}))


def with_recipient(index, file, place):
    return file._replace(recipients=(*file.recipients[:index], place, *file.recipients[index + 1 :]))


class TestRooms(OfEnveloped):
    """Rooms of many sizes."""

    def in_each_room(self, call, words, wanted, places, *what):
        """Asks that octets are written where they have room, and nothing beyond them. Without any room the call says
        how much it needs."""
        size, zeros = len(wanted), places * [0]
        for room in (0, 1, size // 2, size - 1, size, size + 1, size + 200):
            fits = room >= size
            answer = NORMAL if fits else NO_ROOM, size, *zeros, marked(wanted if fits else b"", room)
            self.same(in_room(call, words, room, 1 + places), answer, call, *what, "in room for", room)

    def test_recipients_are_written_where_they_have_room_and_nothing_beyond_them(self):
        chance = random.Random(41)
        for _ in range(20 * ROUNDS):
            its = some_set(chance)
            text, fields = given.laid_out(chance, its)
            row = enveloped_files.Recipient(**fields)
            wanted = self.same_row(text, row, its)
            self.in_each_room(RECIPIENT, (text, len(text), row.numbers()), wanted, 1, its)

    def test_enveloped_data_are_written_where_they_have_room_and_nothing_beyond_them(self):
        chance = random.Random(42)
        for _ in range(20 * ROUNDS):
            those = some_parts(chance)
            text, file = laid_out(chance, those)
            wanted = self.same_file(text, file, those)
            self.in_each_room(ENVELOPED, (text, len(text), *file.words()), wanted, 2, those)

    def test_what_was_built_before_is_built_again(self):
        """A call leaves nothing behind: refused, in too little room, and built, in any order."""
        text, file = laid_out(random.Random(43), Parts(of_content(b"text"), [KEK, TRANSPORT]))
        wrong = with_recipient(1, file, (len(text), 1))
        for _ in range(3):
            self.same(type(self.same_file(text, file)), bytes, "written")
            self.same(self.same_file(text, wrong), (1, EnvelopedPart.RECIPIENT.value), "with one that is wrong")


# Files of openssl, and of the worked examples

# How openssl encrypts, by what it is, as enveloped_by_openssl.py has it.
COMMANDS = {
    **{name: command for name, (command, _) in enveloped_by_openssl.FILES.items()},
    "by AES-192": "cms -aes-192-cbc {one}",
    "by Camellia": "cms -camellia256 {two}",
    "by AES-256 for a key-encryption key of 192 bits": f"cms -aes-256-cbc -secretkey {48 * '5'} -secretkeyid 01",
    "the same of 256 bits": f"cms -aes-256-cbc -secretkey {64 * '5'} -secretkeyid {300 * '0C'}",
    "by key agreement for a key identifier": "cms -aes-128-cbc -keyid {curve}",
    "for key pairs and by key agreement": "cms -aes-128-cbc {two} {curve} {one}",
    "for a certificate and a password": "cms -aes-256-cbc {password} {one}",
    "for one of each kind": "cms -aes-256-cbc {secret} {password} {one} {curve}",
}
# How many octets are encrypted.
SIZES = 0, 1, 15, 16, 1000, 70_000


@functools.lru_cache(maxsize=None)
def encrypted(name, size=16, *more):
    """What openssl makes of so many octets, also with more words."""
    tool, *words = COMMANDS[name].split()
    return enveloped_by_openssl.encrypt(" ".join([tool, *more, *words]), bytes(size))


def parts_of(taken):
    """The parts of enveloped data that the other reader took apart."""
    its = {"content_type": taken.content_type, "algorithm": taken.algorithm}
    for name in ("content", "attributes"):
        found = getattr(taken, name)
        its |= {f"has_{name}": int(found is not None), **({} if found is None else {name: found})}
    return Parts(its, taken.recipients)


class TestOfOpenssl(OfEnveloped):
    """Files of openssl, and of the worked examples, that are taken apart and built again."""

    def built_again(self, text, *what):
        """Compares what is built of a file's parts with it, octet for octet."""
        taken = enveloped_files.taken_apart(text)
        self.same(taken.originator, None, "originatorInfo", *what)
        self.same(taken.recipients, sorted(taken.recipients), "recipients in order", *what)
        those = parts_of(taken)
        self.same(self.same_parts(those, random.Random(51), *what), text, "built again", *what)
        self.listed_again(text, those, *what)
        return taken

    def test_files_for_each_recipient_are_built_again(self):
        """Of each version."""
        counts = {}
        for name, command in COMMANDS.items():
            taken = self.built_again(encrypted(name), name)
            self.same(len(taken.recipients), command.count("{") + command.count("-secretkeyid"), "recipients", name)
            counts[taken.version] = counts.get(taken.version, 0) + 1
        self.same(sorted(counts), [0, 2, 3], "versions")
        self.at_least(min(counts.values()), 3, "files of each version")

    def test_files_of_each_length_are_built_again(self):
        for name, size in itertools.product(("for two", "for a key-encryption key", "by triple DES"), SIZES):
            taken = self.built_again(encrypted(name, size), name, size)
            self.same(taken.content_type, DATA, "the type of the content", name)
            self.at_least(len(taken.content), size + 1, "octets with their padding")

    def test_files_in_ber_are_built_again_as_their_der(self):
        count = 0
        for name, size in itertools.product(COMMANDS, (0, 70_000)):
            text = encrypted(name, size, "-stream")
            made = built.library().from_ber(text)
            self.built_again(made, name, size)
            count += text != made
        self.same(count, 2 * len(COMMANDS), "files in BER")

    def test_recipients_of_openssl_are_built_again(self):
        """Of their certificates, key identifiers, algorithms and encrypted keys."""
        chance, counts = random.Random(52), {}
        certificates = list(map(enveloped_by_openssl.certificate, enveloped_by_openssl.KEY_PAIRS))
        by_name = {signing.identifier(it): it for it in certificates}
        key_identifiers = [contents(signing.key_identifier(it)) for it in certificates]
        for name in COMMANDS:
            those = enveloped_files.taken_apart(encrypted(name)).recipients
            for it in (it for it in those if it[0] in (0x30, 0xA2)):
                taken = enveloped_files.recipient_apart(it)
                its = {"algorithm": taken.algorithm, "key": taken.key}
                if taken.version == 0:
                    its = by_certificate(by_name[taken.issuer_and_serial_number], **its)
                else:
                    its = (by_key if taken.version == 2 else of_kek)(taken.key_identifier, **its)
                self.same(self.same_recipient(its, chance, name), it, "a recipient of openssl", name)
                if taken.version == 2:
                    self.same(taken.key_identifier in key_identifiers, True, "named by its certificate's", name)
                counts[taken.version] = counts.get(taken.version, 0) + 1
        self.same(sorted(counts), [0, 2, 4], "versions of recipients")

    def test_normal_files_of_the_worked_examples_are_built_again(self):
        """Octet for octet, unless they have originatorInfo, another version or recipients in another order; those that
        have no recipient, or an empty set of attributes, aren't."""
        chance, count = random.Random(53), 0
        for text in inputs.enveloped_data():
            taken = enveloped_files.taken_apart(text)
            made = self.same_parts(parts_of(taken), chance, text)
            if isinstance(made, bytes):
                again = enveloped_files.taken_apart(made)
                ordered = taken._replace(originator=None, recipients=sorted(taken.recipients))
                self.same(again._replace(version=taken.version), ordered, "its parts", text)
                self.same(made == text, again == taken, "octet for octet", text)
                count += made == text
        self.at_least(count, 2, "files that are built again as they were")


# Python


def in_python(its):
    """What build_recipient takes of a set of parts."""
    named = {it: its[it] for it in ("certificate", "key_identifier") if it in its}
    return GivenRecipient(its["algorithm"], its["key"], **named, is_kek=bool(its["is_kek"]))


def file_in_python(those):
    """What build_enveloped takes of parts."""
    its = those.given
    content, attributes = (its[it] if its[f"has_{it}"] else None for it in ("content", "attributes"))
    return its["content_type"], content, its["algorithm"], those.recipients, attributes


def otherwise(value):
    """The same octets where they can be written, and the same of all in a list, once; others as they are."""
    if isinstance(value, list):
        return map(otherwise, value)
    return next(in_other_ways(value)) if isinstance(value, bytes) else value


def made_in_python(call, *words, **named):
    """What a call in Python makes, or what it says can't be written."""
    try:
        return call(*words, **named)
    except (BadRecipient, BadEnveloped) as bad:
        return bad.index, bad.part


class TestPython(OfEnveloped):
    """What Python builds, and what it says of what can't be written."""

    def setUp(self):
        super().setUp()
        built.use_shared()

    def test_recipients_are_written_as_they_are_given(self):
        chance, library = random.Random(61), built.library()
        for _ in range(20 * ROUNDS):
            its = some_set(chance)
            wanted, named = self.same_recipient(its, chance), in_python(its)
            self.same(library.build_recipient(named), wanted, "in Python", its)
            self.same(build.recipient(named), wanted, "by build", its)
            others = GivenRecipient(*map(otherwise, named))
            self.same(library.build_recipient(others), wanted, "of other octets", its)

    def test_enveloped_data_are_written_as_they_are_given(self):
        chance, library, count = random.Random(62), built.library(), 0
        for _ in range(20 * ROUNDS):
            those = some_parts(chance)
            wanted, words = self.same_parts(those, chance), file_in_python(those)
            self.same(library.build_enveloped(*words), wanted, "in Python", those)
            self.same(library.build_enveloped(*map(otherwise, words)), wanted, "of other octets", those)
            content_type, content, algorithm, recipients, attributes = words
            more = {"content_type": der.dotted(content_type), "attributes": attributes or b""}
            # a number that 64 bits don't hold isn't taken from text
            if spelt(more["content_type"].encode()) is not None:
                self.same(build.enveloped(content, recipients, algorithm, **more), wanted, "by build", those)
                count += 1
        self.at_least(count, 10 * ROUNDS, "files by build")

    def test_recipients_may_be_made_from_scratch_or_be_octets(self):
        chance = random.Random(63)
        for _ in range(10 * ROUNDS):
            sets = [some_set(chance) for _ in range(chance.randrange(1, 4))]
            those = [*map(in_python, sets), *(some_recipient(chance) for _ in range(chance.randrange(3)))]
            chance.shuffle(those)
            elements = [it if isinstance(it, bytes) else built.library().build_recipient(it) for it in those]
            wanted = self.same_parts(Parts(of_content(b"text"), elements), chance)
            self.same(build.enveloped(b"text", those, SHORT), wanted, "recipients", those)
            self.same(build.enveloped(b"text", iter(those), SHORT, attributes=bytearray()), wanted, "gone through once")

    def test_recipients_that_are_listed_are_given_again(self):
        """Without one of them, and with one more."""
        library, text = built.library(), encrypted("for one of each kind")
        taken, listed = enveloped_files.taken_apart(text), library.recipients(text)
        self.same(len(listed), 4, "recipients")
        self.same(build.enveloped(taken.content, listed, taken.algorithm), text, "the same file")
        for those in (listed[1:], [*listed, TRANSPORT]):
            made = enveloped_files.taken_apart(build.enveloped(taken.content, those, taken.algorithm))
            self.same(made.recipients, sorted(map(bytes, those)), "other recipients")

    def test_attributes_are_those_of_build_attributes(self):
        library = built.library()
        for those in itertools.permutations([*FURTHER, LONG]):
            attributes = library.build_attributes(attributes=those)
            text = build.enveloped(None, [TRANSPORT], SHORT, attributes=attributes)
            self.same(text, whole(2, TRANSPORT, attributes=[element(0xA1, *FURTHER, LONG)]), "attributes", those)
        said = made_in_python(build.enveloped, None, [TRANSPORT], SHORT, attributes=library.build_attributes())
        self.same(said, (None, EnvelopedPart.ATTRIBUTES), "an empty set")

    def test_a_part_of_a_recipient_that_is_wrong_is_told(self):
        chance, call, names = random.Random(64), built.library().build_recipient, set()
        for its in (by_certificate(), by_key(), of_kek()):
            for name, broken in broken_sets(its):
                broken.pop("key_identifier" if name == "identifier" else "", None)
                self.same(made_in_python(call, in_python(broken)), (None, RecipientPart[name.upper()]), "told", broken)
                names.add(name)
            right = in_python({**its, "key": chance.randbytes(8)})
            for name in ("algorithm", "key"):
                said = made_in_python(call, right._replace(**{name: None}))
                self.same(said, (None, RecipientPart[name.upper()]), "without", name)
        self.same(names, {"identifier", "algorithm"}, "parts that were broken")

    def test_a_recipient_has_one_name(self):
        """With a key-encryption key that is a key identifier."""
        call, certificate = built.library().build_recipient, {"certificate": CERTIFICATE}
        key, both = {"key_identifier": b"id"}, {"certificate": CERTIFICATE, "key_identifier": b"id"}
        for names, is_kek, wanted in (
            (certificate, False, TRANSPORT), (key, False, BY_KEY), (both, False, None), ({}, False, None),
            (certificate, True, None), (key, True, KEK), (both, True, None), ({}, True, None),
            ({"certificate": b"", **key}, False, None), ({"key_identifier": b"", **certificate}, False, None),
        ):
            said = made_in_python(call, GivenRecipient(SHORT, b"k", **names, is_kek=is_kek))
            self.same(said, wanted or (None, RecipientPart.IDENTIFIER), "named by", names, is_kek)

    def test_a_part_of_enveloped_data_that_is_wrong_is_told(self):
        chance, call, names = random.Random(65), built.library().build_enveloped, set()
        for those in (Parts(of_content(b"text"), [*EACH_KIND]), some_parts(chance)):
            for name, broken in broken_parts(those):
                said = made_in_python(call, *file_in_python(broken))
                self.same(said, (None, EnvelopedPart[name.upper()]), "told", broken)
                names.add(name)
            its_type, content, algorithm, recipients, _ = file_in_python(those)
            for words, part_of_it in (
                ((None, content, algorithm, recipients), EnvelopedPart.CONTENT_TYPE),
                ((its_type, content, None, recipients), EnvelopedPart.ALGORITHM),
                ((its_type, content, algorithm, []), EnvelopedPart.RECIPIENTS),
            ):
                self.same(made_in_python(call, *words), (None, part_of_it), "without", part_of_it.name)
        self.same(names, {"content_type", "algorithm", "attributes"}, "parts that were broken")
        for why, wrong in (*NO_RECIPIENTS, ("none", None)):
            for recipients, index in (([wrong], 0), ([*EACH_KIND, wrong, KEK], 6)):
                said = made_in_python(call, DATA, b"text", SHORT, recipients)
                self.same(said, (index, EnvelopedPart.RECIPIENT), "told of", why)

    def test_of_a_recipient_that_is_made_from_scratch_the_index_is_told(self):
        right = GivenRecipient(SHORT, b"k", CERTIFICATE)
        for part_of_it, changes in (
            (RecipientPart.IDENTIFIER, {"certificate": NULL}), (RecipientPart.ALGORITHM, {"algorithm": NULL}),
            (RecipientPart.KEY, {"key": None}), (RecipientPart.IDENTIFIER, {"is_kek": True}),
        ):
            for index in (0, 1, 70):
                those = [*index * [right], right._replace(**changes), KEK]
                self.same(made_in_python(build.enveloped, b"", those, SHORT), (index, part_of_it), "told", changes)
        self.same(made_in_python(build.enveloped, b"", [right, NULL], SHORT), (1, EnvelopedPart.RECIPIENT), "octets")

    def test_octets_in_place_of_a_list_and_what_is_no_octets_are_refused(self):
        call, its = built.library().build_enveloped, GivenRecipient(SHORT, b"k", CERTIFICATE)
        for wrong in (TRANSPORT, bytearray(TRANSPORT), memoryview(TRANSPORT), its, [5], ["text"], None):
            with self.assertRaises(TypeError):
                call(DATA, b"text", SHORT, wrong)
        for wrong in (TRANSPORT, memoryview(TRANSPORT), [5], ["text"], None):
            with self.assertRaises(TypeError):
                build.enveloped(b"text", wrong, SHORT)
        for wrong in ("1.2.", "none", ""):
            with self.assertRaises(der.Refused):
                build.enveloped(b"text", [its], SHORT, content_type=wrong)

    def test_what_is_not_written_is_said_and_goes_to_another_process(self):
        recipient, enveloped = built.library().build_recipient, built.library().build_enveloped
        right, cases, found = GivenRecipient(SHORT, b"k", CERTIFICATE), [], set()
        for part_of_it, changes in (
            (RecipientPart.IDENTIFIER, {"certificate": None}), (RecipientPart.ALGORITHM, {"algorithm": NULL}),
            (RecipientPart.KEY, {"key": None}),
        ):
            name, bad = part_of_it.name.lower(), right._replace(**changes)
            cases.append((recipient, (bad,), part_of_it, None, f"{name} can't be written"))
            for index in (0, 3):
                words, said = (b"text", [*index * [right], bad], SHORT), f"{name} of recipient {index} can't be written"
                cases.append((build.enveloped, words, part_of_it, index, said))
        for words, part_of_it, index, said in (
            ((b"", b"text", SHORT, [KEK]), EnvelopedPart.CONTENT_TYPE, None, "content_type"),
            ((DATA, b"text", NULL, [KEK]), EnvelopedPart.ALGORITHM, None, "algorithm"),
            ((DATA, b"text", SHORT, [KEK, KEK, NULL]), EnvelopedPart.RECIPIENT, 2, "recipient 2"),
            ((DATA, b"text", SHORT, []), EnvelopedPart.RECIPIENTS, None, "recipients"),
            ((DATA, b"text", SHORT, [KEK], set_of()), EnvelopedPart.ATTRIBUTES, None, "attributes"),
        ):
            cases.append((enveloped, words, part_of_it, index, f"{said} can't be written"))
        for call, words, part_of_it, index, said in cases:
            with self.assertRaises((BadRecipient, BadEnveloped)) as raised:
                call(*words)
            bad, kind = raised.exception, BadRecipient if isinstance(part_of_it, RecipientPart) else BadEnveloped
            for here in (bad, pickle.loads(pickle.dumps(bad)), copy.copy(bad)):
                wanted = kind, said, {"part": part_of_it, "index": index}
                self.same((type(here), str(here), vars(here)), wanted, "what is said, and its parts")
            found.add(part_of_it)
        # any octets can be written as content
        self.same(found, {*RecipientPart, *EnvelopedPart} - {EnvelopedPart.CONTENT}, "parts")

    def test_algorithms_are_those_of_files_that_openssl_encrypts(self):
        """As RFC 3370, RFC 4055 and RFC 3565 ask for: rsaEncryption has NULL, and the AES Key Wrap no parameters."""
        for name, *words in (
            ("for a certificate", build.RSA, build.NULL),
            ("by OAEP with SHA-256", build.RSAES_OAEP, build.OAEP_WITH_SHA256),
            ("for a key-encryption key", build.AES_128_WRAP),
            ("by AES-256 for a key-encryption key of 192 bits", build.AES_192_WRAP),
            ("the same of 256 bits", build.AES_256_WRAP),
        ):
            [its] = enveloped_files.taken_apart(encrypted(name)).recipients
            self.same(build.algorithm(*words), enveloped_files.recipient_apart(its).algorithm, "an algorithm", name)
        for name, arcs in (
            ("by AES-128", build.AES_128_CBC), ("by AES-192", build.AES_192_CBC), ("for two", build.AES_256_CBC)
        ):
            its = enveloped_files.taken_apart(encrypted(name)).algorithm
            self.same(build.algorithm(arcs, part(its, 1)), its, "a cipher", name)
            self.same(part(its, 1)[:2], b"\4\x10", "its vector is an OCTET STRING of 16 octets", name)


if __name__ == "__main__":
    unittest.main()
