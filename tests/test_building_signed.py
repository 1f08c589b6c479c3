"""What der_build_attributes and der_build_signed write from parts beside the writer of tests/oracle, in just the room
that they need and in less: attributes in any order, times of each form, contents of each form, certificates and
revocation lists of each choice, signers with each part and without it, 1,000 signers; whatever is where a call doesn't
look. Versions are those of RFC 5652, and sets are in the order of DER. What is written is read as what was given. A
part that can't be written is told, of several one, and nothing is written. In Python the same is built."""
import copy
import datetime
import functools
import itertools
import pickle
import random
import unittest

from support import built, given, given_signed, inputs
from support.containers import NULL, attribute
from support.elements import element, explicit, integer, octet_string, part, parts, sequence, set_of
from support.given import NO_ELEMENTS, NO_IDENTIFIERS
from support.given_signed import CHOICES, DATA, LISTS, NAMES_OF_SIGNER, RANGES_OF_ATTRIBUTES, TIMES, Parts
from support.given_stores import ANYTHING, beside, changed
from support.oids import octets, oid
from support.rooms import InRooms, in_room, marked
from support.signed_data import (
    CERTIFICATE, DIGEST, ISSUER_AND_SERIAL, NAME, NO_CONTENT, NO_CONTENT_OF_OTHER, OF_DATA, OTHER_TYPE, SHORT, TIME,
    TYPE, as_read, attributes_by_hand, attributes_in_python, attributes_of, by_certificate, by_key, element_of,
    made_in_python, not_written, octets_of, otherwise, plain, read_as, signed_in_python, signer_in_python, signer_info,
    time_in_python, unsigned, version_in, whole,
)
from support.statuses import INVALID, NORMAL, NO_ROOM, refusal
from support.stores import FURTHER, LONG, NO_ATTRIBUTES
from oracle import signed_files
from vuyhanip.der import AttributesPart, BadAttributes, BadSigned, BagKind, GivenBag, SignedPart

ATTRIBUTES, SIGNED = "der_build_attributes", "der_build_signed"
# How often sets of each kind are made up, how many signers and certificates there are in a long file, and the room of
# what is refused.
ROUNDS, MANY, ROOM = 3, 1000, 64
# Signed attributes for content of another type than data.
OF_OTHER = set_of(*given_signed.right_attributes(OTHER_TYPE))


def laid_out(chance, those):
    """An input that has some parts of signed data, and where."""
    text, fields = given_signed.laid_out(chance, those)
    return text, signed_files.File.of(*fields)


class OfSigned(InRooms):
    """A test that compares what is built."""

    def same_built(self, call, words, wanted, wrong, *what):
        """Compares what a call writes into just the room that it needs, and into less; or, where the other writer
        writes nothing, asks that the call tells one of the places that it finds wrong. Returns what is wanted, or
        told."""
        places = 2 if call == SIGNED else 1
        if wanted is not None:
            self.same_octets(call, words, wanted, *what, places=places)
            return wanted
        status, size, *told, room = in_room(call, words, ROOM, 1 + places)
        said = status, size, tuple(told) in wrong, room
        self.same(said, (INVALID, 0, True, marked(b"", ROOM)), call, *what, "it tells", told, "and wrong are", wrong)
        return tuple(told)

    def same_attributes(self, text, row, *what):
        """The same of attributes from a row over an input, of which the number of a part is told."""
        made, wrong = signed_files.attributes_text(text, row)
        return self.same_built(ATTRIBUTES, (text, len(text), row.numbers()), made, [(it,) for it in wrong], *what)

    def same_set(self, its, chance, *what):
        """The same of a set of parts, laid out in an input."""
        text, fields = given.laid_out(chance, its)
        return self.same_attributes(text, signed_files.Attributes(**fields), *what, its)

    def same_signed(self, text, file, *what):
        """The same of signed data, of which an index and the number of a part are told."""
        made, wrong = signed_files.signed_text(text, file)
        return self.same_built(SIGNED, (text, len(text), *file.words()), made, wrong, *what)

    def same_parts(self, those, chance, *what):
        return self.same_signed(*laid_out(chance, those), *what)

    def same_signers(self, signers, chance, *what):
        """The same of signers of data that isn't in the file."""
        return self.same_parts(Parts(NO_CONTENT, signers=signers), chance, *what)


# By hand


class TestAttributesByHand(OfSigned):
    """Attributes that are known octet by octet."""

    def test_attributes_are_those_that_are_made_by_hand(self):
        chance, found = random.Random(1), list(attributes_by_hand())
        for its, wanted in found:
            self.same(self.same_set(its, chance), set_of(*wanted), "by hand", its)
        self.at_least(len(found), 50, "sets")

    def test_times_are_utc_time_in_the_years_1950_to_2049(self):
        """Otherwise they are GeneralizedTime (RFC 5652, 11.3)."""
        chance = random.Random(2)
        for year in (*range(10), 99, 100, 999, 1000, *range(1900, 2101), 9998, 9999):
            time = b"%04d0102030405Z" % year
            value = element(0x17, time[2:]) if year in range(1950, 2050) else element(0x18, time)
            said = self.same_set(plain(signing_time=time), chance)
            self.same(said, set_of(attribute("signingTime", value)), "in the year", year)
        for time in TIMES:
            self.same(type(self.same_set(plain(signing_time=time), chance)), bytes, "written", time)

    def test_a_day_is_one_that_the_calendar_has(self):
        """As Python has it."""
        chance = random.Random(3)
        for year, month, day in itertools.product((1900, 1999, 2000, 2023, 2024, 2100), range(14), range(33)):
            said = self.same_set(plain(signing_time=b"%04d%02d%02d235959Z" % (year, month, day)), chance)
            try:
                datetime.date(year, month, day)
            except ValueError:
                self.same(said, (AttributesPart.SIGNING_TIME.value,), "no day", year, month, day)
            else:
                self.same(type(said), bytes, "a day", year, month, day)

    def test_attributes_of_the_three_types_among_further_ones_are_not_written(self):
        chance, those = random.Random(4), list(not_written())
        for it in those:
            for further in ([it], [it, it], [FURTHER[0], it], [it, FURTHER[0]]):
                wanted = [attribute for attribute in further if attribute != it]
                said = self.same_set(plain(attributes=set_of(*further)), chance)
                self.same(said, set_of(*wanted), "without", it)
                said = self.same_set(plain(**OF_DATA, attributes=set_of(*further)), chance)
                self.same(said, set_of(*wanted, DIGEST, TYPE, TIME), "with others than", it)
        self.same(self.same_set(plain(attributes=set_of(*those)), chance), set_of(), "without any")


# The version of signed data (RFC 5652, 5.1) by the tags of certificates and of revocation lists: where all signers are
# of version 1 and the content is data; and where one is of version 3, or the content is of another type.
VERSIONS = (
    ((), (), 1, 3), ((0x30,), (), 1, 3), ((0xA0,), (), 1, 3), ((), (0x30,), 1, 3), ((0x30, 0xA0), (0x30, 0x30), 1, 3),
    ((0xA1,), (), 3, 3), ((0x30, 0xA1), (), 3, 3), ((0xA1, 0xA0), (0x30,), 3, 3),
    ((0xA2,), (), 4, 4), ((0xA1, 0xA2), (), 4, 4), ((0xA2, 0x30, 0xA1), (), 4, 4), ((0xA2,), (0x30,), 4, 4),
    ((0xA3,), (), 5, 5), ((0xA1, 0xA2, 0xA3), (), 5, 5), ((0xA3, 0x30), (0x30,), 5, 5), ((), (0xA1,), 5, 5),
    ((0x30,), (0xA1, 0x30), 5, 5), ((0xA1,), (0xA1,), 5, 5), ((0xA2,), (0x30, 0xA1), 5, 5), ((0xA3,), (0xA1,), 5, 5),
)


def subsets(items):
    """All lists of some of the items."""
    return itertools.chain.from_iterable(itertools.combinations(items, count) for count in range(len(items) + 1))


class TestSignedByHand(OfSigned):
    """Signed data that are known octet by octet, and what RFC 5652 says of all."""

    def test_versions_are_those_of_rfc_5652(self):
        """Content of PKCS #7, an element that is no OCTET STRING, doesn't raise them by its type (RFC 2315, 9.1)."""
        chance, of_data, of_other = random.Random(11), by_certificate(), by_certificate(attributes=OF_OTHER)
        of_pkcs7 = element_of(sequence(), OTHER_TYPE)
        cases = [(NO_CONTENT, [], 2), (NO_CONTENT, [of_data], 2), (octets_of(b"text"), [of_data], 2)]
        cases += [(element_of(sequence()), [of_data], 2), (of_pkcs7, [of_other, of_other], 2)]
        cases += [(NO_CONTENT, [of_data, by_key()], 3), (of_pkcs7, [of_other, by_key(attributes=OF_OTHER)], 3)]
        cases += [(it, [of_other], 3) for it in (
            NO_CONTENT_OF_OTHER, octets_of(b"text", OTHER_TYPE), element_of(octet_string(b"text"), OTHER_TYPE))]
        for row, (content, signers, column) in itertools.product(VERSIONS, cases):
            lists = [[element(tag) for tag in tags] for tags in row[:2]]
            text = self.same_parts(Parts(content, *lists, signers), chance, row)
            self.same(version_in(text), row[column], "the version of", row, content, "signers", len(signers))

    def test_versions_with_all_choices_are_those_of_the_other_writer(self):
        chance, found = random.Random(12), set()
        for those in itertools.product(subsets(CHOICES), subsets(LISTS)):
            lists = [list(map(element, tags)) for tags in those]
            for content, signers in (
                (NO_CONTENT, []), (NO_CONTENT, [by_certificate()]), (NO_CONTENT, [by_key()]),
                (NO_CONTENT_OF_OTHER, [by_certificate(attributes=OF_OTHER)]),
            ):
                found.add(version_in(self.same_parts(Parts(content, *lists, signers), chance)))
        self.same(found, {1, 3, 4, 5}, "versions")

    def test_a_signer_is_of_version_1_by_its_certificate_and_of_3_by_its_key(self):
        chance = random.Random(13)
        wanted = whole(1, signer_info(1, ISSUER_AND_SERIAL))
        self.same(self.same_signers([by_certificate()], chance), wanted, "by its certificate")
        for identifier in (b"key", b"", bytes(300)):
            wanted = whole(3, signer_info(3, element(0x80, identifier)))
            self.same(self.same_signers([by_key(identifier)], chance), wanted, "by the key identifier", identifier)

    def test_issuers_and_serial_numbers_are_those_of_certificates(self):
        """Names stay as they are, also where DER has another order. Serial numbers may be negative, and long."""
        chance = random.Random(14)
        pairs = [sequence(oid("commonName"), element(0x0C, it)) for it in (b"b", b"a", b"b")]
        numbers = b"\0", b"\1", b"\x7F", b"\0\x80", b"\x80", b"\xFF", b"\x7F" + bytes(19), b"\1" + bytes(200)
        for issuer in (sequence(), sequence(set_of()), NAME, sequence(set_of(*pairs)), sequence(*map(set_of, pairs))):
            for serial in (element(0x02, it) for it in numbers):
                for version in (b"", *(explicit(0, integer(number)) for number in range(3))):
                    certificate = given_signed.certificate_of(issuer, serial, version, explicit(3, NULL))
                    text = self.same_signers([by_certificate(certificate)], chance)
                    self.same(text, whole(1, signer_info(1, sequence(issuer, serial))), "named by", certificate)

    def test_sets_are_in_the_order_of_der_and_keep_what_is_given_twice(self):
        chance = random.Random(15)
        its = [sequence(), sequence(NULL), sequence(NULL), sequence(integer(5)), element(0xA1)]
        wanted = whole(5, algorithms=(), lists=[explicit(0, *its), explicit(1, *its)])
        for those in itertools.permutations(its):
            text = self.same_parts(Parts(NO_CONTENT, list(those), list(those)), chance)
            self.same(text, wanted, "in order", those)
        wanted = whole(3, *(signer_info(3, element(0x80, it)) for it in (b"a", b"b", b"b", b"aa")))
        for those in itertools.permutations((b"aa", b"b", b"a", b"b")):
            self.same(self.same_signers(list(map(by_key, those)), chance), wanted, "signers in order", those)

    def test_digest_algorithms_are_in_order_and_each_once(self):
        """Those with NULL and without parameters are two. Signature algorithms aren't among them."""
        chance = random.Random(16)
        bare, null, other = sequence(oid("SHA-256")), sequence(oid("SHA-256"), NULL), sequence(oid("SHA-512"))
        for those in itertools.product((bare, null, other), repeat=3):
            text = self.same_signers([by_key(digest_algorithm=it) for it in those], chance)
            wanted = [it for it in (bare, other, null) if it in those]
            self.same(parts(part(text, 1, 0, 1)), wanted, "digest algorithms of", those)

    def test_attributes_of_a_signer_stay_in_their_order(self):
        """Also their values, and attributes that are there twice."""
        chance = random.Random(17)
        values = attribute("1.2.3", integer(9), integer(5), NULL, integer(9))
        for those in itertools.permutations([DIGEST, TYPE, TIME, values]):
            further = [LONG, *those, values]
            text = self.same_signers([by_certificate(attributes=set_of(*those), **unsigned(*further))], chance)
            wanted = signer_info(1, ISSUER_AND_SERIAL, explicit(0, *those), explicit(1, *further))
            self.same(text, whole(1, wanted), "in the order given", those)

    def test_signed_attributes_that_rfc_5652_allows_are_written(self):
        """With times of each form, and with further ones, also twice."""
        chance, times = random.Random(18), [attribute("signingTime", given_signed.signing_time(it)) for it in TIMES]
        rights = [[TYPE, DIGEST], [DIGEST, TYPE], [TYPE, attribute("messageDigest", octet_string(b""))]]
        rights += [[TYPE, DIGEST, it] for it in (*times, attribute("1.2.3"))] + [[TYPE, LONG, DIGEST, LONG]]
        for those in rights:
            text = self.same_signers([by_certificate(attributes=set_of(*those))], chance)
            self.same(text, whole(1, signer_info(1, ISSUER_AND_SERIAL, explicit(0, *those))), "allowed", those)

    def test_unsigned_attributes_are_of_any_types(self):
        chance = random.Random(19)
        for those in ([TYPE], [DIGEST, DIGEST], [TIME, TIME], [attribute("signingTime")], [attribute("1.2.3")]):
            text = self.same_signers([by_certificate(**unsigned(*those))], chance)
            wanted = signer_info(1, ISSUER_AND_SERIAL, unsigned_attributes=explicit(1, *those))
            self.same(text, whole(1, wanted), "unsigned", those)

    def test_content_is_octets_or_an_element(self):
        chance, string = random.Random(20), octet_string(b"text")
        deep = functools.reduce(lambda its, _: sequence(its), range(200), NULL)
        for content, wanted in (
            (octets_of(b""), octet_string(b"")), (octets_of(b"text"), string), (octets_of(NULL), octet_string(NULL)),
            *((element_of(it), it) for it in (string, NULL, sequence(), deep, element(0x24, string), explicit(0))),
        ):
            for content_type, attributes in ((DATA, None), (OTHER_TYPE, OF_OTHER)):
                signers = [by_certificate(attributes=attributes)]
                text = self.same_parts(Parts({**content, "content_type": content_type}, signers=signers), chance)
                info = sequence(element(0x06, content_type), explicit(0, wanted))
                version = 3 if content_type != DATA and wanted[0] == 0x04 else 1
                signed = explicit(0, *parts(attributes)) if attributes else b""
                wanted_text = whole(version, signer_info(1, ISSUER_AND_SERIAL, signed), info=info)
                self.same(text, wanted_text, "content", content, content_type)

    def test_certificates_and_lists_alone_need_no_signers(self):
        """Nor does nothing at all."""
        chance, one, list_of_one = random.Random(21), sequence(NULL), sequence(integer(1))
        for certificates, crls in itertools.product(([], [one]), ([], [list_of_one])):
            lists = [explicit(number, *those) for number, those in enumerate((certificates, crls)) if those]
            text = self.same_parts(Parts(NO_CONTENT, certificates, crls), chance)
            self.same(text, whole(1, algorithms=(), lists=lists), "without signers", certificates, crls)

    def test_what_certificates_and_lists_hold_is_not_looked_at(self):
        chance, held = random.Random(22), (b"", b"\0", b"\x30\x80", b"\x30\x05", NULL, bytes(300))
        for tag, octets_in_it in itertools.product(CHOICES, held):
            its = element(tag, octets_in_it)
            text = self.same_parts(Parts(NO_CONTENT, [its], [its] if tag in LISTS else []), chance)
            self.same(part(text, 1, 0, 3), explicit(0, its), "a certificate", its)
            if tag in LISTS:
                self.same(part(text, 1, 0, 4), explicit(1, its), "a list", its)

    def test_many_signers_certificates_and_lists_are_written(self):
        chance = random.Random(23)
        algorithms = [sequence(oid(f"1.2.{number % 200}")) for number in range(MANY)]
        signers = [by_key(chance.randbytes(4), digest_algorithm=it) for it in algorithms]
        lists = [sequence(octet_string(chance.randbytes(3))) for _ in range(MANY)]
        those = Parts(NO_CONTENT, lists, lists[::-1], signers)
        text = self.same_parts(those, chance, "many")
        self.same(len(built.library().signers(text)), MANY, "signers that are listed")
        self.same(parts(part(text, 1, 0, 1)), sorted(set(algorithms)), "digest algorithms")
        for index in (3, 4):
            self.same(parts(part(text, 1, 0, index)), sorted(lists), "certificates, or lists")
        those.signers[-1] = {**signers[-1], "signature_algorithm": NULL}
        said = self.same_parts(those, chance, "the last of them")
        self.same(said, (MANY - 1, SignedPart.SIGNATURE_ALGORITHM.value), "what is told of the last")


# Made-up parts


class TestMadeUp(OfSigned):
    """Made-up parts."""

    def test_attributes_are_written_as_they_are_given_and_read_back(self):
        chance, count = random.Random(31), 0
        for its in (it for _ in range(4 * ROUNDS) for it in given_signed.attribute_sets(chance)):
            found = parts(self.same_set(its, chance))
            self.same(found, attributes_of(its), "attributes", its)
            count += bool(found)
        self.at_least(count, 100, "sets of attributes that aren't empty")

    def test_signed_data_are_written_as_they_are_given_and_read_back(self):
        """By the other reader and by der_signer_rows."""
        chance, counts = random.Random(32), {0: 0, 1: 0}
        for _ in range(60 * ROUNDS):
            those = given_signed.some_parts(chance)
            text = self.same_parts(those, chance, those)
            self.same(read_as(signed_files.taken_apart(text)), as_read(those), "read", those)
            self.same(refusal("contentinfo", text), None, "as a kind", those)
            rows = built.library().signers(text)
            found = sorted((bytes(it.digest_algorithm), bytes(it.signature)) for it in rows)
            wanted = sorted((it["digest_algorithm"], it["signature"]) for it in those.signers)
            self.same(found, wanted, "signers that are listed", those)
            for its in those.signers:
                counts[its["has_key_identifier"]] += 1
        for form, count in counts.items():
            self.at_least(count, 50, f"signers with has_key_identifier {form}")

    def test_octets_of_any_length_are_written(self):
        """Of a part and of all around it, on both sides of each length that takes an octet more."""
        chance = random.Random(33)
        for size in (*range(0, 270), *range(65536 - 90, 65536 + 2), 70000):
            long, its = attribute("1.2.3", octet_string(bytes(size))), bytes(size)
            self.same_set(plain(attributes=set_of(long)), chance, size)
            self.same_set(plain(message_digest=its), chance, size)
            for those in (
                Parts(octets_of(its), signers=[by_certificate()]), Parts(NO_CONTENT, signers=[by_key(its)]),
                Parts(NO_CONTENT, signers=[by_certificate(signature=its, **unsigned(long))]),
                Parts(NO_CONTENT, [element(0x30, its)], [element(0xA1, its)]),
            ):
                self.same_parts(those, chance, size)

    def test_what_is_not_looked_at_in_attributes_may_be_anything(self):
        chance, names = random.Random(34), signed_files.Attributes()._asdict()
        for its in (it for _ in range(ROUNDS) for it in given_signed.attribute_sets(chance)):
            text, fields = given.laid_out(chance, its)
            wanted = self.same_attributes(text, signed_files.Attributes(**fields), its)
            for among in ([1], [2**64 - 1], *4 * [ANYTHING]):
                row = signed_files.Attributes(**beside(chance, names, fields, among))
                self.same(self.same_attributes(text, row, row), wanted, "beside anything", row)

    def test_what_is_not_looked_at_in_signed_data_may_be_anything(self):
        """Content that isn't there, and whether it is an element; the certificate of a signer that is named by its key,
        and the key of one that is named by its certificate; and attributes that aren't there."""
        chance = random.Random(35)
        of_content, of_signer = signed_files.Content()._asdict(), signed_files.Signer()._asdict()
        for _ in range(20 * ROUNDS):
            those = given_signed.some_parts(chance)
            text, (content, *lists, signers) = given_signed.laid_out(chance, those)
            wanted = self.same_signed(text, signed_files.File.of(content, *lists, signers), those)
            for among in ([1], [2**64 - 1], *2 * [ANYTHING]):
                others = [beside(chance, of_signer, it, among) for it in signers]
                file = signed_files.File.of(beside(chance, of_content, content, among), *lists, others)
                self.same(self.same_signed(text, file, file), wanted, "beside anything", file)

    def test_parts_may_be_in_one_another_and_several_be_the_same_octets(self):
        text = set_of(TYPE, DIGEST, attribute("1.2.3", CERTIFICATE, SHORT))
        certificate, algorithm, data, all_of_it = ((text.index(it), len(it)) for it in (CERTIFICATE, SHORT, DATA, text))
        signer = signed_files.Signer(
            0, 1, 1, certificate=certificate, key_identifier=data, digest_algorithm=algorithm,
            signed_attributes=all_of_it, signature_algorithm=algorithm, signature=all_of_it,
            unsigned_attributes=all_of_it,
        )
        content = signed_files.Content(1, 0, content_type=data, content=all_of_it)
        signers = signer, signer._replace(has_key_identifier=1), signer
        file = signed_files.File(content, 3 * (certificate,), (certificate, algorithm), signers)
        taken = signed_files.taken_apart(self.same_signed(text, file, "of the same octets"))
        self.same((taken.certificates, taken.crls), (3 * [CERTIFICATE], [SHORT, CERTIFICATE]), "lists")
        # a signer with a key identifier is shorter
        self.same([it.key_identifier for it in taken.signers], [DATA, None, None], "signers")
        self.same({(it.signature, it.unsigned_attributes) for it in taken.signers}, {(text, text)}, "signatures")

    def test_empty_parts_may_be_anywhere_up_to_the_end(self):
        chance = random.Random(36)
        those = Parts(octets_of(b""), signers=[by_key(b"", signature=b"")])
        text, file = laid_out(chance, those)
        wanted = self.same_signed(text, file, those)
        for at in (0, 1, len(text) - 1, len(text)):
            signer = file.signers[0]._replace(signature=(at, 0), key_identifier=(at, 0))
            others = signed_files.File(file.content._replace(content=(at, 0)), signers=[signer])
            self.same(self.same_signed(text, others, at), wanted, "empty parts at", at)
        for at in (0, 1, 2):
            row = signed_files.Attributes(has_message_digest=1, message_digest=(at, 0))
            said = self.same_attributes(b"ab", row, at)
            self.same(said, set_of(attribute("messageDigest", octet_string(b""))), "an empty digest at", at)

    def test_changed_attributes_are_written_or_told_as_by_the_other_writer(self):
        chance, counts = random.Random(37), dict.fromkeys(("built", *(it.value for it in AttributesPart)), 0)
        for its in (it for _ in range(ROUNDS) for it in given_signed.attribute_sets(chance)):
            text, fields = given.laid_out(chance, its)
            for _ in range(40):
                row = signed_files.Attributes(**changed(chance, fields, len(text)))
                its_text = inputs.changed(chance, text) if text and chance.random() < 0.2 else text
                said = self.same_attributes(its_text, row, its)
                counts["built" if isinstance(said, bytes) else said[0]] += 1
        for kind, count in counts.items():
            self.at_least(count, 10, f"{kind!r}, of what is built or of the numbers of parts")

    def test_changed_signed_data_are_written_or_told_as_by_the_other_writer(self):
        chance, counts = random.Random(38), dict.fromkeys(("built", *(it.value for it in SignedPart)), 0)
        for _ in range(40 * ROUNDS):
            text, fields = given_signed.laid_out(chance, given_signed.some_parts(chance))
            for _ in range(20):
                file = signed_files.File.of(*changed_fields(chance, fields, len(text)))
                its_text = inputs.changed(chance, text) if chance.random() < 0.3 else text
                said = self.same_signed(its_text, file)
                counts["built" if isinstance(said, bytes) else said[1]] += 1
        for kind, count in counts.items():
            self.at_least(count, 5, f"{kind!r}, of what is built or of the numbers of parts")


def changed_fields(chance, fields, size):
    """The fields of signed data over an input of a size, in one of which, or one item of a list, some are changed."""
    found = list(fields)
    place = chance.choice([place for place, those in enumerate(found) if those])
    if place == 0:
        found[0] = changed(chance, found[0], size)
        return found
    found[place] = list(found[place])
    index = chance.randrange(len(found[place]))
    its = found[place][index]
    is_range = isinstance(its, tuple)
    its = changed(chance, {"range": its} if is_range else its, size)
    found[place][index] = its["range"] if is_range else its
    return found


# Parts that are wrong


class TestRefused(OfSigned):
    """Parts one of which is wrong, or several."""

    def told(self, call, words, places, *what):
        """Asks that places are told, and nothing is written, whether there is room or not."""
        for room in (0, ROOM, 4096):
            said = in_room(call, words, room, 1 + len(places))
            self.same(said, (INVALID, 0, *places, marked(b"", room)), call, *what, "in room for", room)

    def told_of_attributes(self, name, text, row, *what):
        number = AttributesPart[name.upper()].value
        self.told(ATTRIBUTES, (text, len(text), row.numbers()), (number,), name, *what)
        self.same(signed_files.attributes_text(text, row)[1], [number], "the other writer", name, *what)

    def told_of_signed(self, index, name, text, file, *what):
        """The same of signed data: an index, and a part by its name."""
        places = index, SignedPart[name.upper()].value
        self.told(SIGNED, (text, len(text), *file.words()), places, name, *what)
        self.same(signed_files.signed_text(text, file)[1], [places], "the other writer", name, *what)

    def told_of_parts(self, index, name, those, chance, *what):
        self.told_of_signed(index, name, *laid_out(chance, those), *what)

    def test_each_part_of_attributes_that_is_wrong_is_told(self):
        chance, names = random.Random(41), set()
        for its in given_signed.attribute_sets(chance):
            for name, broken in given_signed.broken_attributes(its):
                text, fields = given.laid_out(chance, broken)
                self.told_of_attributes(name, text, signed_files.Attributes(**fields), broken)
                names.add(name)
        self.same(names, {"content_type", "signing_time", "attributes"}, "parts that were broken")

    def test_a_range_of_attributes_that_is_not_in_the_input_is_told(self):
        chance, names = random.Random(42), set()
        for its in given_signed.attribute_sets(chance):
            text, fields = given.laid_out(chance, its)
            for name in (it for it in RANGES_OF_ATTRIBUTES if it in its):
                for wrong in given.wrong_ranges(text, fields[name]):
                    self.told_of_attributes(name, text, signed_files.Attributes(**{**fields, name: wrong}), wrong)
                names.add(name)
        self.same(names, set(RANGES_OF_ATTRIBUTES), "parts that are ranges")

    def test_of_several_parts_of_attributes_one_is_told(self):
        for names in (it for it in subsets(RANGES_OF_ATTRIBUTES) if len(it) > 1):
            said = self.same_attributes(b"", signed_files.Attributes(**plain(**dict.fromkeys(names, (1, 1)))), names)
            self.same(said[0] in [AttributesPart[name.upper()].value for name in names], True, "one of", names)

    def test_each_part_of_a_signer_that_is_wrong_is_told_with_its_index(self):
        chance, names = random.Random(43), set()
        for content_type in (DATA, OTHER_TYPE):
            right = [given_signed.some_signer(chance, content_type) for _ in range(4)]
            its = given_signed.some_signer(chance, content_type)
            content = given_signed.some_content(chance, content_type)
            for name, broken in given_signed.broken_signers(its, content_type):
                before, after = (chance.sample(right, chance.randrange(3)) for _ in range(2))
                those = Parts(content, signers=[*before, broken, *after])
                self.told_of_parts(len(before), name, those, chance, broken)
                names.add(name)
        wanted = {"identifier", "digest_algorithm", "signed_attributes", "signature_algorithm", "unsigned_attributes"}
        self.same(names, wanted, "parts that were broken")

    def test_signed_attributes_that_rfc_5652_forbids_are_told(self):
        """Each with right ones before and after it, also where there are further ones."""
        chance, count = random.Random(44), 0
        for content_type in (DATA, OTHER_TYPE, octets("TSTInfo")):
            content = {"content_type": content_type, "has_content": 0}
            right = by_certificate(attributes=set_of(*given_signed.right_attributes(content_type)))
            for what, those in given_signed.wrong_signed(content_type):
                for further in ([], [LONG]):
                    wrong = by_key(attributes=set_of(*those, *further))
                    signers = Parts(content, signers=[right, wrong, right])
                    self.told_of_parts(1, "signed_attributes", signers, chance, what)
                    count += 1
        self.at_least(count, 200, "sets of attributes")

    def test_signed_attributes_have_to_be_there_unless_the_content_is_data(self):
        chance = random.Random(45)
        for content_type in (OTHER_TYPE, octets("TSTInfo"), DATA + b"\1", DATA[:-1], DATA[:-1] + b"\2"):
            right = by_certificate(attributes=set_of(*given_signed.right_attributes(content_type)))
            for content in (NO_CONTENT, octets_of(b"text"), element_of(NULL)):
                for signers in ([by_certificate()], [right, by_key(), right]):
                    those = Parts({**content, "content_type": content_type}, signers=signers)
                    self.told_of_parts(len(signers) // 2, "signed_attributes", those, chance, content_type)

    def test_a_content_and_a_type_that_are_wrong_are_told(self):
        """With signers, and without them, where there is no content, and its type is id-data (RFC 5652, 5.2)."""
        chance, counts = random.Random(46), {}
        for content_type, has_signers in ((DATA, False), (DATA, True), (OTHER_TYPE, True)):
            signers = [given_signed.some_signer(chance, content_type)] if has_signers else []
            its = {"content_type": content_type, "has_content": 0}
            for name, broken in given_signed.broken_contents(its, has_signers):
                self.told_of_parts(0, name, Parts(broken, [sequence()], [], signers), chance, broken)
                counts[name, has_signers] = counts.get((name, has_signers), 0) + 1
        self.same(len(counts), 4, "what was broken")
        self.at_least(min(counts.values()), len(NO_IDENTIFIERS), "contents and types")

    def test_a_certificate_and_a_list_that_are_wrong_are_told(self):
        chance, right = random.Random(47), [sequence(), sequence(NULL), element(0xA1, NULL)]
        for field, name, tags in (("certificates", "certificate", CHOICES), ("crls", "crl", LISTS)):
            for wrong in given_signed.wrong_choices(tags):
                before, after = (chance.sample(right, chance.randrange(3)) for _ in range(2))
                for signers in ([], [by_certificate()]):
                    those = Parts(NO_CONTENT, right, right, signers)._replace(**{field: [*before, wrong, *after]})
                    self.told_of_parts(len(before), name, those, chance, wrong)

    def test_each_tag_is_that_of_a_choice_or_told(self):
        chance = random.Random(48)
        for tag in (it for it in range(256) if it % 32 != 31):
            for field, name, tags in (("certificates", "certificate", CHOICES), ("crls", "crl", LISTS)):
                those = Parts(NO_CONTENT)._replace(**{field: [element(tag)]})
                if tag in tags:
                    self.same(type(self.same_parts(those, chance, tag)), bytes, "written", name, tag)
                else:
                    self.told_of_parts(0, name, those, chance, tag)

    def test_a_range_of_signed_data_that_is_not_in_the_input_is_told(self):
        chance, names = random.Random(49), set()
        for _ in range(8):
            text, fields = given_signed.laid_out(chance, given_signed.some_parts(chance))
            for index, name, place, with_another in ranges_of(fields):
                for wrong in given.wrong_ranges(text, place):
                    file = signed_files.File.of(*with_another(fields, wrong))
                    self.told_of_signed(index, name, text, file, wrong)
                names.add(name)
        self.same(names, set(signed_files.OF_SIGNED), "parts that are ranges")

    def test_of_several_parts_of_signed_data_one_is_told(self):
        """Of each two ranges of which none is in the input."""
        chance, count = random.Random(50), 0
        signers = [by_certificate(attributes=set_of(TYPE, DIGEST), **unsigned(LONG)), by_key()]
        text, fields = given_signed.laid_out(chance, Parts(octets_of(b"text"), 2 * [SHORT], [SHORT], signers))
        for one, other in itertools.combinations(ranges_of(fields), 2):
            those = functools.reduce(lambda those, it: it[3](those, (len(text), 1)), (one, other), fields)
            said = self.same_signed(text, signed_files.File.of(*those), one, other)
            wanted = [(index, SignedPart[name.upper()].value) for index, name, *_ in (one, other)]
            self.same(said in wanted, True, "one of", wanted)
            count += 1
        self.at_least(count, 100, "pairs")

    def test_nothing_is_found_in_an_empty_input(self):
        """But octets of which there may be none."""
        for name in ("content_type", "signing_time", "attributes"):
            self.told_of_attributes(name, b"", signed_files.Attributes(**{f"has_{name}": 1}), "of nothing")
        said = self.same_attributes(b"", signed_files.Attributes(has_message_digest=1), "of nothing")
        self.same(said, set_of(attribute("messageDigest", octet_string(b""))), "an empty digest")
        nothing, empty = signed_files.Content(), (0, 0)
        self.told_of_signed(0, "content_type", b"", signed_files.File(nothing), "of nothing")
        content = nothing._replace(content_type=(0, len(DATA)))
        for field, name in (("certificates", "certificate"), ("crls", "crl")):
            file = signed_files.File(content)._replace(**{field: [empty]})
            self.told_of_signed(0, name, DATA, file, "of nothing")
        text, algorithm = DATA + SHORT, (len(DATA), len(SHORT))
        signer = signed_files.Signer(digest_algorithm=algorithm, signature_algorithm=algorithm)
        self.told_of_signed(0, "identifier", text, signed_files.File(content, signers=[signer]), "of nothing")
        by_no_key = signer._replace(has_key_identifier=1)
        for name in ("digest_algorithm", "signature_algorithm"):
            file = signed_files.File(content, signers=[by_no_key._replace(**{name: empty})])
            self.told_of_signed(0, name, text, file, "of nothing")
        for name in ("signed_attributes", "unsigned_attributes"):
            file = signed_files.File(content, signers=[by_no_key._replace(**{f"has_{name}": 1})])
            self.told_of_signed(0, name, text, file, "of nothing")


def ranges_of(fields):
    """Of each range in the fields of signed data its index, the name of its part in der.h, the range, and what puts
    another range into such fields."""
    content, certificates, crls, signers = fields
    names = [name for name in given_signed.RANGES_OF_CONTENT if name in content]
    yield from ((0, name, content[name], in_place(0, name)) for name in names)
    for number, (name, ranges) in enumerate((("certificate", certificates), ("crl", crls)), 1):
        yield from ((index, name, place, in_place(number, index)) for index, place in enumerate(ranges))
    for index, its in enumerate(signers):
        for name in (it for it in its if isinstance(its[it], tuple) and is_looked_at(its, it)):
            part_name = "identifier" if name in NAMES_OF_SIGNER else name
            yield index, part_name, its[name], in_place(3, index, name)


def is_looked_at(its, name):
    """Whether a range of a signer is one that its flags name."""
    if name in NAMES_OF_SIGNER:
        return name == NAMES_OF_SIGNER[its["has_key_identifier"] != 0]
    return its.get(f"has_{name}", 1) != 0


def in_place(*places):
    """What puts something in the place of what these indices and names lead to."""
    def put(those, it, *rest):
        place, *rest = rest
        found = dict(those) if isinstance(those, dict) else list(those)
        found[place] = put(found[place], it, *rest) if rest else it
        return found

    return lambda those, it: put(those, it, *places)


class TestRooms(OfSigned):
    """Rooms of many sizes."""

    def in_each_room(self, call, words, wanted, places, *what):
        """Asks that octets are written where they have room, and nothing beyond them. Without any room the call says
        how much it needs."""
        size, zeros = len(wanted), places * [0]
        for room in (0, 1, size // 2, size - 1, size, size + 1, size + 200):
            fits = room >= size
            answer = NORMAL if fits else NO_ROOM, size, *zeros, marked(wanted if fits else b"", room)
            self.same(in_room(call, words, room, 1 + places), answer, call, *what, "in room for", room)

    def test_attributes_are_written_where_they_have_room_and_nothing_beyond_them(self):
        chance = random.Random(51)
        for its in given_signed.attribute_sets(chance):
            text, fields = given.laid_out(chance, its)
            row = signed_files.Attributes(**fields)
            wanted = self.same_attributes(text, row, its)
            self.in_each_room(ATTRIBUTES, (text, len(text), row.numbers()), wanted, 1, its)

    def test_signed_data_are_written_where_they_have_room_and_nothing_beyond_them(self):
        chance = random.Random(52)
        for _ in range(20 * ROUNDS):
            those = given_signed.some_parts(chance)
            text, file = laid_out(chance, those)
            wanted = self.same_signed(text, file, those)
            self.in_each_room(SIGNED, (text, len(text), *file.words()), wanted, 2, those)

    def test_what_was_built_before_is_built_again(self):
        """A call leaves nothing behind: refused, in too little room, and built, in any order."""
        chance = random.Random(53)
        text, fields = given_signed.laid_out(chance, Parts(NO_CONTENT, [SHORT], [], [by_certificate(), by_key()]))
        wrong = in_place(3, 1, "signature")(fields, (len(text), 1))
        for _ in range(3):
            self.same(type(self.same_signed(text, signed_files.File.of(*fields))), bytes, "written")
            said = self.same_signed(text, signed_files.File.of(*wrong))
            self.same(said, (1, SignedPart.SIGNATURE.value), "with one that is wrong")


# Python

# Times as Python reads them, each with the value of signingTime that RFC 5652, 11.3, asks for, in UTC and in whole
# seconds: on both sides of the years of UTCTime; years of few digits, and the last one; and times that in UTC are of
# another day, also of a year that is written otherwise.
TIMES_IN_PYTHON = (
    ("1949-12-31T23:59:59.999999+00:00", 0x18, b"19491231235959Z"),
    ("1950-01-01T00:00:00+00:00", 0x17, b"500101000000Z"),
    ("2049-12-31T23:59:59.999999+00:00", 0x17, b"491231235959Z"),
    ("2050-01-01T00:00:00+00:00", 0x18, b"20500101000000Z"),
    ("0001-01-01T00:00:00+00:00", 0x18, b"00010101000000Z"),
    ("0001-01-01T00:00:00-23:59", 0x18, b"00010101235900Z"),
    ("0999-06-30T12:34:56.000001+00:00", 0x18, b"09990630123456Z"),
    ("9999-12-31T23:59:59.999999+00:00", 0x18, b"99991231235959Z"),
    ("9999-12-31T23:59:59+14:00", 0x18, b"99991231095959Z"),
    ("1950-01-01T00:30:00+01:00", 0x18, b"19491231233000Z"),
    ("1949-12-31T23:30:00-01:00", 0x17, b"500101003000Z"),
    ("2050-01-01T00:30:00+01:00", 0x17, b"491231233000Z"),
    ("2049-12-31T23:30:00-01:00", 0x18, b"20500101003000Z"),
    ("2024-03-01T00:15:00+05:45", 0x17, b"240229183000Z"),
    ("2023-02-28T23:59:59-00:01", 0x17, b"230301000059Z"),
    ("2026-11-30T00:00:01.250000+00:00:01.500000", 0x17, b"261129235959Z"),
)
# Times that in UTC are before the year 1, or after the year 9999.
TIMES_IN_NO_YEAR = (
    "0001-01-01T00:00:00+00:01", "0001-01-01T00:00:00.999999+00:00:01", "0001-01-01T22:59:59.999999+23:00",
    "9999-12-31T23:59:00-00:01", "9999-12-31T23:59:59-00:00:01", "9999-12-31T01:00:00-23:00",
)
# What is no list of attributes: octets of several of them, of one, or text.
NO_LISTS = set_of(*FURTHER), LONG, bytearray(LONG), memoryview(LONG), "1.2.3"


class NoZone(datetime.tzinfo):
    """A time zone without an offset, as that of a time that isn't aware."""

    def utcoffset(self, dt):
        return None


class TestPython(OfSigned):
    """What Python builds, and what it says of what can't be written."""

    def test_attributes_are_written_as_they_are_given(self):
        chance, call, count = random.Random(61), built.library().build_attributes, 0
        for its in (it for _ in range(ROUNDS) for it in given_signed.attribute_sets(chance)):
            # Python has no year 0
            if not its.get("signing_time", b"").startswith(b"0000"):
                text, named = self.same_set(its, chance), attributes_in_python(its)
                self.same(made_in_python(call, **named), text, "in Python", its)
                self.same(made_in_python(call, *map(named.get, RANGES_OF_ATTRIBUTES)), text, "in their order", its)
                others = {name: otherwise(it) for name, it in named.items()}
                others["attributes"] = list(others["attributes"])
                self.same(made_in_python(call, **others), text, "of other octets", its)
                count += 1
        self.at_least(count, 40, "sets")
        self.same(call(), set_of(), "no attributes")

    def test_times_are_written_in_utc_and_in_whole_seconds(self):
        call = built.library().build_attributes
        for hours, minutes in ((0, 0), (1, 0), (-1, 0), (5, 30), (-9, -30), (14, 0), (23, 59), (-23, -59)):
            zone = datetime.timezone(datetime.timedelta(hours=hours, minutes=minutes))
            for time in (it for it in TIMES if b"0002" < it < b"9999"):
                its = time_in_python(time).astimezone(zone).replace(microsecond=999_999)
                wanted = set_of(attribute("signingTime", given_signed.signing_time(time)))
                self.same(call(signing_time=its), wanted, "in the zone", zone, time)
        for text, tag, wanted in TIMES_IN_PYTHON:
            made = call(signing_time=datetime.datetime.fromisoformat(text))
            self.same(made, set_of(attribute("signingTime", element(tag, wanted))), "written of", text)

    def test_a_time_that_has_no_zone_or_in_utc_no_year_is_not_written(self):
        call = built.library().build_attributes
        for text in TIMES_IN_NO_YEAR:
            said = made_in_python(call, DATA, b"digest", datetime.datetime.fromisoformat(text))
            self.same(said, AttributesPart.SIGNING_TIME, "in UTC in no year", text)
        its = datetime.datetime(2026, 11, 30, 14, 45, 4)
        for time in (its, datetime.datetime.min, datetime.datetime.max, its.replace(tzinfo=NoZone())):
            with self.assertRaises(ValueError) as raised:
                call(DATA, b"digest", time)
            self.same(type(raised.exception), ValueError, "without a zone", time)

    def test_a_part_of_attributes_that_is_wrong_is_told(self):
        call = built.library().build_attributes
        for name, those in (("content_type", NO_IDENTIFIERS), ("attributes", NO_ATTRIBUTES)):
            for wrong in those:
                for its in ({name: wrong}, {"content_type": DATA, "message_digest": b"digest", name: wrong}):
                    self.same(made_in_python(call, **its), AttributesPart[name.upper()], "told", its)

    def test_attributes_may_be_of_any_length_together(self):
        """Python writes the header of their SET."""
        chance, library = random.Random(64), built.library()
        for size in (*range(100, 135), *range(235, 270), *range(65536 - 25, 65536 + 2), 70000):
            for those in ([attribute("1.2.3", octet_string(bytes(size)))], size % 300 * [attribute("1.2.3")]):
                text = self.same_set(plain(attributes=set_of(*those)), chance, size)
                self.same(library.build_attributes(attributes=those), text, "attributes of", size, len(those))
                signer = by_certificate(**(unsigned(*those) if those else {}))
                text = self.same_signers([signer], chance, size)
                given_signer = signer_in_python(by_certificate())._replace(unsigned_attributes=those)
                made = library.build_signed(DATA, signers=[given_signer])
                self.same(made, text, "unsigned attributes of", size, len(those))

    def test_octets_in_place_of_a_list_of_attributes_are_refused(self):
        library, signer = built.library(), signer_in_python(by_certificate())
        for wrong in NO_LISTS:
            with self.assertRaises(TypeError):
                library.build_attributes(DATA, b"digest", attributes=wrong)
            with self.assertRaises(TypeError):
                library.build_signed(DATA, signers=[signer._replace(unsigned_attributes=wrong)])
            with self.assertRaises(TypeError):
                library.build_bags([GivenBag(BagKind.KEY, NULL, attributes=wrong)])

    def test_signed_data_are_written_as_they_are_given(self):
        chance, call = random.Random(62), built.library().build_signed
        for _ in range(30 * ROUNDS):
            those = given_signed.some_parts(chance)
            text, named = self.same_parts(those, chance), signed_in_python(those)
            self.same(made_in_python(call, **named), text, "in Python", those)
            others = {name: otherwise(it) for name, it in named.items()}
            said = made_in_python(call, others.pop("content_type"), others.pop("content", None), **others)
            self.same(said, text, "of other octets", those)
        self.same(call(DATA), whole(1, algorithms=()), "nothing")

    def test_a_part_of_a_signer_that_is_wrong_is_told_with_its_index(self):
        chance, call, found = random.Random(63), built.library().build_signed, set()
        for content_type in (DATA, OTHER_TYPE):
            its = given_signed.some_signer(chance, content_type)
            right = signer_in_python(given_signed.some_signer(chance, content_type))
            broken = (it for it in given_signed.broken_signers(its, content_type) if it[0] != "unsigned_attributes")
            wrong = [(name, signer_in_python(it)) for name, it in broken]
            wrong += [("unsigned_attributes", right._replace(unsigned_attributes=it)) for it in NO_ATTRIBUTES]
            for name, it in wrong:
                said = made_in_python(call, content_type, signers=[right, it, right])
                self.same(said, (1, SignedPart[name.upper()]), "told", it)
                found.add(name)
        self.at_least(len(found), 5, "parts")
        right = signer_in_python(by_certificate())
        for name in ("digest_algorithm", "signature_algorithm", "signature"):
            said = made_in_python(call, DATA, signers=[right, right._replace(**{name: None})])
            self.same(said, (1, SignedPart[name.upper()]), "without", name)
        for names in ({"certificate": None}, {"key_identifier": b"key"}):
            said = made_in_python(call, DATA, signers=[right._replace(**names)])
            self.same(said, (0, SignedPart.IDENTIFIER), "with", names)

    def test_a_content_a_certificate_and_a_list_that_are_wrong_are_told(self):
        """Of the content and its type without an index."""
        call, signer = built.library().build_signed, signer_in_python(by_certificate())
        for wrong in (*NO_IDENTIFIERS, None):
            said = made_in_python(call, wrong, signers=[signer])
            self.same(said, (None, SignedPart.CONTENT_TYPE), "a type", wrong)
        for wrong in NO_ELEMENTS:
            said = made_in_python(call, DATA, wrong, is_element=True, signers=[signer])
            self.same(said, (None, SignedPart.CONTENT), "a content", wrong)
        for words in ((DATA, b""), (DATA, b"text"), (OTHER_TYPE,)):
            self.same(made_in_python(call, *words), (None, SignedPart.CONTENT), "without signers", words)
        for name, number, tags in (("certificates", SignedPart.CERTIFICATE, CHOICES), ("crls", SignedPart.CRL, LISTS)):
            for wrong in given_signed.wrong_choices(tags):
                said = made_in_python(call, DATA, **{name: [sequence(), sequence(), wrong]})
                self.same(said, (2, number), "told", name, wrong)

    def same_said(self, bad, said, part_of_it, index=None):
        """Compares what is said of what can't be written, and its part and its index, here and in another process."""
        wanted = type(bad), said, {"part": part_of_it, "signer" if isinstance(bad, BadAttributes) else "index": index}
        for here in (bad, pickle.loads(pickle.dumps(bad)), copy.copy(bad)):
            self.same((type(here), str(here), vars(here)), wanted, "what is said, and its parts")

    def test_what_attributes_are_not_written_for_is_said_and_goes_to_another_process(self):
        call, late = built.library().build_attributes, datetime.datetime.fromisoformat(TIMES_IN_NO_YEAR[-1])
        for part_of_it, wrong, said in (
            (AttributesPart.CONTENT_TYPE, {"content_type": b""}, "content_type can't be written"),
            (AttributesPart.SIGNING_TIME, {"signing_time": late}, "signing_time can't be written"),
            (AttributesPart.ATTRIBUTES, {"attributes": [LONG, NULL]}, "attributes can't be written"),
        ):
            with self.assertRaises(BadAttributes) as raised:
                call(**wrong)
            self.same_said(raised.exception, said, part_of_it)
        # Python's own digests can always be written
        digest = AttributesPart.MESSAGE_DIGEST
        self.same_said(BadAttributes(digest), "message_digest can't be written", digest)
        self.same_said(BadAttributes(digest, 2), "message_digest of signer 2 can't be written", digest, 2)

    def test_bad_attributes_of_a_signer_that_was_read_have_no_part(self):
        said = "signed attributes that RFC 5652 forbids"
        signer = signer_info(1, ISSUER_AND_SERIAL, explicit(0, TYPE))
        [bad] = built.library().signers(whole(1, signer))
        for its in (bad, BadAttributes(), BadAttributes(None)):
            self.same((its.args, bool(its)), ((), True), "it is true, and has nothing")
            self.same_said(its, said, None)

    def test_what_signed_data_are_not_written_for_is_said_and_goes_to_another_process(self):
        call, right, found = built.library().build_signed, signer_in_python(by_certificate()), set()
        cases = [
            (SignedPart.CONTENT_TYPE, None, {"content_type": b""}, "content_type can't be written"),
            (SignedPart.CONTENT, None, {"content": SHORT + NULL, "is_element": True}, "content can't be written"),
            (SignedPart.CERTIFICATE, 2, {"certificates": [SHORT, SHORT, NULL]}, "certificate 2 can't be written"),
            (SignedPart.CRL, 0, {"crls": [NULL, SHORT]}, "crl 0 can't be written"),
        ]
        for number, changes, name in (
            (SignedPart.IDENTIFIER, {"certificate": None}, "identifier"),
            (SignedPart.DIGEST_ALGORITHM, {"digest_algorithm": NULL}, "digest_algorithm"),
            (SignedPart.SIGNED_ATTRIBUTES, {"signed_attributes": set_of()}, "signed_attributes"),
            (SignedPart.SIGNATURE_ALGORITHM, {"signature_algorithm": None}, "signature_algorithm"),
            (SignedPart.SIGNATURE, {"signature": None}, "signature"),
            (SignedPart.UNSIGNED_ATTRIBUTES, {"unsigned_attributes": [LONG, NULL]}, "unsigned_attributes"),
        ):
            for index in (0, 1, 70):
                signers = [*index * [right], right._replace(**changes), right]
                cases.append((number, index, {"signers": signers}, f"{name} of signer {index} can't be written"))
        for number, index, wrong, said in cases:
            with self.assertRaises(BadSigned) as raised:
                call(**{"content_type": DATA, "signers": [right], **wrong})
            self.same_said(raised.exception, said, number, index)
            found.add(number)
        self.same(found, set(SignedPart), "parts")


if __name__ == "__main__":
    unittest.main()
