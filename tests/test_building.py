"""What der_build_parameters writes from parts beside the writer of tests/oracle, in just the room that it needs and in
less: from what openssl and keytool encrypt, which is listed by der_password_parameters and built again, also from
changed rows; and from made-up parts of each kind, whatever is where the call doesn't look. What is written is read as
what was given. Of parts that can't be written, one or several, the first is told, and nothing is written. In Python the
same is built.

Keys and contents that hashlib and openssl enc encrypt, by PBES1, by an algorithm of PKCS #12 and by PBES2, are put in
place by the call, and openssl opens them: also a key of openssl that Python encrypts anew.

What der_oid_octets writes is compared with known octets and with those of openssl asn1parse, and what der_oid_text
writes of it with what was given; and texts that spell no object identifier are refused."""
import functools
import hashlib
import itertools
import pickle
import random
import unittest

from support import built, encrypted, given, inputs, macs
from support.containers import NULL, bare_bag, content_info, mac_data, store
from support.elements import element, integer, octet_string, sequence, tags_and_contents
from support.encrypted import ALGORITHM, CONTENTS, ENCRYPTED, HMAC, HOLDERS, KEY, SALT, VECTOR, algorithm, pbkdf2
from support.encrypting import OLD, SECRET, all_encrypted, folder, held_in, store_of_keytool
from support.given import COUNTS, ELEMENTS, IDENTIFIERS, KINDS, NO_SCHEME, NUMBERS
from support.oids import ARCS, contents, octets, oid, spelt
from support.rooms import PASSWORD, InRooms, in_room, in_struct, marked, octets_of
from support.statuses import INVALID, NORMAL, NO_ROOM, UNKNOWN_KIND
from support.tools import Failed, needs, openssl
from oracle import answers, building
from vuyhanip import build, der
from vuyhanip.der import BadParameters, PasswordHolder, PasswordPart, Refused

Parameters = answers.passwords.Parameters
BUILD, SPELL = "der_build_parameters", "der_oid_octets"
# How often parts of each kind are made up, how many changed ones there are of each, and the room of what is refused.
ROUNDS, CHANGES, ROOM = 3, 40, 64
# What numbers and the numbers of ranges may be where they aren't looked at, or are changed.
ANYTHING = 0, 1, 2, 7, 2**32 - 1, 2**32, 2**63, 2**64 - 1
TOO_MUCH = 2**32, 2**32 + 1, 2**33 - 1, 2**63, 2**64 - 1
NO_HOLDERS = 3, 4, 255, 256, 2**32, 2**32 + 1, 2**63, 2**64 - 1
# Flags of a row, without one of which the parameters that they are of are given as an element.
AS_ELEMENTS = ("is_pbes1", "is_pkcs12", "is_pbes2"), ("is_pbkdf2",), ("has_salt",), ("has_initialization_vector",)
# What a row says that an algorithm is, of which each holder of openssl has some, and what else it may say.
SCHEMES = (0, 0, 1, 1), (0, 1, 0, 0), (1, 0, 0, 0)
OTHER_PBES2, OTHER = (0, 0, 1, 0), (0, 0, 0, 0)
# PBES2 with PBKDF2 and with all that these may have.
ALL_OF_PBES2 = {
    **NO_SCHEME, "is_pbes2": 1, "is_pbkdf2": 1, "has_salt": 1, "salt": SALT, "iterations": 2048, "has_key_length": 1,
    "key_length": 32, "has_prf": 1, "prf": octets("hmacWithSHA256"), "encryption": octets("AES-256-CBC"),
    "has_initialization_vector": 1, "initialization_vector": VECTOR,
}
# Ciphers: the octets of a key and of a vector, and the object identifiers of the schemes.
CIPHERS = {
    "aes-128-cbc": (16, 16, "2.16.840.1.101.3.4.1.2"),
    "aes-192-cbc": (24, 16, "2.16.840.1.101.3.4.1.22"),
    "aes-256-cbc": (32, 16, "2.16.840.1.101.3.4.1.42"),
    "des-ede3-cbc": (24, 8, "1.2.840.113549.3.7"),
}
# Digests of pseudorandom functions, and the object identifiers of these, None where the function is left out.
FUNCTIONS = (
    ("sha1", None), ("sha1", "1.2.840.113549.2.7"), ("sha256", "1.2.840.113549.2.9"), ("sha512", "1.2.840.113549.2.11"),
)
# Object identifiers, also at the ends of what their first octets and 64 bits hold, and their contents octets: the
# first is the example of X.690, 8.19.5.
SPELT = {
    "2.100.3": "813403",
    "0.0": "00",
    "0.39": "27",
    "1.0": "28",
    "1.39": "4F",
    "2.0": "50",
    "2.39": "77",
    "2.40": "78",
    "2.47": "7F",
    "2.48": "8100",
    "2.999": "8837",
    "2.5.4.3": "550403",
    "1.2.0.0": "2A0000",
    "1.2.127.128": "2A7F8100",
    "1.2.840.113549": "2A864886F70D",
    "1.2.840.113549.1.5.13": "2A864886F70D01050D",
    "2.16.840.1.101.3.4.1.42": "60864801650304012A",
    f"1.2.{2**32}": "2A9080808000",
    f"1.2.{2**63}": "2A81808080808080808000",
    f"1.2.{2**64 - 1}": "2A81FFFFFFFFFFFFFFFF7F",
    f"1.2.{2**64 - 1}.3": "2A81FFFFFFFFFFFFFFFF7F03",
    f"2.{2**64 - 81}": "81FFFFFFFFFFFFFFFF7F",
}
# Texts that spell no object identifier: fewer than two numbers, first ones that there aren't, zeros before a number,
# other digits, signs, blanks and bases, what is no UTF-8, and numbers that 64 bits don't hold.
NOT_SPELT = [
    "", "0", "1", "2", ".", "..", "1.", ".1", "1.2.", ".1.2", "1..2", "1.2..3",
    "3.0", "3.1", "9.1", "10.1", "0.40", "1.40", "0.999", "1.100.3", f"{2**64}.1", f"{2**64 + 1}.2",
    "01.2", "00.1", "1.02", "1.00", "1.2.03", "1.2.00", "1.2.000",
    "1.2 ", " 1.2", "1. 2", "1 .2", "1.2\n", "1.2\t", "\ufeff1.2", "1.2\0", "1\0.2", "\0", "\x001.2", "1.2.\0",
    "1,2", "1/2", "1-2", "1:2", "+1.2", "1.+2", "-1.2", "1.-2", "1.2.-0", "1.2.+0",
    "0x1.2", "1.0x2", "1.2e1", "1_0.2", "1.1_0", "1.2a", "a.b", "1.b", "iso.2", "{1 2}", "1.2.3:", "1.2;", "'1.2'",
    "\uff11.\uff12", "1\uff0e2", "1.\u0662", "1.\u00b2", "1.2\u3002", "1.2.\U0001d7ce",
    f"1.2.{2**64}", f"1.2.{2**64}.3", f"1.2.{2**65 + 3}", f"1.2.{10**30}", f"2.{2**64 - 80}", f"2.{2**64}",
]
NOT_SPELT = [*(it.encode() for it in NOT_SPELT), b"\xFF", b"1.2\xFF", b"1.\x80", b"1.2.\xC0\xB1", b"1.\xED\xA0\x80",
             "1.2".encode("utf-16-be"), "1.2".encode("utf-16-le"), bytes.fromhex(SPELT["2.5.4.3"])]
# How many object identifiers are made up, and of how many openssl is asked.
SPELLINGS, BY_OPENSSL = 1000, 60


def shown(text, row):
    """The numbers of a row, and the octets in the places of its ranges."""
    return {name: text[it[0] : sum(it)] if isinstance(it, tuple) else it for name, it in row._asdict().items()}


def schemes(row):
    """What a row says that an algorithm is: one of PBES1, of PKCS #12, PBES2, and with PBKDF2."""
    return row.is_pbes1, row.is_pkcs12, row.is_pbes2, row.is_pbkdf2


def anything(chance, among=ANYTHING):
    """A row with anything in each field."""
    return {
        name: (chance.choice(among), chance.choice(among)) if isinstance(it, tuple) else chance.choice(among)
        for name, it in Parameters()._asdict().items()
    }


class OfParts(InRooms):
    """A test that compares what is built."""

    def same_text(self, holder, text, row, *what):
        """Compares what is built for a holder from a row over an input: the octets, into just their room and into less;
        or which part is told, the first that the other writer doesn't write. Returns the octets, or its number."""
        wanted, wrong = building.text(holder, text, row)
        words = holder, text, len(text), row.numbers()
        if wanted is not None:
            self.same_octets(BUILD, words, wanted, "holder", holder, *what, places=1)
            return wanted
        said = in_room(BUILD, words, ROOM, 2)
        self.same(said, (INVALID, 0, wrong[0], marked(b"", ROOM)), BUILD, holder, *what, "of", wrong)
        return said[2]

    def same_parts(self, holder, its, chance, *what):
        """The same of a set of parts, laid out in an input."""
        text, fields = given.laid_out(chance, its)
        return self.same_text(holder, text, Parameters(**fields), *what, its)

    def same_row(self, holder, text):
        """Compares what der_password_parameters says of what was built, or of what is to be built again. Returns it."""
        status, row, where = answers.password(holder, text)
        wanted = NORMAL, where, marked(octets_of([row.numbers()]), PASSWORD)
        self.same(in_struct("der_password_parameters", text, PASSWORD, holder), wanted, "the row of", holder, text)
        self.same(status, NORMAL, "the other reader, of", holder, text)
        return row


class TestListed(OfParts):
    """What is listed is built again."""

    def each(self):
        """What openssl encrypts, with the numbers of holders, and the rows."""
        counts = {}
        for holder, text in all_encrypted():
            row = self.same_row(holder.value, text)
            for kind in ((holder.value, schemes(row)), schemes(row)):
                counts[kind] = counts.get(kind, 0) + 1
            yield holder.value, text, row
        for kind in (*((holder, flags) for holder in HOLDERS for flags in SCHEMES), OTHER_PBES2, OTHER):
            self.at_least(counts.get(kind, 0), 1, f"inputs with {kind}")

    def test_what_openssl_encrypts_is_built_again_as_it_was(self):
        for holder, text, row in self.each():
            self.same(self.same_text(holder, text, row, text), text, "built again", holder, text)

    @needs("keytool")
    def test_what_keytool_encrypts_is_built_again_as_it_was(self):
        for holder, text in held_in(store_of_keytool()):
            row = self.same_row(holder.value, text)
            self.same(self.same_text(holder.value, text, row, text), text, "built again", holder, text)

    def test_what_is_made_by_hand_is_built_again_as_it_was(self):
        """Also parameters that are those of no algorithm that is known, and a salt from elsewhere."""
        count = integer(2**32)
        its = [encrypted.pbes2(it) for it in (encrypted.scrypt(), algorithm("PBKDF2"), algorithm("PBKDF2", NULL))]
        its += [encrypted.pbes2(pbkdf2(**it)) for it in ({"salt": algorithm("data", NULL)}, {"iterations": count})]
        its += [encrypted.pbes2(encryption=it) for it in (algorithm("RC2-CBC"), algorithm("RC2-CBC", sequence(count)))]
        its += [encrypted.pbes1(iterations=count), encrypted.pkcs12(salt=NULL), algorithm("PBES2", sequence())]
        its += [encrypted.salted("AES-256-GCM"), encrypted.scrypt(), pbkdf2(), algorithm("PBES2"), algorithm("data")]
        for holder, text in ((holder, encrypted.held(holder, it)) for it in its for holder in HOLDERS):
            row = self.same_row(holder, text)
            self.same(self.same_text(holder, text, row), text, "built again", holder, text)
        text = encrypted.encrypted_contents(encrypted.pbes2())
        self.same(self.same_text(CONTENTS, text, self.same_row(CONTENTS, text)), text, "contents that are elsewhere")

    def test_parameters_of_a_function_become_null_and_contents_data(self):
        """Nothing says in a row what they were."""
        for function in (algorithm("hmacWithSHA256"), algorithm("hmacWithSHA256", sequence(NULL)), HMAC):
            for holder in HOLDERS:
                text = encrypted.held(holder, encrypted.pbes2(pbkdf2(prf=function)))
                made = self.same_text(holder, text, self.same_row(holder, text))
                self.same(made, encrypted.held(holder, encrypted.pbes2()), "with NULL", holder, text)
        for kind in ("1.2.3.4", "signed data", "data"):
            info = sequence(oid(kind), encrypted.pbes1(), element(0x80, ENCRYPTED))
            text = content_info("encrypted data", sequence(integer(0), info))
            made = self.same_text(CONTENTS, text, self.same_row(CONTENTS, text))
            self.same(made, encrypted.encrypted_contents(encrypted.pbes1(), ENCRYPTED), "of data", text)

    def test_parameters_that_are_known_may_be_given_as_elements(self):
        """The octets are the same, and so is what is read of them. But PBES1 and PKCS #12 have to have a salt."""
        for holder, text, row in self.each():
            for flags in AS_ELEMENTS:
                its = row._replace(**dict.fromkeys(flags, 0))
                is_needed = flags == ("has_salt",) and (row.is_pbes1 or row.is_pkcs12)
                wanted = building.PARTS["salt"] if is_needed else text
                self.same(self.same_text(holder, text, its, text), wanted, "without", flags, holder, text)

    def test_numbers_and_ranges_of_a_row_may_be_changed_first(self):
        """Other octets are after the input. What an element has in it is looked at only where it is built."""
        new = {"salt": SALT, "initialization_vector": VECTOR, "encrypted": ENCRYPTED}
        for holder, text, row in self.each():
            whole = text + b"".join(new.values())
            places = {name: (whole.rindex(it), len(it)) for name, it in new.items()}
            made = self.same_text(holder, whole, row._replace(iterations=70001, **places), text)
            had, found = shown(text, row), shown(made, self.same_row(holder, made))
            is_counted = row.is_pbes1 or row.is_pkcs12 or row.is_pbkdf2
            wanted = {name: it for name, it in new.items() if had[f"has_{name}"]}
            wanted |= {"iterations": 70001} if is_counted else {}
            for name in ELEMENTS:
                del had[name], found[name]
            self.same(found, {**had, **wanted}, "what is changed", holder, made)

    def test_changed_rows_and_inputs_are_written_or_told_as_by_the_other_writer(self):
        chance, counts = random.Random(59), {"built": 0, "told": 0}
        for holder, text, row in self.each():
            for _ in range(CHANGES):
                said = self.same_text(holder, inputs.changed(chance, text), changed(chance, row, len(text)), text)
                counts["built" if isinstance(said, bytes) else "told"] += 1
        for what, count in counts.items():
            self.at_least(count, 100, what)


def changed(chance, row, size):
    """A row over an input of a size, of which some fields are changed."""
    its = row._asdict()
    ranges = [it for it in its.values() if isinstance(it, tuple)]
    for name in chance.sample(sorted(its), chance.choice((1, 1, 2, 3))):
        if isinstance(its[name], tuple):
            start, length = chance.choice((its[name], *ranges))
            beside = start + chance.choice((-1, 0, 1)), length + chance.choice((-1, 0, 1))
            any_place = chance.randrange(size + 2), chance.randrange(size + 2)
            its[name] = tuple(it % 2**64 for it in chance.choice((beside, beside, any_place)))
        else:
            its[name] = chance.choice(ANYTHING)
    return Parameters(**its)


def by_hand():
    """Parts, and the algorithm that they are, as tests/support makes it."""
    salted = {**NO_SCHEME, "has_salt": 1, "salt": SALT[:8], "iterations": 2048}
    yield {**salted, "is_pbes1": 1, "algorithm": octets(encrypted.MD5_DES)}, encrypted.pbes1()
    yield {**salted, "is_pkcs12": 1, "algorithm": octets(encrypted.TRIPLE_DES)}, encrypted.pkcs12()
    yield ALL_OF_PBES2, encrypted.pbes2()
    for absent in (["prf"], ["key_length"], ["prf", "key_length"]):
        its = {**ALL_OF_PBES2, **{f"has_{name}": 0 for name in absent}}
        yield its, encrypted.pbes2(pbkdf2(**dict.fromkeys(absent, b"")))
    # the function that is meant where none is named
    function = algorithm("1.2.840.113549.2.7", NULL)
    yield {**ALL_OF_PBES2, "prf": contents("1.2.840.113549.2.7")}, encrypted.pbes2(pbkdf2(prf=function))
    scrypt = sequence(octet_string(SALT), *map(integer, (16384, 8, 1)))
    its = {"is_pbkdf2": 0, "derivation": octets("scrypt")}
    its |= {"has_derivation_parameters": 1, "derivation_parameters": scrypt}
    yield {**ALL_OF_PBES2, **its}, encrypted.pbes2(encrypted.scrypt())
    gcm = sequence(octet_string(VECTOR[:12]), integer(16))
    its = {"algorithm": octets("AES-256-GCM"), "has_parameters": 1, "parameters": gcm}
    yield {**NO_SCHEME, **its}, algorithm("AES-256-GCM", gcm)
    yield {**NO_SCHEME, "algorithm": octets("data"), "has_parameters": 0}, algorithm("data")


class TestParts(OfParts):
    """Made-up parts of each kind."""

    def test_what_is_written_is_what_is_made_by_hand(self):
        chance = random.Random(61)
        there = {"has_encrypted": 1, "encrypted": ENCRYPTED}
        for its, wanted in by_hand():
            for holder in HOLDERS:
                text = self.same_parts(holder, {**its, **there}, chance)
                self.same(text, encrypted.held(holder, wanted), "by hand", holder, its)
            text = self.same_parts(CONTENTS, {**its, "has_encrypted": 0}, chance)
            self.same(text, encrypted.encrypted_contents(wanted), "by hand, without what is encrypted", its)

    def test_parts_are_written_as_they_are_given_and_read_back(self):
        chance, counts = random.Random(43), {}
        for holder, its in (it for _ in range(ROUNDS) for it in given.sets(chance)):
            text = self.same_parts(holder, its, chance)
            row = self.same_row(holder, text)
            found = shown(text, row)
            self.same({name: found[name] for name in its}, its, "what is read back", holder, text)
            kind = holder, schemes(row)
            counts[kind] = counts.get(kind, 0) + 1
        for holder in HOLDERS:
            for flags in (*SCHEMES, OTHER_PBES2, OTHER):
                self.at_least(counts.get((holder, flags), 0), ROUNDS, f"holder {holder} with {flags}")

    def test_each_algorithm_with_a_salt_is_written_and_no_number_is_cut(self):
        chance = random.Random(67)
        for its, number in itertools.product(given.with_a_salt(chance), NUMBERS):
            text = self.same_parts(ALGORITHM, {**its, "iterations": number}, chance)
            row = self.same_row(ALGORITHM, text)
            wanted = {**{flag: its[flag] for flag in NO_SCHEME}, "iterations": number}
            self.same({name: getattr(row, name) for name in wanted}, wanted, "what is read", text)
        for number, other in itertools.product(NUMBERS, NUMBERS):
            its = {**ALL_OF_PBES2, "iterations": number, "key_length": other}
            text = self.same_parts(ALGORITHM, its, chance)
            row = self.same_row(ALGORITHM, text)
            self.same((row.iterations, row.key_length), (number, other), "what is read", text)

    def test_octets_of_any_length_are_written(self):
        """Of a part and of all around it, on both sides of each length that takes an octet more."""
        chance = random.Random(71)
        for size in (*range(270), *range(65536 - 180, 65536 + 2), 70000):
            for holder in (KEY, CONTENTS):
                its = {**ALL_OF_PBES2, "has_encrypted": 1, "encrypted": bytes(size)}
                text = self.same_parts(holder, its, chance, size)
                self.same(self.same_row(holder, text).encrypted[1], size, "octets", holder)
            for name in ("salt", "initialization_vector"):
                text = self.same_parts(ALGORITHM, {**ALL_OF_PBES2, name: bytes(size)}, chance, size)
                self.same(getattr(self.same_row(ALGORITHM, text), name)[1], size, "octets of", name)

    def test_what_is_not_looked_at_may_be_anything(self):
        chance = random.Random(47)
        for holder, its in given.sets(chance):
            text, fields = given.laid_out(chance, its)
            wanted = self.same_text(holder, text, Parameters(**fields), its)
            for among in ([1], [2**64 - 1], *4 * [ANYTHING]):
                row = Parameters(**{**anything(chance, among), **fields})
                self.same(self.same_text(holder, text, row, row), wanted, "beside anything", holder, row)

    def test_parts_may_be_in_one_another_and_several_be_the_same_octets(self):
        chance = random.Random(73)
        for holder, its in given.sets(chance):
            inner = its.get("algorithm", contents("2.999.1"))
            whole = sequence(inner)
            same = {name: inner if name in IDENTIFIERS else whole for name, it in its.items() if isinstance(it, bytes)}
            places = {name: (whole.index(it), len(it)) for name, it in same.items()}
            text = self.same_text(holder, whole, Parameters(**{**its, **places}), its)
            found = shown(text, self.same_row(holder, text))
            self.same({name: found[name] for name in its}, {**its, **same}, "what is read back", holder, text)

    def test_empty_parts_may_be_anywhere_up_to_the_end(self):
        for name in ("salt", "initialization_vector", "encrypted"):
            its = {**ALL_OF_PBES2, "has_encrypted": 1, "encrypted": ENCRYPTED, name: b""}
            text, fields = given.laid_out(random.Random(79), its)
            wanted = self.same_text(KEY, text, Parameters(**fields), its)
            for at in (0, 1, len(text) - 1, len(text)):
                row = Parameters(**{**fields, name: (at, 0)})
                self.same(self.same_text(KEY, text, row, at), wanted, "an empty part at", at)

    def test_changed_parts_are_written_or_told_as_by_the_other_writer(self):
        chance, counts = random.Random(53), dict.fromkeys(("built", *building.PARTS.values()), 0)
        for holder, its in given.sets(chance):
            text, fields = given.laid_out(chance, its)
            for _ in range(CHANGES):
                is_input = chance.random() < 0.2
                row = changed(chance, Parameters(**fields), len(text))
                said = self.same_text(holder, inputs.changed(chance, text) if is_input else text, row, its)
                kind = "built" if isinstance(said, bytes) else said
                counts[kind] = counts.get(kind, 0) + 1
        for kind, count in counts.items():
            self.at_least(count, 5, f"{kind}, of what is built or of the numbers of parts")


class TestRefused(OfParts):
    """Parts one of which is wrong."""

    def told(self, part, holder, text, fields, *what):
        """Asks that the part is told by its number, and nothing is written, whether there is room or not."""
        row = Parameters(**fields)
        for room in (0, ROOM, 4096):
            wanted = INVALID, 0, building.PARTS[part], marked(b"", room)
            said = in_room(BUILD, (holder, text, len(text), row.numbers()), room, 2)
            self.same(said, wanted, BUILD, holder, part, *what, row, text)
        self.same(building.text(holder, text, row)[1][:1], [building.PARTS[part]], "the other writer", part, row)

    def test_a_range_that_is_not_in_the_input_is_told(self):
        chance, parts = random.Random(83), set()
        for holder, its in given.sets(chance):
            text, fields = given.laid_out(chance, its)
            for name in (name for name, it in its.items() if isinstance(it, bytes)):
                for wrong in given.wrong_ranges(text, fields[name]):
                    self.told(name, holder, text, {**fields, name: wrong}, wrong)
                parts.add(name)
        self.same(len(parts), 10, "parts that are ranges")

    def test_octets_that_are_no_object_identifier_or_no_element_are_told(self):
        chance, parts = random.Random(89), set()
        kinds = [(IDENTIFIERS, given.NO_IDENTIFIERS), (ELEMENTS, given.NO_ELEMENTS)]
        for holder, its in given.sets(chance):
            for name, wrong in ((name, it) for names, those in kinds for name in names if name in its for it in those):
                self.told(name, holder, *given.laid_out(chance, {**its, name: wrong}), wrong)
                parts.add(name)
        self.same(len(parts), len(IDENTIFIERS) + len(ELEMENTS), "parts that are such")

    def test_an_algorithm_of_another_scheme_is_told(self):
        """One of PBES1 as one of PKCS #12, one of these as one of PBES1, and others as either."""
        chance = random.Random(97)
        every = {kind for kinds in KINDS.values() for kind in kinds}
        beside = {it for kind in every for it in (*(kind[:-1] + bytes([last]) for last in range(128)), kind[:-1])}
        beside |= {it for kind in every for it in (kind + b"\0", kind + b"\1", bytes([0x29]) + kind[1:])}
        for flag, kinds in KINDS.items():
            for kind in sorted(beside - set(kinds)) + [octets("PBES2"), octets("PBKDF2")]:
                its = {**NO_SCHEME, flag: 1, "algorithm": kind, "has_salt": 1, "salt": SALT, "iterations": 2048}
                for holder, more in given.held(chance, its):
                    self.told("algorithm", holder, *given.laid_out(chance, more), flag)

    def test_a_number_of_2_to_the_32_or_more_is_told(self):
        chance, parts = random.Random(101), set()
        for holder, its in given.sets(chance):
            for name in COUNTS:
                for number in TOO_MUCH if name in its else ():
                    self.told(name, holder, *given.laid_out(chance, {**its, name: number}), number)
                    parts.add(name)
        self.same(len(parts), len(COUNTS), "parts that are numbers")

    def test_more_schemes_than_one_are_told(self):
        chance = random.Random(103)
        first, second, third = NO_SCHEME
        for holder, its in given.sets(chance):
            for flags in ((first, second), (first, third), (second, third), (first, second, third)):
                self.told("scheme", holder, *given.laid_out(chance, {**its, **dict.fromkeys(flags, 1)}), flags)

    def test_a_scheme_of_pbes1_or_pkcs_12_without_a_salt_is_told(self):
        """Also where a range says where it would be."""
        chance = random.Random(163)
        for holder, its in (it for scheme in given.with_a_salt(chance) for it in given.held(chance, scheme)):
            text, fields = given.laid_out(chance, {**its, "has_salt": 0})
            for place in (fields["salt"], (0, 0), (0, len(text)), (len(text) + 1, 1)):
                self.told("salt", holder, text, {**fields, "salt": place})

    def test_pbkdf2_without_a_salt_and_without_parameters_is_told(self):
        """Also where ranges say where they would be, and before parts that are looked at next."""
        chance = random.Random(167)
        sets = [(holder, its) for holder, its in given.sets(chance) if its["is_pbes2"] and its.get("has_salt")]
        self.at_least(len(sets), 40, "sets with PBKDF2")
        for holder, its in sets:
            text, fields = given.laid_out(chance, {**its, "has_salt": 0, "has_derivation_parameters": 0})
            nowhere = len(text) + 1, 1
            others = dict.fromkeys(("derivation", "derivation_parameters", "prf", "encryption"), nowhere)
            for more in ({}, {"salt": (0, 0)}, {"salt": nowhere}, {"derivation": fields["encryption"]}, others):
                for number in (fields["iterations"], 2**64 - 1):
                    self.told("salt", holder, text, {**fields, "iterations": number, **more}, more)

    def test_a_key_without_what_is_encrypted_is_told(self):
        """Also where a range says where it would be."""
        chance = random.Random(107)
        for its in given.algorithms(chance):
            text, fields = given.laid_out(chance, {**its, "encrypted": ENCRYPTED, "has_encrypted": 0})
            for place in (fields["encrypted"], (0, 0), (0, len(text)), (len(text) + 1, 1)):
                self.told("encrypted", KEY, text, {**fields, "encrypted": place})

    def test_no_holder_has_another_number(self):
        """Whatever is given."""
        chance = random.Random(109)
        for _, its in given.sets(chance):
            text, fields = given.laid_out(chance, its)
            for number in NO_HOLDERS:
                for row in (Parameters(**fields), Parameters(), Parameters(**anything(chance))):
                    for room in (0, ROOM):
                        said = in_room(BUILD, (number, text, len(text), row.numbers()), room, 2)
                        self.same(said, (UNKNOWN_KIND, 0, 0, marked(b"", room)), BUILD, number, row)

    def test_nothing_is_found_in_an_empty_input(self):
        """But octets of which there may be none."""
        for holder in HOLDERS:
            row = Parameters(has_encrypted=1)
            for its in (row, *(row._replace(**{flag: 1}) for flag in NO_SCHEME)):
                self.same_text(holder, b"", its, "of an empty input", its)


class TestRooms(OfParts):
    """Rooms of many sizes."""

    def test_it_is_written_where_it_has_room_and_nothing_beyond_it(self):
        """Without any room it says how much it needs."""
        chance = random.Random(113)
        for holder, its in given.sets(chance):
            text, fields = given.laid_out(chance, its)
            row = Parameters(**fields)
            wanted = self.same_text(holder, text, row, its)
            size = len(wanted)
            for room in (0, 1, size // 2, size - 1, size, size + 1, size + 200):
                fits = room >= size
                answer = NORMAL if fits else NO_ROOM, size, 0, marked(wanted if fits else b"", room)
                said = in_room(BUILD, (holder, text, len(text), row.numbers()), room, 2)
                self.same(said, answer, BUILD, holder, its, "in room for", room)


def in_python(its):
    """A set of parts as Python has them, in which what is there says so itself."""
    parts = {name: it for name, it in its.items() if not given.is_flag(name)}
    flags = {name: it == 1 for name, it in its.items() if name.startswith("is_")}
    # without a salt that flag isn't looked at
    return der.PasswordParameters(**{"is_pbkdf2": its.get("has_salt") == 0, **parts, **flags})


def in_other_ways(its):
    """The same set of parts, with octets that can be written, and that don't follow one another."""
    for way in (
        bytearray,
        lambda it: memoryview(bytearray(it)),
        lambda it: memoryview(b"".join(bytes([octet, 0xEE]) for octet in it))[::2],
        lambda it: memoryview(it[::-1])[::-1],
    ):
        yield {name: way(it) if isinstance(it, bytes) else it for name, it in its.items()}


def made_in_python(call, *words):
    """What a call in Python makes, or the part that it says can't be written, or why it refuses a text."""
    try:
        return call(*words)
    except BadParameters as bad:
        return bad.part
    except Refused as refused:
        return refused.reason, refused.place


class TestPython(OfParts):
    """What Python builds, and what it says of parts that can't be written."""

    def same_in_python(self, holder, its, wanted, *what):
        made = made_in_python(built.library().build_parameters, PasswordHolder(holder), its)
        self.same(made, wanted, "built in Python", holder, *what, its)

    def test_what_was_listed_is_built_again(self):
        for holder, text in all_encrypted():
            its = built.library().password_parameters(text, holder)
            self.same_in_python(holder, its, text)
            self.same_in_python(holder, pickle.loads(pickle.dumps(its)), text, "of copies")
            its = its._replace(salt=SALT, iterations=7) if its.is_pbkdf2 else its
            again = built.library().password_parameters(built.library().build_parameters(holder, its), holder)
            self.same((again.salt, again.iterations), (its.salt, its.iterations), "what is changed", holder, text)

    def test_a_salt_or_a_count_of_what_was_listed_that_is_wrong_is_told(self):
        parts = {PasswordPart.SALT: 0, PasswordPart.ITERATIONS: 0}
        for holder, text in all_encrypted():
            its = built.library().password_parameters(text, holder)
            changes = [("salt", None)] if its.is_pbes1 or its.is_pkcs12 else []
            changes += [("iterations", it) for it in (-1, 2**32, 2**64, None) if its.iterations is not None]
            if its.is_pbkdf2:
                self.same_in_python(holder, its._replace(salt=None), text, "with its parameters")
                bare = its._replace(salt=None, derivation_parameters=None)
                self.same_in_python(holder, bare, PasswordPart.SALT, "without its parameters")
            for name, it in changes:
                part = PasswordPart[name.upper()]
                self.same_in_python(holder, its._replace(**{name: it}), part, name, it, "of", text)
                parts[part] += 1
        for part, count in parts.items():
            self.at_least(count, 10, part)

    def test_parts_are_written_as_they_are_given(self):
        chance = random.Random(149)
        for holder, its in given.sets(chance):
            text = self.same_parts(holder, its, chance)
            self.same_in_python(holder, in_python(its), text)
            for others in in_other_ways(its):
                self.same_in_python(holder, in_python(others), text, "of other octets")

    def test_what_is_not_looked_at_may_be_anything(self):
        chance = random.Random(151)
        for holder, its in given.sets(chance):
            text = self.same_parts(holder, its, chance)
            names = [it for it in (*IDENTIFIERS, *ELEMENTS, *COUNTS, "encrypted") if not {it, f"has_{it}"} & its.keys()]
            for number in (0, 2**64 - 1, 2**64, -1):
                beside = {name: number if name in COUNTS else b"\xEE" for name in names}
                self.same_in_python(holder, in_python(its)._replace(**beside), text, "beside", number)

    def test_what_an_algorithm_encrypts_is_not_read(self):
        """Octets that are gone aren't missed."""
        gone, chance = memoryview(ENCRYPTED), random.Random(173)
        gone.release()
        for its in given.algorithms(chance):
            text = self.same_parts(ALGORITHM, its, chance)
            given_too = in_python(its)._replace(encrypted=gone)
            made = made_in_python(built.library().build_parameters, PasswordHolder.ALGORITHM, given_too)
            self.same(made, text, "beside octets that are gone", its)

    def test_a_part_that_is_wrong_or_is_not_given_is_told(self):
        chance = random.Random(157)
        for holder, its in given.sets(chance):
            wrong = [(name, it) for name in IDENTIFIERS if name in its for it in given.NO_IDENTIFIERS]
            wrong += [(name, it) for name in ELEMENTS if name in its for it in given.NO_ELEMENTS]
            wrong += [(name, it) for name in COUNTS if name in its for it in (-1, 2**64, *TOO_MUCH)]
            wrong += [(name, None) for name in ("derivation", "encryption", "iterations") if name in its]
            wrong += [("salt", None)] if "salt" in its else []
            wrong += [("encrypted", None)] if holder == KEY else []
            for name, it in wrong:
                self.same_in_python(holder, in_python(its)._replace(**{name: it}), PasswordPart[name.upper()], name)
            for flags in itertools.combinations(NO_SCHEME, 2):
                two = in_python({**its, **dict.fromkeys(flags, 1)})
                self.same_in_python(holder, two, PasswordPart.SCHEME, flags)
        self.same_in_python(ALGORITHM, der.PasswordParameters(), PasswordPart.ALGORITHM, "nothing")
        with self.assertRaisesRegex(ValueError, "3 is not a valid PasswordHolder"):
            built.library().build_parameters(3, der.PasswordParameters())

    def test_a_refusal_says_its_part_also_once_it_was_pickled(self):
        for part in PasswordPart:
            for bad in (BadParameters(part), pickle.loads(pickle.dumps(BadParameters(part)))):
                self.same((bad.part, str(bad)), (part, f"{part.name.lower()} can't be written"), "a refusal")

    def test_parameters_are_shown_by_their_names(self):
        """Octets of an input by their number, and others as they are."""
        made = der.PasswordParameters(salt=b"1")
        found = built.library().password_parameters(encrypted.pbes1(), PasswordHolder.ALGORITHM)
        in_found = {"algorithm": "9 octets", "parameters": "16 octets", "salt": "8 octets"}
        for its, octets_said in ((made, {"algorithm": "b''", "salt": "b'1'"}), (found, in_found)):
            said = [f"{name}={octets_said.get(name, it)}" for name, it in its._asdict().items()]
            self.same(repr(its), f"PasswordParameters({', '.join(said)})", "what shows them")

    def test_parameters_are_made_from_scratch(self):
        built.use_shared()
        both = {"initialization_vector": VECTOR, "salt": SALT, "iterations": 2048}
        its = {**both, "prf": build.HMAC_WITH_SHA256, "key_length": 32, "encrypted": ENCRYPTED}
        its = build.pbes2(build.AES_256_CBC, **its)
        self.same(build.parameters(PasswordHolder.ALGORITHM, its), encrypted.pbes2(), "PBES2")
        self.same(build.encrypted_key(its), encrypted.encrypted_key(encrypted.pbes2()), "a key")
        self.same(build.encrypted_contents(its), encrypted.held(CONTENTS, encrypted.pbes2()), "contents")
        least = build.pbes2(build.AES_256_CBC, **both, prf=None)
        wanted = encrypted.encrypted_contents(encrypted.pbes2(pbkdf2(key_length=b"", prf=b"")))
        self.same(build.encrypted_contents(least), wanted, "contents that are elsewhere, without a function")
        for made, wanted in ((build.pbes1, encrypted.pbes1()), (build.pkcs12, encrypted.pkcs12())):
            kind = ARCS[encrypted.MD5_DES if made is build.pbes1 else encrypted.TRIPLE_DES]
            its = made(kind, salt=SALT[:8], iterations=2048, encrypted=ENCRYPTED)
            self.same(build.encrypted_key(its), encrypted.encrypted_key(wanted), "a key", kind)
        said = made_in_python(functools.partial(build.pbes1, "1.2.840.113549.1.5.3 ", salt=SALT, iterations=1))
        self.same(said, ("invalid", 0), "what is no object identifier")
        for kind in ("1.2.840.113549.1.5.13", "1.2.840.113549.1.12.1.3"):
            said = made_in_python(build.encrypted_key, build.pbes1(kind, salt=SALT, iterations=1, encrypted=b""))
            self.same(said, PasswordPart.ALGORITHM, "another algorithm as one of PBES1", kind)

    def test_parameters_from_scratch_have_all_that_a_scheme_needs(self):
        """None is given only where it means something, and an argument by its name."""
        built.use_shared()
        salted = {"salt": SALT, "iterations": 2048}
        of_pbes2 = {**salted, "initialization_vector": VECTOR, "prf": build.HMAC_WITH_SHA256}
        kinds = [(build.pbes2, build.AES_256_CBC, of_pbes2)]
        kinds += [(build.pbes1, ARCS[encrypted.MD5_DES], salted), (build.pkcs12, ARCS[encrypted.TRIPLE_DES], salted)]
        for made, kind, its in kinds:
            made(kind, **its)
            with self.assertRaises(TypeError, msg=made):
                made(kind, *its.values())
            for name in its:
                with self.assertRaises(TypeError, msg=(made, name)):
                    made(kind, **{other: it for other, it in its.items() if other != name})
            for name in {"salt", "initialization_vector"} & its.keys():
                with self.assertRaisesRegex(TypeError, f"^{name} has to be octets, not None$"):
                    made(kind, **{**its, name: None})

    def test_octets_of_texts(self):
        for dotted, wanted in SPELT.items():
            self.same(made_in_python(built.library().oid_octets, dotted), bytes.fromhex(wanted), dotted)
        for text in NOT_SPELT:
            said = made_in_python(built.library().oid_octets, text.decode("utf-8", "surrogateescape"))
            self.same(said, ("invalid", 0), text)


# What is opened


def encrypted_by(cipher, key, vector, text):
    """A text that openssl encrypts."""
    return openssl("enc", f"-{cipher}", "-K", key.hex(), "-iv", vector.hex(), *OLD.split(), text=text)


def by_pbes2(chance, text, cipher, digest, function, has_length):
    """The parts of a text that is encrypted by PBES2, with a key from PBKDF2."""
    size, block, kind = CIPHERS[cipher]
    salt, vector, count = chance.randbytes(16), chance.randbytes(block), chance.randrange(1, 3000)
    key = hashlib.pbkdf2_hmac(digest, SECRET.encode(), salt, count, size)
    its = {**NO_SCHEME, "is_pbes2": 1, "is_pbkdf2": 1, "has_salt": 1, "salt": salt, "iterations": count}
    its |= {"has_key_length": 1, "key_length": size} if has_length else {"has_key_length": 0}
    its |= {"has_prf": 0} if function is None else {"has_prf": 1, "prf": contents(function)}
    its |= {"encryption": contents(kind), "has_initialization_vector": 1, "initialization_vector": vector}
    return {**its, "has_encrypted": 1, "encrypted": encrypted_by(cipher, key, vector, text)}


def by_pkcs12(chance, text):
    """The same by an algorithm of PKCS #12, whose key and vector are derived as RFC 7292, B.2, says."""
    salt, count = chance.randbytes(8), chance.randrange(1, 3000)
    key = macs.derived("sha1", macs.FOR_KEY, SECRET, salt, count, 24)
    vector = macs.derived("sha1", macs.FOR_VECTOR, SECRET, salt, count, 8)
    its = {**NO_SCHEME, "is_pkcs12": 1, "algorithm": octets(encrypted.TRIPLE_DES)}
    its |= {"has_salt": 1, "salt": salt, "iterations": count}
    return {**its, "has_encrypted": 1, "encrypted": encrypted_by("des-ede3-cbc", key, vector, text)}


def by_pbes1(chance, text):
    """The same by an algorithm of PBES1, by PBKDF1 (RFC 8018, 5.1 and 6.1)."""
    salt, count = chance.randbytes(8), chance.randrange(1, 3000)
    hashed = SECRET.encode() + salt
    for _ in range(count):
        hashed = hashlib.new("md5", hashed).digest()
    its = {**NO_SCHEME, "is_pbes1": 1, "algorithm": octets(encrypted.MD5_DES)}
    its |= {"has_salt": 1, "salt": salt, "iterations": count}
    return {**its, "has_encrypted": 1, "encrypted": encrypted_by("des-cbc", hashed[:8], hashed[8:], text)}


def all_by_pbes2(chance, text):
    """The same by each cipher and function, with the length of the key and without."""
    for cipher in CIPHERS:
        for digest, function in FUNCTIONS:
            for has_length in (False, True):
                yield by_pbes2(chance, text, cipher, digest, function, has_length)


def opened(key, password=SECRET):
    """What openssl pkey and openssl pkcs8 take out of an encrypted key."""
    words = "-inform", "DER", "-passin", f"pass:{password}", "-outform", "DER", *OLD.split()
    return [openssl(verb, *words, text=key) for verb in ("pkey", "pkcs8")]


class TestOpened(OfParts):
    """What openssl opens."""

    def setUp(self):
        super().setUp()
        self.chance = random.Random(127)
        pem = folder() / "one.key"
        self.key = openssl("pkcs8", "-topk8", "-nocrypt", "-in", pem, "-outform", "DER")
        self.wanted = openssl("pkey", "-in", pem, "-outform", "DER")
        self.certificate = openssl("x509", "-in", folder() / "one.pem", "-outform", "DER")

    def test_keys_are_opened(self):
        others = [by(self.chance, self.key) for by in (by_pkcs12, by_pbes1)]
        for its in (*all_by_pbes2(self.chance, self.key), *others):
            key = self.same_parts(KEY, its, self.chance)
            self.same(opened(key), 2 * [self.wanted], "what openssl opens of", its)

    def test_another_password_opens_none(self):
        key = self.same_parts(KEY, by_pbes2(self.chance, self.key, "aes-256-cbc", *FUNCTIONS[2], True), self.chance)
        with self.assertRaises(Failed):
            opened(key, SECRET.title())

    def test_a_key_of_openssl_under_another_password(self):
        """Of the row of one that openssl encrypted, the numbers and the ranges are changed."""
        its = by_pbes2(self.chance, self.key, "aes-256-cbc", *FUNCTIONS[2], False)
        new, count = {name: its[name] for name in ("salt", "initialization_vector", "encrypted")}, 0
        for holder, text in all_encrypted():
            row = self.same_row(holder.value, text)
            had = shown(text, row)
            if holder.value == KEY and (had["encryption"], had["prf"]) == (its["encryption"], its["prf"]):
                whole = text + b"".join(new.values())
                places = {name: (whole.rindex(it), len(it)) for name, it in new.items()}
                key = self.same_text(KEY, whole, row._replace(iterations=its["iterations"], **places), text)
                self.same(opened(key), 2 * [self.wanted], "what openssl opens of", text)
                count += 1
        self.at_least(count, 5, "keys")

    def test_a_key_of_openssl_that_python_encrypts_anew(self):
        """With another salt, count and vector, and a key that is derived by these."""
        built.use_shared()
        count, keys = 3000, 0
        for holder, text in all_encrypted():
            its = built.library().password_parameters(text, holder)
            if holder is not PasswordHolder.KEY or not its.is_pbkdf2 or its.encryption != octets("AES-256-CBC"):
                continue
            salt, vector = self.chance.randbytes(16), self.chance.randbytes(16)
            derived = hashlib.pbkdf2_hmac(der.prf_digest(its.prf_oid), SECRET.encode(), salt, count, 32)
            new = encrypted_by("aes-256-cbc", derived, vector, self.key)
            its = its._replace(salt=salt, iterations=count, initialization_vector=vector, encrypted=new)
            key = build.encrypted_key(its)
            self.same(opened(key), 2 * [self.wanted], "what openssl opens of", text)
            keys += 1
        self.at_least(keys, 5, "keys")

    def test_stores_are_opened(self):
        """A key, and contents with its certificate, by the same scheme, and over all a MAC."""
        bags = sequence(bare_bag("certificate bag", content_info("X.509 certificate", octet_string(self.certificate))))
        both = list(zip(all_by_pbes2(self.chance, self.key), all_by_pbes2(self.chance, bags)))
        both += [(by(self.chance, self.key), by(self.chance, bags)) for by in (by_pkcs12, by_pbes1)]
        for key, those in both:
            shrouded = bare_bag("shrouded key bag", self.same_parts(KEY, key, self.chance))
            held = self.same_parts(CONTENTS, those, self.chance)
            safe = sequence(held, content_info("data", octet_string(sequence(shrouded))))
            salt = self.chance.randbytes(8)
            mac = mac_data(macs.mac("sha256", SECRET, salt, 2048, safe), salt, 2048)
            self.same(taken_out(store("data", octet_string(safe), 3, mac)), (self.wanted, self.certificate), key)


def taken_out(whole):
    """The key and the certificate of a store, as openssl takes them out."""
    path = folder() / "built.p12"
    path.write_bytes(whole)
    words = "pkcs12", "-in", path, "-passin", f"pass:{SECRET}", "-nodes", "-legacy"
    key = openssl("pkey", "-outform", "DER", text=openssl(*words, "-nocerts"))
    return key, openssl("x509", "-outform", "DER", text=openssl(*words, "-nokeys"))


# Object identifiers


def spellings(chance):
    """Made-up object identifiers, with numbers of any size that 64 bits hold."""
    for _ in range(SPELLINGS):
        first = chance.randrange(3)
        arcs = [chance.getrandbits(chance.randrange(1, 65)) for _ in range(chance.randrange(12))]
        second = chance.randrange(40) if first < 2 else min(chance.getrandbits(chance.randrange(1, 65)), 2**64 - 81)
        yield ".".join(map(str, (first, second, *arcs)))


def by_openssl(dotted):
    """The contents octets of an object identifier as openssl has them."""
    path = folder() / "identifier"
    openssl("asn1parse", "-genstr", f"OID:{dotted}", "-noout", "-out", path)
    [(_, found)] = tags_and_contents(path.read_bytes())
    return found


class TestSpelt(InRooms):
    """Object identifiers from their texts."""

    def same_both_ways(self, dotted, wanted):
        """Compares the octets of a text, and the text of the octets."""
        text = dotted.encode()
        self.same_octets(SPELL, (text, len(text)), wanted, dotted)
        self.same_octets("der_oid_text", (wanted, len(wanted)), text, dotted)

    def test_octets_are_those_that_are_known(self):
        for dotted, wanted in SPELT.items():
            self.same_both_ways(dotted, bytes.fromhex(wanted))

    def test_octets_are_those_of_openssl(self):
        for dotted in (*SPELT, *list(spellings(random.Random(131)))[:BY_OPENSSL]):
            self.same_both_ways(dotted, by_openssl(dotted))

    def test_texts_of_octets_are_those_that_were_given(self):
        long = ".".join(2000 * ["1"]), ".".join(["2", *500 * [str(2**64 - 81)]])
        for dotted in (*spellings(random.Random(137)), *long):
            self.same_both_ways(dotted, contents(dotted))

    def test_what_spells_none_is_refused(self):
        for text in NOT_SPELT:
            for room in (0, len(text), ROOM):
                said = in_room(SPELL, (text, len(text)), room)
                self.same(said, (INVALID, 0, marked(b"", room)), SPELL, text, "in room for", room)

    def test_a_text_ends_where_its_length_says(self):
        """Whatever follows it: a digit, a dot or a zero octet."""
        text = b"1.2.840.113549.1.5.13\0"
        for size in range(len(text) + 1):
            begin = text[:size].decode()
            is_spelt = "." in begin and begin[-1].isdigit()
            wanted = contents(begin) if is_spelt else b""
            answer = NORMAL if is_spelt else INVALID, len(wanted), marked(wanted, ROOM)
            self.same(in_room(SPELL, (text, size), ROOM), answer, SPELL, begin)

    def test_changed_texts_are_refused_or_spell_others(self):
        chance, counts = random.Random(139), {NORMAL: 0, INVALID: 0}
        for dotted in spellings(chance):
            text = bytearray(dotted.encode())
            for _ in range(chance.choice((1, 1, 2))):
                at = chance.randrange(len(text))
                text[at : at + chance.randrange(2)] = chance.choice((b"", b".", b"0", b"9", b"..", b" ", b"-", b"\xFF"))
            wanted = spelt(bytes(text))
            status = INVALID if wanted is None else NORMAL
            answer = status, len(wanted or b""), marked(wanted or b"", 400)
            self.same(in_room(SPELL, (bytes(text), len(text)), 400), answer, SPELL, bytes(text))
            counts[status] += 1
        for status, count in counts.items():
            self.at_least(count, 100, f"texts with {status}")

    def test_it_is_written_where_it_has_room_and_nothing_beyond_it(self):
        for dotted, wanted in SPELT.items():
            text, wanted = dotted.encode(), bytes.fromhex(wanted)
            for room in range(len(wanted) + 9):
                fits = room >= len(wanted)
                answer = NORMAL if fits else NO_ROOM, len(wanted), marked(wanted if fits else b"", room)
                self.same(in_room(SPELL, (text, len(text)), room), answer, SPELL, dotted, "in room for", room)


if __name__ == "__main__":
    unittest.main()
