"""How der_password_parameters says that data is encrypted with a password: beside the reader of tests/oracle, of
algorithms by hand in each holder, of keys and stores that openssl encrypts by many algorithms, and of changed ones,
also where they are refused; and beside what openssl was asked for, and the places that it shows. What is written is
looked at between marks. python/examples/parameters.py says how stores are encrypted.

Stores and keys of openssl and of keytool are opened with a password, by what der_bag_rows and der_password_parameters
say of them, and nothing else: a key is derived, by hashlib, or as RFC 8018, 5.1, or RFC 7292, B.2, has it, and openssl
enc decrypts with that. What is in them is what openssl itself takes out of them."""
import hashlib
import pickle
import random
import re
import sys
import unittest

from support import built, encrypted, inputs, macs, rows
from support.cases import Comparing
from support.command import Command
from support.containers import NULL, bare_bag, content_info, store_around, store_of
from support.elements import Element, element, integer, octet_string, part, sequence, set_of
from support.encrypted import (
    AES, ENCRYPTED, HMAC, MD5_DES, OF_JAVA, SALT, TRIPLE_DES, VECTOR, algorithm, encrypted_contents, encrypted_key,
    held, pbes1, pbes2, pbkdf2, pbkdf2_parameters, pkcs12, salted, scrypt,
)
from support.encrypting import (
    ALGORITHM, BY_PBES1, BY_PBKDF2, BY_PKCS12, BY_SCRYPT, CONTENTS, KEY, OLD, SECRET, STORES, Encrypted, all_encrypted,
    folder, held_in, key_of, store_of as store_of_openssl, store_of_keytool, without_a_password,
)
from support.oids import ARCS, contents, octets, oid
from support.rooms import PASSWORD, InRooms, in_struct, marked, octets_of
from support.statuses import INVALID, MALFORMED, MISSING, NORMAL, UNKNOWN_KIND, WORDS, answered
from support.tools import Failed, ended, needs, openssl
from oracle import answers
from vuyhanip import der
from vuyhanip.der import BagKind, PasswordHolder

# How many changed ones of each input of openssl are asked for their parameters, and of each one by hand.
CHANGES, CHANGES_BY_HAND = 60, 400
# A line of openssl asn1parse.
LINE = re.compile(r" *(\d+):d=(\d+) +hl=(\d+) l= *(\d+) (?:prim|cons): ")
# Flags of a row but the last, which says whether something is encrypted, and how many numbers there are before ranges.
FLAGS, BEFORE_RANGES = 11, 14
# Object identifiers of PBES1 (RFC 8018, A.3), of PKCS #12 (RFC 7292, C), and some beside these, of which the last are
# shorter or longer by an arc.
KINDS_OF_PBES1 = [f"1.2.840.113549.1.5.{arc}" for arc in (1, 3, 4, 6, 10, 11)]
KINDS_OF_PKCS12 = [f"1.2.840.113549.1.12.1.{arc}" for arc in (1, 2, 3, 4, 5, 6)]
BESIDE = [f"1.2.840.113549.1.5.{arc}" for arc in (0, 2, 5, 7, 8, 9, 12, 13, 14, 129, 131)]
BESIDE += [f"1.2.840.113549.1.12.{arcs}" for arcs in ("1.0", "1.7", "1.10", "1.129", "1.131", "0.1", "2.3", "10.1.2")]
BESIDE += ["1.2.840.113549.1.5", "1.2.840.113549.1.12.1", "1.2.840.113549.1.12", "1.2.840.113549.1"]
BESIDE += [f"{it}.{arc}" for it in KINDS_OF_PBES1 + KINDS_OF_PKCS12 for arc in (0, 1, 3)]
# Types of the worked examples, by their words, that a holder may be; and those of parameters, with the algorithms that
# have such, by the flag of each.
EXAMPLES = {
    **{f"{it}algorithmidentifier": ALGORITHM for it in ("", "raw", "digest", "signature")},
    "pkcs12encryptionalgorithm": ALGORITHM,
    "pbes2keyderivationfunc": ALGORITHM,
    "pbes2encryptionscheme": ALGORITHM,
    "encryptedkeybag": KEY,
    "contentinfo": CONTENTS,
    "safecontentscontentinfo": CONTENTS,
}
EXAMPLES_INSIDE = {
    "pbes1params": {
        "is_pbes1": lambda text: algorithm(MD5_DES, text), "is_pkcs12": lambda text: algorithm(TRIPLE_DES, text)},
    "pbkdf2params": {"is_pbkdf2": lambda text: pbes2(algorithm("PBKDF2", text))},
}
# How many octets a key and a block of an encryption scheme have.
SIZES = {
    "aes-128-cbc": (16, 16), "aes-192-cbc": (24, 16), "aes-256-cbc": (32, 16), "camellia-256-cbc": (32, 16),
    "des-ede3-cbc": (24, 8),
}
# Algorithms of RFC 8018, A.3: the digest and the cipher.
OF_PBES1 = {
    "pbeWithMD5AndDES-CBC": ("md5", "des-cbc"),
    "pbeWithMD5AndRC2-CBC": ("md5", "rc2-64-cbc"),
    "pbeWithSHA1AndDES-CBC": ("sha1", "des-cbc"),
    "pbeWithSHA1AndRC2-CBC": ("sha1", "rc2-64-cbc"),
}
# Algorithms of RFC 7292, C: how many octets a key has, and the cipher. A vector has 8, which RC4 doesn't look at.
OF_PKCS12 = {
    "pbeWithSHA1And128BitRC4": (16, "rc4"),
    "pbeWithSHA1And40BitRC4": (5, "rc4-40"),
    "pbeWithSHA1And3-KeyTripleDES-CBC": (24, "des-ede3-cbc"),
    "pbeWithSHA1And2-KeyTripleDES-CBC": (16, "des-ede-cbc"),
    "pbeWithSHA1And128BitRC2-CBC": (16, "rc2-cbc"),
    "pbeWithSHA1And40BitRC2-CBC": (5, "rc2-40-cbc"),
}


def shown(text):
    """The elements of a text as openssl shows them, each with its depth. Their tags aren't looked at."""
    lines = openssl("asn1parse", "-inform", "DER", text=text).decode("latin-1").splitlines()
    for at, depth, head, size in (map(int, found.groups()) for found in map(LINE.match, lines) if found):
        yield depth, Element(None, at, at + head, at + head + size)


def places_of(holder, text):
    """Where openssl shows the parts of a key or of contents by PBKDF2 without a key length, by their names in der.h."""
    lines = list(shown(text))

    def inside(outer):
        depth = next(depth for depth, it in lines if it == outer)
        return [it for deep, it in lines if deep == depth + 1 and outer.start <= it.at < outer.end]

    whole = lines[0][1]
    if holder is CONTENTS:
        [data] = inside(inside(whole)[1])
        _, whole = inside(data)
    *_, its, octets_there = inside(whole)
    kind, parameters = inside(its)
    derivation, scheme = map(inside, inside(parameters))
    salt, _, *function = inside(derivation[1])
    found = {
        "algorithm": kind.contents_place(), "parameters": parameters.place(), "salt": salt.contents_place(),
        "derivation": derivation[0].contents_place(), "derivation_parameters": derivation[1].place(),
        "encryption": scheme[0].contents_place(), "encryption_parameters": scheme[1].place(),
        "initialization_vector": scheme[1].contents_place(), "encrypted": octets_there.contents_place(),
    }
    return found | {"prf": inside(it)[0].contents_place() for it in function}


def taken(text, row):
    """The parameters in a row as Python has them, with octets of their own."""
    def part_at(place, is_there=1):
        return text[place[0] : sum(place)] if is_there else None

    return der.PasswordParameters(
        part_at(row.algorithm),
        part_at(row.parameters, row.has_parameters),
        bool(row.is_pbes1),
        bool(row.is_pkcs12),
        bool(row.is_pbes2),
        part_at(row.derivation, row.is_pbes2),
        part_at(row.derivation_parameters, row.has_derivation_parameters),
        bool(row.is_pbkdf2),
        part_at(row.salt, row.has_salt),
        row.iterations if row.is_pbes1 or row.is_pkcs12 or row.is_pbkdf2 else None,
        row.key_length if row.has_key_length else None,
        part_at(row.prf, row.has_prf),
        part_at(row.encryption, row.is_pbes2),
        part_at(row.encryption_parameters, row.has_encryption_parameters),
        part_at(row.initialization_vector, row.has_initialization_vector),
        part_at(row.encrypted, row.has_encrypted),
    )


def schemes(its):
    """Whether something is read as PBES1, as PKCS #12, as PBES2 and as PBKDF2."""
    return its.is_pbes1, its.is_pkcs12, its.is_pbes2, its.is_pbkdf2


class Comparison(InRooms):
    """A test that compares how data is said to be encrypted with a password."""

    def same_parameters(self, holder, text):
        """Compares what is said of an input, and what Python is told. Returns the status and the row."""
        status, row, where = answers.password(holder.value, text)
        wanted = status, where, marked(octets_of([row.numbers()]), PASSWORD)
        said = in_struct("der_password_parameters", text, PASSWORD, holder.value)
        self.same(said, wanted, "der_password_parameters", holder.name, text)
        found = taken(text, row) if status == NORMAL else None
        said = answered(built.library().password_parameters, text, holder)
        self.same(said, (status, found, where), "parameters in Python", holder.name, text)
        return status, row


def found_in(holder, text):
    """What Python is told of an input."""
    return built.library().password_parameters(text, holder)


def name(identifier):
    """The name of an object identifier, None where there is none."""
    return None if identifier is None else built.library().oid_name(identifier)


# What is made by hand


def numbers():
    """What may be in the place of a number from 0 to 2^32 - 1, and what isn't quite that."""
    found = [integer(it) for it in (0, 1, 127, 128, 255, 256, 2**31 - 1, 2**31, 2**32 - 1, 2**32, 2**33, 2**64)]
    others = b"", b"\0\0", b"\0\7", b"\0\0\0\0\7", b"\x80", b"\xFF", b"\xFF\0", b"\xFF\xFF\xFF\xFF", bytes(200)
    found += [element(0x02, it) for it in others]
    return [*found, element(0x0A, b"\7"), element(0x22, b"\7"), integer(7)[:2], NULL, b"", integer(1) + integer(2)]


def salts():
    """What may be in the place of a salt."""
    found = [octet_string(it) for it in (b"", SALT, bytes(300))]
    found += [algorithm("data"), algorithm("data", NULL), algorithm("data", NULL, NULL), sequence(), sequence(NULL)]
    found += [element(0x24, octet_string(SALT)), set_of(oid("data")), octet_string(SALT)[:-1]]
    # in BER: a length in more octets than it takes, and one that isn't said
    found += [b"\x04\x81\1\7", b"\x24\x80\0\0"]
    return [*found, NULL, integer(7), b""]


def functions():
    """What may be in the place of a pseudorandom function."""
    found = [HMAC, algorithm("hmacWithSHA256"), algorithm("1.2.3"), algorithm("1.2.3", sequence()), b""]
    found += [algorithm("1.2.3", NULL, NULL), sequence(), sequence(NULL), sequence(element(0x06, b"\x80\1"))]
    return [*found, HMAC + HMAC, oid("hmacWithSHA256"), set_of(oid("hmacWithSHA256")), HMAC[:-1], NULL]


def vectors():
    """What may be in the place of the parameters of an encryption scheme."""
    found = [octet_string(it) for it in (b"", VECTOR, bytes(300))]
    found += [sequence(integer(58), octet_string(VECTOR[:8])), sequence(), element(0x80, VECTOR), NULL, b""]
    found += [element(0x24, octet_string(VECTOR)), octet_string(VECTOR)[:-1], b"\x1F\x81\1\0"]
    return [*found, 2 * octet_string(b"")]


def derivations():
    """What may be in the place of a key derivation."""
    ends = [{"key_length": length, "prf": prf} for length in (b"", integer(32)) for prf in (b"", HMAC)]
    found = [pbkdf2(salt=salt, **end) for salt in salts() for end in ends]
    found += [pbkdf2(**{which: it}) for which in ("iterations", "key_length") for it in numbers()]
    found += [pbkdf2(key_length=length, prf=it) for length in (b"", integer(32)) for it in functions()]
    found += [pbkdf2(key_length=HMAC, prf=integer(32)), pbkdf2(prf=HMAC + NULL)]
    parameters = pbkdf2_parameters()
    found += [pbkdf2(salt=integer(1), iterations=octet_string(SALT)), algorithm("PBKDF2", parameters, NULL)]
    found += [algorithm(kind, parameters) for kind in ("1.2.3", "PBES2", "1.2.840.113549.1.5.12.0", "data")]
    found += [algorithm("PBKDF2", it) for it in (sequence(), NULL, octet_string(SALT), set_of(parameters), b"")]
    return [*found, scrypt(), sequence(), parameters, NULL, b""]


def algorithms():
    """What may be in the place of an AlgorithmIdentifier, and what isn't quite one."""
    found = [pbes2(it) for it in derivations()] + [pbes2(encryption=algorithm("RC2-CBC", it)) for it in vectors()]
    others = sequence(), oid("RC2-CBC"), b"", AES + NULL, AES[:-1], set_of(oid("RC2-CBC"))
    found += [pbes2(encryption=it) for it in others]
    found += [made(salt=it) for made in (pbes1, pkcs12) for it in salts()]
    found += [made(iterations=it) for made in (pbes1, pkcs12) for it in numbers()]
    kinds = "PBES2", "PBKDF2", MD5_DES, TRIPLE_DES, "AES-256-GCM", "1.2.3"
    parameters = [sequence(octet_string(SALT), integer(7)), sequence(pbkdf2(), AES), pbkdf2_parameters(), NULL, b""]
    parameters += [sequence(), octet_string(b""), sequence(octet_string(b""), integer(1), NULL), b"\x30\x80"]
    found += [algorithm(kind, it) for kind in kinds for it in (*parameters, b"\x1F\x1F\0")]
    return [*found, sequence(element(0x06), NULL), sequence(NULL), sequence(), NULL, b"", oid("PBES2"), scrypt()]


def named(*names):
    """The flags of a row but the last, of which these are 1."""
    fields = answers.passwords.Parameters._fields[:FLAGS]
    return tuple(int(field in names) for field in fields)


# What parameters of known algorithms have, by the names of flags in der.h.
PBES1, PKCS12 = ("has_parameters", "is_pbes1", "has_salt"), ("has_parameters", "is_pkcs12", "has_salt")
BARE_PBES2 = "has_parameters", "is_pbes2"
WITH_VECTOR = "has_encryption_parameters", "has_initialization_vector"
PBES2 = *BARE_PBES2, "has_derivation_parameters", *WITH_VECTOR
PBKDF2 = *PBES2, "is_pbkdf2"
KINDS = (
    (), ("has_parameters",), PBES1, PKCS12, (*BARE_PBES2, *WITH_VECTOR), PBES2, (*PBKDF2, "has_salt"),
    (*PBKDF2, "has_prf"), (*PBKDF2, "has_salt", "has_prf"), (*PBKDF2, "has_salt", "has_key_length", "has_prf"),
    (*PBKDF2[:-2], "is_pbkdf2", "has_salt", "has_key_length", "has_prf"),
)


class TestByHand(Comparison):
    """Algorithms that are made by hand, in each holder."""

    def test_parameters_of_the_other_reader_where_they_are_made_by_hand(self):
        counts = {}
        for its in algorithms():
            for holder in PasswordHolder:
                status, row = self.same_parameters(holder, held(holder.value, its))
                kind = holder, status, row[:FLAGS]
                counts[kind] = counts.get(kind, 0) + 1
        for holder in PasswordHolder:
            for flags in KINDS:
                self.at_least(counts.get((holder, NORMAL, named(*flags)), 0), 1, f"{holder.name} with {flags}")
            for status in (MALFORMED, MISSING, INVALID):
                self.at_least(counts.get((holder, status, named()), 0), 1, f"{holder.name} refused by {status}")

    def test_parameters_of_the_other_reader_in_worked_examples(self):
        """Those of a salt and a count, and of PBKDF2, are read as such where the row isn't refused."""
        counts = {"holders": 0, **{flag: 0 for flags in EXAMPLES_INSIDE.values() for flag in flags}}
        for kind, text, said in ((it.type, it.octets(), it.said) for it in rows.examples()):
            if kind in EXAMPLES:
                self.same_parameters(EXAMPLES[kind], text)
                counts["holders"] += 1
            for flag, around in EXAMPLES_INSIDE.get(kind, {}).items():
                is_read = not said.startswith("refused")
                _, row = self.same_parameters(ALGORITHM, around(text))
                self.same(getattr(row, flag), int(is_read), flag, "of", kind, text)
                counts[flag] += is_read
        for what, least in (("holders", 100), ("is_pbes1", 3), ("is_pkcs12", 3), ("is_pbkdf2", 8)):
            self.at_least(counts[what], least, what)

    def test_twelve_algorithms_have_a_salt_and_a_count(self):
        """Others have neither, whatever their parameters look like: they are an element."""
        flags = {**dict.fromkeys(KINDS_OF_PBES1, (1, 0, 0, 0)), **dict.fromkeys(KINDS_OF_PKCS12, (0, 1, 0, 0))}
        self.same(len(flags), 12, "algorithms")
        parts = [(octet_string(salt), salt, count) for salt in (SALT, b"", bytes(300)) for count in (7, 0, 2**32 - 1)]
        for kind in (*flags, *BESIDE, "AES-256-GCM", "AES-256-CCM", "PBKDF2", "PBES2", OF_JAVA):
            for given, salt, count in parts:
                its = salted(kind, given, integer(count))
                for holder in PasswordHolder:
                    status, row = self.same_parameters(holder, held(holder.value, its))
                    self.same((status, schemes(row)), (NORMAL, flags.get(kind, (0, 0, 0, 0))), holder.name, its)
                    found = found_in(holder, held(holder.value, its))
                    wanted = (salt, count) if kind in flags else (None, None)
                    self.same((found.salt, found.iterations), wanted, "salt and count", holder.name, its)
                    wanted = contents(ARCS.get(kind, kind)), sequence(given, integer(count))
                    self.same((found.algorithm, found.parameters), wanted, "what is given of all", holder.name, its)

    def test_pbkdf2_and_its_parts_are_looked_at_only_in_pbes2(self):
        """There an algorithm of a salt and a count is an element alone."""
        for its in (pbkdf2(), pbkdf2(key_length=b"", prf=b"")):
            status, row = self.same_parameters(ALGORITHM, its)
            self.same((status, named("has_parameters")), (NORMAL, row[:FLAGS]), "PBKDF2 by itself", its)
        for derivation in (pbes1(), pkcs12(), salted("1.2.3")):
            status, row = self.same_parameters(ALGORITHM, pbes2(derivation, derivation))
            wanted = named(*BARE_PBES2, "has_derivation_parameters", "has_encryption_parameters")
            self.same((status, row[:FLAGS]), (NORMAL, wanted), "in PBES2", derivation)

    def test_a_vector_of_any_length_is_given_as_it_is(self):
        for vector in (b"", b"\1\2\3", bytes(15), bytes(17), bytes(300)):
            its = pbes2(encryption=algorithm("AES-256-CBC", octet_string(vector)))
            for holder in PasswordHolder:
                status, row = self.same_parameters(holder, held(holder.value, its))
                self.same((status, row.has_initialization_vector), (NORMAL, 1), holder.name, its)
                found = found_in(holder, held(holder.value, its))
                self.same(found.initialization_vector, vector, "the vector", holder.name, its)

    def test_numbers_are_those_that_were_given(self):
        """Parameters with a number of 2^32 or more, or a negative one, are those of no algorithm that is known."""
        for number in (0, 1, 127, 128, 2048, 2**31, 2**32 - 1):
            for made, flags in ((pbes1, (True, False)), (pkcs12, (False, True))):
                its = found_in(ALGORITHM, made(iterations=integer(number)))
                self.same((its.is_pbes1, its.is_pkcs12), flags, made.__name__, number)
                self.same((its.iterations, its.key_length), (number, None), made.__name__, number)
            length = number // 2
            its = found_in(ALGORITHM, pbes2(pbkdf2(iterations=integer(number), key_length=integer(length))))
            self.same((its.is_pbkdf2, its.iterations, its.key_length), (True, number, length), "PBKDF2", number)
        for number in (integer(2**32), integer(2**64), element(0x02, b"\xFF"), element(0x02, b"\x80\0\0\0")):
            for made in (pbes1, pkcs12):
                its = found_in(ALGORITHM, made(iterations=number))
                self.same((any(schemes(its)), its.salt, its.iterations), (False, None, None), made.__name__, number)
            for others in ({"iterations": number}, {"key_length": number}):
                its = found_in(ALGORITHM, pbes2(pbkdf2(**others)))
                said = its.is_pbes2, its.is_pbkdf2, its.salt, its.iterations, its.key_length
                self.same(said, (True, False, None, None, None), "PBKDF2", others)
                self.same(its.derivation_parameters, pbkdf2_parameters(**others), "its parameters", others)

    def test_parameters_are_the_same_in_each_holder(self):
        """But for where they are, and for what is encrypted."""
        least = pbkdf2(salt=algorithm("data"), key_length=b"", prf=b"")
        for its in (pbes2(), pbes2(least), pbes1(), pkcs12(), pbes2(scrypt()), salted("AES-256-GCM")):
            rows = []
            for holder in PasswordHolder:
                text = held(holder.value, its)
                start = text.index(its)
                status, row = self.same_parameters(holder, text)
                *places, (at, size) = row[BEFORE_RANGES:]
                shifted = [(at - start, size) if size else (at, size) for at, size in places]
                rows.append((status, row[:FLAGS], row[FLAGS + 1 : BEFORE_RANGES], shifted))
                wanted = (0, b"") if holder is ALGORITHM else (1, ENCRYPTED)
                self.same((row.has_encrypted, text[at : at + size]), wanted, "what is encrypted", holder.name)
            self.same(rows[1:], 2 * rows[:1], "the same in each holder", its)

    def test_contents_may_be_elsewhere_and_of_any_type(self):
        for kind in ("data", "1.2.3.4", "encrypted data"):
            for there in ([], [b""], [bytes(300)]):
                info = sequence(oid(kind), pbes2(), *(element(0x80, it) for it in there))
                text = content_info("encrypted data", sequence(integer(0), info))
                status, row = self.same_parameters(CONTENTS, text)
                self.same((status, row.has_encrypted), (NORMAL, len(there)), kind, there)

    def test_what_is_no_holder_is_refused_where_it_is_known(self):
        for number, text, reason, where in encrypted.refused_holders():
            status, row = self.same_parameters(PasswordHolder(number), text)
            self.same((status, answers.password(number, text)[2]), (WORDS.index(reason), where), number, text)
            self.same(any(row.numbers()), False, "nothing of what is refused", number, text)

    def test_no_holder_has_another_number(self):
        """Whatever the input is."""
        for number in (3, 4, 255, 256, 2**32, 2**63, 2**64 - 1):
            for text in (pbes2(), encrypted_key(pbes2()), encrypted_contents(pbes2(), ENCRYPTED), b"", b"\x30"):
                wanted = UNKNOWN_KIND, 0, marked(bytes(PASSWORD), PASSWORD)
                said = in_struct("der_password_parameters", text, PASSWORD, number)
                self.same(said, wanted, "a holder with the number", number, text)
        with self.assertRaisesRegex(ValueError, "3 is not a valid PasswordHolder"):
            built.library().password_parameters(pbes2(), 3)
        by_number = built.library().password_parameters(pbes2(), 0)
        self.same(by_number, found_in(ALGORITHM, pbes2()), "a holder by its number")

    def test_each_part_has_its_own_place_where_others_have_the_same_octets(self):
        """Object identifiers, the salt, the vector and what is encrypted are the same octets; then the parameters of
        the key derivation and of the encryption scheme are."""
        same = octets("PBKDF2")
        derivation = pbkdf2(salt=octet_string(same), prf=algorithm("PBKDF2"))
        its = pbes2(derivation, algorithm("PBKDF2", octet_string(same)))
        names = "derivation", "salt", "prf", "encryption", "initialization_vector", "encrypted"
        for holder, text in ((KEY, encrypted_key(its, same)), (CONTENTS, encrypted_contents(its, same))):
            status, row = self.same_parameters(holder, text)
            places = [getattr(row, it) for it in names]
            self.same((status, {text[at : at + size] for at, size in places}), (NORMAL, {same}), "equal octets", text)
            ends = [end for at, size in places for end in (at, at + size)]
            self.same((ends, len(set(places))), (sorted(ends), len(names)), "places in their order", text)
        parameters = pbkdf2_parameters(key_length=b"")
        text = pbes2(algorithm("PBKDF2", parameters), algorithm("PBKDF2", parameters))
        status, row = self.same_parameters(ALGORITHM, text)
        wanted = [(text.index(parameters), len(parameters)), (text.rindex(parameters), len(parameters))]
        found = [row.derivation_parameters, row.encryption_parameters]
        self.same((status, found, text.count(parameters)), (NORMAL, wanted, 2), "equal parameters", text)

    def test_parts_may_be_such_inputs_themselves(self):
        """What is encrypted is a whole key, or whole contents, and a scheme is PBES2 again, with its parameters."""
        key, whole = encrypted_key(pbes2()), encrypted_contents(pbes1(), ENCRYPTED)
        for holder, text, inner in (
            (KEY, encrypted_key(pbes2(), key), key), (CONTENTS, encrypted_contents(pbes1(), whole), whole),
            (KEY, encrypted_key(pbes1(), whole), whole), (CONTENTS, encrypted_contents(pbes2(), key), key),
        ):
            status, row = self.same_parameters(holder, text)
            start, size = row.encrypted
            self.same((status, text[start : start + size]), (NORMAL, inner), holder.name, text)
        status, row = self.same_parameters(ALGORITHM, pbes2(pbes2(), pbes2()))
        parameters = part(pbes2(), 1)
        sizes = {row.derivation_parameters[1], row.encryption_parameters[1]}
        self.same((status, row.is_pbes2, row.is_pbkdf2, sizes), (NORMAL, 1, 0, {len(parameters)}), "PBES2 by PBES2")

    def test_parameters_are_those_of_the_other_reader_also_of_changed_inputs(self):
        chance, counts = random.Random(37), {}
        least = pbkdf2(key_length=b"", prf=b"")
        its = [pbes2(), pbes2(least), pbes2(scrypt()), pbes2(encryption=algorithm("RC2-CBC")), pbes1(), pkcs12()]
        for holder, text in [(holder, held(holder.value, it)) for it in its for holder in PasswordHolder]:
            for changed in (text, *(inputs.changed(chance, text) for _ in range(CHANGES_BY_HAND))):
                status, row = self.same_parameters(holder, changed)
                kind = status, *schemes(row)
                counts[kind] = counts.get(kind, 0) + 1
        flags = (0, 0, 1, 1), (0, 0, 1, 0), (0, 1, 0, 0), (1, 0, 0, 0), (0, 0, 0, 0)
        for kind in [(NORMAL, *its) for its in flags] + [(it, 0, 0, 0, 0) for it in (MALFORMED, MISSING, INVALID)]:
            self.at_least(counts.get(kind, 0), 10, f"inputs with {kind}")


class TestOpenssl(Comparison):
    """What openssl encrypts."""

    def test_parameters_are_those_of_the_other_reader_also_of_changed_inputs(self):
        chance, counts = random.Random(41), {}
        for holder, text in all_encrypted():
            for its in [text, *(inputs.changed(chance, text) for _ in range(CHANGES))]:
                status, row = self.same_parameters(holder, its)
                kind = holder, status, *schemes(row)
                counts[kind] = counts.get(kind, 0) + 1
        for holder in PasswordHolder:
            for flags in ((0, 0, 1, 1), (0, 1, 0, 0), (1, 0, 0, 0), (0, 0, 0, 0)):
                self.at_least(counts.get((holder, NORMAL, *flags), 0), 5, f"{holder.name} with {flags}")
            for status in (MALFORMED, INVALID):
                self.at_least(counts.get((holder, status, 0, 0, 0, 0), 0), 10, f"{holder.name} refused by {status}")

    def test_parameters_by_pbkdf2_are_what_openssl_was_asked_for(self):
        for options, (scheme, function, count) in BY_PBKDF2.items():
            its = found_in(KEY, key_of(options))
            self.same((name(its.algorithm), name(its.derivation)), ("PBES2", "PBKDF2"), options)
            self.same((name(its.encryption), name(its.prf), its.iterations), (scheme, function, count), options)
            self.same(schemes(its), (False, False, True, True), options)
            self.same(name(contents(its.prf_oid)), function or "hmacWithSHA1", options, "the function or its default")
            has_vector = its.initialization_vector is not None
            self.same((len(its.salt) >= 8, has_vector), (True, scheme != "rc2-cbc"), options, "a salt and a vector")

    def test_parameters_of_other_algorithms_are_what_openssl_was_asked_for(self):
        for asked, flags in ((BY_PBES1, (True, False, False, False)), (BY_PKCS12, (False, True, False, False))):
            for options, (kind, count) in asked.items():
                its = found_in(KEY, key_of(options))
                self.same((name(its.algorithm), its.iterations, len(its.salt)), (kind, count, 8), options)
                self.same((schemes(its), its.derivation, its.prf_oid), (flags, None, None), options)
        for options in BY_SCRYPT:
            its = found_in(KEY, key_of(options))
            self.same((name(its.algorithm), name(its.derivation)), ("PBES2", "scrypt"), options)
            self.same((its.is_pbkdf2, its.salt, its.iterations, its.prf), (False, None, None, None), options)
            self.same((its.derivation_parameters[0], len(its.initialization_vector)), (0x30, 16), options)
        for holder, text in without_a_password():
            its = found_in(holder, text)
            self.same((name(its.algorithm), any(schemes(its))), ("aes-128-cbc", False), holder.name)
            # the vector is the parameters of the algorithm itself
            self.same((its.parameters[:2], its.initialization_vector), (b"\x04\x10", None), holder.name, "parameters")
            self.same(its.encrypted is None, holder is ALGORITHM, holder.name, "what is encrypted")

    def test_parameters_are_where_openssl_shows_them(self):
        count = 0
        texts = [Encrypted(KEY, key_of(options)) for options in BY_PBKDF2 if OLD not in options]
        for holder, text in (*texts, *(it for options in STORES for it in held_in(store_of_openssl(options)))):
            status, row = self.same_parameters(holder, text)
            if row.is_pbkdf2:
                places = row._asdict().items()
                found = {it: place for it, place in places if isinstance(place, tuple) and place != (0, 0)}
                self.same((status, found), (NORMAL, places_of(holder, text)), "what openssl shows", holder.name, text)
                count += 1
        self.at_least(count, 20, "inputs by PBKDF2")


# What is opened


def by_pbkdf2(its, password):
    """The cipher, the key and the vector of what is encrypted by PBES2 and PBKDF2."""
    cipher, vector = name(its.encryption), its.initialization_vector
    key_size, block_size = SIZES[cipher]
    if its.key_length not in (None, key_size) or vector is None or len(vector) != block_size:
        raise ValueError(f"{cipher} takes no such key, or no such vector")
    given = der.prf_digest(its.prf_oid), password.encode(), its.salt, its.iterations
    return cipher, hashlib.pbkdf2_hmac(*given, key_size), vector


def by_pbes1(its, password):
    """The same of what is encrypted by an algorithm of RFC 8018, A.3: by PBKDF1 (5.1)."""
    digest, cipher = OF_PBES1[name(its.algorithm)]
    hashed = password.encode() + bytes(its.salt)
    for _ in range(its.iterations):
        hashed = hashlib.new(digest, hashed).digest()
    return cipher, hashed[:8], hashed[8:16]


def by_pkcs12(its, password):
    """The same of what is encrypted by an algorithm of RFC 7292, C."""
    size, cipher = OF_PKCS12[name(its.algorithm)]
    given = password, bytes(its.salt), its.iterations
    key = macs.derived("sha1", macs.FOR_KEY, *given, size)
    return cipher, key, macs.derived("sha1", macs.FOR_VECTOR, *given, 8)


def decrypted(holder, text, password=SECRET):
    """What is encrypted in a key or in contents."""
    its = found_in(holder, text)
    by = by_pbes1 if its.is_pbes1 else by_pkcs12 if its.is_pkcs12 else by_pbkdf2
    cipher, key, vector = by(its, password)
    words = "enc", "-d", f"-{cipher}", "-K", key.hex(), "-iv", bytes(vector).hex(), *OLD.split()
    return openssl(*words, text=bytes(its.encrypted))


def opened(store, password=SECRET):
    """The keys and the certificates of a store, each an encoding."""
    keys, certificates = [], []
    for bag in built.library().bags(store):
        if bag.kind is BagKind.UNREAD:
            # what is in contents are bags, which are found in a store around them
            inner = opened(store_around(decrypted(CONTENTS, bag.element, password)), password)
            keys, certificates = keys + inner[0], certificates + inner[1]
        elif bag.kind is BagKind.SHROUDED_KEY:
            keys.append(decrypted(KEY, bag.value, password))
        elif bag.kind is BagKind.KEY:
            keys.append(bytes(bag.value))
        elif bag.kind is BagKind.CERTIFICATE:
            certificates.append(bytes(bag.value))
    return keys, certificates


def as_openssl_has_it(key):
    """A key, as openssl writes it."""
    return openssl("pkey", "-inform", "DER", "-outform", "DER", text=key)


def taken_out(store, password=SECRET):
    """The key and the certificate of a store, as openssl takes them out."""
    path = folder() / "asked.p12"
    path.write_bytes(store)
    words = "pkcs12", "-in", path, "-passin", f"pass:{password}", "-nodes", "-legacy"
    key = openssl("pkey", "-outform", "DER", text=openssl(*words, "-nocerts"))
    return [key], [openssl("x509", "-outform", "DER", text=openssl(*words, "-nokeys"))]


class TestOpened(Comparing):
    """Stores and keys."""

    def same_store(self, store, what, password=SECRET):
        keys, certificates = opened(store, password)
        found = list(map(as_openssl_has_it, keys)), certificates
        self.same(found, taken_out(store, password), "the key and the certificate of", what)

    def test_stores_of_openssl_are_opened_whole(self):
        holders = []
        for options in STORES:
            self.same_store(store_of_openssl(options), f"a store by '{options}'")
            holders += [it.holder for it in held_in(store_of_openssl(options))]
        self.at_least(holders.count(CONTENTS), 5, "encrypted contents")
        self.at_least(holders.count(KEY), 5, "encrypted keys")

    @needs("keytool")
    def test_a_store_of_keytool_is_opened_whole(self):
        """It says how long its keys are."""
        store = store_of_keytool()
        lengths = [found_in(*it).key_length for it in held_in(store)]
        self.same(lengths, [32, 32], "lengths of keys")
        self.same_store(store, "a store of keytool", 2 * SECRET)

    def test_keys_of_openssl_are_opened(self):
        wanted = openssl("pkey", "-in", folder() / "one.key", "-outform", "DER")
        asked = [options for options, (scheme, *_) in BY_PBKDF2.items() if scheme in SIZES]
        self.at_least(len(asked), 14, "keys by PBKDF2")
        for options in (*asked, *BY_PBES1, *BY_PKCS12):
            self.same(as_openssl_has_it(decrypted(KEY, key_of(options))), wanted, "a key by", options)

    def test_another_length_than_the_cipher_takes_opens_nothing(self):
        """Of the key, and of the vector, which may be absent."""
        for length in (b"", integer(32)):
            cipher, key, vector = by_pbkdf2(found_in(ALGORITHM, pbes2(pbkdf2(key_length=length))), SECRET)
            self.same((cipher, len(key), vector), ("aes-256-cbc", 32, VECTOR), "what the cipher takes", length)
        others = [pbes2(pbkdf2(key_length=integer(it))) for it in (0, 1, 16, 31, 33, 2**32 - 1)]
        vectors_there = [octet_string(it) for it in (b"", b"\1\2\3", bytes(8), bytes(15), bytes(17))]
        others += [pbes2(encryption=algorithm("AES-256-CBC", it)) for it in (*vectors_there, NULL, b"")]
        others += [pbes2(pbkdf2(key_length=b""), algorithm("AES-256-CBC", it)) for it in vectors_there]
        for its in others:
            with self.assertRaisesRegex(ValueError, "aes-256-cbc takes no such key, or no such vector"):
                decrypted(KEY, encrypted_key(its))

    def test_another_password_opens_nothing(self):
        """What another key makes of the octets has no padding at its end, or is no key."""
        for options in ("-v2 aes-256-cbc", "-v1 PBE-SHA1-3DES", f"-v1 PBE-MD5-DES {OLD}"):
            with self.assertRaises(Failed):
                as_openssl_has_it(decrypted(KEY, key_of(options), SECRET.title()))


class TestPython(Comparison):
    """What the objects of the package say."""

    def test_objects_say_what_they_are(self):
        found = found_in(KEY, encrypted_key(pbes2()))
        wanted = "algorithm=9 octets, parameters=87 octets, is_pbes1=False, is_pkcs12=False, is_pbes2=True, "
        wanted += "derivation=9 octets, derivation_parameters=41 octets, is_pbkdf2=True, salt=16 octets, "
        wanted += "iterations=2048, key_length=32, prf=8 octets, encryption=9 octets, encryption_parameters=18 octets, "
        wanted += "initialization_vector=16 octets, encrypted=32 octets"
        self.same(repr(found), f"PasswordParameters({wanted})", "how they are shown")
        identifiers = found.algorithm_oid, found.derivation_oid, found.prf_oid, found.encryption_oid
        wanted = "1.2.840.113549.1.5.13", "1.2.840.113549.1.5.12", "1.2.840.113549.2.9", "2.16.840.1.101.3.4.1.42"
        self.same(identifiers, wanted, "object identifiers")
        self.same((found.salt, found.initialization_vector, found.encrypted), (SALT, VECTOR, ENCRYPTED), "octets")

    def test_what_is_absent_is_none(self):
        found = found_in(ALGORITHM, algorithm("1.2.3"))
        self.same((found.algorithm_oid, set(found[1:])), ("1.2.3", {None, False}), "an algorithm without parameters")
        self.same((found.derivation_oid, found.prf_oid, found.encryption_oid), (None, None, None), "object identifiers")
        least = pbkdf2(salt=algorithm("1.2.3"), iterations=integer(0), key_length=b"", prf=b"")
        found = found_in(CONTENTS, encrypted_contents(pbes2(least, algorithm("1.2.3"))))
        self.same((found.salt, found.iterations, found.key_length, found.prf), (None, 0, None, None), "PBKDF2")
        self.same(found.prf_oid, "1.2.840.113549.2.7", "the function where it is left out")
        self.same(set(found[13:]), {None}, "what the scheme lacks, and what is elsewhere")
        found = found_in(KEY, encrypted_key(pbes1(salt=octet_string(b"")), b""))
        self.same((found.salt, found.encrypted, found.prf_oid), (b"", b"", None), "what is empty")

    def test_functions_have_digests(self):
        for dotted, digest in der.PRFS.items():
            said = der.prf_digest(dotted)
            self.same(said, digest if digest in hashlib.algorithms_available else None, "the digest of", dotted)
            self.same(name(contents(dotted)).replace("-", "_").lower(), f"hmacwith{digest}", "the name of", dotted)
        self.same({der.prf_digest(it) for it in ("1.2.3", "1.2.840.113549.2.6", "", None)}, {None}, "others")

    def test_objects_go_to_another_process_and_octets_are_not_copied(self):
        text = encrypted_key(pbes2())
        found = found_in(KEY, text)
        self.same(pickle.loads(pickle.dumps(found)), found, "what comes back")
        self.same({it.obj is text for it in (found.algorithm, found.salt, found.encrypted)}, {True}, "no copy")
        written = bytearray(text)
        kept = found_in(KEY, written)
        written[:] = bytes(len(written))
        self.same(kept, found, "what can be written is copied")
        store = store_of(bare_bag("shrouded key bag", text))
        [key] = built.library().store(store).encrypted_keys
        its = found_in(KEY, key)
        self.same((its, its.salt.obj is store), (found, True), "a part of a store")


class TestCommand(Command):
    """What python/examples/parameters.py says."""

    def says_of_example(self, file, status, lines, complaint=""):
        """Asks what the example says of a file."""
        words = sys.executable, built.TOP / "python/examples/parameters.py", file
        ran = ended(*words, cwd=self.room, env=self.environment())
        said = "".join(f"{line}\n" for line in lines)
        self.assertEqual((ran.returncode, ran.stdout.decode(), ran.stderr.decode()), (status, said, complaint))

    def test_it_says_how_stores_of_openssl_are_encrypted(self):
        triple_des = "pbeWithSHA1And3-KeyTripleDES-CBC, 2048 iterations, salt of 8 octets"
        for options, lines in (
            ("-keypbe PBE-SHA1-3DES -certpbe PBE-SHA1-3DES", [f"contents: {triple_des}", f"key: {triple_des}"]),
            ("-keypbe NONE -certpbe NONE -nomac", []),
        ):
            self.put("store.p12", store_of_openssl(options))
            self.says_of_example("store.p12", 0, lines)

    def test_it_says_what_it_knows_of_others(self):
        for text, lines in encrypted.stores_of_examples():
            self.put("store.p12", text)
            self.says_of_example("store.p12", 0, lines)

    def test_what_is_no_store_is_refused(self):
        self.says_of_example("attributes.p7s", 1, [], "refused: invalid at 4\n")


if __name__ == "__main__":
    unittest.main()
