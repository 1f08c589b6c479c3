"""What the package for Python says of arguments that are of another type than it takes: a TypeError that says what they
have to be, and none is taken for what it isn't. Octets and numbers of subclasses are those that they have, whatever the
subclasses say of them. Attributes that can be gone through only once are refused, parts are taken by their numbers too,
and an element that is signed is looked at also where it isn't in the file."""
import array
import ctypes
import datetime
import mmap
import unittest

from support import built
from support.containers import NULL, bare_bag, content_info, mac_data, store, store_of
from support.elements import integer, octet_string, sequence
from support.given_signed import DATA, certificate_of
from support.signed_data import CERTIFICATE, ISSUER_AND_SERIAL, NAME, SHORT, signer_info, whole
from support.stores import FURTHER
from vuyhanip import build, der, mac_verdict
from vuyhanip.der import BagKind, BagPart, EnvelopePart, Part, PasswordHolder, SignedPart, StorePart

# One of each that is given, and the files that are read.
BAG, MAC = build.Bag(BagKind.KEY, NULL), build.Mac("1.2.3", b"digest", b"salt", 2)
SIGNER, GIVEN_SIGNER = build.Signer(SHORT, SHORT, CERTIFICATE), der.GivenSigner(SHORT, SHORT, b"s", CERTIFICATE)
RECIPIENT, CONTENT = build.Recipient(SHORT, b"k", CERTIFICATE), der.GivenContent(sequence(), True)
IMAGE, INDIRECT = der.GivenImage(), der.GivenIndirect(SHORT, b"digest", der.GivenImage())
PARAMETERS = der.PasswordParameters(b"\x2A\x03")
STORE = store("data", octet_string(sequence()), 3, mac_data(b"digest", b"salt", 2))
SIGNED, ENCRYPTED = whole(1, signer_info(1, ISSUER_AND_SERIAL)), content_info("encrypted data", NULL)
NOW = datetime.datetime(2026, 11, 30, tzinfo=datetime.timezone.utc)
HOLDER = PasswordHolder.ALGORITHM
# What is no text, what is no number, and what is none of the things that calls take.
NO_TEXTS = b"1.2.3", bytearray(b"1.2.3"), memoryview(b"1.2.3"), 5, True, ["1.2.3"], object()
NO_NUMBERS = 1.0, 1.5, -0.5, float("nan"), "1", b"1", [1], object()
NOTHING_TAKEN = "text", b"octets", 5, 1.5, [], {}, object()
# What is in place of a list, also of none.
NO_LISTS = "", "text", b"", CERTIFICATE, bytearray(), memoryview(b""), array.array("B"), (ctypes.c_uint8 * 0)(), BAG


def library():
    return built.library()


def signed(signer=SIGNER, **words):
    return build.signed(b"text", [signer], **words)


def enveloped(**words):
    return build.enveloped(b"text", [RECIPIENT], SHORT, **words)


# Calls that take a text.
TEXTS = {
    "oid_octets": lambda it: library().oid_octets(it),
    "text_utf16": lambda it: library().text_utf16(it),
    "utf16": lambda it: build.utf16(it),
    "a kind that is checked": lambda it: library().check(it, NULL),
    "a kind that is rewritten": lambda it: library().rewrite(it, NULL),
    "friendly_name": lambda it: build.bags([BAG._replace(friendly_name=it)]),
    "identifier": lambda it: build.bags([BAG._replace(kind=BagKind.OTHER, identifier=it)]),
    "digest_algorithm": lambda it: build.Store(sequence()).finish(MAC._replace(digest_algorithm=it)),
    "algorithm": lambda it: build.algorithm(it),
    "a password": lambda it: mac_verdict(STORE, it),
    "prf": lambda it: build.pbes2("1.2.3", initialization_vector=b"", salt=b"", iterations=1, prf=it),
    "a type of signed data": lambda it: signed(content_type=it),
    "a type of enveloped data": lambda it: enveloped(content_type=it),
    "attribute_type": lambda it: build.indirect(SHORT, b"digest", it),
}
# Calls that take a number.
NUMBERS = {
    "iterations of a MAC": lambda it: library().build_store(sequence(), MAC._replace(iterations=it)),
    "iterations": lambda it: library().build_parameters(HOLDER, build.pbes1("1.2", salt=b"", iterations=it)),
    "key_length": lambda it: library().build_parameters(HOLDER, PARAMETERS._replace(key_length=it)),
    "an index of a part": lambda it: library().part(Part.CERTIFICATE, SIGNED, it),
    "an index of a signer": lambda it: library().signer(SIGNED, it),
    "an index of attributes": lambda it: library().attributes(SIGNED, it),
    "a limit of a check": lambda it: library().check("contentinfo", SIGNED, it),
    "a limit of what is rewritten": lambda it: library().rewrite("contentinfo", SIGNED, it),
}
# Calls that take something of a type, and what else is of another one.
ITEMS = {
    "build_bags": (lambda it: library().build_bags([BAG, it]), None, MAC, CONTENT),
    "bags": (lambda it: build.bags([BAG, it]), None, SIGNER),
    "a bag of a store": (lambda it: build.store([[BAG, it]]), None, CONTENT),
    "build_safe": (lambda it: library().build_safe([CONTENT, it]), None, BAG, (sequence(), True)),
    "build_store": (lambda it: library().build_store(sequence(), it), BAG, library),
    "build_signed": (lambda it: library().build_signed(DATA, signers=[GIVEN_SIGNER, it]), None, SIGNER, RECIPIENT),
    "signed": (lambda it: build.signed(b"text", [SIGNER, it]), None, GIVEN_SIGNER, RECIPIENT),
    "build_recipient": (lambda it: library().build_recipient(it), None, GIVEN_SIGNER, CERTIFICATE),
    "recipient": (lambda it: build.recipient(it), None, SIGNER, CERTIFICATE),
    "build_indirect": (lambda it: library().build_indirect(it), None, IMAGE, BAG),
    "image": (lambda it: library().build_indirect(INDIRECT._replace(image=it)), INDIRECT, NULL),
    "build_parameters": (lambda it: library().build_parameters(HOLDER, it), None, BAG, HOLDER),
    "encrypted_key": (lambda it: build.encrypted_key(it), None, MAC),
    "signing_time": (lambda it: library().build_attributes(signing_time=it), NOW.date(), NOW.time(), NOW.timestamp()),
    "signing_time of a signer": (lambda it: signed(SIGNER._replace(digest=b"d", signing_time=it)), NOW.date()),
}
# Calls that take a list.
LISTS = {
    "build_bags": lambda it: library().build_bags(it),
    "bags": lambda it: build.bags(it),
    "build_safe": lambda it: library().build_safe(it),
    "store": lambda it: build.store(it),
    "certificates": lambda it: library().build_signed(DATA, certificates=it),
    "crls": lambda it: library().build_signed(DATA, crls=it),
    "signers": lambda it: library().build_signed(DATA, signers=it),
    "signed": lambda it: build.signed(None, it),
    "certificates of signed": lambda it: signed(certificates=it),
    "crls of signed": lambda it: signed(crls=it),
    "signatures": lambda it: build.signed(None, []).finish(it),
    "build_enveloped": lambda it: library().build_enveloped(DATA, b"text", SHORT, it),
    "enveloped": lambda it: build.enveloped(b"text", it, SHORT),
}
# Calls that take attributes, which are a list or a tuple.
ATTRIBUTES = {
    "of a bag": lambda it: build.bags([BAG._replace(attributes=it)]),
    "build_attributes": lambda it: library().build_attributes(attributes=it),
    "unsigned ones of build_signed": lambda it: library().build_signed(
        DATA, signers=[GIVEN_SIGNER._replace(unsigned_attributes=it)]),
    "of a signer": lambda it: signed(SIGNER._replace(digest=b"d", attributes=it)),
    "of a signer without a digest": lambda it: signed(SIGNER._replace(attributes=it)),
    "unsigned ones": lambda it: signed(SIGNER._replace(unsigned_attributes=it)),
}


class Longer(bytes):
    """Octets that say that they are more, and any others."""

    def __len__(self):
        return bytes.__len__(self) + 40

    def __eq__(self, other):
        return True

    def __hash__(self):
        return 0


class Shorter(bytes):
    """Octets that say that they are fewer."""

    def __len__(self):
        return 1


class AnyNumber(int):
    """A number that is between any two others."""

    def __le__(self, other):
        return True

    __ge__ = __lt__ = __gt__ = __le__


class Indexed:
    """What is a number by __index__ alone, as numbers of other libraries."""

    def __init__(self, number):
        self.number = number

    def __index__(self):
        return self.number


class TestArguments(unittest.TestCase):
    """What is of another type than is taken, and what only says so."""

    def setUp(self):
        built.use_shared()

    def is_refused(self, call, wrong, said, *what):
        with self.assertRaisesRegex(TypeError, said, msg=(*what, wrong)):
            call(wrong)

    def test_a_text_is_a_str(self):
        for name, call in TEXTS.items():
            for wrong in NO_TEXTS:
                self.is_refused(call, wrong, "^.+ has to be of the type str, not ", name)

    def test_a_kind_may_have_any_characters(self):
        for kind in ("\udcff", "pfx\ud800", "", "pfx\0", "\U0001F600"):
            for call in (library().check, library().rewrite):
                with self.assertRaises(der.UnknownKind) as raised:
                    call(kind, STORE)
                self.assertEqual(raised.exception.args, (kind,))

    def test_what_is_given_is_of_its_type(self):
        for name, (call, *others) in ITEMS.items():
            for wrong in (*NOTHING_TAKEN, *others):
                self.is_refused(call, wrong, "^.+ has to be (of the type |a list of bags).+, not ", name)

    def test_what_was_read_is_no_signer_and_no_mac_to_be_written(self):
        """Its fields have other meanings."""
        [signer], mac = library().signers(SIGNED), library().mac(STORE)
        said = r"^signer 0 has to be of the type vuyhanip\.{}, not vuyhanip\.der\.Signer$"
        self.is_refused(lambda it: build.signed(b"text", [it]), signer, said.format(r"build\.Signer"))
        of_library = said.format(r"der\.GivenSigner")
        self.is_refused(lambda it: library().build_signed(DATA, signers=[it]), signer, of_library)
        self.is_refused(build.Store(sequence()).finish, mac, r"^a MAC has to be .+ not vuyhanip\.der\.Mac$")

    def test_a_list_is_no_item(self):
        for name, call in LISTS.items():
            for wrong in (*NO_LISTS, RECIPIENT, SIGNER, GIVEN_SIGNER, MAC):
                self.is_refused(call, wrong, "^[a-z]+ have to be a list, not ", name)

    def test_attributes_can_be_gone_through_again(self):
        """One that is empty the second time would be written once."""
        for name, call in ATTRIBUTES.items():
            for wrong in (iter(FURTHER), iter(()), map(bytes, FURTHER), (it for it in FURTHER), None, 5, *NO_LISTS):
                self.is_refused(call, wrong, "^(unsigned_)?attributes have to be a list, not ", name)
            if name != "of a signer without a digest":
                call(FURTHER)
                call(tuple(FURTHER))
                call([])

    def test_a_number_is_a_whole_one_by_its_type(self):
        for name, call in NUMBERS.items():
            for wrong in NO_NUMBERS:
                self.is_refused(call, wrong, "cannot be interpreted as an integer", name)

    def test_a_number_is_the_one_that_it_has(self):
        for number in (7, 2**31, 2**32, 2**64 + 7, -1):
            wanted = self.iterations(number)
            for other in (AnyNumber(number), Indexed(number)):
                self.assertEqual(self.iterations(other), wanted, number)
            wanted = self.verdict(number)
            self.assertEqual([self.verdict(it(number)) for it in (AnyNumber, Indexed)], 2 * [wanted], number)
        self.assertIsNotNone(library().signer(SIGNED, Indexed(0)))
        self.assertIsNone(library().signer(SIGNED, AnyNumber(2**64)))

    def iterations(self, number):
        """The count of a MAC that is written with one, or which part can't be written."""
        try:
            return library().mac(library().build_store(sequence(), MAC._replace(iterations=number))).iterations
        except der.BadStore as bad:
            return bad.part

    def verdict(self, limit):
        """What a check says with a limit."""
        try:
            return library().check("contentinfo", SIGNED, limit)
        except ValueError as bad:
            return str(bad)

    def test_signed_attributes_are_chosen_by_truth(self):
        text = signed(SIGNER._replace(digest=b"digest", unsigned_attributes=FURTHER)).finish([b"s"])
        self.assertEqual([len(library().attributes(text, 0, it)) for it in (True, False)], [2, len(FURTHER)])
        for chosen in (0, 1, 2, -1, 256, 2**64, 2**64 + 1, None, "x", []):
            wanted = library().attributes(text, 0, bool(chosen))
            self.assertEqual(library().attributes(text, 0, chosen), wanted, chosen)

    def test_octets_are_those_that_there_are(self):
        """Whatever a subclass says of their number."""
        for kind in (Longer, Shorter):
            octets = kind(b"\x01\x02\x03")
            self.assertEqual(library().integer_text(octets), str(0x010203), kind)
            self.assertEqual(library().oid_text(kind(b"\x2A\x03\x04")), "1.2.3.4", kind)
            self.assertEqual(library().check("pfx", kind(STORE)), library().check("pfx", STORE), kind)
            self.assertEqual(library().part(Part.MAC_SALT, kind(STORE)), b"salt", kind)
            self.assertEqual(der.dotted(kind(b"\x2A\x03\x04")), "1.2.3.4", kind)
            self.assertEqual(der.hashed_octets(kind(octet_string(b"text"))), b"text", kind)
            made = library().build_store(sequence(), MAC._replace(digest=kind(b"digest"), salt=kind(b"salt")))
            self.assertEqual(made, library().build_store(sequence(), MAC), kind)
            those = [it._replace(key=kind(it.key), certificate=kind(it.certificate)) for it in 2 * [RECIPIENT]]
            self.assertEqual(*(build.enveloped(b"text", it, SHORT) for it in (those, 2 * [RECIPIENT])), kind)

    def test_octets_are_kept_as_they_are(self):
        for kind in (Longer, Shorter):
            signer = build.Signer(*map(kind, SIGNER[:3]), unsigned_attributes=list(map(kind, FURTHER)))
            made = build.signed(kind(b"text"), [signer])
            wanted = signed(SIGNER._replace(unsigned_attributes=FURTHER))
            self.assertEqual((made.covered, made.finish([b"s"])), (wanted.covered, wanted.finish([b"s"])), kind)
            self.assertEqual({type(it) for it in (*made.covered, made.content, *made.certificates)}, {bytes})
        # two certificates that say that they are equal are two
        both = CERTIFICATE, certificate_of(NAME, integer(129))
        made = build.signed(b"text", [SIGNER._replace(certificate=Longer(it)) for it in both])
        self.assertEqual(made.certificates, both)

    def test_parts_are_taken_by_their_numbers_too(self):
        self.assertFalse({it.value for it in Part} & {it.value for it in EnvelopePart})
        enveloped_data = enveloped()
        for part in (Part.CERTIFICATE, *EnvelopePart):
            data = SIGNED if part is Part.CERTIFICATE else enveloped_data
            self.assertEqual(library().ranges(part.value, data), library().ranges(part, data), part)
        for part in (Part.MAC_DIGEST_ALGORITHM, Part.MAC_DIGEST, Part.MAC_SALT):
            self.assertEqual(library().mac_part_ber(part.value, STORE), library().mac_part_ber(part, STORE), part)
        for wrong in (99, -1, "certificate", None, [], 1.5):
            for call in (library().ranges, library().mac_part_ber):
                with self.assertRaisesRegex(ValueError, "is not a valid Part$"):
                    call(wrong, STORE)
        for part in (Part.SIGNATURE, Part.SIGNATURE.value):
            with self.assertRaisesRegex(ValueError, "^the items of SIGNATURE aren't listed$"):
                library().ranges(part, SIGNED)
            with self.assertRaisesRegex(ValueError, "^SIGNATURE is no part of a MAC$"):
                library().mac_part_ber(part, STORE)

    def test_a_content_of_a_store_is_octets_of_any_type(self):
        mapped = mmap.mmap(-1, len(ENCRYPTED))
        mapped.write(ENCRYPTED)
        wanted = build.store([ENCRYPTED])
        in_c = (ctypes.c_uint8 * len(ENCRYPTED))(*ENCRYPTED)
        for its in (bytearray(ENCRYPTED), memoryview(ENCRYPTED), array.array("B", ENCRYPTED), mapped, in_c):
            self.assertEqual(build.store([its]), wanted, type(its))
        mapped.close()
        for its in (b"", bytearray(), array.array("B"), (ctypes.c_uint8 * 0)()):
            with self.assertRaises(der.BadContent) as raised:
                build.store([(), its])
            self.assertEqual(raised.exception.content, 1, type(its))

    def test_a_content_of_a_store_is_a_list_of_bags_or_octets(self):
        [read] = library().bags(store_of(bare_bag("key bag", NULL)))
        said = "^content 1 has to be a list of bags, or octets, not "
        for wrong in ("", "text", {}, {"bag": BAG}, BAG, read, CONTENT):
            self.is_refused(lambda it: build.store([(), it]), wrong, said)
        for its in ([BAG], (BAG,), iter([BAG]), [read]):
            self.assertEqual(build.store([its]), build.store([[BAG]]), its)

    def test_attributes_of_enveloped_data_are_octets_or_none(self):
        attributes = library().build_attributes(attributes=FURTHER)
        for none in (None, b"", bytearray(), memoryview(b""), array.array("I")):
            self.assertEqual(enveloped(attributes=none), enveloped(), none)
        for its in (attributes, bytearray(attributes), memoryview(attributes)):
            self.assertEqual(enveloped(attributes=its), enveloped(attributes=attributes))
            self.assertNotEqual(enveloped(attributes=its), enveloped())
        for wrong in ([], (), {}, "", "text", 0, 5, False):
            self.is_refused(lambda it: enveloped(attributes=it), wrong, "a bytes-like object is required")

    def test_an_element_is_looked_at_also_where_it_is_elsewhere(self):
        signer = SIGNER._replace(digest=b"digest")
        for wrong in (b"garbage", b"", NULL + NULL, NULL[:1], b"\x1F\x21\1\0"):
            for words in ({}, {"detached": True}):
                with self.assertRaises(der.BadSigned) as raised:
                    build.signed(wrong, [signer], is_element=True, **words)
                self.assertEqual((raised.exception.part, raised.exception.index), (SignedPart.CONTENT, None), wrong)
        for its in (None, NULL):
            made = build.signed(its, [signer], is_element=True, detached=True)
            self.assertIsNone(made.content)
            [found] = library().signers(made.finish([b"s"]))
            self.assertIsNone(found.content)

    def test_a_part_that_is_none_is_still_told(self):
        for call, wanted in (
            (lambda: build.bags([BAG, BAG._replace(kind=BagKind.OTHER, identifier=None)]), BagPart.IDENTIFIER),
            (lambda: build.bags([BAG._replace(friendly_name="\ud800")]), BagPart.FRIENDLY_NAME),
            (lambda: build.Store(sequence()).finish(MAC._replace(digest_algorithm=None)), StorePart.DIGEST_ALGORITHM),
            (lambda: build.Store(sequence()).finish(MAC._replace(iterations=None)), StorePart.ITERATIONS),
        ):
            with self.assertRaises(ValueError) as raised:
                call()
            self.assertIs(raised.exception.part, wanted)


if __name__ == "__main__":
    unittest.main()
