"""What the module for Python hands to its callers: lists that can be counted, objects that say what they are and can be
sent to another process, reasons that are texts, object identifiers of any length, and octets that aren't copied where
they can only be read."""
import copy
import datetime
import mmap
import os
import pickle
import re
import tempfile
import unittest

from support import built, containers, inputs
from support.containers import NULL, bare_bag, content_info, long_signers, mac_data, store_of
from support.elements import element, integer, octet_string, sequence, set_of
from vuyhanip import build, der
from vuyhanip.der import BadAttributes, BagKind, GivenImage, Part, Reason, Refused, Signer

STORE = store_of(
    bare_bag("certificate bag", content_info("X.509 certificate", octet_string(b"C"))),
    bare_bag("safe contents bag", sequence()),
)
# Some of its signers have bad attributes.
SIGNED = next(long_signers())[0]
# Contents octets of object identifiers, and what they are as text: of more than 64 octets, in hexadecimal.
DOTTED = (
    (b"", ""), (b"\x2A", "1.2"), (b"\x2A\x86\x48\x86\xF7\x0D", "1.2.840.113549"), (b"\x88\x37\x03", "2.999.3"),
    # a UUID (X.667)
    (b"\x69\x83" + 17 * b"\xFF" + b"\x7F", f"2.25.{2**128 - 1}"),
    (b"\x2A" + 63 * b"\3", "1.2" + 63 * ".3"), (b"\x2A" + 64 * b"\3", "2A" + 64 * ":03"),
    (b"\x2A" + 62 * b"\xFF" + b"\x7F", f"1.2.{2**441 - 1}"),
    (b"\x2A" + 63 * b"\xFF" + b"\x7F", "2A" + 63 * ":FF" + ":7F"),
)
# One whose number takes more digits than Python writes, and more time than anybody has.
LONG = b"\x2A" + 100_000 * b"\xFF" + b"\x7F"


class OurBag(der.GivenBag):
    """A bag of a caller's own type."""


def library():
    return built.library()


class TestPython(unittest.TestCase):
    """The objects of the module."""

    def test_lists_can_be_counted_and_are_the_same_at_each_look(self):
        store, signed = library().store(STORE), library().signed(SIGNED)
        lists = [store.bags, store.certificates, store.unread, store.bags[0].attributes, library().bags(STORE)]
        lists += [signed.signers, signed.signer_infos, signed.certificates, signed.crls, library().certificates(SIGNED)]
        good = next(it for it in signed.signers if isinstance(it, Signer))
        lists += [good.attributes, good.unsigned_attributes, der.attribute_values(good.attributes[0])]
        for number, it in enumerate(lists):
            self.assertIsInstance(it, tuple, number)
        self.assertEqual([len(it) for it in lists[:5]], [2, 1, 0, 0, 2])
        self.assertIs(signed.signers, signed.signers)
        self.assertEqual(len(good.attributes), len(library().attributes(SIGNED, good.index)))

    def test_objects_say_what_they_are_without_addresses(self):
        store, signed = library().store(STORE), library().signed(SIGNED)
        good = next(it for it in signed.signers if isinstance(it, Signer))
        self.assertEqual(repr(store), f"Store(data={len(STORE)} octets, bags=2)")
        self.assertIn("Bag(kind=<BagKind.CERTIFICATE: 3>, level=0, element=", repr(store.bags[0]))
        self.assertRegex(repr(signed), r"^SignedData\(data=\d+ octets, content_type='[\d.]+', signers=\d+\)$")
        self.assertRegex(repr(good), r"^Signer\(index=\d+, is_over_attributes=True, digest_oid='[\d.]+', ")
        certificate = library().certificate(inputs.certificates()[0])
        self.assertRegex(repr(certificate), r"^Certificate\(serial_octets=\d+ octets, issuer=\d+ octets, ")
        for it in (library(), store, signed, good, certificate, *store.bags, *signed.signer_infos[:1]):
            # (the path of the library is a temporary one, and may have such letters inside a word)
            self.assertIsNone(re.search(r"\b0x|memory at", repr(it)), repr(it))

    def test_objects_go_to_another_process_and_are_equal_there(self):
        store, signed = library().store(STORE), library().signed(SIGNED)
        good = next(it for it in signed.signers if isinstance(it, Signer))
        for it in (good, store.bags[0], library().mac(STORE), library().certificate(inputs.certificates()[0])):
            self.assertEqual(pickle.loads(pickle.dumps(it)), it)
        self.assertEqual(copy.copy(store.bags[0]), store.bags[0])
        self.assertEqual(pickle.loads(pickle.dumps(store)).bags, store.bags)
        again = pickle.loads(pickle.dumps(signed))
        self.assertEqual([type(it) for it in again.signers], [type(it) for it in signed.signers])
        self.assertEqual(bytes(pickle.loads(pickle.dumps(signed.signer_infos[0])).element), bytes(signed.signer_infos[0].element))
        self.assertEqual(len({good, pickle.loads(pickle.dumps(good))}), 1)

    def test_what_is_given_goes_to_another_process_and_is_equal_there(self):
        """Memoryviews too, also in lists and in what is given of an image."""
        its, time = memoryview(NULL), datetime.datetime(2026, 11, 30, tzinfo=datetime.timezone.utc)
        those = [its, NULL]
        for it in (
            der.GivenBag(BagKind.KEY, its, "me", its, those, "1.2"), OurBag(BagKind.KEY, its, attributes=tuple(those)),
            der.GivenContent(its, True), der.GivenMac("1.2", its, its, 1, its), der.GivenImage(its, its),
            der.GivenSigner(*6 * [its], those), der.GivenIndirect(its, its, GivenImage(its), its, its),
            der.GivenIndirect(its, its, der.ImageData(its, its)), der.GivenRecipient(*4 * [its], True),
            build.Signer(*5 * [its], time, those, tuple(those)), der.PasswordParameters(its, salt=its, iterations=1),
        ):
            sent = [pickle.loads(pickle.dumps(it, number)) for number in range(pickle.HIGHEST_PROTOCOL + 1)]
            for again in (*sent, copy.copy(it), copy.deepcopy(it)):
                self.assertEqual((type(again), again), (type(it), it))

    def test_object_identifiers_of_any_length_are_text(self):
        for octets, text in DOTTED:
            for its in (octets, bytearray(octets), memoryview(octets)):
                self.assertEqual(der.dotted(its), text)
        wanted, algorithm = LONG.hex(":").upper(), sequence(element(6, LONG), NULL)
        data = containers.store("data", octet_string(sequence()), 3, mac_data(b"digest", b"salt", 2, algorithm))
        for mac in (library().mac(data), library().mac_ber(data)):
            self.assertEqual(mac.digest_algorithm, wanted)
        self.assertEqual(der.attribute_oid(memoryview(sequence(element(6, LONG), set_of()))), wanted)

    def test_reasons_are_texts_and_one_of_a_few(self):
        with self.assertRaises(Refused) as caught:
            library().check("pfx", b"")
        self.assertIs(caught.exception.reason, Reason.MISSING)
        self.assertEqual((caught.exception.reason, f"{caught.exception}"), ("missing", "missing at 0"))
        self.assertEqual([str(it) for it in Reason], [it.value for it in Reason])

    def test_a_part_is_taken_by_its_number_too(self):
        self.assertEqual(library().part(9, STORE), library().part(Part.STORE_CERTIFICATE, STORE))
        with self.assertRaisesRegex(ValueError, "99 is not a valid Part"):
            library().part(99, STORE)

    def test_a_signer_that_breaks_the_rules_has_no_part_of_a_signer(self):
        bad = next(it for it in library().signers(SIGNED) if isinstance(it, BadAttributes))
        for name in ("digest", "signature", "covered", "certificate", "index"):
            self.assertFalse(hasattr(bad, name), name)

    def test_a_mapped_file_is_not_copied(self):
        with tempfile.TemporaryFile() as file:
            file.write(STORE)
            file.flush()
            with mmap.mmap(file.fileno(), 0, access=mmap.ACCESS_READ) as mapped:
                bags = library().bags(mapped)
                self.assertEqual(bags, library().bags(STORE))
                self.assertIs(bags[0].element.obj, mapped)
                part = memoryview(mapped)[0 : len(STORE)]
                self.assertEqual(library().check("pfx", part), library().check("pfx", STORE))
                # else the file can't be closed
                del bags, part

    def test_a_mapped_file_that_another_writes_changes_what_was_given(self):
        """As the module says, with what keeps it as it was."""
        self.assertIn("gives bytes(mapped)", der.__doc__)
        with tempfile.TemporaryFile() as file:
            file.write(STORE)
            file.flush()
            with mmap.mmap(file.fileno(), 0, access=mmap.ACCESS_READ) as mapped:
                bags, kept = library().bags(mapped), library().bags(bytes(mapped))
                os.pwrite(file.fileno(), b"D", STORE.index(octet_string(b"C")) + 2)
                self.assertEqual((bytes(bags[0].value), bytes(kept[0].value)), (b"D", b"C"))
                # else the file can't be closed
                del bags

    def test_what_can_be_written_is_copied(self):
        """Also by another name than that by which it is given."""
        for given in (lambda it: it, memoryview, lambda it: memoryview(it).toreadonly()):
            octets = bytearray(STORE)
            bags = library().bags(given(octets))
            octets[:] = bytes(len(octets))
            self.assertEqual(bags, library().bags(STORE))

    def test_octets_that_do_not_follow_one_another(self):
        spread = bytes(octet for pair in zip(STORE, bytes(len(STORE))) for octet in pair)
        self.assertEqual(library().check("pfx", memoryview(spread)[::2]), library().check("pfx", STORE))
        numbers = memoryview(integer(3) + integer(4)[:1]).cast("I")
        with self.assertRaises(Refused):
            library().check("pfx", numbers)


if __name__ == "__main__":
    unittest.main()
