"""Ranges that der_part_ranges and der_attribute_ranges list are where the items are found element by element: all
certificates of signed data, of changed files and of hundreds, also of equal ones; recipients, algorithm and octets of
enveloped data; and signed and unsigned attributes of each signer. They are compared in Python and in rooms for one
more, for just them and for one less, where nothing is written."""
import random
import unittest

from support import built, inputs
from support.containers import MANY, long_signers
from support.parts import attribute_places, certificate_places, envelope_places
from support.rooms import RANGE, InRooms, in_room, marked
from support.statuses import NO_PART, NORMAL, answered
from oracle import answers
from vuyhanip.der import EnvelopePart, Part

# How many changed ones of each signed file are asked for the ranges of certificates.
CHANGES = 40


class TestCertificates(InRooms):
    """The ranges of all certificates of signed data."""

    def same_certificates(self, text):
        """Compares where certificates are said to be. Returns how many there are."""
        library = built.library()
        status, _, where = answers.signers(text)
        places = certificate_places(text) if status == NORMAL else []
        if status == NORMAL:
            ranges = [range(start, start + size) for start, size in places]
            self.same(answered(library.ranges, Part.CERTIFICATE, text), (NORMAL, ranges, 0), "ranges", text)
            octets = [text[start : start + size] for start, size in places]
            self.same(list(map(bytes, library.certificates(text))), octets, "certificates", text)
        given = Part.CERTIFICATE.value, text, len(text)
        self.same_rows("der_part_ranges", given, (status, places, where), RANGE, text)
        return len(places)

    def test_all_certificates_are_where_they_are_found(self):
        chance, count = random.Random(14), 0
        for text in inputs.signed_data():
            count += self.same_certificates(text)
            for _ in range(CHANGES):
                self.same_certificates(inputs.changed(chance, text))
        self.at_least(count, 20, "certificates")

    def test_hundreds_of_certificates_are_where_they_are_found(self):
        """In one of them all are equal."""
        for text, _ in long_signers():
            self.at_least(self.same_certificates(text), MANY // 2, "certificates")


class TestEnvelopes(InRooms):
    """The ranges of the parts of enveloped data."""

    def test_recipients_algorithm_and_octets_are_where_they_are_found(self):
        counts = {part: 0 for part in EnvelopePart}
        for text in inputs.enveloped_data():
            for part, places in zip(EnvelopePart, envelope_places(text)):
                ranges = [range(start, start + size) for start, size in places]
                answer = answered(built.library().ranges, part, text)
                self.same(answer, (NORMAL, ranges, 0), part.name, text)
                given = part.value, text, len(text)
                self.same_rows("der_part_ranges", given, (NORMAL, places, 0), RANGE, part.name, text)
                counts[part] += len(places)
        for part, count in counts.items():
            self.at_least(count, 2, f"ranges of {part.name}")


class TestAttributes(InRooms):
    """The ranges of signers' attributes."""

    def same_attributes(self, text, index, is_signed, places):
        """Compares where the attributes of a signer are said to be."""
        found = list(map(bytes, built.library().attributes(text, index, is_signed == 1)))
        wanted = [text[start : start + size] for start, size in places]
        self.same(found, wanted, "attributes of signer", index, is_signed, text)
        given = is_signed, index, text, len(text)
        self.same_rows("der_attribute_ranges", given, (NORMAL, places, 0), RANGE, index, is_signed, text)

    def test_attributes_of_each_signer_are_where_they_are_found(self):
        counts = [0, 0]
        for text in inputs.signed_data():
            status, _, where = answers.signers(text)
            signers = list(attribute_places(text)) if status == NORMAL else []
            for index, sets in enumerate(signers):
                for is_signed, places in enumerate(sets):
                    self.same_attributes(text, index, is_signed, places)
                    counts[is_signed] += len(places)
            nothing = status or NO_PART, 0, where, marked(b"", RANGE)
            answer = in_room("der_attribute_ranges", (1, len(signers), text, len(text)), 1, 2, RANGE)
            self.same(answer, nothing, "attributes of no signer", text)
        self.at_least(min(counts), 2, "attributes")


if __name__ == "__main__":
    unittest.main()
