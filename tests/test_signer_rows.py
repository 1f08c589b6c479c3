"""What a verification of signers needs, as der_signer_rows says it of signed data, is what tests/oracle/signed.py finds,
range by range: of signers of versions 1 and 3, of changed files, of hundreds of signers, with each certificate twice,
and with attributes that RFC 5652 forbids; and in rooms for all, for fewer and for none, from several signers on."""
import random
import unittest

from support import inputs
from support.containers import long_signers, signers_alike
from support.elements import within
from support.parts import certificate_places
from support.rooms import SIGNER_ROW, InRooms, in_room, marked, octets_of
from support.signed_attributes import of_another_content
from support.statuses import BAD_ATTRIBUTES, NORMAL
from oracle import answers
from oracle.signed import NOTHING

# How many changed ones of each signed file are asked for their signers.
CHANGES = 40
# How many signers have to be there of each form, and files with bad attributes.
LEAST = 50


def windows(count):
    """From which signer on how many are asked for, where there are so many."""
    rooms = [(0, room) for room in (count + 1, count, count - 1, 1, 0) if room >= 0]
    return rooms + [(first, count + 1) for first in (count // 2, count, count + 1, 2**64 - 1)] + [(count // 2, 1)]


def just_one_more(count):
    return [(0, count + 1)]


def with_certificates_again(text):
    """Signed data with all certificates once more after them."""
    return within(text, [0, 1, 0, 0xA0], lambda certificates: 2 * certificates)


class TestSignerRows(InRooms):
    """The rows of signers."""

    def same_signers(self, text, asked=windows):
        """Compares the rows of signers in several rooms. Returns the rows."""
        status, rows, where = answers.signers(text)
        for first, room in asked(len(rows)):
            octets = octets_of(row.numbers() for row in rows[first : first + room])
            wanted = status, len(rows), where, marked(octets, room * SIGNER_ROW)
            answer = in_room("der_signer_rows", (text, len(text), first), room, 2, SIGNER_ROW)
            self.same(answer, wanted, "signers from", first, "in room for", room, text)
        return rows

    def test_rows_of_signers_are_those_of_the_other_reader(self):
        chance, found = random.Random(13), []
        for text in inputs.signed_data():
            found += self.same_signers(text)
            for _ in range(CHANGES):
                found += self.same_signers(inputs.changed(chance, text), just_one_more)
        for form in ("status", "over_attributes", "has_content", "has_certificate"):
            self.at_least(sum(bool(getattr(row, form)) for row in found), LEAST, f"signers by {form}")

    def test_of_equal_certificates_the_first_is_the_signers(self):
        texts = [it for it in inputs.signed_data() if answers.signers(it)[0] == NORMAL and certificate_places(it)]
        found = 0
        for text in map(with_certificates_again, texts):
            places = certificate_places(text)
            for row in self.same_signers(text, just_one_more):
                if row.has_certificate:
                    self.same(row.certificate in places[: len(places) // 2], True, "the first of two", text)
                    found += 1
        self.at_least(found, 15, "signers with their certificate twice")

    def test_parts_of_the_same_octets_are_each_in_its_own_place(self):
        text = signers_alike(inputs.SAME)
        rows = self.same_signers(text)
        self.assertEqual([row.status for row in rows], 4 * [NORMAL])
        places = [place for row in rows for place in (row.digest, row.signature)] + [rows[0].content]
        self.assertEqual(len(set(places)), 9)
        self.assertEqual({text[start : start + size] for start, size in places}, {inputs.SAME})
        self.assertEqual({row.certificate for row in rows}, {certificate_places(text)[0]})

    def test_bad_attributes_are_told(self):
        files = inputs.bad_attributes(answers.is_over_attributes)
        for text in files:
            self.same(self.same_signers(text)[0].status, BAD_ATTRIBUTES, "bad attributes", text)
        self.at_least(len(files), LEAST, "files with bad attributes")

    def test_no_attributes_over_content_that_is_not_data_are_told(self):
        files = list(map(of_another_content, filter(answers.is_over_content, inputs.signed_data())))
        for text in files:
            self.same(self.same_signers(text)[0].status, BAD_ATTRIBUTES, "no attributes", text)
        self.at_least(len(files), 5, "files whose content was changed")

    def test_rows_of_hundreds_of_signers_are_as_these_were_made(self):
        """It is known which of them have bad attributes, and which certificate each has."""
        for text, known in long_signers():
            rows, places = self.same_signers(text), certificate_places(text)
            wanted = [(is_bad, NOTHING if is_bad or at is None else places[at]) for is_bad, at in known]
            found = [(row.status == BAD_ATTRIBUTES, row.certificate) for row in rows]
            self.same(found, wanted, "what is known", text)

    def test_rows_of_long_files_are_those_of_the_other_reader(self):
        for kind, text in inputs.long():
            if kind == "pkcs7certificate":
                self.same_signers(text)


if __name__ == "__main__":
    unittest.main()
