"""Conversions, into just the room that they need and into an octet less: from BER to DER beside the converter of
tests/oracle/ber.py, of the rows of ber_trial, of made-up inputs and of changed ones; and of INTEGERs to text, beside
Python's numbers."""
import random
import sys
import unittest

from support import built, rows
from support.ber_inputs import made_up
from support.rooms import InRooms, in_room, marked
from support.statuses import INVALID, NORMAL, answered
from oracle import answers

# How many inputs in BER are made up, and changed ones of them.
MADE_UP = 4000
# How many INTEGERs are made up, and of how many octets there is text.
INTEGERS, MOST_OCTETS = 400, 1024


class TestFromBer(InRooms):
    """Conversions from BER."""

    def same_der(self, text):
        """Compares a conversion in Python, and into a room, also where it is refused. Returns the status, and whether
        the DER is other than the input."""
        status, made, where = wanted = answers.der_of(text)
        answer = answered(built.library().from_ber, text, nothing=b"")
        self.same(answer, wanted, "from_ber", text)
        given = text, len(text)
        if status == NORMAL:
            self.same_octets("der_from_ber", given, made, text, places=1)
        else:
            nothing = status, 0, where, marked(b"", len(text))
            self.same(in_room("der_from_ber", given, len(text), 2), nothing, "der_from_ber", text)
        return status, status == NORMAL and made != text

    def test_the_der_is_that_of_the_other_converter(self):
        texts = [*rows.ber(), *made_up(MADE_UP)]
        met = [self.same_der(text) for text in texts]
        self.same({status for status, _ in met}, {0, 3, 4, 5, 6}, "statuses")
        self.at_least(sum(is_other for _, is_other in met), len(texts) // 8, "inputs that have other DER")


def integers():
    """Contents octets of INTEGERs: at the ends of each count of octets, and made-up ones."""
    chance = random.Random(15)
    firsts = (0, 0x7F, 0x80, 0xFF)
    ends = [bytes([first, *[rest] * size]) for size in range(40) for first in firsts for rest in (0, 0xFF)]
    made = [chance.randbytes(chance.randrange(1, 65)) for _ in range(INTEGERS)]
    return [*ends, *made, chance.randbytes(MOST_OCTETS)]


class TestIntegers(InRooms):
    """Texts of INTEGERs."""

    def setUp(self):
        super().setUp()
        if hasattr(sys, "set_int_max_str_digits"):
            self.addCleanup(sys.set_int_max_str_digits, sys.get_int_max_str_digits())
            sys.set_int_max_str_digits(0)

    def test_texts_are_those_of_python(self):
        for contents in integers():
            wanted = str(int.from_bytes(contents, "big", signed=True))
            self.same(answered(built.library().integer_text, contents), (NORMAL, wanted, 0), contents)
            self.same_octets("der_integer_text", (contents, len(contents)), wanted.encode(), contents)

    def test_there_is_no_text_of_no_octets_or_of_too_many(self):
        for contents in (b"", bytes(MOST_OCTETS + 1), integers()[-1] + b"\0"):
            self.same(answered(built.library().integer_text, contents), (INVALID, None, 0), contents)


if __name__ == "__main__":
    unittest.main()
