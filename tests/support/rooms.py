"""Calls of the library into rooms of chosen sizes, with marks around them, where der.py gives a call the room that it
asks for."""
import ctypes
import functools
import sys

from .built import shared
from .cases import Comparing
from .statuses import NORMAL, NO_ROOM

# What surrounds the room for a call's answer, and what is in it before.
MARK = b"\xEE"
MARKS = 64 * MARK
# How many bytes a number has, a range, a row of der_bag_rows, of der_signer_rows and of der_trust_rows, and what
# der_certificate, der_indirect, der_trust_list and der_password_parameters write.
NUMBER = ctypes.sizeof(ctypes.c_size_t)
RANGE, BAG_ROW, SIGNER_ROW, TRUST_ENTRY = 2 * NUMBER, 12 * NUMBER, 18 * NUMBER, 5 * NUMBER
CERTIFICATE, INDIRECT, TRUST_LIST, PASSWORD = 24 * NUMBER, 16 * NUMBER, 21 * NUMBER, 34 * NUMBER


@functools.lru_cache(maxsize=None)
def calls():
    """The calls of the shared library, with no types of what they are given."""
    return ctypes.CDLL(str(shared()))


def in_room(name, given, room, numbers=1, item=1):
    """What a call answers where it has room for so many items, each of so many bytes: the status, the numbers that it
    writes, and what is in the room and around it. It is given octets, numbers, and structs, or arrays of them, each as
    a list of its numbers."""
    out = ctypes.create_string_buffer(marked(b"", room * item), 2 * len(MARKS) + room * item)
    words = [word if isinstance(word, bytes) else numbers_of(word) for word in given]
    written = [ctypes.c_size_t() for _ in range(numbers)]
    there = ctypes.byref(out, len(MARKS))
    status = calls()[name](*words, there, ctypes.c_size_t(room), *map(ctypes.byref, written))
    return status, *(number.value for number in written), out.raw


def numbers_of(word):
    """A number as a call takes it, or a struct of numbers, or an array of such."""
    return (ctypes.c_size_t * len(word))(*word) if isinstance(word, list) else ctypes.c_size_t(word)


def in_struct(name, octets, size, *numbers):
    """What a call answers that writes a struct of so many bytes and a place: the status, the place, and what is in the
    struct and around it. It is given some numbers before the octets, if it takes any."""
    out, place = ctypes.create_string_buffer(marked(b"", size), 2 * len(MARKS) + size), ctypes.c_size_t()
    given = octets, ctypes.c_size_t(len(octets)), ctypes.byref(out, len(MARKS)), ctypes.byref(place)
    return calls()[name](*map(ctypes.c_size_t, numbers), *given), place.value, out.raw


def marked(octets, size):
    """What is in a room of a size, and around it, where a call wrote octets at its beginning."""
    return MARKS + octets.ljust(size, MARK) + MARKS


def octets_of(rows):
    """Rows of numbers, as a call writes them."""
    return b"".join(number.to_bytes(NUMBER, sys.byteorder) for row in rows for number in row)


class InRooms(Comparing):
    """A test that compares what calls write into rooms."""

    def same_octets(self, name, given, wanted, *what, places=0):
        """Asks that a call writes octets into the room that they need, and nothing into a room of an octet less. So
        many numbers after their count are places, which are 0."""
        size, zeros = len(wanted), places * [0]
        ample = NORMAL, size, *zeros, marked(wanted, size)
        self.same(in_room(name, given, size, 1 + places), ample, name, *what, "in just its room")
        if size:
            short = NO_ROOM, size, *zeros, marked(b"", size - 1)
            self.same(in_room(name, given, size - 1, 1 + places), short, name, *what, "in its room but one")

    def same_rows(self, name, given, answer, item, *what):
        """Asks that a call writes all rows where there is room for one more and for just them, and none of them where
        there is room for one less. The answer is a status, the rows, each of so many bytes, and a place."""
        status, rows, place = answer
        for room in {len(rows) + 1, len(rows), max(len(rows) - 1, 0)}:
            fits = status == NORMAL and room >= len(rows)
            answered = NO_ROOM if status == NORMAL and not fits else status
            wanted = answered, len(rows), place, marked(octets_of(rows) if fits else b"", room * item)
            self.same(in_room(name, given, room, 2, item), wanted, name, *what, "in room for", room)
