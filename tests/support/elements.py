"""Reads and writes elements of DER (X.690, 8.1 and 10.1), for tests that make inputs or look into them. It trusts what
it reads: an input that isn't DER is for the readers of tests/oracle, which share nothing with this one."""
from typing import NamedTuple


class Element(NamedTuple):
    """An element: its tag, where it begins, and where its contents begin and end."""

    tag: int
    at: int
    start: int
    end: int

    def of(self, text):
        """All its octets."""
        return text[self.at : self.end]

    def contents(self, text):
        return text[self.start : self.end]

    def place(self):
        """Where it is, and how long it is."""
        return self.at, self.end - self.at

    def contents_place(self):
        return self.start, self.end - self.start


def at(text, place):
    """The element that begins at this place."""
    size, start = text[place + 1], place + 2
    if size >= 0x80:
        start += size - 0x80
        size = int.from_bytes(text[place + 2 : start], "big")
    return Element(text[place], place, start, start + size)


def elements(text, place=0, end=None):
    """The elements from this place to that one, which is the end of the text where none is given."""
    found, end = [], len(text) if end is None else end
    while place < end:
        found.append(at(text, place))
        place = found[-1].end
    return found


def inside(text, element):
    """The elements that an element consists of."""
    return elements(text, element.start, element.end)


def parts(text):
    """The encodings of the elements that the first element of a text consists of."""
    return [it.of(text) for it in inside(text, at(text, 0))]


def part(text, *indices):
    """The encoding of the element that these indices lead to, one on each level."""
    for index in indices:
        text = parts(text)[index]
    return text


def contents(text):
    """The contents octets of the first element of a text."""
    return at(text, 0).contents(text)


def tags_and_contents(text):
    """The elements of a text, each as its tag and its contents."""
    return [(it.tag, it.contents(text)) for it in elements(text)]


def element(tag, *parts):
    """The encoding of an element whose contents are these octets, one after another."""
    contents = b"".join(parts)
    size = len(contents).to_bytes((len(contents).bit_length() + 7) // 8, "big")
    return bytes([tag, *([len(contents)] if len(contents) < 0x80 else [0x80 + len(size), *size])]) + contents


def sequence(*parts):
    return element(0x30, *parts)


def set_of(*parts):
    """A SET of these parts, in the order in which they are given."""
    return element(0x31, *parts)


def octet_string(octets):
    return element(0x04, octets)


def integer(number):
    """An INTEGER that isn't negative."""
    return element(0x02, number.to_bytes(number.bit_length() // 8 + 1, "big"))


def explicit(number, *parts):
    """These parts under an explicit context tag."""
    return element(0xA0 + number, *parts)


def within(text, steps, change):
    """The text with the contents changed of the element that the steps lead to: on each level a tag, or an index."""
    if not steps:
        return change(text)
    parts = tags_and_contents(text)
    tags = [tag for tag, _ in parts]
    index = tags.index(steps[0]) if steps[0] in tags else steps[0]
    parts[index] = parts[index][0], within(parts[index][1], steps[1:], change)
    return b"".join(element(*part) for part in parts)
