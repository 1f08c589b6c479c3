"""A reader of elements for display: of DER (X.690, 10), and for trees of BER (X.690, 8).

What is accepted as a container is said by the library for C. This reader only finds what is to be shown in what was
accepted, and the way to a place.
"""
import itertools
from typing import Iterator, List, NamedTuple, Optional, Tuple

BOOLEAN, INTEGER, BIT_STRING, OCTET_STRING, NULL, OBJECT_IDENTIFIER = 0x01, 0x02, 0x03, 0x04, 0x05, 0x06
UTF8_STRING, UTC_TIME, GENERALIZED_TIME, BMP_STRING, SEQUENCE, SET = 0x0C, 0x17, 0x18, 0x1E, 0x30, 0x31

WORDS = {
    1: "BOOLEAN",
    2: "INTEGER",
    3: "BIT STRING",
    4: "OCTET STRING",
    5: "NULL",
    6: "OBJECT IDENTIFIER",
    7: "ObjectDescriptor",
    8: "EXTERNAL",
    9: "REAL",
    10: "ENUMERATED",
    11: "EMBEDDED PDV",
    12: "UTF8String",
    13: "RELATIVE-OID",
    14: "TIME",
    16: "SEQUENCE",
    17: "SET",
    18: "NumericString",
    19: "PrintableString",
    20: "TeletexString",
    21: "VideotexString",
    22: "IA5String",
    23: "UTCTime",
    24: "GeneralizedTime",
    25: "GraphicString",
    26: "VisibleString",
    27: "GeneralString",
    28: "UniversalString",
    29: "CHARACTER STRING",
    30: "BMPString",
}
CLASSES = {0: "UNIVERSAL ", 1: "APPLICATION ", 2: "", 3: "PRIVATE "}


class NotThere(ValueError):
    """An element that is looked for, and isn't there."""


class Element(NamedTuple):
    """An element, as a place in some octets."""

    data: bytes
    offset: int
    tag: int
    # where its contents begin, and where they end
    start: int
    end: int

    @property
    def contents(self) -> bytes:
        """The contents octets."""
        return self.data[self.start : self.end]

    @property
    def encoding(self) -> bytes:
        """The header and the contents."""
        return self.data[self.offset : self.end]

    @property
    def is_constructed(self) -> bool:
        """Whether its contents are elements, by its tag."""
        return bool(self.tag & 0x20)

    def children(self) -> List["Element"]:
        """The elements that it consists of, up to where none begins."""
        return list(elements(self.data, self.start, self.end))

    def first(self, count: int) -> List["Element"]:
        """The first of them, at most so many: of what isn't known to be short."""
        return list(itertools.islice(elements(self.data, self.start, self.end), count))

    def inside(self) -> "Element":
        """The one element in it, under an explicit tag or in an OCTET STRING."""
        return child(self, 0)


def header(data: bytes, at: int, end: int) -> Optional[Element]:
    """The element of DER that begins at an offset and ends at another or before it, if one does."""
    if end - at < 2 or data[at] & 0x1F == 0x1F:
        return None
    length, start = data[at + 1], at + 2
    if length >= 0x80:
        count = length & 0x7F
        start += count
        length = int.from_bytes(data[at + 2 : start], "big")
        if not 0 < count <= 8 or start > end or data[at + 2] == 0 or length < 0x80:
            return None
    return Element(data, at, data[at], start, start + length) if start + length <= end else None


def elements(data: bytes, at: int, end: int) -> Iterator[Element]:
    """The elements between two offsets, up to where none begins."""
    while at < end:
        found = header(data, at, end)
        if found is None:
            return
        yield found
        at = found.end


def whole(data: bytes) -> Element:
    """The element that the octets are. Raises NotThere where they aren't one."""
    found = header(data, 0, len(data))
    if found is None or found.end != len(data):
        raise NotThere("no element")
    return found


def encoded(tag: int, contents: bytes) -> bytes:
    """An element of a tag and its contents."""
    size, length = len(contents), len(contents).to_bytes((len(contents).bit_length() + 7) // 8, "big")
    return bytes([tag, *([size] if size < 0x80 else [0x80 + len(length), *length])]) + contents


def child(element: Element, index: int) -> Element:
    """The part of an element with that index. Raises NotThere where it has fewer."""
    for at, part in enumerate(elements(element.data, element.start, element.end)):
        if at == index:
            return part
    raise NotThere(f"no part {index} at {element.offset}")


def tag_word(tag: int) -> str:
    """A tag in the words of ASN.1, as dertree writes it."""
    number, of = tag & 0x1F, tag >> 6
    word = WORDS.get(number) if of == 0 else None
    if word is None:
        return f"[{CLASSES[of]}{number}]" + (" constructed" if tag & 0x20 else "")
    is_made_of_elements = number in (8, 11, 16, 17, 29)
    if bool(tag & 0x20) == is_made_of_elements:
        return word
    return word + (" primitive" if is_made_of_elements else " constructed")


def opens(element: Element) -> bool:
    """Whether its contents may hold the place of a refusal: elements, or an OCTET STRING that begins with one."""
    if element.tag == OCTET_STRING:
        return header(element.data, element.start, element.end) is not None
    return element.is_constructed


def _step(element: Element, index: int) -> str:
    """An element in a path: its tag, and how many are before it in the same contents."""
    word = tag_word(element.tag).replace(" constructed", "")
    return word if element.offset == 0 else f"{word} {index}"


def _leading(data: bytes, at: int, end: int, place: int, reason: str) -> Optional[Tuple[int, Element]]:
    """The element among those between two offsets in which the place is, and its index."""
    for index, element in enumerate(elements(data, at, end)):
        if element.offset <= place < element.end:
            return index, element
        if place == element.end and reason == "missing" and place == end and opens(element):
            return index, element
    return None


def path_to(data: bytes, place: int, reason: str) -> str:
    """The way to where an input is refused, from the outermost element on: "SEQUENCE > [0] 1 > INTEGER 0".

    A number is how many elements are before it in the same contents. What isn't at an element that begins there is "in"
    the last one; where an element is missing, the place is the "end of" the innermost contents that end there.
    """
    steps: List[str] = []
    at, end = 0, len(data)
    while True:
        found = _leading(data, at, end, place, reason)
        if found is None:
            break
        index, element = found
        steps.append(_step(element, index))
        if place == element.offset:
            return " > ".join(steps)
        if place < element.start or not opens(element):
            return "in " + " > ".join(steps)
        at, end = element.start, element.end
    if not steps:
        return f"after {_step(whole_or_first(data), 0)}" if header(data, 0, len(data)) else ""
    return ("end of " if reason == "missing" and place == end else "in ") + " > ".join(steps)


def whole_or_first(data: bytes) -> Element:
    """The element that begins the octets. Raises NotThere where none does."""
    found = header(data, 0, len(data))
    if found is None:
        raise NotThere("no element")
    return found
