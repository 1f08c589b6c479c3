"""The elements of a file as lines, of the program dertree where it is installed, or else of a reader here."""
import errno
import os
import re
import subprocess
from typing import Iterator, List, NamedTuple, Optional, Tuple

from .elements import OCTET_STRING, Element, header, tag_word
from .tool import path_of
from .values import octets_text, value

# The environment's word for the program.
DERTREE = "VUYHANIP_DERTREE"
# Lines of deeper elements aren't indented further.
DEEPEST_INDENT = 32
INDEFINITE = ", indefinite length"
LINE = re.compile(r" *(\d+) +(\d+) +(.*)")


class Line(NamedTuple):
    """What a line shows: where it begins, in how many elements it is, and its text."""

    offset: int
    depth: int
    text: str

    def __str__(self) -> str:
        return f"{self.offset:>7} {self.depth:>3} {'  ' * min(self.depth, DEEPEST_INDENT)}{self.text}"


def program() -> Optional[str]:
    """The program dertree, of the environment, of the system or of a clone. None where it isn't there."""
    if DERTREE in os.environ:
        return os.environ[DERTREE] or None
    here = os.path.dirname(os.path.realpath(__file__))
    built = os.path.join(here, "..", "..", "crates", "dertree", "out", "dertree")
    return path_of("dertree") or (built if os.access(built, os.X_OK) else None)


def lines(data: bytes, kind: Optional[str], octet: Optional[int]) -> List[Line]:
    """The lines of a file that is of a kind, or of any.

    OCTET STRINGs that are one element are open, and those on the way to an octet.
    """
    said = of_dertree(data, kind)
    if said is None:
        return list(own_lines(data, octet))
    matches = map(LINE.fullmatch, said)
    return [Line(int(it[1]), int(it[2]), it[3]) for it in matches if it]


def of_dertree(data: bytes, kind: Optional[str]) -> Optional[List[str]]:
    """What dertree writes of a file of a kind, or of any. None where it isn't there."""
    found = program()
    if found is None:
        return None
    words = ["--open", "--ber", kind] if kind else ["--open"]
    ran = subprocess.run([found, *words], input=data, capture_output=True, check=False)
    if ran.returncode not in (0, 1, 3) or ran.stderr:
        raise OSError(errno.EIO, f"the program ended with status {ran.returncode}", found)
    return ran.stdout.decode().split("\n")[:-1]


class _Open(NamedTuple):
    """Contents whose lines are shown, and what tells of them."""

    end: int
    is_indefinite: bool
    is_segmented: bool


def _ber(data: bytes, at: int, end: int) -> Optional[Tuple[Element, str]]:
    """The element of BER that begins there and is none of DER, and what DER doesn't allow of it (X.690, 8.1.3)."""
    if end - at < 2 or data[at] & 0x1F == 0x1F:
        return None
    if data[at + 1] == 0x80 and data[at] & 0x20:
        return Element(data, at, data[at], at + 2, end), INDEFINITE
    count = data[at + 1] & 0x7F
    start = at + 2 + count
    if data[at + 1] <= 0x80 or start > end:
        return None
    length = int.from_bytes(data[at + 2 : start], "big")
    if start + length > end:
        return None
    return Element(data, at, data[at], start, start + length), f" {length}, length in {count + 1} octets"


def _element(data: bytes, at: int, end: int) -> Optional[Tuple[Element, str]]:
    """The element that begins there, and the text of its line after the tag."""
    found = header(data, at, end)
    return _ber(data, at, end) if found is None else (found, f" {found.end - found.start}")


def _is_whole(data: bytes, at: int, end: int) -> bool:
    """Whether one element begins there that ends at the end."""
    levels, start = 0, at
    while levels or at == start:
        if levels and data[at : min(at + 2, end)] == b"\0\0":
            levels, at = levels - 1, at + 2
            continue
        found = _element(data, at, end)
        if found is None:
            return False
        is_indefinite = found[1] == INDEFINITE
        levels, at = levels + is_indefinite, found[0].start if is_indefinite else found[0].end
    return at == end


def _first(data: bytes, at: int, around: _Open) -> Tuple[Optional[Element], str]:
    """What begins there, and the text of its line after the tag; no element where none begins."""
    if around.is_indefinite and data[at : at + 2] == b"\0\0":
        return None, "end of contents"
    found = _element(data, at, around.end)
    if found is not None:
        return found
    count = around.end - at
    words = "byte that is" if count == 1 else "bytes that are"
    return None, f"{count} {words} no element: {octets_text(data[at : around.end])}"


def _opens(element: Element, is_indefinite: bool, octet: Optional[int]) -> bool:
    """Whether the contents of an element have lines of their own."""
    if is_indefinite or element.tag != OCTET_STRING:
        return is_indefinite or element.is_constructed and element.start < element.end
    if octet is not None and element.start <= octet < element.end:
        return _element(element.data, element.start, element.end) is not None
    return _is_whole(element.data, element.start, element.end)


def own_lines(data: bytes, octet: Optional[int]) -> Iterator[Line]:
    """The lines as this reader finds them."""
    at, opened = 0, [_Open(len(data), False, False)]
    while True:
        while len(opened) > 1 and opened[-1].end <= at:
            if opened[-1].is_indefinite:
                yield Line(at, len(opened) - 1, "missing end of contents")
            opened.pop()
        if at == len(data):
            return
        depth, around = len(opened) - 1, opened[-1]
        element, text = _first(data, at, around)
        if element is None:
            yield Line(at, depth, text)
            if text != "end of contents":
                at = around.end
                continue
            at += 2
            opened.pop()
            continue
        is_indefinite = text == INDEFINITE
        text = tag_word(element.tag) + text + (", segment" if around.is_segmented else "")
        if _opens(element, is_indefinite, octet):
            yield Line(at, depth, text)
            at = element.start
            opened.append(_Open(element.end, is_indefinite, element.tag == OCTET_STRING | 0x20))
            continue
        said = value(element)
        yield Line(at, depth, f"{text}: {said}" if said else text)
        at = element.end
