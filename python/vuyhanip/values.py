"""Values of elements as text: object identifiers, names (RFC 4514), times, strings, numbers."""
import functools
import re
from typing import List, Optional

from . import der, library
from .elements import (
    BIT_STRING,
    BMP_STRING,
    BOOLEAN,
    GENERALIZED_TIME,
    INTEGER,
    OBJECT_IDENTIFIER,
    UTC_TIME,
    Element,
    NotThere,
    whole,
)
from .names import NAMES, SHORT_NAMES

# How many octets of a longer value are shown, and how many of a longer string.
FIRST_OCTETS, FIRST_OF_TEXT = 16, 64
# The codecs of strings, by their tags: those of ASCII are numeric, printable, IA5 and visible ones.
CODECS = {0x0C: "utf-8", 0x12: "ascii", 0x13: "ascii", 0x14: "latin-1", 0x16: "ascii", 0x1A: "ascii"}
CODECS.update({0x1C: "utf-32-be", 0x1E: "utf-16-be"})
# An attribute by its dotted type and its value's encoding. In a value a comma and a plus have a \\ before them.
DOTTED = re.compile(r"(?:^|(?<=(?<!\\)[,+]))([0-9.]+)=#([0-9A-F]+)")
# Characters that look like nothing though Python has them for printable: fillers, an empty sign, what joins or varies
# others. And a blank after a blank, by which a name would fill the rest of a line.
LIKE_NOTHING = re.compile(
    "[\u034f\u115f\u1160\u17b4\u17b5\u180b-\u180f\u2800\u3164\ufe00-\ufe0f\uffa0\U000e0100-\U000e01ef]"
)
AFTER_BLANK = re.compile("(?<= ) ")
# The tags of strings that a tree shows as text, as dertree does.
TEXTS = (0x0C, 0x12, 0x13, 0x14, 0x16, 0x1A, BMP_STRING)


def is_seen(text: str) -> bool:
    """Whether a terminal shows each character of a text."""
    return text.isprintable() and LIKE_NOTHING.search(text) is None


def seen(text: str) -> str:
    """Text that a terminal takes as it looks: what isn't printable, or looks like nothing, is written as in Python, a
    newline as \\n."""
    if is_seen(text):
        return text
    return "".join(it if is_seen(it) else it.encode("unicode_escape").decode() for it in text)


def printable(text: str) -> str:
    """The same of text that others chose, in a line of ours: a blank after a blank is written as \\x20."""
    return AFTER_BLANK.sub(r"\\x20", seen(text))


def file_name(name: str) -> str:
    """The name of a file as it begins a line: in quotes where it may be taken for more than the name."""
    return printable(quoted(name, False) if ": " in name or name.startswith('"') else name)


def is_oid(contents: bytes) -> bool:
    """Whether contents octets are an object identifier that isn't too long to be shown."""
    starts = (it == 0x80 and (at == 0 or contents[at - 1] < 0x80) for at, it in enumerate(contents))
    return 0 < len(contents) <= FIRST_OF_TEXT and contents[-1] < 0x80 and not any(starts)


def dotted(contents: bytes) -> str:
    """An object identifier, as "1.3.14.3.2.26", by its contents octets; they in hexadecimal where they are none."""
    return _dotted(contents) if len(contents) <= FIRST_OF_TEXT else hexadecimal(contents)


@functools.lru_cache(maxsize=256)
def _dotted(contents: bytes) -> str:
    """The same of short contents, of which a file has the same ones often."""
    if not is_oid(contents):
        return hexadecimal(contents)
    arcs: List[int] = []
    arc = 0
    for octet in contents:
        arc = arc << 7 | octet & 0x7F
        if octet < 0x80:
            first = min(arc // 40, 2)
            arcs += [arc] if arcs else [first, arc - 40 * first]
            arc = 0
    return ".".join(map(str, arcs))


def oid(element: Element) -> str:
    """The object identifier that an element is, dotted. Raises NotThere where it is none."""
    if element.tag != OBJECT_IDENTIFIER:
        raise NotThere(f"no object identifier at {element.offset}")
    return dotted(element.contents)


def octets_text(octets: bytes) -> str:
    """The first octets, in hexadecimal."""
    return octets[:FIRST_OCTETS].hex(" ").upper() + (" .." if len(octets) > FIRST_OCTETS else "")


def hexadecimal(octets: bytes) -> str:
    """All octets, in hexadecimal with colons."""
    return octets.hex(":").upper()


def string(element: Element) -> Optional[str]:
    """The characters of a string. None where the element is no string, or has octets that are no characters."""
    codec = CODECS.get(element.tag)
    if codec is None:
        return None
    try:
        return element.contents.decode(codec)
    except UnicodeDecodeError:
        return None


def time(element: Element) -> str:
    """A UTCTime or a GeneralizedTime, as 2026-11-27 12:00:00, always UTC. Other forms as they are."""
    text = element.contents.decode("ascii", "backslashreplace")
    digits = text[:-1]
    if element.tag == UTC_TIME and len(digits) == 12:
        digits = ("20" if digits < "50" else "19") + digits
    if not text.endswith("Z") or len(digits) < 14 or not digits[:14].isdecimal():
        return printable(text)
    date, clock, rest = digits[:8], digits[8:14], digits[14:]
    return f"{date[:4]}-{date[4:6]}-{date[6:]} {clock[:2]}:{clock[2:4]}:{clock[4:]}{printable(rest)}"


def integer(element: Element) -> int:
    """The number that an INTEGER is. Raises NotThere where the element is none."""
    if element.tag != INTEGER:
        raise NotThere(f"no INTEGER at {element.offset}")
    return int.from_bytes(element.contents, "big", signed=True)


def serial(contents: bytes) -> str:
    """A serial number by its contents octets, in hexadecimal, as openssl writes it."""
    number = int.from_bytes(contents, "big", signed=True)
    digits = f"{abs(number):X}"
    return ("-" if number < 0 else "") + ("0" if len(digits) % 2 else "") + digits


def _escaped(text: str) -> str:
    """The value of an attribute in a name, with its escapes (RFC 4514, 2.4)."""
    made = []
    for at, it in enumerate(text):
        is_blank_at_end = it == " " and at in (0, len(text) - 1)
        if it in '",+;<>\\' or is_blank_at_end or it == "#" and at == 0:
            made.append("\\" + it)
        elif is_seen(it):
            made.append(it)
        else:
            made.append("".join(f"\\{octet:02X}" for octet in it.encode("utf-8", "surrogatepass")))
    return "".join(made)


def _attribute(dotted: "re.Match[str]") -> str:
    """An attribute that the library leaves dotted, by the name and the characters that people know, if it has such."""
    word, text = SHORT_NAMES.get(dotted[1]), string(whole(bytes.fromhex(dotted[2])))
    return dotted[0] if word is None or text is None else f"{word}={_escaped(text)}"


def name(element: Element) -> str:
    """A Name as RFC 4514 has it: its last part first."""
    try:
        text = library().name_text(element.encoding)
    except der.Refused:
        return f"#{element.encoding.hex().upper()}"
    return printable(DOTTED.sub(_attribute, text)) or "(empty)"


def quoted(text: str, is_cut: bool) -> str:
    """Characters in quotes, with escapes as in Rust."""
    escapes = {'"': '\\"', "\\": "\\\\", "\n": "\\n", "\r": "\\r", "\t": "\\t", "\0": "\\0"}
    made = (escapes.get(it) or (it if it.isprintable() else f"\\u{{{ord(it):x}}}") for it in text)
    return f'"{"".join(made)}"' + (" .." if is_cut else "")


def _first_of_text(element: Element) -> Optional[str]:
    """The first octets of a string, as characters in quotes. None where it holds others than those."""
    codec, contents = "utf-16-be" if element.tag == BMP_STRING else "utf-8", element.contents
    try:
        contents.decode(codec)
        first = contents[:FIRST_OF_TEXT].decode(codec, "ignore")
    except UnicodeDecodeError:
        return None
    return quoted(first, len(contents) > FIRST_OF_TEXT)


def _primitive(element: Element) -> Optional[str]:
    """The value of an element by its type, where its contents are of that."""
    tag, contents = element.tag, element.contents
    if tag == BOOLEAN and contents in (b"\x00", b"\xff"):
        return "TRUE" if contents == b"\xff" else "FALSE"
    if tag in (INTEGER, 0x0A) and 0 < len(contents) <= 8:
        return str(int.from_bytes(contents, "big", signed=True))
    if tag == OBJECT_IDENTIFIER and is_oid(contents):
        known = NAMES.get(dotted(contents))
        return f"{dotted(contents)} ({known.name})" if known else dotted(contents)
    if tag in (UTC_TIME, GENERALIZED_TIME):
        return time(element) if contents[-1:] == b"Z" else _first_of_text(element)
    if tag == BIT_STRING and contents and contents[0] < 8:
        unused = f", {contents[0]} bits unused" if contents[0] else ""
        return octets_text(contents[1:]) + unused
    return _first_of_text(element) if tag in TEXTS else None


def value(element: Element) -> str:
    """A short value of a primitive element, as dertree writes it."""
    said = _primitive(element)
    return octets_text(element.contents) if said is None else said
