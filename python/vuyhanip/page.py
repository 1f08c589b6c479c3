"""The verb page: a file as one page of HTML, its elements beside its octets."""
import base64
import hashlib
import html
import json
import re
from typing import List, NamedTuple, Optional, Tuple, Union

from .checking import Accepted, NoKind, judge, octet_of
from .files import NoPem, given
from .names import NAMES
from .template import TEMPLATE
from .trees import Line, lines
from .values import printable

# The places in the page that are filled, and what its policy allows by their digests: its looks and its script, which
# are the same in each page. Data are no script of a browser.
PLACE = re.compile(r"\{\{(\w+)\}\}")
STYLE, SCRIPT = (re.compile(rf"<{it}>(.*?)</{it}>", re.S) for it in ("style", "script"))
OBJECT_IDENTIFIER = re.compile(r"OBJECT IDENTIFIER \d+: ([\d.]+)")


class Judged(NamedTuple):
    """What the page says of the file, and the place and the octet that it is about."""

    said: str
    kind: Optional[str]
    place: Optional[int]
    octet: Optional[int]


def judged(said: Union[Accepted, NoKind]) -> Judged:
    """What is said of a file. What was converted from BER is shown as it was, so it has no place."""
    line = f"{said.kind} {said}" if isinstance(said, Accepted) else said.line
    if "BER" in said.given.forms:
        return Judged(line, None, None, None)
    if isinstance(said, Accepted):
        return Judged(line, said.kind, said.verdict.loose_end, octet_of(said))
    return Judged(line, said.furthest.kind, said.furthest.place, octet_of(said))


def named(text: str) -> str:
    """The text of a line, with the name of its object identifier after that, before the name of the field."""
    found = OBJECT_IDENTIFIER.match(text)
    if found is None or found[1] not in NAMES:
        return text
    known = NAMES[found[1]]
    rest, own = text[found.end() :], f" ({known.name})"
    if rest.startswith(own):
        rest = rest[len(own) :]
    return f"{found[0]} ({known.name}, {known.source}){rest}"


def script_data(it: object) -> str:
    """JSON that a script element may hold: nothing in it ends the element."""
    text = json.dumps(it, ensure_ascii=True, separators=(",", ":"))
    return text.replace("<", "\\u003c").replace(">", "\\u003e").replace("&", "\\u0026")


def packed(those: List[Line]) -> Tuple[List[int], List[int], List[str]]:
    """Lines, as columns."""
    return [it.offset for it in those], [it.depth for it in those], [named(it.text) for it in those]


def source(element: "re.Pattern[str]") -> str:
    """What a policy has for an element of the page whose text is of its author (Content Security Policy, 6.7.3)."""
    found = element.search(TEMPLATE)
    assert found is not None
    return f"'sha256-{base64.b64encode(hashlib.sha256(found[1].encode()).digest()).decode()}'"


class Page(NamedTuple):
    """A page, and what the file is that it shows; None where PEM holds no octets."""

    text: str
    of: Union[Accepted, NoKind, None]


def page(name: str, data: bytes, kind: Optional[str] = None, strict: bool = False) -> Page:
    """A file as a page."""
    found: Union[Accepted, NoKind, None] = None
    try:
        found = judge(data, kind, strict)
        octets, said = given(data, strict).octets, judged(found)
    except NoPem as fault:
        octets, said = data, Judged(f"refused: {fault}", None, None, None)
    offsets, depths, texts = packed(lines(octets, said.kind, said.octet))
    told = {
        "octets": base64.b64encode(octets).decode(),
        "offsets": offsets,
        "depths": depths,
        "texts": texts,
        "place": said.place,
        "refused": "refused" in said.said,
    }
    filled = {
        "style": source(STYLE),
        "script": source(SCRIPT),
        "title": html.escape(printable(name)),
        "said": html.escape(said.said),
        "data": script_data(told),
    }
    return Page(PLACE.sub(lambda it: filled[it[1]], TEMPLATE), found)
