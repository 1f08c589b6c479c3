"""The verb check: which kind a file is, and whether it is normal, as derbox says it."""
from typing import Dict, List, NamedTuple, Optional, Sequence, Tuple, Union

from . import der, library
from .elements import OCTET_STRING, path_to, whole
from .files import DATA, Given, NoPem, converted, converted_store, given, read
from .foreign import by_first_octets, by_label, by_tags
from .values import oid

# The kinds that are tried where none is named, in this order.
KINDS = ("pfx", "rawpfx", "pkcs7certificate", "certificatelist", "contentinfo")
# Those of which signed data are.
SIGNED_KINDS = ("pkcs7certificate", "contentinfo")
# Content types (RFC 5652, 5.1 and 6.1; of Microsoft): content of the last two may be more than its types read.
SIGNED_DATA, ENVELOPED_DATA = "1.2.840.113549.1.7.2", "1.2.840.113549.1.7.3"
INDIRECT_DATA, TRUST_LIST = "1.3.6.1.4.1.311.2.1.4", "1.3.6.1.4.1.311.10.1"
# The exit statuses of derbox, of the command itself (NOT_JUDGED is the verb verify's), and from the best to the worst.
NORMAL, LOOSE, NOT_JUDGED, REFUSED, WORDS = 0, 3, 4, 1, 2
ORDER = (NORMAL, LOOSE, NOT_JUDGED, REFUSED, WORDS)

Value = Union[str, int, None]


def worst(statuses: Sequence[int]) -> int:
    """The worst of some exit statuses."""
    return max(statuses, key=ORDER.index, default=NORMAL)


class Refusal(NamedTuple):
    """Why an input is refused as a kind, and where."""

    kind: str
    reason: str
    place: int
    path: str

    @property
    def why(self) -> str:
        """The reason and the place."""
        return f"{self.reason} at {self.place}{f' ({self.path})' if self.path else ''}"

    def __str__(self) -> str:
        return f"refused: {self.why}"


class Accepted(NamedTuple):
    """What an accepted input is, and as which kinds it was refused before."""

    kind: str
    given: Given
    verdict: der.Verdict
    refusals: Tuple[Refusal, ...] = ()
    # why the content of signed data isn't read that are accepted with it
    unread: Optional[Refusal] = None

    @property
    def status(self) -> int:
        """The exit status: what was BER is accepted, but isn't normal."""
        return NORMAL if self.verdict.is_normal and "BER" not in self.given.forms else LOOSE

    def __str__(self) -> str:
        length = len(self.given.octets)
        said = f"normal {length}" if self.verdict.is_normal else f"loose {length} -> {self.verdict.length}"
        unread = f", its content isn't read: {self.unread.why}" if self.unread else ""
        return f"{said}{self.given.said}{unread}"


class NoKind(NamedTuple):
    """What no kind accepts, and the refusals of each."""

    given: Given
    refusals: Tuple[Refusal, ...]

    @property
    def furthest(self) -> Refusal:
        """The refusal of the kind that came furthest."""
        return max(self.refusals, key=lambda it: it.place)

    @property
    def foreign(self) -> Optional[str]:
        """What the file is instead, where several kinds were tried and something is known of it."""
        if len(self.refusals) < 2:
            return None
        it = self.given
        return by_label(it.label) or by_first_octets(it.octets) or by_tags(it.octets)

    @property
    def line(self) -> str:
        """What is said of the file where its kind isn't named: what it is instead, or why the kind refuses it that came
        furthest."""
        if self.foreign is None:
            return f"{self.furthest.kind} {self}"
        return f"refused: it is {self.foreign}{self.given.said}"

    def __str__(self) -> str:
        return f"{self.furthest}{self.given.said}"


def octet_of(said: Union[Accepted, NoKind]) -> Optional[int]:
    """The octet that what is said is about: the one at the place of a refusal, or the last one before that of a missing
    element, or before what is canonical."""
    if isinstance(said, Accepted):
        return None if said.verdict.loose_end is None else said.verdict.loose_end - 1
    last = said.furthest
    return last.place - 1 if last.reason == "missing" else last.place


def _unread(octets: bytes, as_certificate: Optional[Refusal]) -> Optional[Refusal]:
    """Why the type of signed data refuses content that isn't read, by its refusal; none where something else in them is
    what it refuses. Raises der.Refused where the content isn't the OCTET STRING that data are (RFC 5652, 4)."""
    content = whole(octets).children()[1].inside().children()[2]
    which, *explicit = content.children()
    if oid(which) == DATA and explicit and explicit[0].inside().tag != OCTET_STRING:
        raise der.Refused(der.Reason.INVALID, explicit[0].inside().offset)
    if oid(which) not in (INDIRECT_DATA, TRUST_LIST) or as_certificate is None:
        return None
    return as_certificate if content.start <= as_certificate.place <= content.end else None


def _looked_into(octets: bytes, refusals: Sequence[Refusal]) -> Optional[Refusal]:
    """Why the content of signed data isn't read, if it isn't. Raises der.Refused where content of a type that the
    library knows is none of that type."""
    which = oid(whole(octets).inside())
    if which == SIGNED_DATA:
        library().signed(octets)
        return _unread(octets, next((it for it in refusals if it.kind == "pkcs7certificate"), None))
    if which == ENVELOPED_DATA:
        library().ranges(der.EnvelopePart.RECIPIENT, octets)
    if which == DATA:
        library().check("encapsulatedcontentinfo", octets)
    return None


def _tried(it: Given, kinds: Sequence[str]) -> Union[Accepted, NoKind]:
    """What the octets are by the first of the kinds that accepts them. Where none is named, content is looked into, as
    the kind contentinfo doesn't."""
    refusals: List[Refusal] = []
    for kind in kinds:
        try:
            verdict = library().check(kind, it.octets)
            looks = kind == "contentinfo" and len(kinds) > 1
            return Accepted(kind, it, verdict, tuple(refusals), _looked_into(it.octets, refusals) if looks else None)
        except der.Refused as refused:
            path = path_to(it.octets, refused.place, refused.reason)
            refusals.append(Refusal(kind, refused.reason, refused.place, path))
    return NoKind(it, tuple(refusals))


def judge(
    data: bytes, kind: Optional[str] = None, strict: bool = False, tried: Sequence[str] = KINDS
) -> Union[Accepted, NoKind]:
    """What a file is, as a kind or as the first of those tried that accepts it. Raises NoPem, and der.UnknownKind."""
    return judge_given(given(data, strict), kind, strict, tried)


def judge_given(
    it: Given, kind: Optional[str] = None, strict: bool = False, tried: Sequence[str] = KINDS
) -> Union[Accepted, NoKind]:
    """The same of the octets of a file. Raises der.UnknownKind."""
    kinds = (kind,) if kind else tried
    said = _tried(it, kinds)
    if strict or isinstance(said, Accepted):
        return said
    ber = converted(it)
    if ber is not None:
        said = _tried(ber, kinds)
    store = None if isinstance(said, Accepted) else converted_store(said.given)
    return said if store is None else _tried(store, kinds)


class Answer(NamedTuple):
    """What is said of one file."""

    file: str
    line: str
    status: int
    fields: Dict[str, Value]
    # what goes to standard error
    complaint: str = ""
    # why kinds that were tried before are no kinds of it
    tried: Tuple[str, ...] = ()


def _fields(file: str, kind: Optional[str] = None, verdict: Optional[str] = None) -> Dict[str, Value]:
    """The fields of a line of JSON, of which more are filled in as they are known."""
    names = ("length", "normal_length", "place", "path", "error", "form", "unread", "foreign")
    return {"file": file, "kind": kind, "verdict": verdict, **dict.fromkeys(names)}


def unreadable(file: str, why: str) -> Answer:
    """What is said of a file that can't be read."""
    return Answer(file, "", REFUSED, {**_fields(file), "error": why}, why)


def _of_accepted(file: str, it: Accepted, names_kind: bool) -> Answer:
    """What is said of an accepted file."""
    fields = _fields(file, it.kind, "normal" if it.verdict.is_normal else "loose")
    fields.update(length=len(it.given.octets), normal_length=it.verdict.length, place=it.verdict.loose_end)
    fields["form"] = "+".join(it.given.forms) or None
    if it.verdict.loose_end is not None:
        fields["path"] = path_to(it.given.octets, it.verdict.loose_end, "loose")
    fields["unread"] = it.unread.why if it.unread else None
    line = f"{it.kind} {it}" if names_kind else str(it)
    return Answer(file, line, it.status, fields, tried=tuple(f"{no.kind} {no}" for no in it.refusals))


def _of_refused(file: str, it: NoKind, names_kind: bool) -> Answer:
    """What is said of a file that no kind accepts."""
    last = it.furthest
    fields = _fields(file, last.kind, "refused")
    fields.update(length=len(it.given.octets), place=last.place, path=last.path or None, error=last.reason)
    fields["form"] = "+".join(it.given.forms) or None
    line = it.line if names_kind else str(it)
    others = (no for no in it.refusals if it.foreign or no is not last)
    fields["foreign"] = it.foreign
    return Answer(file, line, REFUSED, fields, tried=tuple(f"{no.kind} {no}" for no in others))


def check(file: str, kind: Optional[str], strict: bool) -> Answer:
    """What is said of one file."""
    try:
        said = judge(read(file), kind, strict)
    except OSError as fault:
        return unreadable(file, fault.strerror or "not read")
    except NoPem as fault:
        return Answer(file, f"refused: {fault}", REFUSED, {**_fields(file, kind, "refused"), "error": str(fault)})
    except MemoryError:
        return unreadable(file, "no memory")
    if isinstance(said, Accepted):
        return _of_accepted(file, said, kind is None)
    return _of_refused(file, said, kind is None)
