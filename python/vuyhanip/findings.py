"""What the verb verify says of signers and of MACs: in a line, and as JSON."""
from typing import Dict, List, NamedTuple, Optional, Sequence, Tuple

from . import tool
from .checking import NORMAL, NOT_JUDGED, REFUSED
from .judging import Answer
from .rules import Effect, Rule
from .running import Line

# How many characters of a certificate's name, or of a time, a line has, so that no line scrolls others away.
MOST_OF_NAME = 300


def _cut(text: str) -> str:
    """The beginning of what a file says, where it is long."""
    return text if len(text) <= MOST_OF_NAME else f"{text[:MOST_OF_NAME]} .."


class Finding(NamedTuple):
    """What is said of a signer or of a MAC."""

    what: str
    said: str
    status: int = REFUSED
    # whether its certificate was judged, which only --ca asks for
    is_judged: bool = False
    is_weak: bool = False
    # whether what is signed is what openssl was given or is in the file, and not the digest of something else
    compared: Optional[bool] = None
    digest: Optional[str] = None
    scheme: Optional[str] = None
    bits: Optional[int] = None
    # what the certificate calls itself, and when the signer says that it signed
    by: Optional[str] = None
    time: Optional[str] = None
    # the rule that refused it
    rule: Optional[str] = None
    # the version of openssl, where that was asked, and its first words
    tool: Optional[str] = None
    words: Optional[str] = None
    notes: Tuple[str, ...] = ()

    @property
    def is_right(self) -> bool:
        """Whether openssl said yes, and no rule refused."""
        return self.status in (NORMAL, NOT_JUDGED)

    def line(self, before: str) -> Line:
        """Its line, which the file's name begins."""
        if self.what.endswith("MAC"):
            return Line(before, f"{self.what} {self.said}")
        said = self.said if self.what == "file" else f"{self.what}: {self.said}"
        size = "" if self.bits is None else f"{self.bits} bits"
        when = "" if self.time is None else f"at {_cut(self.time)}"
        by = "" if self.by is None else "by a certificate that calls itself "
        told = ", ".join(filter(None, (said, *self.notes, self.digest, self.scheme, size, when, by)))
        return Line(before, told, _cut(self.by or ""))

    @property
    def fields(self) -> Dict[str, object]:
        """The fields of JSON."""
        fields: Dict[str, object] = {"what": self.what, "said": self.said, "right": self.is_right}
        fields.update(judged=self.is_judged, weak=self.is_weak, compared=self.compared, digest=self.digest)
        fields.update(scheme=self.scheme, bits=self.bits, by=self.by, time=self.time, rule=self.rule)
        return {**fields, "tool": self.tool, "words": self.words, "notes": list(self.notes)}


def lines(findings: Sequence[Finding], before: str) -> List[Line]:
    """The lines of a file, which its name begins: one for each finding, and the words of openssl after the last that
    they are about."""
    made = []
    for it, after in zip(findings, [*findings[1:], None]):
        made.append(it.line(before))
        if it.words and (after is None or after.words != it.words):
            made.append(Line(f"{before}openssl: {it.words}"))
    return made


class Said(NamedTuple):
    """What openssl and the rules say of a signer, and what was asked for."""

    # none where openssl wasn't asked, and why it wasn't
    answer: Optional[Answer]
    unasked: str
    is_judged: bool
    allows_weak: bool


def of_signer(what: str, said: Said, those: Sequence[Tuple[Rule, str]]) -> Finding:
    """What is said of a signer, and of which the rules say why."""
    of = {effect: [(rule, why) for rule, why in those if rule.effect is effect] for effect in Effect}
    notes = tuple(why for effect in (Effect.UNCOMPARED, Effect.TELLS) for _, why in of[effect])
    it = Finding(what, f"not checked: {said.unasked}", notes=notes, is_weak=bool(of[Effect.WEAK]))
    if said.answer is not None:
        it = it._replace(tool=tool.version(), words=said.answer.words or None, compared=not of[Effect.UNCOMPARED])
    for rule, why in of[Effect.REFUSES]:
        return it._replace(said=f"refused: {why} ({rule.section})", rule=rule.name)
    return it if said.answer is None else _of_answer(it, said.answer, said, of[Effect.WEAK])


def _of_answer(it: Finding, answer: Answer, said: Said, weak: Sequence[Tuple[Rule, str]]) -> Finding:
    """The same where no rule refuses what openssl said."""
    if not answer.is_right:
        return it._replace(said="signature not right")
    it = it._replace(said="signature right", is_judged=said.is_judged)
    if not answer.is_yes:
        return it._replace(said="signature right, certificate not right, revocation not checked")
    for rule, why in weak[:1]:
        it = it._replace(said=f"{it.said}, but weak: {why}", rule=None if said.allows_weak else rule.name)
    words = f"{it.said}, certificate {'right, revocation not checked' if said.is_judged else 'not judged'}"
    status = NORMAL if said.is_judged and it.compared else NOT_JUDGED
    return it._replace(said=words, status=status if it.rule is None else REFUSED)
