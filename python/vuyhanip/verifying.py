"""The verb verify: signatures of signers, time stamps and nested signatures, and the MAC of a store.

A file is read by the library first. Then its octets as they are go to openssl, whose yes a yes is, and rules.RULES may
refuse what it said yes to.
"""
import datetime
import os
from typing import Callable, Iterator, List, NamedTuple, Optional, Sequence, Tuple, Union

from . import der, library, tool
from .checking import NORMAL, REFUSED, SIGNED_KINDS, Accepted, NoKind, judge_given
from .containers import (
    NESTED_SIGNATURE,
    TIME_STAMPS,
    TST_INFO,
    is_signed,
    refused_as_signed,
    time_stamp_token,
    too_long_for_each,
)
from .files import NEWLINES, Given, NoPem, TooMany, allow, held, iterations_in, iterations_of
from .findings import Finding, Said, of_signer
from .judging import Answer, Terms, facts, of_mac, of_signatures, of_stamp, stamp_facts, token_of
from .names import name_of
from .rules import INDIRECT_DATA, Case, Effect, Of, found
from .values import printable

# How many levels of nested signatures and time stamps are judged, and with how many certificates each.
MOST_LEVELS, MOST_CERTIFICATES = 8, 100
NEWLINE = "without the newline after its DER"
ED25519, ED448 = "1.3.101.112", "1.3.101.113"


class Around(NamedTuple):
    """Where signed data are: what is told before their signers, how deep, and with which certificates around them."""

    before: str = ""
    level: int = 0
    certificates: Tuple[bytes, ...] = ()
    # whether they have to be a time stamp, and the response in which it is
    is_stamp: bool = False
    response: Optional[bytes] = None

    @property
    def whole(self) -> str:
        """What they are themselves."""
        return self.before.rstrip(", ") or "file"


# How signed data are asked about


def read_signed(octets: bytes, is_strict: bool) -> der.SignedData:
    """Signed data, of which what is BER is converted, also in content and attributes, where the library looks at no
    form; taken strictly it is refused. Raises der.Refused."""
    try:
        made = library().from_ber(octets)
    except der.Refused:
        made = octets
    if made == octets:
        return library().signed(octets)
    if is_strict:
        raise der.Refused(der.Reason.MALFORMED, len(os.path.commonprefix([octets, made])))
    return library().signed(made)


def case_of(data: der.SignedData, terms: Terms, around: Around) -> Case:
    """Signed data as the rules ask of them."""
    is_stamp = around.is_stamp or data.content_type == TST_INFO
    own = None if data.content is None else bytes(data.content)
    return Case(
        data,
        list(data.signers),
        list(data.signer_infos),
        terms.content,
        terms.content if is_stamp or own is None else own,
        is_stamp,
        list(map(bytes, data.certificates)),
        [*around.certificates, *terms.certificates],
    )


def by_library(case: Case) -> List[List[bytes]]:
    """Of each signer the certificate that the library finds, or else those with its serial number."""
    return [_by_library(case, number) for number in range(len(case.signers))]


def _by_library(case: Case, number: int) -> List[bytes]:
    """The same of one signer."""
    signer, info = case.signers[number], case.infos[number]
    if isinstance(signer, der.Signer) and signer.certificate is not None:
        return [bytes(signer.certificate)]
    if info.serial_number is None:
        return []
    held = ((it, facts(it)) for it in (*case.certificates, *case.others))
    return [it for it, what in held if what is not None and what.number == info.serial_number]


def _own(case: Case, answer: Answer) -> Sequence[Sequence[bytes]]:
    """Of each signer its certificate as openssl says it, or as the library does where openssl says none. No certificate
    where it says other numbers of them: it has read the file otherwise."""
    if not answer.signers:
        return case.own
    is_so = len(answer.signers) == len(case.signers)
    return [[it] for it in answer.signers] if is_so else [[] for _ in case.signers]


class Unable(NamedTuple):
    """What openssl can't do, up to a version, or in all of them."""

    what: str
    version: Optional[Tuple[int, int]]
    is_so: Callable[[Case], bool]


def is_edwards(case: Case) -> bool:
    """Whether a signature is of Ed25519 or Ed448."""
    return any(isinstance(it, der.Signer) and it.signature_oid in (ED25519, ED448) for it in case.signers)


def is_by_key(case: Case) -> bool:
    """Whether a signer is named by a key identifier, which PKCS #7 doesn't have."""
    return not case.is_of_cms and any(it.key_identifier is not None for it in case.infos)


UNABLE = (
    Unable("signatures of Ed25519 and Ed448 in CMS", (3, 0), is_edwards),
    Unable("signers by key identifier over such content", None, is_by_key),
)


def unasked(case: Case, terms: Terms) -> str:
    """Why openssl isn't asked, or nothing. Raises tool.NoTool."""
    if case.content is None:
        return "no content, which --content gives"
    if case.data.content_type == INDIRECT_DATA and terms.anchors is not None and terms.purpose is None:
        return "openssl has no purpose for programs, so --ca asks for --purpose any"
    for it in UNABLE:
        if it.is_so(case) and (it.version is None or tool.is_of(*it.version)):
            return f"{tool.version()} verifies no {it.what}"
    return ""


def asked(octets: bytes, case: Case, terms: Terms, response: Optional[bytes]) -> Answer:
    """What openssl says of signed data."""
    content = case.content or b""
    if case.is_stamp:
        signers, others = [it for those in case.own for it in those], [*case.certificates, *case.others]
        return of_stamp(response or octets, response is None, content, signers, others, terms)
    if case.is_of_cms:
        return of_signatures("cms", octets, content if case.data.content_tag is None else None, terms)
    return of_signatures("smime", octets, content, terms)


# What is found in them


def signed_findings(octets: bytes, terms: Terms, around: Around) -> List[Finding]:
    """What is said of each signer, and of the time stamps and nested signatures in it.

    Raises der.Refused, and tool.NoTool.
    """
    case = case_of(read_signed(octets, terms.strict), terms, around)
    if len({*case.certificates, *case.others}) > MOST_CERTIFICATES:
        return [Finding(around.whole, f"not checked: more than {MOST_CERTIFICATES} certificates")]
    too_long = too_long_for_each(len(case.infos) + _stamps(case), [*case.certificates, *case.others])
    if too_long:
        return [Finding(around.whole, f"not checked: {too_long}")]
    case = case._replace(own=by_library(case))
    why, answer = unasked(case, terms), None
    if not why:
        answer = asked(octets, case, terms, around.response)
        case = case._replace(own=_own(case, answer), stamp=stamp_facts(octets) if case.is_stamp else None)
    said, of_file = Said(answer, why, terms.anchors is not None, terms.allows_weak), found(Of.FILE, case)
    findings: List[Finding] = []
    for number in range(len(case.signers)):
        what = f"{around.before}signer {number + 1}"
        it = of_signer(what, said, [*of_file, *found(Of.SIGNER, case, number)])
        findings.append(described(it, case, number))
        findings += inside(case, number, terms, around._replace(before=f"{what}, ", response=None))
    return findings or [of_signer(f"{around.before}signers", said, of_file)]


def _stamps(case: Case) -> int:
    """How many time stamps signers have, each of which openssl gets beside all certificates."""
    those = (attribute for info in case.infos for attribute in info.unsigned_attributes)
    return sum(len(der.attribute_values(it)) for it in those if der.attribute_oid(it) in TIME_STAMPS)


def described(it: Finding, case: Case, number: int) -> Finding:
    """A finding with what the signer is."""
    signer, info, those = case.signers[number], case.infos[number], {*case.facts_of(number)}
    certificate = those.pop() if len(those) == 1 else None
    if isinstance(signer, der.Signer):
        it = it._replace(digest=name_of(signer.digest_oid), scheme=name_of(signer.signature_oid))
    if certificate is not None:
        it = it._replace(bits=certificate.bits, by=printable(certificate.subject))
    if case.stamp is not None:
        return it._replace(time=printable(moment(case.stamp.time)))
    try:
        return it._replace(time=None if info.signing_time is None else f"{info.signing_time:%Y-%m-%d %H:%M:%S}")
    except ValueError:
        return it


def moment(text: str) -> str:
    """A time as openssl writes it, as other times are written; as it is where it has a fraction of a second, but for two
    blanks before a day."""
    try:
        return f"{datetime.datetime.strptime(text, '%b %d %H:%M:%S %Y GMT'):%Y-%m-%d %H:%M:%S}"
    except ValueError:
        return " ".join(text.split())


def inside(case: Case, number: int, terms: Terms, around: Around) -> List[Finding]:
    """What is said of the time stamps and nested signatures of a signer."""
    signer, findings = case.signers[number], []
    certificates = (*around.certificates, *case.certificates)
    for attribute in case.infos[number].unsigned_attributes:
        which = der.attribute_oid(attribute)
        is_stamp = which in TIME_STAMPS
        if not is_stamp and which != NESTED_SIGNATURE or isinstance(signer, der.BadAttributes):
            continue
        word = "time stamp" if is_stamp else "nested signature"
        within = Around(f"{around.before}{word}, ", around.level + 1, certificates if is_stamp else (), is_stamp)
        for value in der.attribute_values(attribute):
            content = bytes(signer.signature) if is_stamp else None
            findings += _inside(bytes(value), terms._replace(content=content), within)
    return findings


def _inside(octets: bytes, terms: Terms, around: Around) -> List[Finding]:
    """What is said of a time stamp or of a nested signature. Raises tool.NoTool."""
    if around.level > MOST_LEVELS:
        return [Finding(around.whole, f"not checked: more than {MOST_LEVELS} levels")]
    return _signed(octets, octets, terms, around)


# Stores


def mac_finding(store: bytes, mac: Optional[der.Mac], password: Optional[str]) -> Finding:
    """What is said of a store's MAC. Raises tool.NoTool."""
    for rule, why in found(Of.STORE, mac):
        said = f"refused: {why} ({rule.section})" if rule.effect is Effect.REFUSES else f"not checked: {why}"
        what, said = ("no MAC", why) if mac is None else ("MAC", said)
        return Finding(what, said, rule=rule.name)
    if password is None:
        return Finding("MAC", "not checked: no password, which --password-file or --ask-password gives")
    octets = password.encode("utf-8", "replace")
    if len(octets) > tool.MOST_OF_PASSWORD or octets.decode() != password or "\0" in password or "\n" in password:
        return Finding("MAC", "not checked: openssl takes no such password")
    answer = of_mac(store, octets)
    it = Finding("MAC", "right", NORMAL, tool=tool.version(), words=answer.words or None)
    it = it._replace(digest=None if mac is None else name_of(mac.digest_algorithm))
    if answer.is_right:
        return it
    return it._replace(said="not checked" if answer.is_right is None else "wrong", status=REFUSED)


def mac_verdict(store: bytes, password: str) -> Finding:
    """What is said of the MAC of a PKCS #12 file, in DER or BER, which isn't checked where it takes more iterations
    than files.LIMITS allow. Raises der.Refused, and tool.NoTool."""
    der._typed(password, "a password", str)
    made = library().from_ber(store)
    try:
        allow(iterations_of(made))
    except TooMany as fault:
        return Finding("MAC", f"not checked: {fault}")
    return mac_finding(store, library().mac_ber(made), password)


# Files


def without_newline(it: Given, is_strict: bool) -> Optional[Given]:
    """A file that ends with a newline after its DER, without that. None where it is none such."""
    if is_strict or it.forms:
        return None
    for newline in NEWLINES:
        shorter = Given(it.octets[: -len(newline)], ("DER before a newline",))
        if it.octets.endswith(newline) and not isinstance(read(shorter, is_strict), NoKind):
            return shorter
    return None


def read(it: Given, is_strict: bool) -> Union[Accepted, NoKind, bytes]:
    """What octets are by the library; of a response the time stamp in it, by openssl. Raises tool.NoTool."""
    said = judge_given(it, None, is_strict)
    if isinstance(said, NoKind) and time_stamp_token(it.octets) is not None:
        return token_of(it.octets) or said
    return said


def block_findings(it: Given, terms: Terms, before: str) -> List[Finding]:
    """What is said of one block. Raises tool.NoTool."""
    said, around = read(it, terms.strict), Around(before)
    if isinstance(said, bytes):
        return _signed(said, said, terms, around._replace(is_stamp=True, response=it.octets))
    if isinstance(said, NoKind):
        shorter = without_newline(it, terms.strict)
        if shorter is None:
            return [Finding(around.whole, said.line)]
        return [each._replace(notes=(NEWLINE, *each.notes)) for each in block_findings(shorter, terms, before)]
    if said.kind in ("pfx", "rawpfx"):
        of_mac = mac_finding(it.octets, said.given.mac, terms.password)
        return [of_mac._replace(what=f"{before}{of_mac.what}")]
    if said.kind not in SIGNED_KINDS or not is_signed(said.given.octets):
        return [Finding(around.whole, f"{said.kind}: nothing in it is verified")]
    return _signed(it.octets, said.given.octets, terms, around)


def _signed(octets: bytes, in_der: bytes, terms: Terms, around: Around) -> List[Finding]:
    """What is said of signed data. Raises tool.NoTool."""
    try:
        return signed_findings(octets, terms, around)
    except der.Refused as refused:
        return [Finding(around.whole, refused_as_signed(in_der, refused))]


def verify(data: bytes, terms: Terms) -> List[Finding]:
    """What is said of a file."""
    try:
        allow(0 if terms.password is None else iterations_in(data, terms.strict))
    except TooMany as fault:
        return [Finding("MAC", f"not checked: {fault}")]
    parts = list(held(data, terms.strict))
    findings: List[Finding] = []
    for number, it in enumerate(parts, 1):
        before = f"block {number} of {len(parts)}, " if len(parts) > 1 else ""
        try:
            findings += [Finding(Around(before).whole, f"refused: {it}")] if isinstance(it, NoPem) else []
            findings += block_findings(it, terms, before) if isinstance(it, Given) else []
        except tool.NoTool as fault:
            findings.append(Finding(Around(before).whole, f"not checked: {fault}"))
    return findings
