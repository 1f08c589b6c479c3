"""The verb show: what a container holds, as rows that a person reads."""
from typing import Callable, Dict, Iterator, List, NamedTuple, Optional, Tuple

from . import der, library
from .algorithms import algorithm, algorithm_oid, public_key
from .checking import INDIRECT_DATA, REFUSED, SIGNED_KINDS, TRUST_LIST, Accepted, judge
from .containers import (
    CERT_BAG,
    COUNTER_SIGNATURE,
    CRL_BAG,
    DATA,
    KEY_BAG,
    NESTED_SIGNATURE,
    SAFE_CONTENTS_BAG,
    SHROUDED_KEY_BAG,
    SIGNING_TIME,
    TIME_STAMPS,
    TST_INFO,
    X509_CERTIFICATE,
    X509_CRL,
    Attribute,
    Certificate,
    Signer,
    attributes,
    bags,
    bags_refused,
    certificate,
    is_signed,
    refused_as_signed,
    signed,
    stamp,
    time_stamp_token,
    too_long_for_each,
)
from .elements import OBJECT_IDENTIFIER, OCTET_STRING, SEQUENCE, Element, whole
from .files import Given
from .names import name_of
from .values import dotted, hexadecimal, name, oid, printable, serial, string, time, value

# How many revoked certificates, entries of a trust list, and levels of nested signatures and bags are shown.
MOST_REVOKED, MOST_ENTRIES, MOST_LEVELS = 20, 20, 8
ENVELOPED_DATA, ENCRYPTED_DATA = "1.2.840.113549.1.7.3", "1.2.840.113549.1.7.6"
CRL_NUMBER, REASON = "2.5.29.20", "2.5.29.21"
# The attribute of an entry of a trust list that names it (szOID_CERT_PROP_ID_PREFIX and CERT_FRIENDLY_NAME_PROP_ID).
NAME_OF_ENTRY = "1.3.6.1.4.1.311.10.11.11"
# Labels of rows in the place of what can't be shown.
NOT_SHOWN = ("bags", "not read", "not shown", "refused")
REASONS = "unspecified keyCompromise cACompromise affiliationChanged superseded cessationOfOperation certificateHold"
RECIPIENTS = {0xA1: "key agreement", 0xA2: "key encryption key", 0xA3: "password", 0xA4: "other"}


class Row(NamedTuple):
    """A line: how deep it is indented, what it is about, and what is said of that."""

    level: int
    label: str
    text: str


Rows = Iterator[Row]


def deeper(rows: Rows, levels: int = 1) -> Rows:
    """The rows a level further in, or some levels."""
    return (Row(it.level + levels, it.label, it.text) for it in rows)


def octets(count: int) -> str:
    """A count of octets, in words."""
    return f"{count} octet" if count == 1 else f"{count} octets"


def certificate_rows(it: Certificate) -> Rows:
    """What a certificate says."""
    yield Row(0, "subject", name(it.subject))
    yield Row(0, "issuer", name(it.issuer))
    yield Row(0, "serial number", serial(it.serial))
    yield Row(0, "valid", f"{it.not_before} to {it.not_after}")
    yield Row(0, "public key", public_key(it.key))
    yield Row(0, "signed by", algorithm(it.signature_algorithm))
    if it.key_identifier is not None:
        yield Row(0, "key identifier", hexadecimal(it.key_identifier))


def _any_rows(rows_of: Callable[[bytes], Rows], encoding: bytes) -> Rows:
    """The rows of what is in the place of a certificate or of a revocation list."""
    try:
        rows = list(rows_of(encoding))
    except (ValueError, IndexError, RecursionError):
        rows = [Row(0, "not read", f"{octets(len(encoding))}, which aren't as RFC 5280 has them")]
    yield from rows


def any_certificate_rows(encoding: bytes) -> Rows:
    """The rows of what is in the place of a certificate: one, or another choice (RFC 5652, 10.2.2)."""
    if encoding[:1] != bytes([SEQUENCE]):
        return iter([Row(0, "of another form", octets(len(encoding)))])
    return _any_rows(lambda it: certificate_rows(certificate(it)), encoding)


def any_crl_rows(encoding: bytes) -> Rows:
    """The rows of what is in the place of a revocation list: one, or another choice (RFC 5652, 10.2.1)."""
    if encoding[:1] != bytes([SEQUENCE]):
        return iter([Row(0, "of another form", octets(len(encoding)))])
    return _any_rows(crl_rows, encoding)


def _attribute_text(it: Attribute) -> str:
    """The values of an attribute: text where they are strings or times, else their octets."""
    texts = []
    for element in it.values:
        text = string(element)
        if it.oid == SIGNING_TIME:
            text = time(element)
        elif element.tag == OCTET_STRING:
            text = hexadecimal(element.contents)
        elif element.tag == OBJECT_IDENTIFIER:
            text = name_of(oid(element))
        elif text is None:
            text = value(element) if not element.is_constructed else octets(len(element.encoding))
        texts.append(printable(text))
    return ", ".join(texts)


def attribute_rows(those: List[Attribute]) -> Rows:
    """A row for each attribute."""
    for it in those:
        label = {"friendlyName": "friendly name", "localKeyID": "local key id"}.get(name_of(it.oid), name_of(it.oid))
        yield Row(0, label, _attribute_text(it))


# Stores


def store_rows(it: Given, kind: str) -> Rows:
    """A PKCS #12 file: its MAC, and what can be seen of its contents."""
    data, mac = it.octets, it.mac
    if mac is None:
        yield Row(0, "MAC", "none")
    else:
        count, salt = mac.iterations, octets(len(mac.salt))
        yield Row(0, "MAC", f"{name_of(mac.digest_algorithm)}, iterations {count}, salt of {salt}")
        place = "of BER" if it.store is not None else f"from {mac.covered.start} on"
        yield Row(0, "MAC covers", f"{octets(len(mac.covered))} {place}")
    refused = bags_refused(data, kind)
    if refused is not None:
        yield Row(0, "bags", refused)
        return
    for level, bag in bags(data):
        yield from deeper(bag_rows(bag), level)
    yield from encrypted_rows(data)


def bag_rows(bag: Element) -> Rows:
    """A bag, without the bags in it, which come after it."""
    kind, content, *more = bag.children()
    inside, which = content.inside(), oid(kind)
    those = attributes(more[0]) if more else []
    if which == CERT_BAG:
        yield Row(0, "certificate", "" if oid(inside.inside()) == X509_CERTIFICATE else name_of(oid(inside.inside())))
        yield from deeper(attribute_rows(those))
        if oid(inside.inside()) == X509_CERTIFICATE:
            yield from deeper(any_certificate_rows(inside.children()[1].inside().contents))
        return
    yield Row(0, *_bag_words(which, inside))
    yield from deeper(attribute_rows(those))
    if which == CRL_BAG and oid(inside.inside()) == X509_CRL:
        yield from deeper(any_crl_rows(inside.children()[1].inside().contents))


def _bag_words(which: str, inside: Element) -> Tuple[str, str]:
    """What a bag is, and what is said of its value."""
    if which == SHROUDED_KEY_BAG:
        scheme, encrypted = inside.children()[:2]
        return "encrypted key", f"{algorithm(scheme)}, {octets(len(encrypted.contents))}"
    if which == KEY_BAG:
        parts = inside.children()
        return "key", algorithm(parts[1]) if len(parts) > 1 else octets(len(inside.encoding))
    if which == SAFE_CONTENTS_BAG:
        return "bags in a bag", str(len(inside.children()))
    if which == CRL_BAG:
        return "revocation list", "" if oid(inside.inside()) == X509_CRL else name_of(oid(inside.inside()))
    return name_of(which).replace("secretBag", "secret"), octets(len(inside.encoding))


def encrypted_rows(data: bytes) -> Rows:
    """The contents of a store that no bags are seen of."""
    safe = whole(data).children()[1].children()
    if len(safe) < 2 or safe[1].inside().tag != OCTET_STRING:
        return
    for content in whole(safe[1].inside().contents).children():
        if oid(content.inside()) == DATA:
            continue
        yield Row(0, name_of(oid(content.inside())).replace("encryptedData", "encrypted contents"), _encrypted(content))


def _encrypted(content: Element) -> str:
    """The algorithm and the length of encrypted contents (RFC 5652, 8)."""
    try:
        parts = content.children()[1].inside().children()[1].children()
        return f"{algorithm(parts[1])}, {octets(len(parts[2].contents)) if len(parts) > 2 else 'elsewhere'}"
    except (ValueError, IndexError):
        return octets(len(content.encoding))


# Signed data


def signed_rows(data: bytes, level: int = 0) -> Rows:
    """Signed data, with its signers, their time stamps and nested signatures."""
    it = signed(data)
    where = "elsewhere (a detached signature)" if it.content is None else octets(len(it.content))
    yield Row(0, "content", f"{name_of(it.content_type)}, {where}")
    if it.content_type == TST_INFO and it.content is not None:
        yield from deeper(stamp_rows(it.content))
    if it.content_type == INDIRECT_DATA:
        yield from deeper(indirect_rows(data))
    if it.content_type == TRUST_LIST:
        yield from deeper(trust_list_rows(data))
    for encoding in it.certificates:
        yield Row(0, "certificate", "")
        yield from deeper(any_certificate_rows(encoding))
    for encoding in it.crls:
        yield Row(0, "revocation list", "")
        yield from deeper(any_crl_rows(encoding))
    too_long = too_long_for_each(len(it.signers), it.certificates)
    if too_long:
        yield Row(0, "not shown", too_long)
        return
    for number, signer in enumerate(it.signers, 1):
        yield Row(0, f"signer {number}", "")
        yield from deeper(signer_rows(signer, level))


def signer_rows(signer: Signer, level: int) -> Rows:
    """A signer: what it covers, by which algorithms, and with which certificate."""
    yield Row(0, "names", signer.named)
    if isinstance(signer.parts, der.BadAttributes):
        yield Row(0, "not valid", str(signer.parts))
    else:
        found = signer.certificate
        yield Row(0, "certificate", name(found.subject) if found else "not in the file")
    yield Row(0, "digest", name_of(algorithm_oid(signer.digest_algorithm)))
    yield Row(0, "signature", f"{algorithm(signer.signature_algorithm)}, {octets(len(signer.signature))}")
    if signer.covered is None:
        yield Row(0, "covers", "the content itself")
    else:
        length = octets(signer.covered.end - signer.covered.offset)
        yield Row(0, "covers", f"{len(signer.signed)} signed attributes, {length}")
        yield from deeper(attribute_rows(signer.signed))
    for attribute in signer.unsigned:
        yield from unsigned_rows(attribute, level)


def unsigned_rows(attribute: Attribute, level: int) -> Rows:
    """An unsigned attribute: a time stamp, nested signatures, counter signatures, or another."""
    is_stamp = attribute.oid in TIME_STAMPS
    if not is_stamp and attribute.oid not in (NESTED_SIGNATURE, COUNTER_SIGNATURE):
        yield from attribute_rows([attribute])
        return
    for element in attribute.values:
        if attribute.oid == COUNTER_SIGNATURE:
            yield Row(0, "counter signature", octets(len(element.encoding)))
            continue
        yield Row(0, "time stamp" if is_stamp else "nested signature", "")
        yield from deeper(_within(element.encoding, level + 1))


def _within(encoding: bytes, level: int) -> Rows:
    """The rows of signed data in signed data."""
    if level > MOST_LEVELS:
        yield Row(0, "not shown", f"more than {MOST_LEVELS} levels")
        return
    try:
        rows = list(signed_rows(encoding, level))
    except der.Refused as fault:
        rows = [Row(0, "refused", f"{fault}, as signed data")]
    yield from rows


def stamp_rows(content: bytes) -> Rows:
    """What a time stamp signs."""
    it = stamp(content)
    yield Row(0, "time", it.time)
    yield Row(0, "serial number", serial(it.serial))
    yield Row(0, "policy", name_of(it.policy))
    yield Row(0, "stamps", f"{algorithm(it.digest_algorithm)} {hexadecimal(it.digest)}")


def indirect_rows(data: bytes) -> Rows:
    """What Authenticode signs of a file: as what it was hashed, and its digest."""
    try:
        it = library().indirect(data)
    except der.Refused as fault:
        yield Row(0, "refused", f"{fault}, as indirect data")
        return
    if it is not None:
        scheme = name_of(algorithm_oid(whole(bytes(it.digest_algorithm))))
        yield Row(0, "hashed", name_of(dotted(bytes(it.attribute_type))))
        yield Row(0, "digest", f"{scheme} {hexadecimal(bytes(it.digest))}")


def trust_list_rows(data: bytes) -> Rows:
    """What a trust list says: what it is for, its number and its times, and what is in it."""
    try:
        it, entries = library().trust_list(data), library().trust_entries(data)
    except der.Refused as fault:
        yield Row(0, "refused", f"{fault}, as a trust list")
        return
    if it is None or entries is None:
        return
    usages = [name_of(oid(usage)) for usage in whole(bytes(it.usages)).children()]
    yield Row(0, "usages", ", ".join(usages) or "none")
    if it.list_identifier is not None:
        yield Row(0, "list identifier", _list_identifier(bytes(it.list_identifier)))
    if it.sequence_octets is not None:
        yield Row(0, "sequence number", serial(bytes(it.sequence_octets)))
    yield Row(0, "this update", time(whole(bytes(it.this_update))))
    if it.next_update is not None:
        yield Row(0, "next update", time(whole(bytes(it.next_update))))
    yield Row(0, "algorithm", name_of(algorithm_oid(whole(bytes(it.algorithm)))))
    yield Row(0, "entries", str(len(entries)))
    for entry in entries[:MOST_ENTRIES]:
        yield Row(1, "entry", hexadecimal(bytes(entry.identifier)))
        yield from (Row(2, "friendly name", text) for text in _names_of(entry))
    if len(entries) > MOST_ENTRIES:
        yield Row(1, "..", f"{len(entries) - MOST_ENTRIES} more")


def _wide(contents: bytes) -> str:
    """The characters of UTF-16, the low octet of each unit first, without zeros at the end."""
    return contents.decode("utf-16-le", "replace").rstrip("\0")


def _list_identifier(contents: bytes) -> str:
    """The identifier of a trust list: as text where it is one of ASCII in UTF-16, else its octets, since any octets may
    be letters of some alphabet."""
    text = _wide(contents)
    return text if text.isascii() and text.isprintable() and text else hexadecimal(contents)


def _names_of(entry: der.TrustEntry) -> Iterator[str]:
    """The friendly names among the attributes of an entry."""
    if entry.attributes is None:
        return
    for attribute in attributes(whole(bytes(entry.attributes))):
        if attribute.oid == NAME_OF_ENTRY:
            yield from (printable(_wide(it.contents)) for it in attribute.values if it.tag == OCTET_STRING)


# Other content


def enveloped_rows(data: bytes) -> Rows:
    """Enveloped data (RFC 5652, 6.1): who may open it, and what encrypts it."""
    parts = whole(data).children()[1].inside().children()
    recipients = [it for it in parts if it.tag == 0x31][0]
    for number, recipient in enumerate(recipients.children(), 1):
        yield Row(0, f"recipient {number}", _recipient(recipient))
    content = [it for it in parts if it.tag == SEQUENCE][0].children()
    length = octets(len(content[2].contents)) if len(content) > 2 else "elsewhere"
    yield Row(0, "content", f"{name_of(oid(content[0]))}, {algorithm(content[1])}, {length}")


def _recipient(element: Element) -> str:
    """A recipient: how its key is wrapped, and of key transport for whom."""
    if element.tag != SEQUENCE:
        return RECIPIENTS.get(element.tag, "not known")
    _, who, scheme = element.children()[:3]
    if who.tag == SEQUENCE:
        issuer, number = who.children()[:2]
        return f"{algorithm(scheme)}, issuer {name(issuer)}, serial number {serial(number.contents)}"
    return f"{algorithm(scheme)}, key identifier {hexadecimal(who.contents)}"


def crl_rows(data: bytes) -> Rows:
    """A revocation list (RFC 5280, 5.1)."""
    to_sign, scheme = whole(data).children()[:2]
    fields = [it for it in to_sign.children() if it.tag != 0x02]
    _, issuer, this, *more = fields
    yield Row(0, "issuer", name(issuer))
    yield Row(0, "this update", time(this))
    if more and more[0].tag in (0x17, 0x18):
        yield Row(0, "next update", time(more.pop(0)))
    yield Row(0, "signed by", algorithm(scheme))
    extensions = more.pop().inside().children() if more and more[-1].tag == 0xA0 else []
    for which, octets_of in map(_extension, extensions):
        if which == CRL_NUMBER:
            yield Row(0, "number", serial(whole(octets_of).contents))
    revoked = more[0].children() if more else []
    yield Row(0, "revoked", f"{len(revoked)} certificate{'' if len(revoked) == 1 else 's'}")
    for entry in revoked[:MOST_REVOKED]:
        yield Row(1, serial(entry.inside().contents), _revoked(entry))
    if len(revoked) > MOST_REVOKED:
        yield Row(1, "..", f"{len(revoked) - MOST_REVOKED} more")


def _extension(element: Element) -> Tuple[str, bytes]:
    """An extension's object identifier and the octets of its value."""
    parts = element.children()
    return oid(parts[0]), parts[-1].contents


def _revoked(entry: Element) -> str:
    """When a certificate was revoked, and why."""
    parts = entry.children()
    text = time(parts[1])
    for which, octets_of in map(_extension, parts[2].children() if len(parts) > 2 else []):
        if which == REASON:
            number = int.from_bytes(octets_of[-1:], "big")
            words = [*REASONS.split(), "7", "removeFromCRL", "privilegeWithdrawn", "aACompromise"]
            text += f", {words[number] if number < len(words) else number}"
    return text


def content_rows(data: bytes) -> Rows:
    """Content under its type (RFC 5652, 3)."""
    parts = whole(data).children()
    which = oid(parts[0])
    yield Row(0, "content type", name_of(which))
    if which == ENVELOPED_DATA:
        yield from enveloped_rows(data)
    elif which == ENCRYPTED_DATA:
        yield Row(0, "content", _encrypted(whole(data)))
    elif len(parts) > 1:
        yield Row(0, "content", octets(len(parts[1].contents)))


TITLES: Dict[str, str] = {
    "pfx": "PKCS #12 store",
    "rawpfx": "PKCS #12 store",
    "pkcs7certificate": "signed data",
    "certificatelist": "revocation list",
    "contentinfo": "CMS content",
}
READERS: Dict[str, Callable[[bytes], Rows]] = {
    "certificatelist": crl_rows,
    "contentinfo": content_rows,
}


class Shown(NamedTuple):
    """What is shown of a file: a title, and rows under it; why it is refused, where it is."""

    title: str
    rows: List[Row]
    refused: Optional[str] = None
    # the exit status of the verb: also of what is accepted, and has rows that can't be shown
    status: int = REFUSED


def collected(rows: Rows) -> List[Row]:
    """The rows, up to where what was accepted isn't as it is shown here."""
    made: List[Row] = []
    try:
        for row in rows:
            made.append(row)
    except (ValueError, IndexError, RecursionError):
        made.append(Row(0, "not shown", "what follows, since it isn't as its type has it"))
    return made


def show(data: bytes, kind: Optional[str] = None, strict: bool = False) -> Shown:
    """What a file holds. Raises files.NoPem."""
    said = judge(data, kind, strict)
    if not isinstance(said, Accepted):
        token = time_stamp_token(said.given.octets)
        if token is None:
            return Shown("", [], said.line)
        return show(token, None, True)._replace(title="time stamp response, of which the token is signed data")
    if said.kind in SIGNED_KINDS and is_signed(said.given.octets):
        return _signed(said)
    title = _title(said, said.kind)
    reader = READERS.get(said.kind)
    if said.kind in ("pfx", "rawpfx"):
        rows = collected(store_rows(said.given, said.kind))
    else:
        rows = collected(reader(said.given.octets)) if reader else []
    return Shown(title, rows, None, _status(said, rows))


def _status(said: Accepted, rows: List[Row]) -> int:
    """The exit status of an accepted file."""
    return REFUSED if any(it.label in NOT_SHOWN for it in rows) else said.status


def _title(said: Accepted, kind: str) -> str:
    """A title by a kind, with what a check says."""
    return f"{TITLES.get(kind, kind)} ({said.kind} {said})"


def _signed(said: Accepted) -> Shown:
    """What signed data hold."""
    data = said.given.octets
    try:
        library().signers(data)
    except der.Refused as refused:
        return Shown("", [], refused_as_signed(data, refused))
    rows = collected(signed_rows(data))
    return Shown(_title(said, "pkcs7certificate"), rows, None, _status(said, rows))


def table(rows: List[Row]) -> Iterator[str]:
    """Rows as lines, with what they say in one column at each level's side."""
    width = max((2 * it.level + len(it.label) for it in rows), default=0)
    for it in rows:
        label = "  " * it.level + it.label
        yield f"  {label:<{width}}  {it.text}".rstrip()
