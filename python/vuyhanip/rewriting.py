"""The verb rewrite: the normal encoding of a file, unless that would break its MAC or a signature in it."""
import hashlib
from typing import Dict, List, NamedTuple, Union

from . import der, library
from .checking import KINDS, SIGNED_KINDS, Accepted
from .containers import COUNTER_SIGNATURE, NESTED_SIGNATURE, TIME_STAMPS, is_signed
from .elements import OCTET_STRING, SEQUENCE, encoded, whole

# The kinds that are tried where none is named: of a store first the one that keeps what its MAC covers.
KEEPING = ("rawpfx", *KINDS[:1], *KINDS[2:])
STORES = ("rawpfx", "pfx")
# The content type of signed data (RFC 5652, 5.1).
SIGNED_DATA = bytes.fromhex("06092A864886F70D010702")
# How many levels of signatures in signatures are compared one by one; what is in more of them is compared whole.
MOST_LEVELS = 8

# What is covered, by the name of what covers it.
Covered = Dict[str, object]


class Rewritten(NamedTuple):
    """The octets to write, and what covers others than it did before."""

    octets: bytes
    macs: List[str]
    signatures: List[str]
    # whether the contents of a store stay in BER, because its MAC covers them so
    keeps_ber: bool


def rewritten(it: Accepted) -> Rewritten:
    """The normal encoding of an accepted file. Raises der.Refused, and OverflowError."""
    octets = library().rewrite(it.kind, it.given.octets)
    if it.kind not in STORES:
        before, after = (signatures(it.kind, each) for each in (it.given.octets, octets))
        return Rewritten(octets, [], _changed(before, after), False)
    before = macs(it.given.own)
    keeps_ber = it.kind == "rawpfx" and it.given.store is not None and bool(before)
    if keeps_ber:
        octets = _with_contents_of(it.given.own, octets)
    return Rewritten(octets, _changed(before, macs(octets)), [], keeps_ber)


def _changed(before: Covered, after: Covered) -> List[str]:
    """The names of what doesn't cover what it did."""
    return [name for name, octets in before.items() if name not in after or after[name] != octets]


def macs(store: bytes) -> Covered:
    """What the MAC of a store covers, and what a check of it needs beside that."""
    try:
        mac = library().mac(store)
    except der.Refused:
        mac = library().mac_ber(store)
    if mac is None:
        return {}
    return {"the MAC": (mac.octets, mac.digest_algorithm, mac.digest, mac.salt, mac.iterations)}


def _with_contents_of(store: bytes, octets: bytes) -> bytes:
    """A store with the contents of another one, which its MAC covers: those of the OCTET STRING in its authSafe."""
    version, safe, *mac = whole(octets).children()
    kind, content = safe.children()
    kept = whole(store).children()[1].children()[1].inside().contents
    safe_octets = encoded(SEQUENCE, kind.encoding + encoded(content.tag, encoded(OCTET_STRING, kept)))
    return encoded(SEQUENCE, b"".join([version.encoding, safe_octets, *(part.encoding for part in mac)]))


def signatures(kind: str, octets: bytes) -> Covered:
    """What each signature in a file of a kind covers. Of a part of a file nothing is known to be covered."""
    if kind == "certificatelist":
        return {"the signature of the list": whole(octets).inside().encoding}
    if kind == "signeddata":
        return _of_signed(encoded(SEQUENCE, SIGNED_DATA + encoded(0xA0, octets)), "", 0)
    if kind in SIGNED_KINDS and is_signed(octets):
        return _of_signed(octets, "", 0)
    return {}


def _of_signed(octets: Union[bytes, memoryview], of: str, level: int) -> Covered:
    """What each signature in signed data covers; all octets where they are in too many others, or aren't read."""
    try:
        if level > MOST_LEVELS:
            return {f"the signatures{of}": bytes(octets)}
        it = library().signed(octets)
    except der.Refused:
        return {f"the signatures{of}": bytes(octets)}
    found: Covered = {}
    # its digest is compared, since a long content of many signers would be once for each
    content = None if it.content is None else hashlib.sha256(it.content).digest()
    for number, (signer, info) in enumerate(zip(it.signers, it.signer_infos), 1):
        name = f" of signer {number}{of}"
        if isinstance(signer, der.BadAttributes):
            found[f"the signature{name}"] = bytes(info.element)
        else:
            covered = signer.covered if signer.is_over_attributes else content
            found[f"the signature{name}"] = (covered, content, signer.signature)
        found.update(_of_attributes(info, name, level))
    for number, encoding in enumerate(it.crls, 1):
        found[f"the signature of revocation list {number}{of}"] = _to_be_signed(bytes(encoding))
    return found


def _of_attributes(info: der.SignerInfo, of: str, level: int) -> Covered:
    """What signatures in the unsigned attributes of a signer cover."""
    found: Covered = {}
    for attribute in info.unsigned_attributes:
        which = der.attribute_oid(attribute)
        for number, value in enumerate(der.attribute_values(attribute), 1):
            if which == COUNTER_SIGNATURE:
                found[f"counter signature {number}{of}"] = bytes(value)
            elif which in TIME_STAMPS:
                found.update(_of_signed(value, f" of time stamp {number}{of}", level + 1))
            elif which == NESTED_SIGNATURE:
                found.update(_of_signed(value, f" of nested signature {number}{of}", level + 1))
    return found


def _to_be_signed(encoding: bytes) -> bytes:
    """What the signature of a revocation list covers (RFC 5280, 5.1.1); all of revocation information in another form."""
    element = whole(encoding)
    return element.inside().encoding if element.tag == SEQUENCE else encoding
