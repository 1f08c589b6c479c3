"""The verb extract: the parts of a container as files of their own."""
import os
from typing import Dict, Iterable, Iterator, List, NamedTuple, Union

from . import der, library
from .checking import SIGNED_KINDS, Accepted, NoKind, judge
from .containers import (
    CERT_BAG,
    COUNTER_SIGNATURE,
    CRL_BAG,
    KEY_BAG,
    NESTED_SIGNATURE,
    SHROUDED_KEY_BAG,
    TIME_STAMPS,
    X509_CERTIFICATE,
    X509_CRL,
    bag_values,
    bags_refused,
    is_signed,
    refused_as_signed,
    signed,
    time_stamp_token,
    x509_values,
)

# Who may read a file: certificates as the umask says, keys only their owner.
OPEN, SECRET = 0o666, 0o600


class Piece(NamedTuple):
    """A file to be written."""

    name: str
    octets: bytes
    mode: int = OPEN


# What is left of PEM, of which the first block is read.
BLOCKS = "blocks of PEM"
# What is left in a store, by the kind of its bags, and in a signed file by the attribute that it is in.
LEFT_IN_STORES = {
    der.BagKind.UNREAD: "encrypted contents",
    der.BagKind.SECRET: "secrets",
    der.BagKind.OTHER_CERTIFICATE: "certificates that aren't of X.509",
    der.BagKind.OTHER_CRL: "revocation lists that aren't of X.509",
    der.BagKind.OTHER: "bags of an unknown type",
}
LEFT_IN_SIGNED = {
    **dict.fromkeys(TIME_STAMPS, "time stamps"),
    NESTED_SIGNATURE: "nested signatures",
    COUNTER_SIGNATURE: "counter signatures",
}


class Extracted(NamedTuple):
    """The names of the files that were written, and what was left, each with how many there are."""

    paths: List[str]
    left: List[str]


class Nothing(ValueError):
    """A file that nothing can be taken out of, and why."""


def _numbered(word: str, those: Iterable[bytes], mode: int = OPEN) -> Iterator[Piece]:
    """Pieces of one word, with numbers from 1 on."""
    for number, octets in enumerate(those, 1):
        yield Piece(f"{word}-{number}.der", octets, mode)


def pieces(said: Union[Accepted, NoKind]) -> List[Piece]:
    """What is in a container. Raises Nothing."""
    data = said.given.octets
    if isinstance(said, NoKind):
        token = time_stamp_token(data)
        if token is None:
            raise Nothing(said.line)
        return pieces(judge(token, None, True))
    if said.kind in ("pfx", "rawpfx"):
        return _store_pieces(data, said.kind)
    if said.kind not in SIGNED_KINDS or not is_signed(data):
        raise Nothing(f"{said.kind}: nothing is taken out of it")
    return _signed_pieces(data)


def _store_pieces(data: bytes, kind: str) -> List[Piece]:
    """What is in a store. Raises Nothing."""
    refused = bags_refused(data, kind)
    if refused is not None:
        raise Nothing(f"{kind}, whose bags are {refused}")
    keys, encrypted = ([it.encoding for it in bag_values(data, which)] for which in (KEY_BAG, SHROUDED_KEY_BAG))
    return [
        *_numbered("certificate", x509_values(data, CERT_BAG, X509_CERTIFICATE)),
        *_numbered("revocation-list", x509_values(data, CRL_BAG, X509_CRL)),
        *_numbered("key", keys, SECRET),
        *_numbered("encrypted-key", encrypted, SECRET),
    ]


def _signed_pieces(data: bytes) -> List[Piece]:
    """What is in signed data. Raises Nothing."""
    try:
        it = signed(data)
    except der.Refused as refused:
        raise Nothing(refused_as_signed(data, refused)) from None
    found = [*_numbered("certificate", it.certificates), *_numbered("revocation-list", it.crls)]
    return found if it.content is None else [*found, Piece("content", it.content)]


def _write(path: str, piece: Piece) -> None:
    """Writes a file that isn't there yet. Raises FileExistsError where it is."""
    with open(os.open(path, os.O_WRONLY | os.O_CREAT | os.O_EXCL, piece.mode), "wb") as file:
        file.write(piece.octets)


def left(said: Union[Accepted, NoKind]) -> List[str]:
    """What of a container isn't written."""
    octets, counts = said.given.octets, dict.fromkeys([*LEFT_IN_STORES.values(), *LEFT_IN_SIGNED.values()], 0)
    counts[BLOCKS] = sum(int(form.rpartition(" of ")[2]) - 1 for form in said.given.forms if " of " in form)
    if isinstance(said, NoKind):
        octets = time_stamp_token(octets) or octets
    try:
        if isinstance(said, Accepted) and said.kind in ("pfx", "rawpfx"):
            for bag in library().bags(octets):
                _count(counts, LEFT_IN_STORES.get(bag.kind))
        else:
            for info in library().signed(octets).signer_infos:
                for attribute in info.unsigned_attributes:
                    _count(counts, LEFT_IN_SIGNED.get(der.attribute_oid(attribute)))
    except der.Refused:
        return []
    return [f"{words}: {count}" for words, count in counts.items() if count]


def _count(counts: Dict[str, int], words: "str | None") -> None:
    """Counts one more, if it has words."""
    if words is not None:
        counts[words] += 1


def extract(data: bytes, folder: str, strict: bool = False) -> Extracted:
    """Writes what is in a container into a folder. Raises Nothing, files.NoPem and OSError; FileExistsError before
    anything is written where a file is there that would be overwritten."""
    said = judge(data, None, strict)
    found = pieces(said)
    if not found:
        raise Nothing("nothing in it can be taken out: what it holds is encrypted or elsewhere")
    paths = [os.path.join(folder, it.name) for it in found]
    for path in paths:
        if os.path.lexists(path):
            raise FileExistsError(None, "is there already", path)
    # before anything is written, so that nothing is where this fails
    made = Extracted(paths, left(said))
    os.makedirs(folder, exist_ok=True)
    for path, piece in zip(paths, found):
        _write(path, piece)
    return made
