"""Files as they are given: names, folders, standard input, how much of them is read, PEM, BER."""
import base64
import binascii
import contextlib
import contextvars
import errno
import math
import os
import re
import sys
from typing import BinaryIO, Iterable, Iterator, List, NamedTuple, Optional, Tuple, Union

from . import der, library
from .elements import OCTET_STRING, SEQUENCE, Element, elements, encoded, whole
from .foreign import by_first_octets, by_label
from .values import integer, oid

# How much is read at a time of what doesn't say its length, as a pipe.
PIECE = 1 << 20
# What begins and ends the lines around a block of PEM (RFC 7468, 3), what is left out of the lines in it, and what may
# be the last octet of a line that begins it.
BEGIN, END, DASHES, BLANK = b"-----BEGIN ", b"-----END ", b"-----", b" \t\n\v\f\r"
LAST_OF_LINE = b"- \t\r"
# What may be after DER in a file that is verified.
NEWLINES = b"\n", b"\r\n"
# Why no block is read where another reader may find more of them.
HIDDEN = "PEM with BEGIN in a line that begins no block"
# A header line in it (RFC 1421, 4.6).
HEADER = re.compile(rb"^[A-Za-z0-9-]+:.*(?:\n[ \t].*)*\n?", re.M)
# A blank line, of which openssl and others take what is before it for header lines.
BLANK_LINE = re.compile(rb"\n[ \t\v\f\r]*\n")
# The content type data (RFC 5652, 4), and the algorithm whose parameters say how a MAC's key is derived (RFC 9579, 3).
DATA, PBMAC1 = "1.2.840.113549.1.7.1", "1.2.840.113549.1.5.14"
# A function that derives keys by memory too (RFC 7914).
SCRYPT = "1.3.6.1.4.1.11591.4.11"
# The greatest number of iterations that is said: a file may have one of so many digits that Python writes none.
MOST_TOLD = 1 << 64
# Names of standard input, and of others of this process's files, that another process reads as others.
STANDARD_INPUT, DESCRIPTORS = ("-", "/dev/stdin"), ("/dev/fd/", "/proc/self/fd/")


class Limits(NamedTuple):
    """What a file may cost."""

    # how many octets are read of it
    octets: int = 1 << 30
    # how often a hash is taken to derive keys, over all of the file
    iterations: int = 2_000_000


# What files may cost in this thread, or task of asyncio: the command sets it once, and in each process of -j. A new
# thread begins with the default.
LIMITS: "contextvars.ContextVar[Limits]" = contextvars.ContextVar("LIMITS", default=Limits())


class NoPem(ValueError):
    """PEM that holds no octets."""


class TooMany(ValueError):
    """More iterations than a file may ask for."""


class Block(NamedTuple):
    """A block of PEM (RFC 7468, 2): its label, and the text up to where it ends."""

    label: str
    text: bytes
    # whether a line with its label ends it
    is_ended: bool

    @property
    def octets(self) -> bytes:
        """What it holds. Raises NoPem."""
        if not self.is_ended:
            raise NoPem("PEM without its END line")
        headers = b"".join(HEADER.findall(self.text)) if b":" in self.text else b""
        if headers:
            # RFC 7468, 2 has none: openssl refuses them, and others take the letters in them for base64
            raise NoPem("PEM that is encrypted" if b"ENCRYPTED" in headers else "PEM with header lines")
        if BLANK_LINE.search(self.text.strip(BLANK)):
            raise NoPem("PEM with a blank line in it")
        try:
            return base64.b64decode(self.text.translate(None, BLANK), validate=True)
        except binascii.Error:
            raise NoPem("PEM without base64 in it") from None


class Given(NamedTuple):
    """The octets of a file, and what they were made of."""

    octets: bytes
    # "PEM" or "PEM block 1 of 2", "BER", or both; nothing where they are the file's own
    forms: Tuple[str, ...] = ()
    # of a store whose contents were converted too: its DER before that, with the octets that its MAC covers
    store: Optional[bytes] = None
    # the label of the block of PEM that they were in
    label: str = ""

    @property
    def mac(self) -> Optional[der.Mac]:
        """What a verifier of a store's MAC needs. The range is in its own DER."""
        return library().mac_ber(self.own)

    @property
    def own(self) -> bytes:
        """A store's octets as they were before its contents were converted, if they were."""
        return self.octets if self.store is None else self.store

    @property
    def said(self) -> str:
        """What they were made of, as it is put after a verdict."""
        return f" (from {' and '.join(self.forms)})" if self.forms else ""


# Reading


def read(name: str) -> bytes:
    """The octets of a file, a pipe or another, or of standard input, whose name is -. Raises OSError, also where there
    are more than the limits have it."""
    if name == "-":
        if sys.stdin is None:
            raise OSError(errno.EBADF, os.strerror(errno.EBADF), name)
        return _up_to_the_limit(name, sys.stdin.buffer, 0)
    with open(name, "rb") as file:
        return _up_to_the_limit(name, file, os.fstat(file.fileno()).st_size)


def _up_to_the_limit(name: str, file: BinaryIO, length: int) -> bytes:
    """The octets of a file that is as long as it says, or goes on. Raises OSError where there are too many."""
    pieces: List[bytes] = []
    count, most = 0, LIMITS.get().octets
    while max(count, length) <= most:
        piece = file.read(min(most + 1 - count, max(length + 1 - count, PIECE)))
        if not piece:
            return b"".join(pieces)
        pieces.append(piece)
        count += len(piece)
    raise OSError(errno.EFBIG, f"longer than the {most} octets that --most-octets allows", name)


def under(folder: str) -> Iterator[str]:
    """The regular files in a folder and in those in it, in order of names. Links to folders aren't followed. A folder
    that can't be listed is among them, and what can't be looked at, since reading it says why."""
    left = [folder]
    while left:
        name = left.pop()
        if os.path.isdir(name) and (name == folder or not os.path.islink(name)):
            try:
                left += (os.path.join(name, it) for it in sorted(os.listdir(name), reverse=True))
            except OSError:
                yield name
        elif os.path.isfile(name) or _is_kept_back(name):
            yield name


def _is_kept_back(name: str) -> bool:
    """Whether the system doesn't say what has a name, as where that is too long, or in a folder that may not be
    searched. A link that leads nowhere is no file."""
    try:
        os.stat(name)
    except OSError as fault:
        return fault.errno not in (errno.ENOENT, errno.ENOTDIR, errno.ELOOP)
    return False


def all_of(names: Iterable[str]) -> Iterator[str]:
    """The names, and for each that is a folder's those of the files under it."""
    for name in names:
        if name != "-" and os.path.isdir(name):
            yield from under(name)
        else:
            yield name


def is_stream(name: str) -> bool:
    """Whether a name has to be read in this process: standard input, or what is there to be read once, as a pipe."""
    if name in STANDARD_INPUT or name.startswith(DESCRIPTORS):
        return True
    return os.path.exists(name) and not os.path.isfile(name) and not os.path.isdir(name)


# What the check of a MAC costs


def iterations_of(store: bytes) -> int:
    """How many iterations the check of a store's MAC takes, by the DER of the store: also those of its encrypted
    contents, which openssl decrypts where the MAC is right; 0 where it has no MAC. Raises der.Refused where the octets
    are no store."""
    mac = library().mac_ber(store)
    if mac is None:
        return 0
    found = mac.iterations
    if mac.digest_algorithm == PBMAC1:
        with contextlib.suppress(ValueError, IndexError):
            # of MacData the DigestInfo, and its algorithm
            found = _derivation(whole(store).children()[2].inside().inside())
    return max(0, found) + sum(map(_of_content, _contents(store)))


def _contents(store: bytes) -> Iterator[Element]:
    """The contents in the authSafe of a store, by its DER, in which they may be BER."""
    try:
        inside = whole(library().from_ber(whole(store).first(4)[1].first(3)[1].inside().contents))
    except (ValueError, IndexError, der.Refused):
        return
    yield from elements(inside.data, inside.start, inside.end)


def _of_content(info: Element) -> int:
    """How many iterations it takes to decrypt contents: none of such as aren't encrypted (RFC 5652, 8)."""
    try:
        scheme = info.first(3)[1].inside().first(4)[1].first(4)[1]
        # of PBES2 (RFC 8018, A.4) the first parameter is the function that derives the key
        is_pbes2 = scheme.first(3)[1].inside().tag == SEQUENCE
        return max(0, _derivation(scheme) if is_pbes2 else _number(scheme.first(3)[1]))
    except (ValueError, IndexError):
        return 0


def _derivation(scheme: Element) -> int:
    """The iterations of the function that derives a key, which is the first parameter of a scheme."""
    which, parameters = scheme.first(3)[1].inside().first(3)
    return _number(parameters, 3 if oid(which) == SCRYPT else 1)


def _number(parameters: Element, count: int = 1) -> int:
    """The number after a salt; of scrypt (RFC 7914, 7.1) three, of which each makes the work longer. One past all limits
    is the next after them, since products of long numbers take minutes."""
    past = max(LIMITS.get().iterations, MOST_TOLD) + 1
    return math.prod(min(integer(it), past) for it in parameters.first(count + 1)[1:])


def iterations_in(data: bytes, strict: bool) -> int:
    """The same in sum of all that a file holds, also in PEM or BER; 0 of what is no store."""
    return sum(_iterations(it, strict) for it in held(data, strict) if isinstance(it, Given))


def _iterations(it: Given, strict: bool) -> int:
    """The same of some octets, or of those before a newline where only these are a store."""
    for end in (b"", *(() if strict else filter(it.octets.endswith, NEWLINES))):
        found = it._replace(octets=it.octets[: len(it.octets) - len(end)])
        with contextlib.suppress(der.Refused):
            return iterations_of((found if strict else converted(found) or found).octets)
    return 0


def allow(iterations: int) -> None:
    """Raises TooMany where a file asks for more iterations, in sum, than the limits have it."""
    most = LIMITS.get().iterations
    if iterations > most:
        count = str(iterations) if iterations <= MOST_TOLD else "more than 2**64"
        raise TooMany(f"{count} iterations, more than the {most} that --most-iterations allows")


# PEM


def _begin(data: bytes, at: int) -> Optional[Tuple[int, int]]:
    """Where the label of the next line that begins a block is, and where that line ends. None where there is none."""
    while (begin := data.find(BEGIN, at)) >= 0 and (line := data.find(b"\n", begin)) >= 0:
        if data[line - 1] in LAST_OF_LINE and data[begin:line].rstrip(BLANK).endswith(DASHES):
            return data.rfind(BEGIN, begin, line) + len(BEGIN), line + 1
        at = line
    return None


def _places(data: bytes) -> Iterator[Tuple[bytes, int, int]]:
    """The blocks of PEM in a text: what follows BEGIN, where the text of the block begins, and where it ends, or -1."""
    at = 0
    while (found := _begin(data, at)) is not None:
        label, start = found
        end, named = data.find(END, start), data[label:start].rstrip(BLANK)
        is_ended = data.startswith(named, end + len(END)) and data.find(BEGIN, start, end) < 0 <= end
        yield named, start, end if is_ended else -1
        if end < 0:
            return
        at = end + len(END)


def blocks(data: bytes) -> Iterator[Block]:
    """The blocks of PEM in a text, in order, also one that no line ends before the next one begins, or one of another
    label. The time grows as the text does, whatever is in it."""
    for named, start, end in _places(data):
        label = named[: -len(DASHES)].decode("ascii", "backslashreplace")
        yield Block(label, data[start : max(start, end)], end >= 0)


def _hides_a_block(data: bytes, are_ended: List[bool]) -> bool:
    """Whether a BEGIN is in a line that begins no block here, where all blocks have an end: to other readers it may
    begin one. At the end of a line openssl leaves out what isn't printed or isn't ASCII, all after a zero, and all of a
    long one."""
    return all(are_ended) and data.count(BEGIN) > len(are_ended)


def is_der(data: bytes) -> bool:
    """Whether octets begin as a SEQUENCE whose length isn't in one octet, or are one from the first octet to the last, so
    that no text is before a block of PEM in them."""
    if len(data) < 2 or data[0] != SEQUENCE:
        return False
    return 0x80 <= data[1] <= 0x88 or len(data) == 2 + data[1]


def given(data: bytes, strict: bool) -> Given:
    """What a file holds, out of the first block of PEM unless it is taken strictly. Raises NoPem where that has no
    octets, unless something else is known of the file."""
    if strict or is_der(data):
        return Given(data)
    first = next(blocks(data), None)
    if first is None:
        return Given(data)
    try:
        octets = first.octets
    except NoPem:
        if by_first_octets(data) is None and not (first.is_ended and by_label(first.label)):
            raise
        return Given(data, label=first.label)
    are_ended = [end >= 0 for _, _, end in _places(data)]
    if _hides_a_block(data, are_ended):
        raise NoPem(HIDDEN)
    count = len(are_ended)
    return Given(octets, ("PEM" if count == 1 else f"PEM block 1 of {count}",), label=first.label)


def held(data: bytes, strict: bool) -> Iterator[Union[Given, NoPem]]:
    """What a file holds: its octets, or those of each block of PEM, or why a block has none, or all of them."""
    found = [] if strict or is_der(data) else list(blocks(data))
    if found and _hides_a_block(data, [it.is_ended for it in found]):
        yield NoPem(HIDDEN)
        return
    for number, it in enumerate(found, 1):
        try:
            form = "PEM" if len(found) == 1 else f"PEM block {number} of {len(found)}"
            yield Given(it.octets, (form,), label=it.label)
        except NoPem as fault:
            yield fault
    if not found:
        yield Given(data)


def converted(it: Given) -> Optional[Given]:
    """The DER of what is BER. None where it is DER already, or has none."""
    try:
        octets = library().from_ber(it.octets)
    except der.Refused:
        return None
    return None if octets == it.octets else it._replace(octets=octets, forms=(*it.forms, "BER"))


def converted_store(it: Given) -> Optional[Given]:
    """The DER of a PKCS #12 file whose authSafe holds BER, of which that is converted too.

    None where it is no such file.
    """
    try:
        version, safe, *mac = whole(it.octets).first(4)
        kind, content = safe.first(3)
        string = content.inside()
        if oid(kind) != DATA or string.tag != OCTET_STRING:
            return None
        bags = encoded(SEQUENCE, b"".join(map(_content, whole(library().from_ber(string.contents)).children())))
    except (ValueError, der.Refused):
        return None
    if bags == string.contents:
        return None
    new = encoded(SEQUENCE, kind.encoding + encoded(content.tag, encoded(OCTET_STRING, bags)))
    octets = encoded(SEQUENCE, b"".join([version.encoding, new, *(part.encoding for part in mac)]))
    return Given(octets, it.forms if "BER" in it.forms else (*it.forms, "BER"), it.octets, it.label)


def _content(info: Element) -> bytes:
    """One of the contents in authSafe, of which data are converted once more."""
    parts = info.children()
    if len(parts) != 2 or oid(parts[0]) != DATA or parts[1].inside().tag != OCTET_STRING:
        return info.encoding
    octets = encoded(OCTET_STRING, library().from_ber(parts[1].inside().contents))
    return encoded(SEQUENCE, parts[0].encoding + encoded(parts[1].tag, octets))
