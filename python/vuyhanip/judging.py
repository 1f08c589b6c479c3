"""What is asked of openssl: whether signatures, time stamps and MACs are right, and what certificates hold."""
import base64
import functools
import os
import re
from typing import List, NamedTuple, Optional, Sequence, Tuple

from . import tool

# The lines of openssl x509 that say what a certificate holds: no name is among those of -text, and in the subject's a
# newline is escaped.
LEFT_OUT = ("header", "version", "serial", "issuer", "validity", "subject", "extensions", "sigdump", "aux")
FACTS = "-noout -serial -issuer_hash -subject -nameopt RFC2253,-esc_msb -text -certopt".split()
FACTS.append(",".join(f"no_{it}" for it in LEFT_OUT))
KEY = "\n        Subject Public Key Info:\n            Public Key Algorithm: "
BITS = re.compile(r"^ {16}(?:[\w-]+ )?Public-Key: \((\d+) bit", re.M)
EXPONENT = re.compile(r"^ {16}Exponent: (\d+) \(0x[0-9a-f]+\)$|^ {16}Exponent:\n((?: {20}[0-9a-f:]+\n?)+)", re.M)
NAMED = "\n                ASN1 OID: "
STAMP_DIGEST, STAMP_TIME = (re.compile(rf"^{it}: (.*)$", re.M) for it in ("Hash Algorithm", "Time stamp"))
CERTIFICATE = re.compile(rb"-----BEGIN CERTIFICATE-----([A-Za-z0-9+/=\s]*)-----END CERTIFICATE-----")
SERIAL = re.compile("-?[0-9A-F]+")
MAC_WRONG = "Mac verify error"


class Terms(NamedTuple):
    """What the words of the command ask for."""

    # the octets that a detached signature or a time stamp is over
    content: Optional[bytes] = None
    # certificates beside those of a file, in DER, and what --ca has, which is trusted
    certificates: Tuple[bytes, ...] = ()
    anchors: Optional[bytes] = None
    purpose: Optional[str] = None
    # seconds since 1970
    at: Optional[int] = None
    allows_weak: bool = False
    password: Optional[str] = None
    strict: bool = False


class Answer(NamedTuple):
    """What openssl says."""

    # its yes to all that was asked, and to the signatures alone, no certificate being judged
    is_yes: bool
    is_right: bool
    words: str
    # the certificates of the signers in their order, in DER, where it writes them
    signers: Tuple[bytes, ...] = ()


class Facts(NamedTuple):
    """What a certificate holds, as openssl says it."""

    serial: str
    # a hash that two issuers have in common where openssl takes them for the same name
    issuer: str
    subject: str
    key: str
    bits: Optional[int]
    exponent: Optional[int]
    # whether its curve, if it is on one, has a name, and isn't written out in numbers of its own
    is_named: bool

    @property
    def number(self) -> Optional[int]:
        """The serial number. None where openssl writes none."""
        return int(self.serial, 16) if SERIAL.fullmatch(self.serial) else None


class StampFacts(NamedTuple):
    """What a time stamp holds: the digest of what it stamps, and when."""

    digest: str
    time: str


@functools.lru_cache(maxsize=512)
def facts(certificate: bytes) -> Optional[Facts]:
    """What a certificate holds. None where openssl doesn't read it."""
    with tool.room() as room:
        ran = room.run(["x509", "-inform", "DER", "-in", room.put("certificate", certificate), *FACTS])
    text = ran.output.decode("utf-8", "backslashreplace")
    head, _, key = text.partition(KEY)
    said = re.match(r"serial=(.*)\n([0-9a-f]+)\nsubject=(.*)\n", head)
    if not ran.is_yes or said is None or not key:
        return None
    bits, exponent = BITS.search(key), EXPONENT.search(key)
    number = int(exponent[1] or re.sub(r"[\s:]", "", exponent[2]), 10 if exponent[1] else 16) if exponent else None
    is_named = NAMED in key
    name = key.split("\n", 1)[0].strip()
    return Facts(said[1], said[2], said[3], name, int(bits[1]) if bits else None, number, is_named)


@functools.lru_cache(maxsize=512)
def has_right_key(certificate: bytes) -> bool:
    """Whether openssl finds the public key of a certificate right, which no verification asks."""
    with tool.room() as room:
        made = room.run(["x509", "-inform", "DER", "-in", room.put("certificate", certificate), "-noout", "-pubkey"])
        asked = ["pkey", "-pubin", "-in", room.put("key", made.output), "-pubcheck", "-noout"]
        return made.is_yes and room.run(asked).is_yes


def stamp_facts(token: bytes) -> Optional[StampFacts]:
    """What a time stamp holds. None where openssl doesn't read it."""
    with tool.room() as room:
        ran = room.run(["ts", "-reply", "-token_in", "-in", room.put("token", token), "-text"])
    text = ran.output.decode("utf-8", "backslashreplace")
    digest, time = STAMP_DIGEST.search(text), STAMP_TIME.search(text)
    return StampFacts(digest[1].strip(), time[1].strip()) if ran.is_yes and digest and time else None


def token_of(response: bytes) -> Optional[bytes]:
    """The time stamp in a response (RFC 3161, 2.4.2). None where openssl finds none."""
    with tool.room() as room:
        ran = room.run(["ts", "-reply", "-in", room.put("response", response), "-token_out", "-out", "token"])
        return room.get("token") if ran.is_yes else None


def pem(certificates: Sequence[bytes]) -> bytes:
    """Certificates in PEM."""
    begin, end = b"-----BEGIN CERTIFICATE-----\n", b"-----END CERTIFICATE-----\n"
    return b"".join(begin + base64.encodebytes(it) + end for it in certificates)


def certificates_in(text: bytes) -> Tuple[bytes, ...]:
    """The certificates in PEM."""
    return tuple(base64.b64decode(it) for it in CERTIFICATE.findall(text))


def _level(terms: Terms) -> List[str]:
    """How strong keys and signatures in a chain have to be, and at which time."""
    level = ["-auth_level", "0" if terms.allows_weak else "2"]
    return level if terms.at is None else [*level, "-attime", str(terms.at)]


def of_signatures(by: str, octets: bytes, content: Optional[bytes], terms: Terms) -> Answer:
    """What is said of the signatures of signed data, by cms or by smime, over content of their own or over another."""
    with tool.room() as room:
        words = [by, "-verify", "-binary", "-inform", "DER", "-in", room.put("file", octets), "-out", os.devnull]
        words += ["-signer", "signers"]
        if content is not None:
            words += ["-content", room.put("content", content)]
        if terms.certificates:
            words += ["-certfile", room.put("certificates", pem(terms.certificates))]
        judges = None
        if terms.anchors is not None:
            judges = ["-CAfile", room.put("ca", terms.anchors), "-no-CApath", "-no-CAstore"]
            judges += ["-purpose", terms.purpose or "smimesign", *_level(terms)]
        return _asked(room, words, judges, ["-noverify"])._replace(signers=certificates_in(room.get("signers")))


def of_stamp(
    octets: bytes, is_token: bool, stamped: bytes, signers: Sequence[bytes], others: Sequence[bytes], terms: Terms
) -> Answer:
    """What is said of a time stamp, or of the response in which it is."""
    with tool.room() as room:
        words = ["ts", "-verify", "-data", room.put("data", stamped), "-in", room.put("file", octets)]
        words += ["-purpose", "timestampsign"]
        words += ["-token_in"] if is_token else []
        words += ["-untrusted", room.put("certificates", pem(others))] if others else []
        judges = None
        if terms.anchors is not None:
            judges = ["-CAfile", room.put("ca", terms.anchors), *_level(terms)]
        own = ["-CAfile", room.put("signers", pem(signers or others)), "-partial_chain", "-no_check_time"]
        return _asked(room, words, judges, [*own, "-auth_level", "0"])


def _asked(room: tool.Room, words: List[str], judges: Optional[List[str]], leaves: List[str]) -> Answer:
    """What is said with the words that have certificates judged, if there are some; else with those that don't."""
    if judges is not None:
        ran = room.run([*words, *judges])
        if ran.is_yes:
            return Answer(True, True, ran.words)
        return Answer(False, room.run([*words, *leaves]).is_yes, ran.words)
    ran = room.run([*words, *leaves])
    return Answer(ran.is_yes, ran.is_yes, ran.words)


class MacAnswer(NamedTuple):
    """What openssl says of a store under a password: whether its MAC is right, none where it doesn't say."""

    is_right: Optional[bool]
    words: str


def of_mac(store: bytes, password: bytes) -> MacAnswer:
    """What is said of a store that has a MAC under a password, which has no newline and no zero in it."""
    with tool.room() as room:
        ran = room.run(["pkcs12", "-in", room.put("file", store), "-noout", "-legacy"], password)
    if ran.is_yes:
        return MacAnswer(True, ran.words)
    return MacAnswer(False if ran.words.startswith(MAC_WRONG) else None, ran.words)
