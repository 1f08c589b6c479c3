"""What a file is that is no container: by the label of its PEM, its first octets, or the tags of its first elements."""
import re
from typing import List, Optional

from .elements import Element, NotThere, whole

CERTIFICATE, REQUEST = "an X.509 certificate", "a certificate request (PKCS #10)"
KEY, ENCRYPTED_KEY = "a private key (PKCS #8)", "an encrypted private key (PKCS #8)"
PUBLIC_KEY, PARAMETERS = "a public key", "parameters of keys"
LABELS = {
    "CERTIFICATE": CERTIFICATE,
    "X509 CERTIFICATE": CERTIFICATE,
    "TRUSTED CERTIFICATE": CERTIFICATE,
    "ATTRIBUTE CERTIFICATE": "an attribute certificate",
    "CERTIFICATE REQUEST": REQUEST,
    "NEW CERTIFICATE REQUEST": REQUEST,
    "PRIVATE KEY": KEY,
    "ENCRYPTED PRIVATE KEY": ENCRYPTED_KEY,
    "RSA PRIVATE KEY": "a private key of RSA",
    "EC PRIVATE KEY": "a private key of an elliptic curve",
    "DSA PRIVATE KEY": "a private key of DSA",
    "OPENSSH PRIVATE KEY": "a private key of OpenSSH",
    "PUBLIC KEY": PUBLIC_KEY,
    "RSA PUBLIC KEY": PUBLIC_KEY,
    "DH PARAMETERS": PARAMETERS,
    "X9.42 DH PARAMETERS": PARAMETERS,
    "DSA PARAMETERS": PARAMETERS,
    "EC PARAMETERS": PARAMETERS,
    "SSH2 PUBLIC KEY": PUBLIC_KEY,
}
FIRST_OCTETS = (
    (0, bytes.fromhex("FEEDFEED"), "a key store of Java (JKS)"),
    (0, bytes.fromhex("CECECECE"), "a key store of Java (JCEKS)"),
    (0, b"MZ", "a program for Windows"),
    (0, b"\x7fELF", "a program"),
    (0, b"PK\3\4", "an archive (ZIP, as .jar and .docx are)"),
    (0, b"PK\5\6", "an archive (ZIP, as .jar and .docx are)"),
    (0, b"MSCF", "a cabinet"),
    (0, bytes.fromhex("D0CF11E0A1B11AE1"), "a compound file (as .msi and .doc are)"),
    (0, bytes.fromhex("1F8B"), "an archive (gzip)"),
    (0, b"BZh", "an archive (bzip2)"),
    (0, b"\xfd7zXZ\0", "an archive (xz)"),
    (0, b"7z\xbc\xaf\x27\x1c", "an archive (7z)"),
    (0, b"Rar!", "an archive (RAR)"),
    (257, b"ustar", "an archive (tar)"),
    (0, b"%PDF-", "a document (PDF)"),
    (0, b"SQLite format 3\0", "a data base (SQLite)"),
    (0, b"ssh-", PUBLIC_KEY),
)
# The first line of a mail (RFC 5322, 3.6), and base64 of what may be DER.
MAIL = re.compile(rb"(MIME-Version|Content-[A-Za-z-]+|Received|Return-Path|From|To|Date|Subject|Message-ID):", re.I)
BASE64 = re.compile(rb"MI[A-Za-z0-9+/\r\n]{60}")
# How many elements are looked at of each: one more than any that is known has.
MOST = 10
# The tags of the elements in private keys of RSA and DSA (RFC 8017, A.1.2), and of what an OCSP request asks of.
OF_RSA, OF_DSA, OF_CERTIFICATE = "02" * 9, "02" * 6, "30040402"


def by_label(label: str) -> Optional[str]:
    """What a block of PEM has, by its label."""
    return "OpenPGP" if label.startswith("PGP ") else LABELS.get(label)


def by_first_octets(data: bytes) -> Optional[str]:
    """What a file is by its first octets, where they tell."""
    if not data:
        return "an empty file"
    for at, octets, words in FIRST_OCTETS:
        if data.startswith(octets, at):
            return words
    if MAIL.match(data):
        return "a mail"
    return "base64 without the lines of PEM" if BASE64.match(data) else None


def by_tags(octets: bytes) -> Optional[str]:
    """What DER is by the tags of its first elements, where they tell."""
    try:
        top = whole(octets).first(MOST)
    except NotThere:
        return None
    tags = _tags(top)
    first = top[0].first(MOST) if top and top[0].is_constructed else []
    if tags == "303003":
        return _signed(_tags(first))
    second = _tags(top[1].first(MOST)) if len(top) > 1 and top[1].is_constructed else ""
    for is_so, words in (
        (tags.startswith("023004"), KEY),
        (tags == "3004", ENCRYPTED_KEY),
        (tags == "3003", PUBLIC_KEY),
        (tags == OF_RSA, LABELS["RSA PRIVATE KEY"]),
        (tags == OF_DSA, LABELS["DSA PRIVATE KEY"]),
        (tags in ("0204", "0204A0", "0204A1", "0204A0A1"), LABELS["EC PRIVATE KEY"]),
        (tags in ("0A", "0AA0"), "a response of OCSP"),
        (tags.startswith("0230") and second == "3004", "a request for a time stamp"),
        (tags == "30" and _tags(first) in ("02", "0230", "023003", "0203"), "a time stamp response without a token"),
        (tags in ("30", "30A0") and _asks_for_certificates(first), "a request of OCSP"),
    ):
        if is_so:
            return words
    return None


def _tags(those: List[Element]) -> str:
    """The tags of elements, in hexadecimal."""
    return "".join(f"{it.tag:02X}" for it in those)


def _signed(tags: str) -> Optional[str]:
    """What is signed by itself, by the tags of the elements that are (RFC 5280, 4.1; RFC 2986, 4.1)."""
    if tags.startswith(("A0023030303030", "023030303030")):
        return CERTIFICATE
    return REQUEST if tags in ("023030", "023030A0") else None


def _asks_for_certificates(those: List[Element]) -> bool:
    """Whether the first list in some elements begins with a CertID (RFC 6960, 4.1.1)."""
    for part in those:
        if part.tag == 0x30:
            inner = part.first(1)
            asked = inner[0].first(1) if inner else []
            return bool(asked) and _tags(asked[0].first(MOST)) == OF_CERTIFICATE
    return False
