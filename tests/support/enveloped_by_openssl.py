"""Enveloped data (RFC 5652, 6) by openssl: keys and certificates of recipients, of the keys of signing.py; what openssl
encrypts, and how it encrypts the key for a recipient; files that it makes; and what it decrypts."""
import functools
from typing import NamedTuple

from . import built, signing, tools
from .elements import contents, part, parts
from .oids import ARCS

# Recipients, by name. Those that have a key pair: their key, as signing names it, and what their certificate is for.
ENCIPHERS, AGREES = "keyUsage=critical,keyEncipherment", "keyUsage=critical,keyAgreement"
KEY_PAIRS = {"one": ("rsa", ENCIPHERS), "two": ("again", ENCIPHERS), "curve": ("p256", AGREES)}
# Those that have a key-encryption key: the octets that name it, and the key.
SECRETS = {"secret": (b"\xC0\xFF\xEE", bytes(range(16))), "long secret": (b"the longer of them", bytes(range(32)))}
# The one that has a password, and that.
BY_PASSWORD, PASSWORD = "password", "test"
# The tag of a recipient that has a key pair of RSA (RFC 5652, 6.2).
KEY_TRANSPORT = 0x30


class Cipher(NamedTuple):
    """A cipher in CBC mode: its object identifier, and how many octets a vector has."""

    arcs: str
    vector_size: int


AES_128, AES_256, TRIPLE_DES = "aes-128-cbc", "aes-256-cbc", "des-ede3-cbc"
# Ciphers as openssl names them.
CIPHERS = {
    AES_128: Cipher("2.16.840.1.101.3.4.1.2", 16),
    AES_256: Cipher(ARCS["AES-256-CBC"], 16),
    TRIPLE_DES: Cipher("1.2.840.113549.3.7", 8),
}
# How openssl encrypts a file: the command, with words of which {one}, {two} and {curve} are files of certificates, and
# {secret} and {password} the words for these recipients; and the names of the recipients.
FILES = {
    "for a certificate": ("cms -aes-256-cbc {one}", ["one"]),
    "by AES-128": ("cms -aes-128-cbc {one}", ["one"]),
    "by triple DES": ("cms -des-ede3-cbc {one}", ["one"]),
    "for a key identifier": ("cms -aes-256-cbc -keyid {one}", ["one"]),
    "for two": ("cms -aes-256-cbc {one} {two}", ["one", "two"]),
    "for two key identifiers": ("cms -aes-256-cbc -keyid {one} {two}", ["one", "two"]),
    "twice for one": ("cms -aes-256-cbc {one} {one}", ["one"]),
    "by OAEP": ("cms -aes-256-cbc -recip {one} -keyopt rsa_padding_mode:oaep", ["one"]),
    "by OAEP with SHA-256": (
        "cms -aes-256-cbc -recip {one} -keyopt rsa_padding_mode:oaep -keyopt rsa_oaep_md:sha256", ["one"]
    ),
    "for a key-encryption key": ("cms -aes-256-cbc {secret}", ["secret"]),
    "for a password": ("cms -aes-256-cbc {password}", [BY_PASSWORD]),
    "by key agreement": ("cms -aes-256-cbc {curve}", ["curve"]),
    "by key agreement with SHA-256": (
        "cms -aes-128-cbc -aes128-wrap -recip {curve} -keyopt ecdh_kdf_md:sha256", ["curve"]
    ),
    "for two and a key-encryption key": ("cms -aes-128-cbc {secret} {one} {two}", ["one", "two", "secret"]),
    "for a certificate, as PKCS #7": ("smime -aes-256-cbc {one}", ["one"]),
    "for two, as PKCS #7": ("smime -des3 {one} {two}", ["one", "two"]),
}


@functools.lru_cache(maxsize=None)
def room():
    """The folder of files beside those of the keys."""
    folder = built.room() / "enveloped_by_openssl"
    folder.mkdir()
    return folder


def put(name, octets):
    """Keeps octets in a file of the folder, and returns its path."""
    (room() / name).write_bytes(octets)
    return room() / name


# Recipients


@functools.lru_cache(maxsize=None)
def certificate(name):
    """The certificate of a recipient that has a key pair, which that signed."""
    key, usage = KEY_PAIRS[name]
    return signing.certify(f"enveloped_{name}", usage, of=key, by=None)


def files_of(name):
    """The files of the certificate and of the key of a recipient that has a key pair, in PEM."""
    certificate(name)
    return [signing.room() / f"enveloped_{name}.{suffix}" for suffix in ("pem", "key")]


def words_for(name):
    """The words by which openssl cms encrypts and decrypts for a recipient that has no key pair."""
    if name == BY_PASSWORD:
        return ["-pwri_password", PASSWORD]
    key_id, key = SECRETS[name]
    return ["-secretkey", key.hex(), "-secretkeyid", key_id.hex()]


def opening(name):
    """The words by which openssl cms decrypts for a recipient."""
    if name not in KEY_PAIRS:
        return words_for(name)
    its_certificate, its_key = files_of(name)
    return ["-recip", its_certificate, "-inkey", its_key]


# What openssl encrypts


def encrypted(cipher, key, vector, content):
    return tools.openssl("enc", f"-{cipher}", "-K", key.hex(), "-iv", vector.hex(), text=content)


def key_for(name, key, *options):
    """A key as it is encrypted for a recipient that has a key pair of RSA: by PKCS #1 v1.5, or as options say."""
    words = [word for it in options for word in ("-pkeyopt", it)]
    return tools.openssl("pkeyutl", "-encrypt", "-certin", "-inkey", files_of(name)[0], *words, text=key)


def wrapped_for(name, key):
    """A key as the key-encryption key of a recipient wraps it (RFC 3394)."""
    _, secret = SECRETS[name]
    words = f"-id-aes{8 * len(secret)}-wrap", "-K", secret.hex(), "-iv", 8 * "A6"
    return tools.openssl("enc", *words, text=key)


# Files of openssl


def recipients_of(text):
    """Each RecipientInfo of enveloped data without originatorInfo."""
    return parts(part(text, 1, 0, 1))


def encrypt(command, content):
    """What a command of openssl writes that is as FILES has them."""
    named = {name: " ".join(words_for(name)) for name in ("secret", BY_PASSWORD)}
    named |= {name: str(files_of(name)[0]) for name in KEY_PAIRS}
    tool, *words = command.format(**named).split()
    return tools.openssl(tool, "-encrypt", "-binary", "-outform", "DER", *words, text=content)


@functools.lru_cache(maxsize=None)
def for_each_kind(cipher):
    """A file for a recipient of each kind: for `one`, by key agreement, for a key-encryption key and for a password."""
    return encrypt(f"cms -{cipher} {{secret}} {{password}} {{one}} {{curve}}", b"content of openssl")


@functools.lru_cache(maxsize=None)
def content_key(cipher):
    """The key by which the content of that file is encrypted, as openssl decrypts it for `one`. What it encrypted for
    the other recipients is this key too."""
    [its] = (it for it in recipients_of(for_each_kind(cipher)) if it[0] == KEY_TRANSPORT)
    words = "-decrypt", "-inkey", files_of("one")[1]
    return tools.openssl("pkeyutl", *words, text=contents(parts(its)[-1]))


def recipient_of_openssl(cipher, tag):
    """The recipient with a tag of that file."""
    [its] = (it for it in recipients_of(for_each_kind(cipher)) if it[0] == tag)
    return its


# What openssl decrypts


def decrypted(path, name, *more, tool="cms"):
    """What openssl decrypts of a file for a recipient; None where it fails."""
    words = "-decrypt", "-binary", "-inform", "DER", "-in", path, *opening(name), *more
    ran = tools.ended("openssl", tool, *words)
    return None if ran.returncode else ran.stdout
