"""Keys, stores and contents that openssl and keytool encrypt, made once, with what the tools were asked for."""
import functools
from pathlib import Path
from typing import NamedTuple

from . import built, making
from .elements import part
from vuyhanip.der import BagKind, EnvelopePart, PasswordHolder

ALGORITHM, KEY, CONTENTS = PasswordHolder
SECRET = "test"
# Algorithms that openssl has in a module of its own.
OLD = "-provider legacy -provider default"
SHA256, AES_128, AES_256, TRIPLE_DES = "hmacWithSHA256", "aes-128-cbc", "aes-256-cbc", "des-ede3-cbc"
# What openssl pkcs8 is asked for: options, and what it then has by PBKDF2: the encryption scheme, the pseudorandom
# function, None where it names none, and the iterations.
BY_PBKDF2 = {
    "-v2 aes-128-cbc": (AES_128, SHA256, 2048),
    "-v2 aes-192-cbc": ("aes-192-cbc", SHA256, 2048),
    "-v2 aes-256-cbc": (AES_256, SHA256, 2048),
    "-v2 des3": (TRIPLE_DES, SHA256, 2048),
    "-v2 camellia-256-cbc": ("camellia-256-cbc", SHA256, 2048),
    "-v2 aes-256-cbc -v2prf hmacWithSHA1": (AES_256, None, 2048),
    "-v2 aes-128-cbc -v2prf hmacWithSHA224": (AES_128, "hmacWithSHA224", 2048),
    "-v2 aes-256-cbc -v2prf hmacWithSHA256": (AES_256, SHA256, 2048),
    "-v2 aes-256-cbc -v2prf hmacWithSHA384": (AES_256, "hmacWithSHA384", 2048),
    "-v2 aes-128-cbc -v2prf hmacWithSHA512": (AES_128, "hmacWithSHA512", 2048),
    **{f"-v2 aes-256-cbc -iter {count}": (AES_256, SHA256, count) for count in (1, 127, 128, 70000)},
    f"-v2 rc2 {OLD}": ("rc2-cbc", SHA256, 2048),
}
# The same of PBES1 (RFC 8018, A.3) and of PKCS #12 (RFC 7292, C): the name of each algorithm, and the iterations.
BY_PBES1 = {
    f"-v1 PBE-MD5-DES {OLD}": ("pbeWithMD5AndDES-CBC", 2048),
    f"-v1 PBE-MD5-RC2-64 {OLD}": ("pbeWithMD5AndRC2-CBC", 2048),
    f"-v1 PBE-SHA1-DES {OLD} -iter 1": ("pbeWithSHA1AndDES-CBC", 1),
    f"-v1 PBE-SHA1-RC2-64 {OLD}": ("pbeWithSHA1AndRC2-CBC", 2048),
}
BY_PKCS12 = {
    f"-v1 PBE-SHA1-RC4-128 {OLD}": ("pbeWithSHA1And128BitRC4", 2048),
    f"-v1 PBE-SHA1-RC4-40 {OLD}": ("pbeWithSHA1And40BitRC4", 2048),
    "-v1 PBE-SHA1-3DES": ("pbeWithSHA1And3-KeyTripleDES-CBC", 2048),
    "-v1 PBE-SHA1-2DES -iter 7": ("pbeWithSHA1And2-KeyTripleDES-CBC", 7),
    f"-v1 PBE-SHA1-RC2-128 {OLD}": ("pbeWithSHA1And128BitRC2-CBC", 2048),
    f"-v1 PBE-SHA1-RC2-40 {OLD}": ("pbeWithSHA1And40BitRC2-CBC", 2048),
}
BY_SCRYPT = "-scrypt", "-v2 aes-128-cbc -scrypt -scrypt_N 1024 -scrypt_r 4 -scrypt_p 2"
# What openssl pkcs12 is asked for: PBES2, PBES1, algorithms of RFC 7292, C, or none. The last has contents by RC2 with
# a key of 40 bits.
STORES = (
    "",
    "-keypbe AES-128-CBC -certpbe AES-192-CBC -iter 1000",
    "-keypbe DES-EDE3-CBC -certpbe DES-EDE3-CBC -iter 3",
    "-keypbe AES-256-CBC -certpbe NONE -nomac",
    "-keypbe NONE -certpbe AES-256-CBC -macalg sha1",
    "-keypbe PBE-SHA1-3DES -certpbe PBE-SHA1-3DES",
    "-keypbe PBE-SHA1-2DES -certpbe AES-256-CBC",
    "-keypbe PBE-SHA1-DES -certpbe PBE-MD5-DES -legacy",
    "-keypbe PBE-SHA1-RC4-128 -certpbe PBE-SHA1-RC2-64 -legacy",
    "-keypbe NONE -certpbe NONE -nomac",
    "-legacy",
)


class Encrypted(NamedTuple):
    """What is encrypted, and what it is."""

    holder: PasswordHolder
    octets: bytes


@functools.lru_cache(maxsize=None)
def folder():
    """A folder with a key and its certificate."""
    room = built.room() / "encrypting"
    room.mkdir()
    with making.inside(room):
        making.certificate("one")
    return room


@functools.lru_cache(maxsize=None)
def key_of(options):
    """The key as openssl encrypts it."""
    words = f"openssl pkcs8 -topk8 -in one.key -passout pass:{SECRET} -outform DER"
    with making.inside(folder()):
        return making.run(f"{words} {options}")


@functools.lru_cache(maxsize=None)
def store_of(options):
    """The key and its certificate in a store of openssl."""
    with making.inside(folder()):
        making.store("made.p12", options, password=SECRET)
        return Path("made.p12").read_bytes()


@functools.lru_cache(maxsize=None)
def store_of_keytool():
    """A store of a key and its certificate by keytool, whose password is twice that of the others: it takes no shorter
    one."""
    words = "-alias one -keyalg EC -groupname secp256r1 -dname CN=one -storetype PKCS12 -keystore keytool.p12"
    with making.inside(folder()):
        making.run(f"keytool -genkeypair {words} -storepass {2 * SECRET}")
        return Path("keytool.p12").read_bytes()


@functools.lru_cache(maxsize=None)
def without_a_password():
    """Contents that openssl encrypts by a key, and the algorithm that the content of enveloped data has."""
    words = "openssl cms -binary -outform DER -aes-128-cbc"
    whole = making.run(f"{words} -EncryptedData_encrypt -secretkey {making.KEY}", b"text")
    sealed = making.run(f"{words} -encrypt -pwri_password {SECRET}", b"text")
    [place] = built.library().ranges(EnvelopePart.ENCRYPTION_ALGORITHM, sealed)
    return Encrypted(CONTENTS, whole), Encrypted(ALGORITHM, sealed[place.start : place.stop])


def held_in(text):
    """The contents and the keys that are encrypted in a store, as der_bag_rows finds them."""
    for bag in built.library().bags(text):
        if bag.kind is BagKind.UNREAD:
            yield Encrypted(CONTENTS, bytes(bag.element))
        elif bag.kind is BagKind.SHROUDED_KEY:
            yield Encrypted(KEY, bytes(bag.value))


@functools.lru_cache(maxsize=None)
def all_encrypted():
    """All that openssl encrypts, and the algorithms of its keys by themselves."""
    keys = [key_of(options) for options in (*BY_PBKDF2, *BY_PBES1, *BY_PKCS12, *BY_SCRYPT)]
    found = [Encrypted(KEY, text) for text in keys] + [Encrypted(ALGORITHM, part(text, 0)) for text in keys]
    found += [it for options in STORES for it in held_in(store_of(options))]
    return [*found, *without_a_password()]
