"""build_store.py NAME KEY CERTIFICATE writes a PKCS #12 store to standard output, which a password opens: the first
line of standard input, in UTF-8. KEY has a key as PKCS #8 in DER, and CERTIFICATE its certificate in DER; both get the
name. They are encrypted by PBES2 (RFC 8018) with PBKDF2, HMAC with SHA-256 and AES-256 in CBC mode, and the MAC is by
SHA-256 (RFC 7292, B). The program openssl encrypts: while it runs, the key that it encrypts by is among its
arguments, which others on the machine may see. Exits with 0 where the store is written, and with 2 where there aren't
three words."""
import hashlib
import hmac
import os
import subprocess
import sys
from pathlib import Path

from vuyhanip import BadBag, BagKind, build

ITERATIONS = 600_000


def encrypted(octets, password):
    """How octets are encrypted with a password, and what they then are."""
    salt, vector = os.urandom(16), os.urandom(16)
    key = hashlib.pbkdf2_hmac("sha256", password.encode(), salt, ITERATIONS, 32)
    words = "openssl", "enc", "-aes-256-cbc", "-K", key.hex(), "-iv", vector.hex()
    ran = subprocess.run(words, input=octets, stdout=subprocess.PIPE, check=False)
    if ran.returncode:
        sys.exit("openssl doesn't encrypt")
    return build.pbes2(
        build.AES_256_CBC, initialization_vector=vector, salt=salt, iterations=ITERATIONS, prf=build.HMAC_WITH_SHA256,
        encrypted=ran.stdout,
    )


def mac(octets, password):
    """The MAC of octets: its key is derived of blocks of 64 octets, of a purpose, the salt and the password."""
    salt, secret = os.urandom(16), build.utf16(password) + b"\0\0"
    key = 64 * b"\3" + 4 * salt + (64 * secret)[: (len(secret) + 63) // 64 * 64]
    for _ in range(ITERATIONS):
        key = hashlib.sha256(key).digest()
    return build.Mac(build.SHA256, hmac.digest(key, octets, "sha256"), salt, ITERATIONS)


def store(name, key, certificate, password):
    """The store: encrypted contents with the certificate, and an encrypted key, which have an identifier in common."""
    key_id = hashlib.sha1(certificate).digest()
    bags = build.bags([build.Bag(BagKind.CERTIFICATE, certificate, name, key_id)])
    contents = build.encrypted_contents(encrypted(bags, password))
    shrouded = build.encrypted_key(encrypted(key, password))
    made = build.store([contents, [build.Bag(BagKind.SHROUDED_KEY, shrouded, name, key_id)]])
    return made.finish(mac(made.covered, password))


if len(sys.argv) != 4:
    print("usage: build_store.py NAME KEY CERTIFICATE < PASSWORD", file=sys.stderr)
    sys.exit(2)
line, end, _ = sys.stdin.buffer.readline().partition(b"\n")
if not line or not end:
    sys.exit("no line with a password")
try:
    files = (Path(path).read_bytes() for path in sys.argv[2:])
    sys.stdout.buffer.write(store(sys.argv[1], *files, line.decode()))
except (BadBag, OSError, UnicodeDecodeError) as error:
    sys.exit(str(error))
