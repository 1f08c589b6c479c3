"""build_enveloped.py [--oaep] CERTIFICATE [FILE] writes enveloped data in DER (CMS, RFC 5652) to standard output: the
octets of FILE, or without it those of standard input, encrypted for the recipient of CERTIFICATE, who opens them with
`openssl cms -decrypt -binary -inform DER -inkey KEY`. CERTIFICATE has a certificate in DER, whose key has to be one of
RSA. The package cryptography encrypts: the content by AES-256 in CBC mode, with a new key and a new vector, and that
key by RSA with the padding of PKCS #1 v1.5, or with --oaep with OAEP by SHA-256. Whether the certificate is valid, and
belongs to whom the content is for, isn't looked at. Exits with 0 where enveloped data are written, with 2 where there
are other words than these, and otherwise with 1."""
import os
import sys
from pathlib import Path

from cryptography.hazmat.primitives import hashes, padding, serialization
from cryptography.hazmat.primitives.asymmetric.padding import MGF1, OAEP, PKCS1v15
from cryptography.hazmat.primitives.ciphers import Cipher, algorithms, modes

from vuyhanip import Refused, build, library

# How the key is encrypted, and the algorithm that says so: its object identifier and its parameters.
BY_PKCS1 = PKCS1v15(), (build.RSA, build.NULL)
BY_OAEP = OAEP(MGF1(hashes.SHA256()), hashes.SHA256(), None), (build.RSAES_OAEP, build.OAEP_WITH_SHA256)


def enveloped(content, certificate, how, algorithm):
    """Enveloped data with one recipient."""
    its = library().certificate(certificate)
    if its.key_oid != build.RSA:
        sys.exit("the certificate has no RSA key")
    public_key = serialization.load_der_public_key(bytes(its.subject_public_key_info))
    key, vector = os.urandom(32), os.urandom(16)
    padder, encryptor = padding.PKCS7(128).padder(), Cipher(algorithms.AES(key), modes.CBC(vector)).encryptor()
    padded = padder.update(content) + padder.finalize()
    encrypted = encryptor.update(padded) + encryptor.finalize()
    recipient = build.Recipient(build.algorithm(*algorithm), public_key.encrypt(key, how), certificate)
    # the parameters of AES in CBC mode are its vector, an OCTET STRING of 16 octets
    return build.enveloped(encrypted, [recipient], build.algorithm(build.AES_256_CBC, b"\4\x10" + vector))


words = sys.argv[1:]
is_by_oaep = words[:1] == ["--oaep"]
files = words[is_by_oaep:]
if len(files) not in (1, 2):
    print("usage: build_enveloped.py [--oaep] CERTIFICATE [FILE]", file=sys.stderr)
    sys.exit(2)
try:
    certificate = Path(files[0]).read_bytes()
    content = Path(files[1]).read_bytes() if files[1:] else sys.stdin.buffer.read()
    sys.stdout.buffer.write(enveloped(content, certificate, *(BY_OAEP if is_by_oaep else BY_PKCS1)))
except Refused as refused:
    sys.exit(f"the certificate is refused: {refused}")
except (OSError, ValueError) as error:  # also a key that the package cryptography doesn't take
    sys.exit(str(error))
