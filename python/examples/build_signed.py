"""build_signed.py [--detached] KEY CERTIFICATE FILE writes signed data in DER (CMS, RFC 5652) to standard output: the
octets of FILE with a signature, or with --detached the signature without them. KEY has an RSA key or one of an elliptic
curve, in a form that the program openssl reads, which signs. CERTIFICATE has its certificate in DER, which is in what
is written, and whose key has to be that of KEY. The signature covers the type of the content, its digest by SHA-256
and the time. Exits with 0 where signed data are written, with 2 where there are other words than these, and otherwise
with 1."""
import datetime
import hashlib
import subprocess
import sys
from pathlib import Path

from vuyhanip import BadSigned, Refused, build, library

# The algorithm of a signature by that of the key: rsaEncryption and id-ecPublicKey.
ALGORITHMS = {"1.2.840.113549.1.1.1": (build.RSA, build.NULL), "1.2.840.10045.2.1": (build.ECDSA_WITH_SHA256, None)}


def openssl(*words, octets=b""):
    """What openssl writes, which has to succeed."""
    ran = subprocess.run(("openssl", *words), input=octets, stdout=subprocess.PIPE, check=False)
    if ran.returncode:
        sys.exit(f"openssl {words[0]} ends with {ran.returncode}")
    return ran.stdout


def signed(content, key, certificate, detached):
    """Signed data with one signer."""
    algorithm = ALGORITHMS.get(library().certificate(certificate).key_oid)
    if algorithm is None:
        sys.exit("the certificate's key is of another algorithm")
    its_key = openssl("x509", "-inform", "DER", "-noout", "-pubkey", octets=certificate)
    if openssl("pkey", "-in", key, "-pubout") != its_key:
        sys.exit("the key isn't that of the certificate")
    signer = build.Signer(
        build.algorithm(build.SHA256),
        build.algorithm(*algorithm),
        certificate,
        digest=hashlib.sha256(content).digest(),
        signing_time=datetime.datetime.now(datetime.timezone.utc),
    )
    made = build.signed(content, [signer], detached=detached)
    return made.finish([openssl("dgst", "-sha256", "-sign", key, octets=it) for it in made.covered])


words = sys.argv[1:]
is_detached = words[:1] == ["--detached"]
if len(words) != 3 + is_detached:
    print("usage: build_signed.py [--detached] KEY CERTIFICATE FILE", file=sys.stderr)
    sys.exit(2)
key, *files = words[is_detached:]
try:
    certificate, content = (Path(path).read_bytes() for path in files)
    sys.stdout.buffer.write(signed(content, key, certificate, is_detached))
except Refused as refused:
    sys.exit(f"the certificate is refused: {refused}")
except (BadSigned, OSError) as error:
    sys.exit(str(error))
