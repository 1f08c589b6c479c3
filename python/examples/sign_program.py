"""sign_program.py KEY CERTIFICATE PROGRAM writes an Authenticode signature of a program for Windows to standard output,
in DER, which `osslsigncode attach-signature -sigin` puts into the program. KEY has an RSA key or one of an elliptic
curve, in a form that the program openssl reads, which signs. CERTIFICATE has its certificate in DER, which is in what
is written, and whose key has to be that of KEY. The program osslsigncode makes the digest of PROGRAM, by SHA-256; the
signature covers that and the time. Exits with 0 where a signature is written, with 2 where there are other words than
these, and otherwise with 1."""
import datetime
import hashlib
import subprocess
import sys
import tempfile
from pathlib import Path

from vuyhanip import BadSigned, Refused, build, library

# The algorithm of a signature by that of the key: rsaEncryption and id-ecPublicKey.
ALGORITHMS = {"1.2.840.113549.1.1.1": (build.RSA, build.NULL), "1.2.840.10045.2.1": (build.ECDSA_WITH_SHA256, None)}
# The attribute SpcStatementType: that a person signs, and no company.
STATEMENT = bytes.fromhex("301C060A2B06010401823702010B310E300C060A2B060104018237020115")


def run(*words, octets=None):
    """What a program writes, which has to succeed."""
    ran = subprocess.run(words, input=octets, stdout=subprocess.PIPE, check=False)
    if ran.returncode:
        sys.exit(f"{words[0]} ends with {ran.returncode}")
    return ran.stdout


def digest_of(program):
    """The digest of a program, by SHA-256."""
    with tempfile.TemporaryDirectory() as room:
        unsigned = Path(room) / "unsigned"
        run("osslsigncode", "extract-data", "-h", "sha256", "-in", program, "-out", str(unsigned))
        octets = unsigned.read_bytes()
    try:
        found = library().indirect(octets)
    except Refused as refused:
        sys.exit(f"what osslsigncode writes is refused: {refused}")
    if found is None or found.image is None:
        sys.exit("the file is no program")
    return found.digest


def signature_of(program, key, certificate):
    """A signature of a program."""
    algorithm = ALGORITHMS.get(library().certificate(certificate).key_oid)
    if algorithm is None:
        sys.exit("the certificate's key is of another algorithm")
    its_key = run("openssl", "x509", "-inform", "DER", "-noout", "-pubkey", octets=certificate)
    if run("openssl", "pkey", "-in", key, "-pubout") != its_key:
        sys.exit("the key isn't that of the certificate")
    sha256 = build.algorithm(build.SHA256, build.NULL)
    content = build.program(sha256, digest_of(program))
    signer = build.Signer(
        sha256,
        build.algorithm(*algorithm),
        certificate,
        digest=hashlib.sha256(build.hashed_octets(content)).digest(),
        signing_time=datetime.datetime.now(datetime.timezone.utc),
        attributes=[STATEMENT],
    )
    made = build.signed(content, [signer], content_type=build.INDIRECT_DATA, is_element=True)
    return made.finish([run("openssl", "dgst", "-sha256", "-sign", key, octets=it) for it in made.covered])


if len(sys.argv) != 4:
    print("usage: sign_program.py KEY CERTIFICATE PROGRAM", file=sys.stderr)
    sys.exit(2)
key, file, program = sys.argv[1:]
try:
    sys.stdout.buffer.write(signature_of(program, key, Path(file).read_bytes()))
except Refused as refused:
    sys.exit(f"the certificate is refused: {refused}")
except (BadSigned, OSError) as error:
    sys.exit(str(error))
