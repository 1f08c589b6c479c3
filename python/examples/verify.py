"""verify.py FILE [CONTENT] says of each signer of signed data what verify.c says, by the package cryptography; "not
checked" where that doesn't read the certificate or has no verification by its key. CONTENT has the octets that are
signed where the signature is detached; a file that has content has to have the same. That a certificate is to be trusted
isn't looked at. Exits with 0 where there are signers and each is verified."""
import hashlib
import sys

import vuyhanip
from cryptography import exceptions, x509
from cryptography.hazmat.primitives import hashes
from cryptography.hazmat.primitives.asymmetric import ec, padding

# rsaEncryption and sha256WithRSAEncryption, ecdsa-with-SHA256, each over SHA-256
RSA, EC = (padding.PKCS1v15(), hashes.SHA256()), (ec.ECDSA(hashes.SHA256()),)
HOW = {"1.2.840.113549.1.1.1": RSA, "1.2.840.113549.1.1.11": RSA, "1.2.840.10045.4.3.2": EC}


def verify(signer, content):
    if isinstance(signer, vuyhanip.BadAttributes):
        return "bad attributes"
    if signer.certificate is None:
        return "no certificate"
    if content is not None and signer.content is not None and signer.content != content:
        return "another content"
    if (content := content if signer.content is None else signer.content) is None:
        return "no content"
    if signer.digest_oid != "2.16.840.1.101.3.4.2.1" or signer.signature_oid not in HOW:
        return "unknown algorithm"
    if signer.is_over_attributes and hashlib.sha256(content).digest() != signer.digest:
        return "another content"
    covered = content if signer.covered is None else signer.covered
    try:
        key = x509.load_der_x509_certificate(bytes(signer.certificate)).public_key()
        key.verify(signer.signature, covered, *HOW[signer.signature_oid])
        return "verified"
    except (exceptions.InvalidSignature, TypeError):  # or another key
        return "wrong signature"
    except (AttributeError, ValueError, x509.InvalidVersion, exceptions.UnsupportedAlgorithm):
        return "not checked"


file, content = ([open(name, "rb").read() for name in sys.argv[1:]] + [None])[:2]
said = [verify(signer, content) for signer in vuyhanip.library().signers(file)]
print(*(f"signer {number}: {words}" for number, words in enumerate(said)), sep="\n")
sys.exit(set(said) != {"verified"})
