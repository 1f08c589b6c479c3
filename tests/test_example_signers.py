"""Has openssl sign data, with signed attributes and without, by RSA and on an elliptic curve, and verify each signature
over the octets that `example_containers signers` lists. The content that it lists is what was signed, and its digest is the signed
message digest."""
import hashlib
import random
import re
import tempfile
import unittest
from pathlib import Path

from support import foreign
from support.built import program
from support.cases import Comparing
from support.tools import ended, openssl, run

MESSAGE = random.Random(4).randbytes(5000)


class ExampleSigners(Comparing):
    def setUp(self):
        super().setUp()
        folder = tempfile.TemporaryDirectory()
        self.addCleanup(folder.cleanup)
        self.room = Path(folder.name)
        foreign.keys(self.room)
        (self.room / "message").write_bytes(MESSAGE)

    def test_signatures_over_signed_attributes(self):
        for key in foreign.KEYS:
            octets, content, covered = self.signed(key)
            digest, signature = self.strings_of(octets)[-2:]
            self.same(bytes.fromhex(content), MESSAGE, key, "the content")
            self.same(hashlib.sha256(bytes.fromhex(content)).digest(), digest, key, "the message digest")
            self.same(self.verified(key, signature, bytes.fromhex(covered)), b"Verified OK\n", key)

    def test_signatures_over_the_content(self):
        for key in foreign.KEYS:
            octets, content, covered = self.signed(key, "-noattr")
            signature = self.strings_of(octets)[-1]
            self.same(bytes.fromhex(content), MESSAGE, key, "the content")
            self.same(covered, "the content", key, "what the signature is over")
            self.same(self.verified(key, signature, bytes.fromhex(content)), b"Verified OK\n", key)

    def signed(self, key, *words):
        """What openssl signs by a key; and what the program lists as the content, and as what the signature is over."""
        by = "-signer", f"{key}.pem", "-inkey", f"{key}.key", "-md", "sha256"
        words = "-binary", "-nodetach", *words, "-in", "message", *by, "-outform", "DER"
        octets = openssl("cms", "-sign", *words, cwd=self.room)
        (self.room / "signed").write_bytes(octets)
        lines = run(program("example_containers"), "signers", "signed", cwd=self.room).decode()
        listed = dict(re.findall(r"^ *(content|signature over): (.*)$", lines, re.MULTILINE))
        return octets, listed["content"], listed["signature over"]

    def strings_of(self, octets):
        """The contents of the octet strings, as openssl shows them: the last is the signature of the only signer, and
        where there are signed attributes the last but one the message digest."""
        shown = openssl("asn1parse", "-inform", "DER", text=octets).decode("latin-1")
        return [bytes.fromhex(digits) for digits in re.findall(r"OCTET STRING *\[HEX DUMP\]:(.*)", shown)]

    def verified(self, key, signature, covered):
        """What openssl says of a signature over these octets."""
        (self.room / "public").write_bytes(openssl("x509", "-in", f"{key}.pem", "-noout", "-pubkey", cwd=self.room))
        (self.room / "signature").write_bytes(signature)
        return ended("openssl", "dgst", "-sha256", "-verify", "public", "-signature", "signature", text=covered,
                     cwd=self.room).stdout


if __name__ == "__main__":
    unittest.main()
