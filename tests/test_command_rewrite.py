"""`vuyhanip rewrite`: what a MAC or a signature covers stays as it is, unless that is asked for, by what openssl says
before and after."""
import os
import re
import unittest

from support.command import SIGNERS, Command
from support.containers import NULL, SHA256, attribute
from support.elements import at, contents, element, explicit, octet_string, part, parts, sequence, within
from support.making import without_null
from support.oids import oid
from support.tools import needs, run

# The password of the stores, as an option of openssl and as the octets of RFC 7292, B.1.
PASSWORD, OCTETS = "pass:secret", "secret\0".encode("utf-16-be")
# The way to the pseudorandom function of the first contents of a store of openssl, which are encrypted by a password.
FUNCTION = [0, 1, 0xA0, 0, 0, 0, 0xA0, 0, 1, 1, 1, 0, 1, -1]
# The way to the content that a store's MAC covers.
COVERED = (1, 1, 0)
# Object identifiers of Authenticode: of what signs a program, what kind of file that is, and a time stamp.
INDIRECT, IMAGE = "1.3.6.1.4.1.311.2.1.4", "1.3.6.1.4.1.311.2.1.15"
STAMP = "1.3.6.1.4.1.311.3.3.1"


class Rewrite(Command):
    def rewritten(self, name, *words, complaints=""):
        """What is written of a file, which has to be."""
        said = self.command("rewrite", name, "-o", "made", "--overwrite", *words)
        self.assertEqual(said, (0, "", complaints))
        return self.octets("made")

    def is_refused(self, name, what, word, *words):
        """Asks that nothing is written, and by which word it would be."""
        self.put("made", b"before")
        complaint = f"{name}: not written, as it would change what is covered by {what}; {word} allows it\n"
        self.assertEqual(self.command("rewrite", name, "-o", "made", "--overwrite", *words), (1, "", complaint))
        self.assertEqual(self.octets("made"), b"before")

    def opens(self, name):
        """Whether openssl takes a store with its password."""
        return self.succeeds("pkcs12", "-in", name, "-noout", "-passin", PASSWORD)

    def store_as_of_gnutls(self):
        """A store whose pseudorandom function and MAC have algorithms without NULL, as those of GnuTLS, with the MAC
        that openssl makes of it."""
        whole = without_null(within(self.octets("store.p12"), FUNCTION, lambda it: it.replace(NULL, b"")))
        version, safe, mac = parts(whole)
        info, salt, iterations = parts(mac)
        word = ("-kdfopt", f"hexpass:{OCTETS.hex()}", "-kdfopt", f"hexsalt:{contents(salt).hex()}")
        count = int.from_bytes(contents(iterations), "big")
        how = ("-kdfopt", "digest:SHA256", "-kdfopt", "id:3", "-kdfopt", f"iter:{count}", "-keylen", "32")
        key = self.openssl("kdf", *how, *word, "PKCS12KDF").decode().strip().replace(":", "")
        covered = contents(part(whole, *COVERED))
        digest = self.openssl("dgst", "-sha256", "-mac", "HMAC", "-macopt", f"hexkey:{key}", "-binary", text=covered)
        info = sequence(parts(info)[0], octet_string(digest))
        return self.put("gnutls.p12", sequence(version, safe, sequence(info, salt, iterations)))

    def keeps_its_mac(self, name, complaints=""):
        """Asks that openssl takes a store before and after it is written again; as pfx its MAC would be wrong."""
        self.assertTrue(self.opens(name))
        for words in ((), ("--kind", "rawpfx"), ("--break-mac",)):
            self.rewritten(name, *words, complaints=complaints)
            self.assertTrue(self.opens("made"), words)
        self.is_refused(name, "the MAC", "--break-mac", "--kind", "pfx")
        self.is_refused(name, "the MAC", "--break-mac", "--kind", "pfx", "--break-signature")
        self.rewritten(name, "--kind", "pfx", "--break-mac")
        self.assertFalse(self.opens("made"))
        words = ["-in", "made", "-nomacver", "-passin", PASSWORD, "-nodes", "-out", "key"]
        self.assertTrue(self.succeeds("pkcs12", *words))

    def test_a_store_as_of_gnutls_keeps_its_mac(self):
        name = self.store_as_of_gnutls()
        self.finds(["check", "--kind", "pfx", name], [": loose"], 3)
        self.keeps_its_mac(name)
        made = self.rewritten(name)
        self.assertEqual(part(made, *COVERED), part(self.octets(name), *COVERED))
        self.assertGreater(len(made), len(self.octets(name)))

    @needs("certtool")
    def test_a_store_of_gnutls_keeps_its_mac(self):
        words = ["--to-p12", "--load-privkey", "rsa.key", "--p12-name", "name", "--password", "secret", "--outder"]
        run("certtool", *words, "--outfile", "certtool.p12", cwd=self.room)
        self.keeps_its_mac("certtool.p12")

    @needs("certutil", "pk12util")
    def test_a_store_of_nss_keeps_its_mac(self):
        (self.room / "nss").mkdir()
        self.put("noise", os.urandom(64))
        words = ["-S", "-n", "nss", "-s", "CN=nss", "-x", "-t", "u,u,u", "-z", "noise", "-k", "ec", "-q", "nistp256"]
        run("certutil", "-N", "--empty-password", "-d", "sql:nss", cwd=self.room)
        run("certutil", *words, "-d", "sql:nss", cwd=self.room)
        run("pk12util", "-o", "nss.p12", "-n", "nss", "-W", "secret", "-K", "", "-d", "sql:nss", cwd=self.room)
        self.keeps_its_mac("nss.p12", "nss.p12: the contents stay in BER, as the MAC covers them\n")

    def test_what_is_normal_is_written_as_it_is(self):
        for name in ("store.p12", "nomac.p12", "smile.p12", "attributes.p7s", "stamp.tst", "list.crl", "enveloped.p7m"):
            self.assertEqual(self.rewritten(name), self.octets(name), name)
        self.rewritten("stream.p7s")
        self.assertTrue(self.succeeds("cms", "-verify", "-noverify", "-inform", "DER", "-in", "made", "-out", "out"))

    def test_a_signer_with_an_empty_set_of_attributes_is_not_made_one_without(self):
        """Which RFC 5652 forbids, so that the signature counts for nothing; without them it covers the content."""
        self.assertFalse(self.verified("empty.p7s"))
        self.is_refused("empty.p7s", "the signature of signer 1", "--break-signature", "--kind", "pkcs7certificate")
        self.is_refused("empty.p7s", "the signature of signer 1", "--break-signature", "--break-mac")
        self.rewritten("empty.p7s", "--break-signature")
        self.assertTrue(self.verified("made"))

    def verified(self, name):
        """Whether openssl finds signed data to be right."""
        return self.succeeds("cms", "-verify", "-noverify", "-binary", "-inform", "DER", "-in", name, "-out", "out")

    def test_a_revocation_list_with_an_explicit_false_keeps_its_signature(self):
        """In the place of a BOOLEAN that is FALSE by default, which X.690, 11.5 forbids."""
        to_sign, algorithm, _ = parts(self.octets("list.crl"))
        extension = [0, 0xA0, 0, 0]
        to_sign = within(to_sign, extension, lambda it: it[: at(it, 0).end] + b"\1\1\0" + it[at(it, 0).end :])
        signature = self.openssl("dgst", "-sha256", "-sign", "rsa.key", text=to_sign)
        self.put("false.crl", sequence(to_sign, algorithm, element(0x03, b"\0", signature)))
        said = [self.verified_list("false.crl")]
        self.finds(["check", "false.crl"], ["certificatelist loose"], 3)
        self.is_refused("false.crl", "the signature of the list", "--break-signature")
        self.rewritten("false.crl", "--break-signature")
        self.assertEqual([*said, self.verified_list("made")], ["verify OK", "verify failure"])

    def verified_list(self, name):
        """What openssl says of the signature of a revocation list."""
        ran = run("sh", "-c", f"openssl crl -inform DER -in {name} -noout -CAfile rsa.pem 2>&1 || true", cwd=self.room)
        return re.search("verify [A-Za-z]+", ran.decode())[0]

    def signed_image(self):
        """Signed data over what signs a program for Windows, without the flags that are there by default, which X.690
        has a writer leave out and other tools write."""
        image = sequence(oid(IMAGE), sequence(explicit(0, explicit(2, element(0x80)))))
        indirect = sequence(image, sequence(SHA256, octet_string(bytes(32))))
        return self.signed_over(INDIRECT, indirect)

    def is_of_its_content(self, name):
        """Whether the signed digest is that of the content."""
        whole = self.octets(name)
        digest = self.openssl("dgst", "-sha256", "-binary", text=contents(part(whole, 1, 0, 2, 1, 0)))
        return digest in whole

    def test_what_signs_a_program_without_flags_keeps_its_signature(self):
        self.put("image.p7s", self.signed_image())
        said = [self.is_of_its_content("image.p7s")]
        self.finds(["check", "image.p7s"], ["pkcs7certificate loose"], 3)
        self.is_refused("image.p7s", "the signature of signer 1", "--break-signature")
        self.rewritten("image.p7s", "--break-signature")
        self.assertEqual([*said, self.is_of_its_content("made")], [True, False])

    def test_a_signature_in_a_time_stamp_is_kept_too(self):
        stamp = element(0xA1, attribute(STAMP, self.signed_image()))
        outer = within(self.octets("attributes.p7s"), SIGNERS, lambda it: sequence(contents(it), stamp))
        self.put("stamped.p7s", outer)
        self.assertTrue(self.verified("stamped.p7s"))
        what = "the signature of signer 1 of time stamp 1 of signer 1"
        self.is_refused("stamped.p7s", what, "--break-signature")


if __name__ == "__main__":
    unittest.main()
