"""`vuyhanip verify` over files of openssl and other tools, beside what openssl says of their signatures and MACs."""
import json
import os
import re
import unittest
import unittest.mock

from support.command import MANY, Command
from support.containers import attribute, content_info
from support.elements import explicit, integer, octet_string, part, sequence, set_of
from support.making import image
from support.oids import oid
from support import tools
from support.tools import needs, run

from vuyhanip import tool, verifying
from vuyhanip.judging import Terms

# How many times as long as a check a verb over a long file may take.
TIMES = 50
# What is said of signatures.
RIGHT, WRONG = "signature right", "signature not right"
BAD_ATTRIBUTES = "refused: signed attributes that RFC 5652 forbids"


def issuer_and_serial(certificate):
    """What names a certificate (RFC 5652, 10.2.4)."""
    return sequence(part(certificate, 0, 3), part(certificate, 0, 1))


def signed_by_ed25519(folder, change):
    """Signed data by Ed25519, with an octet of the signature changed. RFC 8419 has the digest be SHA-512."""
    sha512 = sequence(oid("SHA-512"))
    digest = octet_string(folder.openssl("dgst", "-sha512", "-binary", "data"))
    attributes = attribute("contentType", oid("data")) + attribute("messageDigest", digest)
    folder.put("covered", set_of(attributes))
    folder.openssl("pkeyutl", "-sign", "-rawin", "-inkey", "ed25519.key", "-in", "covered", "-out", "signature")
    signature = folder.octets("signature")
    signature = signature[:-1] + bytes([signature[-1] ^ change])
    certificate = folder.octets("ed25519.der")
    algorithm = sequence(oid("Ed25519"))
    signed = explicit(0, attributes), algorithm, octet_string(signature)
    signer = sequence(integer(1), issuer_and_serial(certificate), sha512, *signed)
    content = content_info("data", octet_string(folder.octets("data")))
    fields = integer(1), set_of(sha512), content, explicit(0, certificate), set_of(signer)
    return content_info("signed data", sequence(*fields))


class Verify(Command):
    def compare(self, name, said, *words, options=(), by="cms"):
        """Asks for a word of each signer, and that openssl says yes exactly where it is that they are right."""
        ended, lines, complaints = self.command("verify", *words, name)
        form = "PEM" if name.endswith(".pem") else "DER"
        given = ["-inform", form, "-in", name, "-noverify", "-out", "out", *options]
        is_right = said == RIGHT
        if not said.startswith("refused"):
            self.assertEqual(self.succeeds(by, "-verify", "-binary", *given), is_right, lines)
        self.assertEqual((ended, complaints), (4 if is_right else 1, ""))
        *signers, openssl = lines.splitlines()
        self.assertRegex(openssl, rf"^{re.escape(name)}: openssl: CMS Verification {'success' if is_right else ''}")
        self.assertNotEqual(signers, [])
        for line in signers:
            self.assertRegex(line, rf"^{re.escape(name)}: signer \d: {re.escape(said)}(,| \(RFC)")
        return lines

    def test_right(self):
        self.sign("sha3.p7s", "-nodetach", "-md", "sha3-256")
        names = "attributes.p7s noattributes.p7s pss.p7s ec.p7s sha3.p7s signed.pem stream.p7s two.p7s".split()
        for name in names:
            lines = self.compare(name, RIGHT)
            self.assertEqual(len(lines.splitlines()), 3 if name == "two.p7s" else 2)

    def test_a_signer_is_told_of(self):
        """By what openssl prints of the same file and of the certificate."""
        key = ["-x509", "-newkey", "rsa:2048", "-nodes", "-keyout", "named.key", "-out", "named.pem"]
        self.openssl("req", *key, "-subj", "/C=DE/O=Büro/CN=one, two", "-utf8")
        self.sign("named.p7s", "-nodetach", "-md", "sha384", key="named")
        words = ["-in", "named.pem", "-noout", "-subject", "-nameopt", "RFC2253,-esc_msb"]
        subject = self.openssl("x509", *words).decode()
        printed = self.openssl("cms", "-cmsout", "-print", "-noout", "-inform", "DER", "-in", "named.p7s").decode()
        clock, year = re.search(r"UTCTIME:\w+ +\d+ ([\d:]+) (\d+) GMT", printed).groups()
        lines = self.command("verify", "named.p7s")[1]
        wanted = rf"sha384, rsaEncryption, 2048 bits, at {year}-\d\d-\d\d {clock}, by a certificate that calls itself "
        self.assertRegex(lines, wanted + re.escape(subject.strip().partition("=")[2]))

    def test_a_long_name_is_cut_in_a_line(self):
        """Of which a terminal would scroll the verdicts on other files away; in JSON it is whole."""
        key = ["-x509", "-newkey", "rsa:2048", "-nodes", "-keyout", "long.key", "-out", "long.pem"]
        self.openssl("req", *key, "-subj", "".join(f"/OU={it:060}" for it in range(200)))
        self.sign("long.p7s", "-nodetach", key="long")
        _, said, _ = self.command("verify", "--json", "long.p7s")
        name = json.loads(said)["findings"][0]["by"]
        self.assertGreater(len(name), 12_000)
        lines = self.command("verify", "long.p7s")[1].splitlines()
        self.assertRegex(lines[0], rf", by a certificate that calls itself {re.escape(name[:300])} \.\.$")

    def test_no_file_of_ed25519_is_asked_about_that_openssl_cannot_verify(self):
        """Of a file that is put together here, since openssl makes none: it only signs the attributes (RFC 8419)."""
        if "OpenSSL 3.0." in self.openssl("version").decode():
            self.put("ed25519.p7s", signed_by_ed25519(self, 0))
            said = "not checked: OpenSSL 3.0.* verifies no signatures of Ed25519 and Ed448 in CMS"
            self.finds(["verify", "ed25519.p7s"], [f"^ed25519.p7s: signer 1: {said}, sha512, ED25519, by"], 1)
            self.assertFalse(self.succeeds("cms", "-verify", "-noverify", "-inform", "DER", "-in", "ed25519.p7s"))

    def test_detached(self):
        with_data = ("--content", "data")
        self.compare("detached.p7s", RIGHT, *with_data, options=("-content", "data"))
        other = ("--content", "otherdata")
        self.compare("detached.p7s", WRONG, *other, options=("-content", "otherdata"))
        said = self.command("verify", "detached.p7s")
        self.assertEqual((said[0], "openssl" in said[1]), (1, False))
        self.assertIn("signer 1: not checked: no content, which --content gives", said[1])

    def test_wrong(self):
        self.compare("digest.p7s", WRONG)
        self.compare("wrong.p7s", WRONG)
        self.compare("nodigest.p7s", BAD_ATTRIBUTES)
        self.compare("nocertificate.p7s", "refused: its certificate isn't known")
        self.compare("type.p7s", BAD_ATTRIBUTES)

    def test_no_openssl_no_yes(self):
        """Also where it is in a folder of the path that isn't named from the root on."""
        os.symlink(tools.run("which", "openssl").decode().strip(), self.room / "openssl")
        for path in ("/nowhere", "", ".", f".{os.pathsep}"):
            said = "attributes.p7s: not checked: there is no program openssl, whose yes a yes is here"
            self.says(["verify", "attributes.p7s"], [said], 1, {"PATH": path})

    def test_the_environment_does_not_change_what_openssl_does(self):
        """A configuration without the providers by which openssl verifies anything."""
        self.put("none.cnf", b"openssl_conf = it\n[it]\nproviders = none\n[none]\nbase = on\n[on]\nactivate = 1\n")
        more = {"OPENSSL_CONF": str(self.room / "none.cnf")}
        given = ["openssl", "cms", "-verify", "-noverify", "-inform", "DER", "-in", "attributes.p7s"]
        self.assertNotEqual(tools.ended(*given, cwd=self.room, env={**os.environ, **more}).returncode, 0)
        self.assertEqual(self.command("verify", "attributes.p7s", more=more)[0], 4)

    def test_signers_by_key_identifier_and_content_of_any_type(self):
        for name in ("keyid.p7s", "keyid-noattributes.p7s", "other.p7s"):
            self.compare(name, RIGHT)
        self.compare("keyid-detached.p7s", RIGHT, "--content", "data", options=("-content", "data"))
        self.compare("keyid-detached.p7s", WRONG, "--content", "otherdata", options=("-content", "otherdata"))
        self.compare("keyid-digest.p7s", WRONG)
        self.compare("keyid-wrong.p7s", WRONG)
        self.compare("keyid-nocertificate.p7s", "refused: its certificate isn't known")
        self.assertTrue(self.succeeds("cms", "-verify", "-noverify", "-inform", "DER", "-in", "other-noattributes.p7s"))
        self.compare("other-noattributes.p7s", BAD_ATTRIBUTES)

    def test_attributes_that_break_rfc_5652(self):
        for name in "keyid-nodigest.p7s keyid-notype.p7s keyid-type.p7s keyid-twice.p7s empty.p7s".split():
            self.compare(name, BAD_ATTRIBUTES)

    def test_many_signers_take_no_longer_for_each(self):
        def spent():
            """The processor time of this process and of those that it waited for, which what runs beside doesn't change."""
            return sum(os.times()[:4])

        def took(status, *words):
            start = spent()
            ended, said, complaints = self.command(*words, "many.p7s")
            self.assertEqual((ended, complaints), (status, ""))
            return spent() - start, said

        bound = TIMES * took(0, "check")[0]
        for verb, status, pattern in (("show", 0, "names +issuer"), ("verify", 4, RIGHT)):
            with self.subTest(verb):
                seconds, said = took(status, verb)
                self.assertEqual(len(re.findall(pattern, said)), MANY)
                self.assertLess(seconds, bound)

    def test_openssl_is_asked_once_for_many_signers(self):
        """About the signatures, about the one certificate, and about its key."""
        with unittest.mock.patch.object(tool, "run", wraps=tool.run) as run_of:
            findings = verifying.verify(self.octets("many.p7s"), Terms())
        asked = [call.args[0][0] for call in run_of.call_args_list if call.args[0] != ["version"]]
        self.assertEqual((len(findings), sorted(asked)), (MANY, ["cms", "pkey", "x509", "x509"]))

    @needs("osslsigncode")
    def test_authenticode(self):
        """Signatures of a program, one in the other, and a time stamp."""
        self.put("small.exe", image())
        stamped = ["-TSA-certs", "clock.pem", "-TSA-key", "clock.key"]
        for words in (
            ["sign", "-certs", "rsa.pem", "-key", "rsa.key", *stamped, "-in", "small.exe", "-out", "one.exe"],
            ["sign", "-nest", "-h", "sha384", "-certs", "ec.pem", "-key", "ec.key", "-in", "one.exe", "-out", "two.exe"],
            ["extract-signature", "-in", "two.exe", "-out", "program.p7s"],
        ):
            run("osslsigncode", *words, cwd=self.room)
        uncompared = ", certificate not judged, over the digest of a program, which isn't compared, "
        said = self.finds(["verify", "program.p7s"], [f"^program.p7s: signer 1: {RIGHT}{uncompared}"], 4)
        self.assertIn(f"signer 1, nested signature, signer 1: {RIGHT}{uncompared}sha384, ", said)
        self.assertIn(f"signer 1, time stamp, signer 1: {RIGHT}, certificate not judged, sha256, ", said)
        wanted = ["content +SpcIndirectDataContent", "nested signature$", "time stamp$", "subject +CN=clock"]
        self.finds(["show", "program.p7s"], wanted)
        both = ["nested signature, signer 1: not checked: openssl has no purpose for programs", "--purpose any"]
        self.finds(["verify", "--ca", "rsa.pem", "program.p7s"], both, 1)
        self.put("all.pem", b"".join(map(self.octets, ("rsa.pem", "ec.pem", "clock.pem"))))
        judged = "certificate right, revocation not checked, over the digest of a program"
        words = ["verify", "--ca", "all.pem", "--purpose", "any", "program.p7s"]
        self.finds(words, [f"signer 1: {RIGHT}, {judged}"], 4)

    def compare_mac(self, name, password, word):
        """Asks for a word of a MAC, and that openssl finds the same, whose words are told."""
        ran = tools.ended("openssl", "pkcs12", "-in", name, "-noout", "-passin", f"file:{password}", cwd=self.room)
        self.assertEqual(ran.returncode == 0, word == "right")
        words = [f"{name}: openssl: {it}" for it in ran.stderr.decode().splitlines()[:1]]
        status = 0 if word == "right" else 1
        self.says(["verify", "--password-file", password, name], [f"{name}: MAC {word}", *words], status)

    def test_macs(self):
        for name in ("store.p12", "plain.p12"):
            for password, word in (("password", "right"), ("other", "wrong")):
                self.compare_mac(name, password, word)
        self.finds(["verify", "store.p12"], ["MAC not checked: no password"], 1)
        for words in ([], ["--password-file", "password"]):
            self.says(["verify", *words, "nomac.p12"], ["nomac.p12: no MAC in the file"], 1)

    @needs("certutil", "pk12util")
    def test_a_store_of_nss(self):
        (self.room / "nss").mkdir()
        self.put("noise", os.urandom(64))
        words = ["-S", "-n", "nss", "-s", "CN=nss", "-x", "-t", "u,u,u", "-z", "noise", "-k", "ec", "-q", "nistp256"]
        for tool, *more in (
            ["certutil", "-N", "--empty-password", "-d", "sql:nss"],
            ["certutil", *words, "-d", "sql:nss"],
            ["pk12util", "-o", "nss.p12", "-n", "nss", "-W", "secret", "-K", "", "-d", "sql:nss"],
        ):
            run(tool, *more, cwd=self.room)
        self.finds(["check", "nss.p12"], [r"pfx (normal|loose \d+ ->) \d+ \(from BER\)"], 3)
        wanted = ["friendly name +nss", "encrypted key +PBES2", r"MAC covers +\d+ octets of BER"]
        self.finds(["show", "nss.p12"], wanted, 3)
        for password, word in (("password", "right"), ("other", "wrong")):
            self.compare_mac("nss.p12", password, word)

    def test_macs_by_each_digest(self):
        plain = ["-keypbe", "NONE", "-certpbe", "NONE", "-inkey", "ec.key", "-in", "ec.pem"]
        for digest in "md5 sha1 sha224 sha256 sha384 sha512 sha512-256 sha3-256".split():
            for password in ("", "pass", "Größe 🔑"):
                self.put("word", password.encode() + b"\n")
                words = ["-macalg", digest, "-iter", "3", "-passout", "file:word", "-out", "mac.p12"]
                self.openssl("pkcs12", "-export", *plain, *words)
                self.says(["verify", "--password-file", "word", "mac.p12"], ["mac.p12: MAC right"])


if __name__ == "__main__":
    unittest.main()
