"""`vuyhanip verify --ca` over chains of certificates, beside what openssl says of them, and what it ends with."""
import functools
import json
import re
import shutil
import time
import unittest
from pathlib import Path

from support import built, tools
from support.command import Command, Folder
from support.tools import run

EXTENSIONS = {
    "authority": "basicConstraints=critical,CA:TRUE\nkeyUsage=critical,keyCertSign",
    "leaf": "keyUsage=critical,digitalSignature\nextendedKeyUsage=emailProtection",
    "stamps": "keyUsage=critical,digitalSignature\nextendedKeyUsage=critical,timeStamping",
}
STAMPS = """
[ tsa ]
default_tsa = it
[ it ]
serial = serial
default_policy = 1.2.3.4.1
digests = sha256, sha1
signer_digest = sha256
ess_cert_id_alg = sha256
"""
# What openssl is asked beside the file that --ca names, and what for.
JUDGED = ("-no-CApath", "-no-CAstore", "-auth_level", "2")
DAY = 24 * 60 * 60
RIGHT = "signature right, certificate right, revocation not checked"
NOT_JUDGED = "signature right, certificate not judged"
NOT_RIGHT = "signature right, certificate not right, revocation not checked"


class Chains(Folder):
    """A root, an authority under it, and certificates of both, each with a file that it signed."""

    def __init__(self, room):
        self.room = room
        self.put("data", b"some content\n" * 10)
        self.put("otherdata", b"some Content\n" * 10)
        for name, text in EXTENSIONS.items():
            self.put(f"{name}.ext", text.encode())
        self.certificate("root", "root", "authority")
        self.certificate("other", "other", "authority")
        self.certificate("middle", "root", "authority")
        for name, *words in (("leaf",), ("sha1", "-sha1"), ("md5", "-md5")):
            self.certificate(name, "middle", "leaf", *words)
            self.sign(f"{name}.p7s", "-nodetach", "-certfile", "middle.pem", key=name)
        self.certificate("alone", "alone", "leaf")
        self.sign("alone.p7s", "-nodetach", key="alone")
        self.sign("bare.p7s", "-nodetach", "-nocerts", key="leaf")
        self.put("bare.pem", self.octets("middle.pem") + self.octets("leaf.pem"))
        self.put("none.pem", b"no certificate\n")
        self.stamps()

    def certificate(self, name, issuer, kind, *words):
        """A key, and a certificate of it that an issuer signs."""
        key = ["-newkey", "rsa:2048", "-nodes", "-keyout", f"{name}.key"]
        self.openssl("req", *key, "-subj", f"/CN={name}", "-out", "csr")
        by = ["-signkey", f"{name}.key"] if issuer == name else ["-CA", f"{issuer}.pem", "-CAkey", f"{issuer}.key"]
        by += [] if issuer == name else ["-CAcreateserial"]
        given = ["-days", "10", "-extfile", f"{kind}.ext", "-out", f"{name}.pem", *words]
        self.openssl("x509", "-req", "-in", "csr", *by, *given)

    def stamps(self):
        """Time stamps of the data, of an authority that is under the one root."""
        self.put("stamps.cnf", STAMPS.encode())
        self.put("serial", b"01\n")
        self.certificate("clock", "middle", "stamps")
        for digest in ("sha256", "sha1"):
            self.openssl("ts", "-query", "-data", "data", f"-{digest}", "-cert", "-out", "query")
            reply = ["-config", "stamps.cnf", "-queryfile", "query", "-signer", "clock.pem", "-inkey", "clock.key"]
            self.openssl("ts", "-reply", *reply, "-chain", "middle.pem", "-out", f"{digest}.tsr")
        self.openssl("ts", "-reply", "-in", "sha256.tsr", "-token_out", "-out", "stamp.tst")


@functools.lru_cache(maxsize=None)
def chains():
    """The folder of the files."""
    room = built.room() / "chains"
    room.mkdir()
    return Chains(room).room


class Certificates(Command):
    def setUp(self):
        super().setUp()
        shutil.rmtree(self.room)
        shutil.copytree(chains(), self.room)

    def compare(self, name, said, status, *words, asked=(), purpose="smimesign"):
        """Asks for a word and a status of a file, and that openssl says yes exactly where it is that it is right."""
        question = ["cms", "-verify", "-binary", "-inform", "DER", "-in", name, "-out", "out", *JUDGED, *asked]
        self.assertEqual(self.succeeds(*question, "-purpose", purpose), said == RIGHT)
        self.finds(["verify", *words, name], [f"^{name}: signer 1: {said}, ", f"^{name}: openssl: \\w+"], status)

    def test_a_chain_to_the_file_is_right(self):
        self.compare("leaf.p7s", RIGHT, 0, "--ca", "root.pem", asked=["-CAfile", "root.pem"])
        self.finds(["verify", "leaf.p7s"], [NOT_JUDGED], 4)

    def test_no_other_chain_is(self):
        """To another root, to an authority below the root, to the signer's own certificate, and to nothing."""
        for anchor in ("other.pem", "middle.pem", "leaf.pem", "none.pem"):
            with self.subTest(anchor):
                self.compare("leaf.p7s", NOT_RIGHT, 1, "--ca", anchor, asked=["-CAfile", anchor])
        self.compare("alone.p7s", NOT_RIGHT, 1, "--ca", "root.pem", asked=["-CAfile", "root.pem"])

    def test_the_certificates_of_the_system_are_not_trusted(self):
        """Which are those of the environment here."""
        more = {"SSL_CERT_FILE": str(self.room / "root.pem"), "SSL_CERT_DIR": str(self.room)}
        question = ["openssl", "verify", "-untrusted", "middle.pem", "leaf.pem"]
        run(*question, cwd=self.room, env={**tools.ENVIRONMENT, **more})
        ended, said, _ = self.command("verify", "--ca", "other.pem", "leaf.p7s", more=more)
        self.assertEqual(ended, 1)
        self.assertIn(NOT_RIGHT, said)

    def test_a_signature_that_is_not_right_is_told_from_its_certificate(self):
        whole = self.octets("leaf.p7s")
        self.put("wrong.p7s", whole[:-1] + bytes([whole[-1] ^ 1]))
        self.compare("wrong.p7s", "signature not right", 1, "--ca", "root.pem", asked=["-CAfile", "root.pem"])

    def test_a_purpose_is_asked_for(self):
        given = ["--ca", "root.pem", "--purpose"]
        for purpose, said, status in (("any", RIGHT, 0), ("smimesign", RIGHT, 0), ("timestampsign", NOT_RIGHT, 1)):
            asked = ["-CAfile", "root.pem"]
            self.compare("leaf.p7s", said, status, *given, purpose, asked=asked, purpose=purpose)
        self.assertEqual(self.command("verify", *given, "-x", "leaf.p7s")[0], 2)

    def test_a_time_is_asked_for(self):
        now = int(time.time())
        for at, said, status in ((now + DAY, RIGHT, 0), (now + 20 * DAY, NOT_RIGHT, 1), (now - DAY, NOT_RIGHT, 1)):
            for text in (str(at), time.strftime("%Y-%m-%dT%H:%M:%SZ", time.gmtime(at))):
                asked = ["-CAfile", "root.pem", "-attime", str(at)]
                self.compare("leaf.p7s", said, status, "--ca", "root.pem", "--at", text, asked=asked)
        for text in ("tomorrow", "2026-11-29", "-1", "2026-13-29T00:00:00Z"):
            self.assertEqual(self.command("verify", "--at", text, "leaf.p7s")[0], 2)

    def test_weak_digests_in_a_chain(self):
        """A level of 2 refuses them, whatever the signature is by."""
        for name in ("sha1.p7s", "md5.p7s"):
            self.compare(name, NOT_RIGHT, 1, "--ca", "root.pem", asked=["-CAfile", "root.pem"])
            self.finds(["verify", "--ca", "root.pem", "--allow-weak", name], [f"signer 1: {RIGHT}, "], 0)

    def test_certificates_beside_the_file(self):
        self.finds(["verify", "bare.p7s"], ["signer 1: refused: its certificate isn't known"], 1)
        self.openssl("x509", "-in", "leaf.pem", "-outform", "DER", "-out", "leaf.der")
        self.put("two.pem", self.octets("middle.pem") + self.octets("root.pem"))
        for name in ("leaf.pem", "leaf.der", "bare.pem"):
            asked = ["-certfile", name, "-CAfile"]
            given = ["--certificate", name, "--ca"]
            self.compare("bare.p7s", RIGHT, 0, *given, "two.pem", asked=[*asked, "two.pem"])
            self.compare("bare.p7s", NOT_RIGHT, 1, *given, "other.pem", asked=[*asked, "other.pem"])
        self.finds(["verify", "--certificate", "middle.pem", "--certificate", "leaf.pem", "bare.p7s"], [NOT_JUDGED], 4)
        ended, said, complaint = self.command("verify", "--certificate", "none.pem", "bare.p7s")
        self.assertEqual((ended, said, complaint), (1, "", "vuyhanip: refused: no certificate in none.pem\n"))

    def compare_stamp(self, name, said, status, *words, data="data", asked=()):
        """The same of a time stamp."""
        form = [] if name.endswith(".tsr") else ["-token_in"]
        is_right = self.succeeds("ts", "-verify", "-data", data, "-in", name, *form, *asked)
        self.assertEqual(is_right, "not right" not in said)
        self.finds(["verify", "--content", data, *words, name], [f"^{name}: signer 1: {said}, "], status)

    def test_time_stamps(self):
        """Of a response the whole is judged: one that says that it was refused is no stamp, whatever is beside that."""
        known = ["-CAfile", "clock.pem", "-partial_chain"]
        for name in ("sha256.tsr", "stamp.tst"):
            self.compare_stamp(name, NOT_JUDGED, 4, asked=known)
            self.compare_stamp(name, "signature not right", 1, data="otherdata", asked=known)
            self.compare_stamp(name, RIGHT, 0, "--ca", "root.pem", asked=["-CAfile", "root.pem", "-auth_level", "2"])
            self.compare_stamp(name, NOT_RIGHT, 1, "--ca", "other.pem", asked=["-CAfile", "other.pem"])
            self.finds(["verify", name], [f"^{name}: signer 1: not checked: no content, which --content gives"], 1)
        printed = self.openssl("ts", "-reply", "-in", "sha256.tsr", "-text").decode()
        clock, year = re.search(r"^Time stamp: \w+ +\d+ ([\d:]+) (\d+) GMT$", printed, re.M).groups()
        self.finds(["verify", "--content", "data", "sha256.tsr"], [rf", at {year}-\d\d-\d\d {clock}, by "], 4)
        granted = self.octets("sha256.tsr")
        self.assertIn(b"\x30\x03\x02\x01\x00", granted[:9])
        self.put("rejected.tsr", granted.replace(b"\x30\x03\x02\x01\x00", b"\x30\x03\x02\x01\x02", 1))
        self.compare_stamp_of_no_kind("rejected.tsr")

    def compare_stamp_of_no_kind(self, name):
        """Asks that neither openssl nor the command takes a response."""
        self.assertFalse(self.succeeds("ts", "-verify", "-data", "data", "-in", name, "-CAfile", "root.pem"))
        self.assertEqual(self.command("verify", "--content", "data", "--ca", "root.pem", name)[0], 1)

    def test_what_a_time_stamp_is_of_may_be_weak(self):
        self.finds(["verify", "--content", "data", "sha1.tsr"], ["but weak: the digest sha1 of what is stamped"], 1)
        said, words = f"signature right, but weak: .*, {RIGHT.partition(', ')[2]}", ["--allow-weak", "--ca", "root.pem"]
        self.compare_stamp("sha1.tsr", said, 0, *words, asked=["-CAfile", "root.pem"])

    def test_statuses_are_the_worst_of_all_files(self):
        """In the order 2, 1, 4, 0."""
        files = {0: ["--ca", "root.pem", "leaf.p7s"], 1: ["--ca", "root.pem", "leaf.p7s", "alone.p7s"], 4: ["leaf.p7s"]}
        for status, words in files.items():
            self.assertEqual(self.command("verify", *words)[0], status)
        self.assertEqual(self.command("verify", "leaf.p7s", "bare.p7s", "leaf.p7s")[0], 1)
        self.assertEqual(self.command("verify", "--at", "never", "leaf.p7s")[0], 2)
        for count in ("1", "2"):
            self.assertEqual(self.command("verify", "-j", count, "leaf.p7s", "leaf.p7s")[0], 4)

    def test_json_says_what_was_judged(self):
        """And the version of openssl."""
        version = self.openssl("version").decode().strip()
        serial = self.openssl("x509", "-in", "leaf.pem", "-noout", "-subject", "-nameopt", "RFC2253").decode().strip()
        for words, status, is_judged in ((["--ca", "root.pem"], 0, True), ([], 4, False)):
            ended, said, _ = self.command("verify", "--json", *words, "leaf.p7s")
            [finding] = json.loads(said)["findings"]
            self.assertEqual(ended, status)
            self.assertEqual((finding["right"], finding["judged"]), (True, is_judged))
            found = [finding[it] for it in ("what", "weak", "compared", "digest", "scheme", "bits", "rule", "words")]
            wanted = ["signer 1", False, True, "sha256", "rsaEncryption", 2048, None, "CMS Verification successful"]
            self.assertEqual((found, finding["tool"], f"subject={finding['by']}"), (wanted, version, serial))


if __name__ == "__main__":
    unittest.main()
