"""What the command says where a file or a word isn't what it takes: sentences of its own, and none of Python's."""
import gzip
import io
import sys
import tarfile
import unittest
import zipfile

from support import built
from support.command import EMPTY, Command
from support.making import image
from support.tools import ended, run

# The first octets of files that no tool here makes.
JKS, CABINET, COMPOUND = bytes.fromhex("FEEDFEED00000002"), b"MSCF\0\0\0\0", bytes.fromhex("D0CF11E0A1B11AE1")


def zipped():
    file = io.BytesIO()
    with zipfile.ZipFile(file, "w") as archive:
        archive.writestr("a", "b")
    return file.getvalue()


def archived():
    file = io.BytesIO()
    with tarfile.open(fileobj=file, mode="w", format=tarfile.USTAR_FORMAT) as archive:
        archive.addfile(tarfile.TarInfo("a"))
    return file.getvalue()


class Foreign(Command):
    def is_named(self, name, words, form=""):
        """Asks that each verb that tries kinds says what a file is, and ends with the status of a refusal."""
        line = f"{name}: refused: it is {words}{form}"
        self.says(["check", name], [line], 1)
        for verb in (["show"], ["extract", "--into", "parts"]):
            self.assertEqual(self.command(*verb, name), (1, f"{line}\n", ""), verb)
        self.assertEqual(self.command("rewrite", name), (1, "", f"{line}\n"))
        self.finds(["check", "--kind", "pfx", name], [rf"^{name}: refused: \w+ at \d+"], 1)

    def test_what_openssl_writes_as_pem_is_named_by_its_label(self):
        self.openssl("pkcs8", "-topk8", "-in", "rsa.key", "-out", "locked.key", "-passout", "pass:secret")
        self.openssl("pkey", "-in", "ec.key", "-pubout", "-out", "public.pem")
        self.openssl("rsa", "-in", "rsa.key", "-traditional", "-out", "old.key")
        password = ["-passout", "pass:secret"]
        self.openssl("rsa", "-in", "rsa.key", "-traditional", "-aes128", *password, "-out", "closed.key")
        self.openssl("req", "-new", "-key", "ec.key", "-subj", "/CN=a", "-out", "request.pem")
        self.openssl("ecparam", "-name", "prime256v1", "-out", "curve.pem")
        for name, words in (
            ("rsa.pem", "an X.509 certificate"),
            ("rsa.key", "a private key (PKCS #8)"),
            ("locked.key", "an encrypted private key (PKCS #8)"),
            ("public.pem", "a public key"),
            ("old.key", "a private key of RSA"),
            ("request.pem", "a certificate request (PKCS #10)"),
            ("curve.pem", "parameters of keys"),
        ):
            self.is_named(name, words, " (from PEM)")
        self.is_named("closed.key", "a private key of RSA")

    def test_what_openssl_writes_as_der_is_named_by_its_tags(self):
        for name, *words in (("locked", "-passout", "pass:secret"), ("open", "-nocrypt")):
            self.openssl("pkcs8", "-topk8", "-in", "rsa.key", "-outform", "DER", "-out", name, *words)
        self.openssl("pkey", "-in", "ec.key", "-pubout", "-outform", "DER", "-out", "public")
        self.openssl("rsa", "-in", "rsa.key", "-traditional", "-outform", "DER", "-out", "old")
        self.openssl("ec", "-in", "ec.key", "-outform", "DER", "-out", "curve")
        self.openssl("req", "-new", "-key", "ec.key", "-subj", "/CN=a", "-outform", "DER", "-out", "request")
        self.openssl("ocsp", "-issuer", "rsa.pem", "-cert", "ec.pem", "-reqout", "asked")
        self.openssl("ocsp", "-issuer", "rsa.pem", "-cert", "ec.pem", "-no_nonce", "-reqout", "asked-bare")
        self.put("index", b"")
        answer = ["-index", "index", "-CA", "rsa.pem", "-rsigner", "rsa.pem", "-rkey", "rsa.key", "-reqin", "asked"]
        self.openssl("ocsp", *answer, "-respout", "answer")
        for name, words in (
            ("rsa.der", "an X.509 certificate"),
            ("open", "a private key (PKCS #8)"),
            ("locked", "an encrypted private key (PKCS #8)"),
            ("public", "a public key"),
            ("old", "a private key of RSA"),
            ("curve", "a private key of an elliptic curve"),
            ("request", "a certificate request (PKCS #10)"),
            ("asked", "a request of OCSP"),
            ("asked-bare", "a request of OCSP"),
            ("answer", "a response of OCSP"),
            ("stamp.tsq", "a request for a time stamp"),
        ):
            self.says(["check", name], [f"{name}: refused: it is {words}"], 1)

    def test_others_are_named_by_their_first_octets(self):
        self.openssl("smime", "-sign", "-in", "data", "-signer", "rsa.pem", "-inkey", "rsa.key", "-out", "mail")
        lines = self.octets("rsa.pem").splitlines(keepends=True)
        for name, octets, words in (
            ("keys.jks", JKS, "a key store of Java (JKS)"),
            ("a.exe", image(), "a program for Windows"),
            ("a.jar", zipped(), "an archive (ZIP, as .jar and .docx are)"),
            ("a.cab", CABINET, "a cabinet"),
            ("a.msi", COMPOUND, "a compound file (as .msi and .doc are)"),
            ("a.gz", gzip.compress(EMPTY), "an archive (gzip)"),
            ("a.tar", archived(), "an archive (tar)"),
            ("mail", self.octets("mail"), "a mail"),
            ("base64", b"".join(lines[1:-1]), "base64 without the lines of PEM"),
            ("nothing", b"", "an empty file"),
        ):
            self.put(name, octets)
            self.says(["check", name], [f"{name}: refused: it is {words}"], 1)


class Words(Command):
    def test_a_kind_in_capitals_and_one_that_is_none(self):
        others = "p12 is no kind; vuyhanip kinds lists them"
        for word, said in (("PFX", "PFX is no kind, but pfx is one"), ("p12", others)):
            status, _, complaints = self.command("check", "--kind", word, "empty.p12")
            self.assertEqual(status, 2)
            self.assertEqual(complaints.splitlines()[-1], f"vuyhanip check: error: argument --kind: {said}")

    def test_kinds_are_listed_by_a_verb(self):
        status, said, complaints = self.command("kinds")
        self.assertEqual((status, complaints), (0, ""))
        listed = run(built.program("dertree"), "--kinds").decode().split()
        self.assertGreater(len(said.split()), 70)
        self.assertEqual([it for it in said.split() if it not in listed], [])

    def test_standard_input_is_named_once(self):
        for words in (
            *(("check", "-", "-"), ("check", "-", "/dev/stdin"), ("verify", "--password-file", "-", "-")),
            *(("verify", "--ca", "-", "-"), ("verify", "--certificate", "-", "--certificate", "-", "rsa.pem")),
        ):
            status, said, complaints = self.command(*words, text=EMPTY)
            self.assertEqual((status, said), (2, ""))
            self.assertIn("error: standard input is named more than once, and can be read once\n", complaints)

    def test_words_that_say_what_is_right_are_given_once(self):
        """The name of a file may look like one of them, where a shell gives all names of a folder."""
        self.put("--ca=.other.pem", self.octets("attributes.p7s"))
        self.put(".other.pem", self.octets("rsa.pem"))
        self.assertEqual(self.command("verify", "--ca", "rsa.pem", "attributes.p7s")[0], 0)
        for word, value in (
            *(("--ca", "ec.pem"), ("--at", "0"), ("--purpose", "any"), ("--content", "data")),
            ("--password-file", "password"),
        ):
            again = "--ca=.other.pem" if word == "--ca" else f"{word}={value}"
            ended, said, complaints = self.command("verify", word, value, again, "attributes.p7s")
            self.assertEqual((ended, said), (2, ""), word)
            self.assertIn(f"argument {word}: given more than once\n", complaints)

    def test_a_password_may_begin_with_a_mark_and_has_to_be_utf_8(self):
        self.put("marked", b"\xef\xbb\xbfsecret\r\n")
        self.says(["verify", "--password-file", "marked", "store.p12"], ["store.p12: MAC right"])
        self.put("latin", "Größe".encode("latin-1"))
        said = self.command("verify", "--password-file", "latin", "store.p12")
        self.assertEqual(said, (1, "", "latin: not in UTF-8, in which a password has to be\n"))

    def test_a_password_that_isnt_typed(self):
        """At the end of input, where no terminal is there either."""
        words = ["setsid", "--wait", sys.executable, "-m", "vuyhanip", "verify", "--ask-password", "store.p12"]
        for text, wanted in (
            (b"", (1, b"", b"-: no password, since the input has ended\n")),
            (b"secret\n", (0, b"store.p12: MAC right\n", b"")),
        ):
            ran = ended(*words, text=text, cwd=self.room, env=self.environment())
            self.assertEqual((ran.returncode, ran.stdout, ran.stderr), wanted)

    def test_a_library_that_isnt_there(self):
        for path in ("nowhere.so", "data"):
            said = self.command("check", "empty.p12", more={"VUYHANIP_LIBRARY": str(self.room / path)})
            self.assertEqual(said, (1, "", "vuyhanip: the library isn't there; VUYHANIP_LIBRARY names another\n"))


if __name__ == "__main__":
    unittest.main()
