"""What the tests of the command `vuyhanip` have in common: the files of openssl over which it is run, made once, and a
case each of whose tests has them in a folder of its own."""
import functools
import os
import re
import shutil
import sys
import tempfile
import unittest
from pathlib import Path

from . import built, tools
from .containers import RSA_ENCRYPTION, SHA256, attribute, bare_bag, content_info
from .elements import contents, element, explicit, integer, octet_string, part, parts, sequence, set_of, within
from .oids import oid

SUBJECT = '/C=DE/O=Büro, "A" + B;<x>/CN=first'
# The shortest PKCS #12 file, which example_rows has too.
EMPTY = sequence(integer(3), content_info("data", octet_string(sequence())))
# A DigestInfo whose algorithm has no parameters, which are written as NULL.
LOOSE = bytes.fromhex("301F300706052B0E03021A04149B9F5586D85A3861A22D402FE789669C64027681")
# How many signers a long file has.
MANY = 1500
# A revocation list that isn't read.
EMPTY_LIST = sequence()
# The configuration of an authority, of its lists and of its time stamps.
SERVICE = """
[ ca ]
default_ca = it
[ it ]
database = index.txt
crlnumber = crlnumber
serial = serial
default_md = sha256
default_crl_days = 30
new_certs_dir = .
policy = any
[ any ]
commonName = supplied
[ tsa ]
default_tsa = stamps
[ stamps ]
serial = tsserial
default_policy = 1.2.3.4.1
digests = sha256
signer_digest = sha256
ess_cert_id_alg = sha256
[ stamping ]
extendedKeyUsage = critical,timeStamping
"""
# Where signers are in signed data: in the last element.
SIGNERS = [0, 1, 0, -1]


class Folder:
    """A folder, the room, and openssl in it."""

    room: Path

    def octets(self, name):
        return (self.room / name).read_bytes()

    def put(self, name, data):
        (self.room / name).write_bytes(data)
        return name

    def openssl(self, *words, text=None):
        """What openssl writes, which has to succeed."""
        return tools.openssl(*words, text=text, cwd=self.room)

    def succeeds(self, *words):
        """Whether openssl succeeds."""
        return tools.ended("openssl", *words, cwd=self.room).returncode == 0

    def signed_over(self, content_type, content):
        """Signed data over content of a type that openssl signs none of, with attributes, by the RSA key."""
        digest = self.openssl("dgst", "-sha256", "-binary", text=contents(content))
        attributes = attribute("contentType", oid(content_type)) + attribute("messageDigest", octet_string(digest))
        signature = self.openssl("dgst", "-sha256", "-sign", "rsa.key", text=set_of(attributes))
        certificate = self.octets("rsa.der")
        named = sequence(part(certificate, 0, 3), part(certificate, 0, 1))
        algorithms = SHA256, explicit(0, attributes), RSA_ENCRYPTION
        signer = sequence(integer(1), named, *algorithms, octet_string(signature))
        info = sequence(oid(content_type), explicit(0, content))
        fields = integer(1), set_of(SHA256), info, explicit(0, certificate), set_of(signer)
        return content_info("signed data", sequence(*fields))

    def sign(self, name, *words, key="rsa", out="DER"):
        given = ["-in", "data", "-binary", "-signer", f"{key}.pem", "-inkey", f"{key}.key"]
        self.openssl("cms", "-sign", *given, "-outform", out, "-out", name, *words)


class Files(Folder):
    """The files that all tests have."""

    def __init__(self, room):
        self.room = room
        self.keys()
        self.stores()
        self.signed()
        self.third_versions()
        self.others()

    def keys(self):
        """Keys, each with a certificate of its own."""
        for name, how in (
            ("rsa", ["rsa:2048"]),
            ("ec", ["ec", "-pkeyopt", "ec_paramgen_curve:P-256"]),
            ("ed25519", ["ed25519"]),
        ):
            self.openssl(
                *("req", "-x509", "-newkey", *how, "-nodes", "-utf8", "-subj", SUBJECT, "-multivalue-rdn"),
                *("-keyout", f"{name}.key", "-out", f"{name}.pem", "-days", "30"),
            )
            self.openssl("x509", "-in", f"{name}.pem", "-outform", "DER", "-out", f"{name}.der")

    def stores(self):
        """Key stores."""
        both = ["-inkey", "rsa.key", "-in", "rsa.pem", "-passout", "pass:secret"]
        self.openssl("pkcs12", "-export", *both, "-name", "<script>alert(1)</script>", "-out", "store.p12")
        plain = ["-keypbe", "NONE", "-certpbe", "NONE"]
        self.openssl("pkcs12", "-export", *both, *plain, "-name", "Schlüssel", "-macalg", "sha1", "-out", "plain.p12")
        self.openssl("pkcs12", "-export", *both, *plain, "-nomac", "-out", "nomac.p12")
        # in place of a name of as many units, one past U+FFFF, which is no BMPString, and one that is no text
        for name, text in (("smile.p12", "Schlü😀el"), ("half.p12", "Schlü\ud83dsel")):
            units, named = (it.encode("utf-16-be", "surrogatepass") for it in ("Schlüssel", text))
            self.put(name, self.octets("plain.p12").replace(units, named))
        self.put("nested.p12", nested_store(self.octets("smile.p12")))
        self.put("password", b"secret\n")
        self.put("other", b"Secret\n")
        self.put("empty.p12", EMPTY)

    def signed(self):
        """Signed files, whole and changed ones."""
        self.put("data", b"some content\n" * 10)
        self.put("otherdata", b"some Content\n" * 10)
        self.sign("attributes.p7s", "-nodetach")
        self.sign("noattributes.p7s", "-nodetach", "-noattr")
        self.sign("detached.p7s")
        self.sign("keyid.p7s", "-nodetach", "-keyid")
        self.sign("nocertificate.p7s", "-nodetach", "-nocerts")
        self.sign("pss.p7s", "-nodetach", "-keyopt", "rsa_padding_mode:pss")
        self.sign("ec.p7s", "-nodetach", "-md", "sha384", key="ec")
        self.sign("signed.pem", "-nodetach", out="PEM")
        self.sign("stream.p7s", "-nodetach", "-stream")
        self.sign("two.p7s", "-nodetach", "-signer", "ec.pem", "-inkey", "ec.key")
        whole = self.octets("attributes.p7s")
        self.put("digest.p7s", of_other_content(whole))
        self.put("wrong.p7s", with_another_end(whole))
        self.put("nodigest.p7s", without_the_attribute("messageDigest", whole))
        self.put("type.p7s", of_another_type(whole))
        self.put("broken.p7s", whole[:400])
        self.put("many.p7s", within(self.octets("ec.p7s"), SIGNERS, lambda signer: signer * MANY))

    def third_versions(self):
        """Signers that are named by a key identifier, and content of another type than data."""
        by_key = ["-keyid", "-nodetach"]
        self.sign("keyid-noattributes.p7s", *by_key, "-noattr")
        self.sign("keyid-detached.p7s", "-keyid")
        self.sign("keyid-nocertificate.p7s", *by_key, "-nocerts")
        self.sign("other.p7s", *by_key, "-econtent_type", "1.2.3.4")
        self.sign("other-noattributes.p7s", "-nodetach", "-noattr", "-econtent_type", "1.2.3.4")
        whole = self.octets("keyid.p7s")
        self.put("keyid-digest.p7s", of_other_content(whole))
        self.put("keyid-wrong.p7s", with_another_end(whole))
        self.put("keyid-nodigest.p7s", without_the_attribute("messageDigest", whole))
        self.put("keyid-notype.p7s", without_the_attribute("contentType", whole))
        self.put("keyid-type.p7s", of_another_type(whole))
        self.put("empty.p7s", with_empty_attributes(self.octets("noattributes.p7s")))
        # the attribute signingTime becomes a second messageDigest
        self.put("keyid-twice.p7s", whole.replace(oid("signingTime"), oid("messageDigest")))

    def others(self):
        """Enveloped files, time stamps and revocation lists."""
        self.openssl("cms", "-encrypt", "-in", "data", "-outform", "DER", "-out", "enveloped.p7m", "rsa.pem")
        self.put("service.cnf", SERVICE.encode())
        for name, text in (("index.txt", b""), ("crlnumber", b"1000\n"), ("serial", b"01\n"), ("tsserial", b"01\n")):
            self.put(name, text)
        authority = ["-config", "service.cnf", "-keyfile", "rsa.key", "-cert", "rsa.pem"]
        self.openssl("ca", *authority, "-revoke", "ec.pem", "-crl_reason", "keyCompromise")
        self.openssl("ca", *authority, "-gencrl", "-out", "list.pem")
        self.openssl("crl", "-in", "list.pem", "-outform", "DER", "-out", "list.crl")
        self.openssl(
            *("req", "-x509", "-newkey", "rsa:2048", "-nodes", "-subj", "/CN=clock", "-keyout", "clock.key"),
            *("-out", "clock.pem", "-addext", "extendedKeyUsage=critical,timeStamping"),
        )
        self.openssl("ts", "-query", "-data", "data", "-sha256", "-cert", "-out", "stamp.tsq")
        reply = ["-config", "service.cnf", "-queryfile", "stamp.tsq", "-signer", "clock.pem", "-inkey", "clock.key"]
        self.openssl("ts", "-reply", *reply, "-out", "stamp.tsr")
        self.openssl("ts", "-reply", "-in", "stamp.tsr", "-token_out", "-out", "stamp.tst")


@functools.lru_cache(maxsize=None)
def files():
    """The folder of the files that all tests have."""
    room = built.room() / "command"
    room.mkdir()
    return Files(room).room


def of_other_content(whole):
    return whole.replace(b"some content\n", b"some Content\n", 1)


def with_another_end(whole):
    """The same with the last octet changed, which is of the signature."""
    return whole[:-1] + bytes([whole[-1] ^ 1])


def without_the_attribute(name, whole):
    """The same with an attribute of no known type in the place of each of this one."""
    return whole.replace(oid(name), oid(name)[:-1] + b"\x63")


def of_another_type(whole):
    """The same with another content type in its signed attributes, which is that of encrypted data."""
    said, other = (oid("contentType") + set_of(oid(it)) for it in ("data", "1.2.840.113549.1.7.6"))
    return whole.replace(said, other)


def with_empty_attributes(whole):
    """The same with an empty set of signed attributes, before the signature algorithm."""

    def change(signer):
        found = parts(signer)
        return sequence(*found[:3], explicit(0), *found[3:])

    return within(whole, SIGNERS, change)


def nested_store(store):
    """A store with the bags of one that encrypts none of them, and these in bags once more, three levels deep; with a
    certificate that isn't one of X.509, and a revocation list."""
    safe_contents = (contents(part(info, 1, 0)) for info in parts(contents(part(store, 1, 1, 0))))
    bags = b"".join(contents(it) for it in safe_contents)
    for _ in range(3):
        bags += bare_bag("safe contents bag", sequence(bags))
    # a certificate bag that holds no X.509 certificate, but an SDSI one
    bags += bare_bag("certificate bag", content_info("1.2.840.113549.1.9.22.2", element(0x16, b"AAAA")))
    bags += bare_bag("list bag", content_info("X.509 list", octet_string(EMPTY_LIST)))
    kept = content_info("data", octet_string(sequence(bags)))
    return sequence(integer(3), content_info("data", octet_string(sequence(kept))))


class Command(Folder, unittest.TestCase):
    """Tests of the command, each in a new folder with all files."""

    def setUp(self):
        built.use_shared()
        room = tempfile.mkdtemp()
        self.addCleanup(shutil.rmtree, room)
        self.room = Path(room)
        shutil.copytree(files(), room, dirs_exist_ok=True)
        os.chmod(room, 0o755)

    def environment(self, **more):
        """The environment in which the command is run."""
        package = {"PYTHONPATH": str(built.TOP / "python"), "PYTHONDONTWRITEBYTECODE": "1", "NO_COLOR": ""}
        return {**os.environ, **package, "VUYHANIP_DERTREE": str(built.program("dertree")), **more}

    def command(self, *words, text=None, more=None):
        """Runs the command: its status, its output as text, and its complaints."""
        words = [sys.executable, "-m", "vuyhanip", *words]
        ran = tools.ended(*words, text=text, cwd=self.room, env=self.environment(**(more or {})))
        return ran.returncode, ran.stdout.decode("utf-8", "replace"), ran.stderr.decode("utf-8", "replace")

    def says(self, words, wanted, status=0, more=None):
        """Asks that the command says these lines, and nothing on standard error."""
        ended, said, complaints = self.command(*words, more=more)
        self.assertEqual((ended, said, complaints), (status, "".join(f"{it}\n" for it in wanted), ""))

    def finds(self, words, wanted, status=0):
        """Asks that each of some patterns is in what the command says."""
        ended, said, complaints = self.command(*words)
        self.assertEqual((ended, complaints), (status, ""), said)
        for it in wanted:
            self.assertRegex(said, re.compile(it, re.MULTILINE))
        return said
