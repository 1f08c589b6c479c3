"""Which programs read which form of signed data that is built: with signed attributes or without, detached, by several
signature algorithms, of two signers, with certificates and revocation lists, or these alone. A signature by RSA is made
of the key's numbers, another one by openssl. What each program makes of each form is as the table in docs/USING.md
says."""
import base64
import datetime
import functools
import hashlib
import itertools
import re
import shutil
import unittest
import warnings
from collections import Counter
from concurrent.futures import ThreadPoolExecutor
from pathlib import Path
from typing import Callable, NamedTuple, Optional

from support import built, elements, making, signing
from support.cases import Comparing
from support.containers import attribute
from support.elements import element, explicit, octet_string, sequence
from support.foreign import GPGSM, SIGNED_BY_NSS
from support.oids import ARCS, oid
from support.statuses import answered
from support.tools import ended, needs, run
from vuyhanip import build, der

# What is built

CONTENT, OTHER_TYPE = b"what is signed\n", "2.999.1"
# When signers sign: a UTCTime for a year up to 2049, and otherwise a GeneralizedTime (RFC 5652, 11.3).
TIME, LATE = (datetime.datetime(year, 2, 28, 12, 34, 56, tzinfo=datetime.timezone.utc) for year in (2040, 2051))
# Each certificate by its name: its key, as support.signing names it; what it is for; and which one certified it.
CERTIFICATES = {
    "root": ("ca", signing.AUTHORITY, None),
    "between": ("middle", signing.AUTHORITY, "root"),
    "rsa": ("rsa", signing.SIGNS, "root"),
    "ec": ("p256", signing.SIGNS, "root"),
    "ed25519": ("ed25519", signing.SIGNS, "root"),
    "leaf": ("again", signing.SIGNS, "between"),
}
CHAIN = "leaf", "between", "root"
# The algorithm of a signature by the key of a certificate, with its parameters.
BY_RSA = build.RSA, build.NULL
ALGORITHMS = {"rsa": BY_RSA, "leaf": BY_RSA, "ec": (build.ECDSA_WITH_SHA256,), "ed25519": (build.ED25519,)}


class By(NamedTuple):
    """A signer that is planned: the name of its certificate, its digest, fields of build.Signer that aren't the usual
    ones, and how it signs where that isn't the usual way."""

    name: str = "rsa"
    digest: str = "sha256"
    fields: dict = {}
    sign: Optional[Callable] = None


class Plan(NamedTuple):
    """Signed data that are planned: signers, content, the names of certificates, which are the signers' where they are
    None, elements beside these, and what else build.signed is given."""

    signers: tuple = (By(),)
    content: Optional[bytes] = CONTENT
    certificates: Optional[tuple] = None
    others: tuple = ()
    more: dict = {}


class Signer(NamedTuple):
    """A signer that was given, its certificate, and its signature of what that covers."""

    given: build.Signer
    certificate: bytes
    covered: bytes
    signature: bytes


class Form(NamedTuple):
    """Signed data in a form: what was given, and the octets that were built, which a file has too. Content that is an
    element is that element's contents octets; lists are revocation lists."""

    signers: tuple
    content: Optional[bytes]
    is_detached: bool
    certificates: list
    lists: list
    text: bytes
    path: Path

    @property
    def apart(self):
        """The certificates of signers that aren't in the file."""
        return [it.certificate for it in self.signers if it.certificate not in self.certificates]


@functools.lru_cache(maxsize=None)
def certificates():
    """All certificates, by name. They are valid for a hundred years: in 2051 too."""
    found = {}
    for name, (key, uses, by) in CERTIFICATES.items():
        issuer = by and f"forms_{by}"
        found[name] = signing.certify(f"forms_{name}", *uses, of=key, by=issuer, more=("-days", "36500"))
    return found


@functools.lru_cache(maxsize=None)
def room():
    """The folder of the forms, and of what programs read them with."""
    folder = built.room() / "signed_forms"
    folder.mkdir()
    (folder / "root.pem").write_bytes(signing.pem(certificates()["root"], "CERTIFICATE"))
    return folder


def file(name, text):
    """A file of the folder with these octets."""
    path = room() / name
    path.write_bytes(text)
    return path


@functools.lru_cache(maxsize=None)
def revocation_list():
    """A revocation list of the root, by openssl."""
    with making.inside(room()):
        making.list_configuration()
        making.put("index", "")
        making.revocation_list("list", f"ca.cnf -keyfile {signing.room() / 'forms_root.key'} -cert root.pem")
        return Path("list").read_bytes()


def signer(by, content):
    """What build.signed is given of a signer."""
    usual = {
        "digest_algorithm": build.algorithm(signing.DIGESTS[by.digest]),
        "signature_algorithm": build.algorithm(*ALGORITHMS[by.name]),
        "certificate": certificates()[by.name],
        "digest": hashlib.new(by.digest, content).digest(),
        "signing_time": TIME,
    }
    return build.Signer(**{**usual, **by.fields})


def signature(by, covered):
    return by.sign(covered) if by.sign else signing.signature_by(CERTIFICATES[by.name][0], by.digest, covered)


def form_of(plan, path):
    """The signed data of a plan, in a file of this path."""
    content = elements.contents(plan.content) if plan.more.get("is_element") else plan.content
    own = [certificates()[by.name] for by in plan.signers]
    held = own if plan.certificates is None else [certificates()[name] for name in plan.certificates]
    given = [signer(by, content) for by in plan.signers]
    made = build.signed(plan.content, given, certificates=[*held, *plan.others], **plan.more)
    signatures = list(map(signature, plan.signers, made.covered))
    path.write_bytes(made.finish(signatures))
    signers = tuple(map(Signer, given, own, made.covered, signatures))
    lists = x509(plan.more.get("crls", ()))
    return Form(signers, content, "detached" in plan.more, held, lists, path.read_bytes(), path)


def usual_but(**fields):
    """Signed data of the usual signer, but for some fields."""
    return Plan((By(fields=fields),))


def plans_of_signers():
    """Plans that differ in what signers have, by their names in docs/USING.md."""
    sha256, null = signing.DIGESTS["sha256"], build.NULL
    capabilities = attribute("1.2.840.113549.1.9.15", sequence(sequence(oid(ARCS["AES-256-CBC"]))))
    one, two = attribute(OTHER_TYPE, octet_string(b"one")), attribute(OTHER_TYPE, octet_string(b"one"), null)
    key_id = elements.contents(signing.key_identifier(certificates()["rsa"]))
    pss = By(
        fields={"signature_algorithm": signing.pss_parameters()}, sign=functools.partial(signing.by_pss, "rsa")
    )
    return {
        "one signer": Plan(),
        "no signed attributes": usual_but(digest=None, signing_time=None),
        "no signing time": usual_but(signing_time=None),
        "a signing time in 2051, a GeneralizedTime": usual_but(signing_time=LATE),
        "S/MIME capabilities, signed": usual_but(attributes=[capabilities]),
        "a signed attribute of two values": usual_but(attributes=[two]),
        "an unsigned attribute": usual_but(unsigned_attributes=[one]),
        "a key identifier": usual_but(certificate=None, key_identifier=key_id),
        "SHA-256 with NULL": usual_but(digest_algorithm=build.algorithm(sha256, null)),
        "sha256WithRSAEncryption": usual_but(signature_algorithm=build.algorithm(build.SHA256_WITH_RSA, null)),
        "RSASSA-PSS": Plan((pss,)),
        "ECDSA with P-256": Plan((By("ec"),)),
        "Ed25519 with SHA-512": Plan((By("ed25519", "sha512"),)),
        "two signers, by RSA and ECDSA": Plan((By(), By("ec"))),
    }


def indirect_data():
    """The content of a signature for Windows, of no image: the digest is of zeros."""
    link = explicit(0, element(0xA2, element(0x80, "<<<Obsolete>>>".encode("utf-16-be"))))
    image = sequence(oid("1.3.6.1.4.1.311.2.1.15"), sequence(element(0x03, b"\x05\xa0"), link))
    return sequence(image, sequence(signing.algorithm(signing.DIGESTS["sha256"], build.NULL), octet_string(bytes(32))))


def plans_of_contents():
    """Plans that differ in the content, and in where it is, alike."""
    indirect = {"content_type": signing.INDIRECT_DATA, "is_element": True}
    return {
        "a detached signature": Plan(more={"detached": True}),
        "content of 0 octets": Plan(content=b""),
        "content of 0 octets, detached": Plan(content=b"", more={"detached": True}),
        f"content of another type ({OTHER_TYPE})": Plan(more={"content_type": OTHER_TYPE}),
        "an element of PKCS #7 (indirect data)": Plan(content=indirect_data(), more=indirect),
    }


def plans_of_lists():
    """Plans that differ in certificates and revocation lists, alike."""
    alone, crls = Plan((), None), {"crls": (revocation_list(),)}
    other = element(0xA3, oid(OTHER_TYPE), build.NULL)
    response = element(0xA1, making.ID_RI_OCSP_RESPONSE, sequence(element(0x0A, b"\6")))
    return {
        "no certificate": Plan(certificates=()),
        "the certificates of a chain": Plan((By("leaf"),), certificates=CHAIN),
        "a certificate of another format": Plan(others=(other,)),
        "a revocation list": Plan(more=crls),
        "an OCSP response as revocation information": Plan(more={"crls": (response,)}),
        "certificates of signers alone": alone._replace(certificates=("rsa", "ec")),
        "the certificates of a chain alone": alone._replace(certificates=CHAIN),
        "a certificate and a revocation list alone": alone._replace(certificates=("rsa",), more=crls),
        "a revocation list alone": alone._replace(certificates=(), more=crls),
        "no signer, certificate or list": alone._replace(certificates=()),
    }


@functools.lru_cache(maxsize=None)
def all_forms():
    """Signed data in each form, by its name."""
    built.use_shared()
    plans = {**plans_of_signers(), **plans_of_contents(), **plans_of_lists()}
    return {name: form_of(plan, room() / f"form{nth}.p7m") for nth, (name, plan) in enumerate(plans.items())}


@functools.lru_cache(maxsize=None)
def changed_forms():
    """Forms whose last octet, which is that of the signature, is another one."""
    found = []
    for name in ("one signer", "no signed attributes", "ECDSA with P-256", "a detached signature"):
        form = all_forms()[name]
        path = file(f"changed_{form.path.name}", form.text[:-1] + bytes([form.text[-1] ^ 1]))
        found.append(form._replace(text=path.read_bytes(), path=path))
    return found


# What is found in it

# What the table says of a program that doesn't find what was given: the first word that is so.
WORDS = {
    "octets": "other octets", "signers": "other signers", "verified": "not verified", "content": "no content",
    "certificates": "no certificates", "lists": "no lists", "times": "no times",
}


def wanted(form):
    """All that programs may find in a form: its octets, signers, how many signatures are right, and so on."""
    times = [it.given.signing_time for it in form.signers]
    return {
        "octets": form.text,
        "signers": sorted(given_row(form, it) for it in form.signers),
        "verified": len(form.signers),
        "content": form.content,
        "certificates": sorted(form.certificates),
        "lists": sorted(form.lists),
        "times": [it for it in times if it],
    }


def in_a_word(found, form):
    """What the table says of what a program finds, which is None where it fails."""
    if found is None:
        return "no"
    its = wanted(form)
    return next((word for name, word in WORDS.items() if name in found and found[name] != its[name]), "yes")


def content_if(form, content):
    """The content that is found, of a form that has it."""
    return {} if form.is_detached or form.content is None else {"content": content}


def x509(those):
    """Those that are X.509 certificates or revocation lists, and not other choices (RFC 5652, 10.2)."""
    return sorted(bytes(it) for it in those if it[0] == 0x30)


def blocks(text, label):
    """Those that PEM blocks of a label hold."""
    found = re.findall(rf"-----BEGIN {label}-----(.*?)-----END {label}-----".encode(), text, re.S)
    return x509(map(base64.b64decode, found))


def times_in(text, pattern, shown):
    """The times in UTC that a program shows."""
    found = re.findall(pattern, text.decode("utf-8", "replace"), re.M)
    return [datetime.datetime.strptime(it, shown).replace(tzinfo=datetime.timezone.utc) for it in found]


def pem_of(those):
    """A file with certificates in PEM."""
    return file("apart.pem", b"".join(signing.pem(it, "CERTIFICATE") for it in those))


# What the library finds


def given_row(form, it):
    """A signer of a form as the library is to list it."""
    given = it.given
    found = given.digest, given.digest_algorithm, given.signature_algorithm, given.key_identifier, given.signing_time
    certificate = it.certificate if it.certificate in form.certificates else None
    return it.signature, it.covered, certificate, tuple(given.unsigned_attributes), found


def listed_row(form, it):
    """A signer alike that the library lists. What it covers may be content that the file doesn't have."""
    found = it.digest, it.digest_algorithm, it.signature_algorithm, it.key_identifier
    covered = form.content if it.covered is None else it.covered
    octets = [None if each is None else bytes(each) for each in (it.signature, covered, it.certificate, *found)]
    return (*octets[:3], tuple(map(bytes, it.unsigned_attributes)), (*octets[3:], it.signing_time))


def by_check(kind, form):
    """A check of a form as a kind: what is normal is written as it is."""
    _, verdict, _ = answered(built.library().check, kind, form.text)
    return verdict and {"octets": form.text if verdict.is_normal else b""}


def by_rows(form):
    _, found, _ = answered(built.library().signed, form.text)
    if found is None or any(isinstance(it, der.BadAttributes) for it in found.signers):
        return None
    return {
        "signers": sorted(listed_row(form, it) for it in found.signers),
        "certificates": x509(found.certificates),
        "lists": x509(found.crls),
        **content_if(form, found.content),
    }


# What other programs find


def by_verify(form):
    """openssl cms -verify succeeds where each signature is right."""
    path, more = file("written", b"nothing"), ["-certfile", pem_of(form.apart)] if form.apart else []
    if form.is_detached:
        more += ["-content", file("content", form.content)]
    trust = "-CAfile", room() / "root.pem", "-purpose", "any"
    ran = ended("openssl", "cms", "-verify", "-binary", "-inform", "DER", "-in", form.path, "-out", path, *trust, *more)
    return None if ran.returncode else {"content": path.read_bytes()}


def by_cmsout(form):
    """openssl cms -cmsout prints, and writes anew, what it parsed."""
    words = "openssl", "cms", "-cmsout", "-inform", "DER", "-in", form.path
    printed, written = ended(*words, "-print", "-noout"), ended(*words, "-outform", "DER")
    if printed.returncode or written.returncode:
        return None
    times = times_in(printed.stdout, r"(?:UTC|GENERALIZED)TIME:(.*) GMT$", "%b %d %H:%M:%S %Y")
    return {"octets": written.stdout, "times": times}


def by_pkcs7(form):
    ran = ended("openssl", "pkcs7", "-inform", "DER", "-in", form.path, "-print_certs")
    if ran.returncode:
        return None
    return {"certificates": blocks(ran.stdout, "CERTIFICATE"), "lists": blocks(ran.stdout, "X509 CRL")}


def by_certtool(form):
    """certtool shows a file, verifies it, and writes its content, by a command each."""
    shown = ended("certtool", "--p7-info", "--inder", "--infile", form.path)
    if shown.returncode:
        return None
    by = ("--load-certificate", pem_of(form.apart)) if form.apart else ("--load-ca-certificate", room() / "root.pem")
    data = ("--load-data", file("content", form.content)) if form.is_detached else ()
    said = ended("certtool", "--p7-verify", "--inder", "--infile", form.path, *by, *data)
    content = ended("certtool", "--p7-info", "--p7-show-data", "--inder", "--infile", form.path)
    return {
        "verified": said.stderr.count(b"Signature status: ok"),
        "certificates": blocks(shown.stdout, "CERTIFICATE"),
        "lists": blocks(shown.stdout, "X509 CRL"),
        "times": times_in(shown.stdout, r"^\s*Signing time: (.*)$", "%a %b %d %H:%M:%S UTC %Y"),
        **content_if(form, content.stdout),
    }


@functools.lru_cache(maxsize=None)
def folder_of_nss(*apart):
    """A folder of NSS with the root, which it trusts, and further certificates."""
    folder = room() / f"nss{len(apart)}"
    folder.mkdir()
    run("certutil", "-N", "-d", folder, "--empty-password")
    for name, trust, it in [("root", "C,C,C", certificates()["root"]), *(("apart", ",,", it) for it in apart)]:
        run("certutil", "-A", "-d", folder, "-n", name, "-t", trust, text=it)
    return folder


def by_nss(form):
    """cmsutil says of each signer whether it is right, before the content."""
    data = ("-c", file("content", form.content)) if form.is_detached else ()
    ran = ended("cmsutil", "-D", "-d", folder_of_nss(*form.apart), "-h", "0", "-i", form.path, *data)
    if ran.returncode:
        return None
    heads, _, content = ran.stdout.rpartition(b"level=0.1;")
    return {"verified": heads.count(b"status=GoodSignature;"), **content_if(form, content.partition(b"\n")[2])}


@functools.lru_cache(maxsize=None)
def home_of_gpgsm():
    """A folder of gpgsm with the root, which it trusts."""
    home = room() / "gnupg"
    home.mkdir(mode=0o700)
    root = hashlib.sha1(certificates()["root"]).hexdigest().upper()
    (home / "trustlist.txt").write_text(f"{root} S relax\n")
    run(*ask_gpgsm(home), "--import", text=certificates()["root"])
    return home


def ask_gpgsm(home):
    return "gpgsm", "--homedir", home, "--batch", "--disable-dirmngr", "--disable-crl-checks", "--status-fd", "1"


def by_gpgsm(form):
    """gpgsm keeps the certificates of a file that it verifies, in a folder of its own here."""
    home, path = shutil.copytree(home_of_gpgsm(), form.path.with_suffix(".gnupg")), file("written", b"nothing")
    ask = ask_gpgsm(home)
    try:
        if form.apart:
            run(*ask, "--import", pem_of(form.apart))
        words = ["--verify", form.path, file("content", form.content)] if form.is_detached else []
        ran = ended(*ask, *(words or ["--yes", "--output", path, "--verify", form.path]))
        kept = run(*ask, "--list-keys", "--with-colons").decode()
    finally:
        run("gpgconf", "--homedir", home, "--kill", "all")
    if ran.returncode:
        return None
    digests = {it.lower() for it in re.findall("^fpr:+([0-9A-F]{40}):", kept, re.M)}
    return {
        "verified": len(re.findall(rb"^\[GNUPG:\] GOODSIG ", ran.stdout, re.M)),
        "certificates": sorted(it for it in form.certificates if hashlib.sha1(it).hexdigest() in digests),
        "times": times_in(ran.stdout, r"^\[GNUPG:\] VALIDSIG \w+ \S+ (\w+T\w+) ", "%Y%m%dT%H%M%S"),
        **content_if(form, path.read_bytes()),
    }


def by_keytool(form):
    ran = ended("keytool", "-J-Duser.language=en", "-printcert", "-rfc", "-file", form.path)
    return None if ran.returncode else {"certificates": blocks(ran.stdout, "CERTIFICATE")}


# Says of each file what the class finds that Java has for PKCS #7: a word and octets in hexadecimal, or a time, in a
# line. After the path of a file comes that of content that is detached, or one that isn't there.
JAVA = """
import java.io.IOException;
import java.nio.file.*;
import java.security.*;
import java.util.*;
import sun.security.pkcs.*;

class Reads {
    static void say(String what, byte[] octets) {
        System.out.println(what + " " + HexFormat.of().formatHex(octets));
    }

    static SignerInfo[] verified(PKCS7 file, byte[] content) {
        try {
            SignerInfo[] found = file.verify(content);
            return found == null ? new SignerInfo[0] : found;
        } catch (GeneralSecurityException failed) {
            return new SignerInfo[0];
        }
    }

    static byte[] content(PKCS7 file) {
        try {
            return file.getContentInfo().getContentBytes();
        } catch (IOException failed) {
            return null;
        }
    }

    static void read(PKCS7 file, byte[] detached) throws Exception {
        for (var signer : verified(file, detached)) {
            say("verified", signer.getEncryptedDigest());
            var attributes = signer.getAuthenticatedAttributes();
            var time = attributes == null ? null : attributes.getAttribute(PKCS9Attribute.SIGNING_TIME_OID);
            if (time != null) System.out.println("time " + ((Date) time.getValue()).getTime());
        }
        if (file.getCertificates() != null) for (var it : file.getCertificates()) say("certificate", it.getEncoded());
        if (file.getCRLs() != null) for (var it : file.getCRLs()) say("list", it.getEncoded());
        if (content(file) != null) say("content", content(file));
    }

    public static void main(String[] paths) throws Exception {
        for (int i = 0; i < paths.length; i += 2) {
            System.out.println("file " + paths[i]);
            Path content = Path.of(paths[i + 1]);
            try {
                var file = new PKCS7(Files.readAllBytes(Path.of(paths[i])));
                read(file, Files.exists(content) ? Files.readAllBytes(content) : null);
            } catch (Exception failed) {
                System.out.println("failed " + failed);
            }
        }
    }
}
"""


@functools.lru_cache(maxsize=None)
def said_by_java():
    """What Java's PKCS7 says of each form, by its path: lines of two words."""
    program, paths = file("Reads.java", JAVA.encode()), []
    for form in (*all_forms().values(), *changed_forms()):
        paths += [form.path, file(f"{form.path.stem}.content", form.content) if form.is_detached else "none"]
    said = run("java", "--add-exports=java.base/sun.security.pkcs=ALL-UNNAMED", program, *paths, cwd=room()).decode()
    files = (block.partition("\n") for block in re.split("^file ", said, flags=re.M)[1:])
    return {path: [line.split(" ", 1) for line in lines.splitlines()] for path, _, lines in files}


def by_java(form):
    found = {}
    for word, value in said_by_java()[str(form.path)]:
        found.setdefault(word, []).append(value)
    if "failed" in found:
        return None
    seconds = (int(it) / 1000 for it in found.get("time", ()))
    return {
        "verified": len(found.get("verified", ())),
        "certificates": sorted(map(bytes.fromhex, found.get("certificate", ()))),
        "lists": sorted(map(bytes.fromhex, found.get("list", ()))),
        "times": [datetime.datetime.fromtimestamp(it, datetime.timezone.utc) for it in seconds],
        **content_if(form, *map(bytes.fromhex, found.get("content", [""]))),
    }


def by_cryptography(form):
    from cryptography.hazmat.primitives.serialization import Encoding, pkcs7

    try:
        with warnings.catch_warnings():
            warnings.simplefilter("ignore")
            found = pkcs7.load_der_pkcs7_certificates(form.text)
    except ValueError:
        return None
    return {"certificates": sorted(it.public_bytes(Encoding.DER) for it in found)}


# The table

TABLE = re.compile(r"^##+ Which programs read signed data$(.*?)(?=^#|\Z)", re.M | re.S)
KINDS, OF_OPENSSL = ("pkcs7certificate", "contentinfo"), ("cms -verify", "cms -cmsout", "pkcs7")
READERS = {
    **{kind: functools.partial(by_check, kind) for kind in KINDS}, "der_signer_rows": by_rows,
    "cms -verify": by_verify, "cms -cmsout": by_cmsout, "pkcs7": by_pkcs7, "certtool": by_certtool, "cmsutil": by_nss,
    "gpgsm": by_gpgsm, "keytool": by_keytool, "PKCS7": by_java, "cryptography": by_cryptography,
}
# Those that verify signatures.
VERIFIERS = "cms -verify", "certtool", "cmsutil", "gpgsm", "PKCS7"


def table():
    """Of the table in docs/USING.md each row and column, with its word."""
    page = (built.TOP / "docs/USING.md").read_text("utf-8")
    lines = [line for line in TABLE.search(page)[1].splitlines() if line.startswith("|")]
    (_, *columns), _, *rows = ([cell.strip(" `") for cell in line.strip("|").split("|")] for line in lines)
    return [((name, column), word) for name, *words in rows for column, word in itertools.zip_longest(columns, words)]


class Readers(Comparing):
    """Programs that read signed data in each form that is built, beside the table in docs/USING.md. The column of one
    that isn't there is left out."""

    def same_column(self, reader, mapped=map):
        """Compares what a reader makes of each form, in a word, with its column. Of those that verify it asks that they
        call no changed signature right."""
        said, forms = dict(table()), all_forms()
        for (name, form), found in zip(forms.items(), mapped(READERS[reader], forms.values())):
            word = in_a_word(found, form)
            self.same(word, said.get((name, reader)), f"docs/USING.md, row {name}, column {reader}: it is")
        for form in changed_forms() if reader in VERIFIERS else []:
            word = in_a_word(READERS[reader](form), form)
            self.same(word in ("no", "not verified"), True, f"{word}, by {reader}, of a changed signature", form.text)

    def test_the_table_has_each_form_and_each_reader(self):
        found, all_cells = Counter(place for place, _ in table()), Counter(itertools.product(all_forms(), READERS))
        for place in {**found, **all_cells}:
            self.same(found[place], all_cells[place], "docs/USING.md, cells in row {}, column {}".format(*place))

    def test_the_library(self):
        for reader in (*KINDS, "der_signer_rows"):
            self.same_column(reader)

    def test_openssl(self):
        for reader in OF_OPENSSL:
            self.same_column(reader)

    @needs("certtool")
    def test_certtool(self):
        self.same_column("certtool")

    @needs(*SIGNED_BY_NSS)
    def test_nss(self):
        self.same_column("cmsutil")

    @needs(*GPGSM)
    def test_gpgsm(self):
        self.same_column("gpgsm")

    @needs("keytool")
    def test_keytool(self):
        with ThreadPoolExecutor() as pool:
            self.same_column("keytool", pool.map)

    @needs("java", "javac")
    def test_java(self):
        self.same_column("PKCS7")

    @needs("cryptography")
    def test_cryptography(self):
        self.same_column("cryptography")


if __name__ == "__main__":
    unittest.main()
