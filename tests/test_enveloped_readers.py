"""Which programs read which form of enveloped data that is built: with recipients of each kind, by several algorithms,
with content of other types, elsewhere, or of 0 octets. openssl encrypts the content and, for each recipient, the key.
What each program makes of each form is as the table in docs/FORMATS.md says; and none of them gives the content where
an octet of the encrypted key is another one, or of what names the recipient. 50 files with random recipients and
contents, or as many as the environment variable ENVELOPED says, for a release 1,000, are decrypted by openssl for each
recipient, and listed as they were given. And files of openssl are taken apart and built again, octet for octet."""
import functools
import itertools
import os
import random
import re
import unittest
from collections import Counter

from support import built, enveloped_by_openssl, given_enveloped, signing
from support.cases import Comparing
from support.elements import contents, integer, part, parts
from support.enveloped_by_openssl import KEY_PAIRS, KEY_TRANSPORT, PASSWORD
from support.foreign import GPGSM, NSS
from support.given_enveloped import PKCS1, all_forms
from support.statuses import answered
from support.tools import ended, needs, openssl, run
from vuyhanip import build
from vuyhanip.der import EnvelopePart

# How many random files there are.
COUNT = int(os.environ.get("ENVELOPED", 50))
# The tag of a recipient that has a key-encryption key (RFC 5652, 6.2).
KEY_ENCRYPTION_KEY = 0xA2


# What the library finds, in a word


def yes_if(condition):
    return "yes" if condition else "no"


def by_check(kind, form):
    """Whether a form is normal as a kind: as one of a ContentInfo the whole, and otherwise what is in that."""
    text = form.text if kind == "contentinfo" else part(form.text, 1, 0)
    _, verdict, _ = answered(built.library().check, kind, text)
    return yes_if(verdict and verdict.is_normal)


def listed(text):
    """What der_ranges lists of enveloped data: recipients, the algorithm, and the encrypted content or None."""
    those = (built.library().ranges(part_listed, text) for part_listed in EnvelopePart)
    recipients, [algorithm], encrypted = ([text[it.start : it.stop] for it in ranges] for ranges in those)
    return recipients, algorithm, encrypted[0] if encrypted else None


def wanted(form):
    """The same as it was given."""
    return sorted(it.element for it in form.recipients), form.algorithm, None if form.apart else form.encrypted


def by_ranges(form):
    _, found, _ = answered(listed, form.text)
    return yes_if(found == wanted(form))


def by_cmsout(form):
    """Whether openssl cms -cmsout prints a form, and writes anew the same octets."""
    words = "openssl", "cms", "-cmsout", "-inform", "DER", "-in", form.path
    printed, written = ended(*words, "-print", "-noout"), ended(*words, "-outform", "DER")
    return yes_if(printed.returncode == written.returncode == 0 and written.stdout == form.text)


# What programs decrypt for a recipient of that name: octets, or None where they fail


def by_cms(form, name, *more):
    apart = ["-content", form.apart] if form.apart else []
    return enveloped_by_openssl.decrypted(form.path, name, *apart, *more)


def by_smime(form, name):
    """openssl smime takes key pairs alone."""
    apart = ["-content", form.apart] if form.apart else []
    return enveloped_by_openssl.decrypted(form.path, name, *apart, tool="smime") if name in KEY_PAIRS else None


@functools.lru_cache(maxsize=None)
def folder_of_nss(name):
    """A folder of NSS with the key and the certificate of a recipient, if it has a key pair."""
    folder = enveloped_by_openssl.room() / f"nss_{name}"
    folder.mkdir()
    run("certutil", "-N", "-d", folder, "--empty-password")
    if name in KEY_PAIRS:
        certificate, key = enveloped_by_openssl.files_of(name)
        words = "-export", "-inkey", key, "-in", certificate, "-name", name, "-passout", f"pass:{PASSWORD}"
        store = enveloped_by_openssl.put(f"{name}.p12", openssl("pkcs12", *words))
        run("pk12util", "-i", store, "-d", folder, "-W", PASSWORD)
    return folder


def by_nss(form, name):
    apart = ["-c", form.apart] if form.apart else []
    ran = ended("cmsutil", "-D", "-d", folder_of_nss(name), "-i", form.path, *apart)
    return None if ran.returncode else ran.stdout


def group(*items):
    """A list of an S-expression of libgcrypt: of octets, each after its length, and of lists, which are tuples."""
    return b"(" + b"".join(group(*it) if isinstance(it, tuple) else b"%d:%b" % (len(it), it) for it in items) + b")"


def key_of_agent(name):
    """The private key of a recipient as gpg-agent keeps it, without a password."""
    if name == "curve":
        _, private, *_, public = parts(contents(part(signing.octets_of_pem(key_in_pem(name)), 2)))
        fields = {"q": contents(contents(public))[1:], "d": contents(private)}
        return group(b"private-key", (b"ecc", (b"curve", b"NIST P-256"), *named(fields)))
    its = signing.key(KEY_PAIRS[name][0])
    first, second = sorted(its.primes)
    numbers = {"n": its.modulus, "e": its.public, "d": its.private, "p": first, "q": second}
    fields = {letter: contents(integer(it)) for letter, it in {**numbers, "u": pow(first, -1, second)}.items()}
    return group(b"private-key", (b"rsa", *named(fields)))


def key_in_pem(name):
    return enveloped_by_openssl.files_of(name)[1].read_bytes()


def named(fields):
    return tuple((name.encode(), octets) for name, octets in fields.items())


@functools.lru_cache(maxsize=None)
def home_of_gpgsm(name):
    """A folder of gpgsm with the key and the certificate of a recipient, if it has a key pair. gpgsm reads no store with
    a key of a curve, and of some hundred with keys of RSA not one, so the key is put where gpg-agent keeps it."""
    home = enveloped_by_openssl.room() / f"gnupg_{name}"
    home.mkdir(mode=0o700)
    if name in KEY_PAIRS:
        ask = "gpgsm", "--homedir", home, "--batch", "--disable-dirmngr"
        run(*ask, "--import", text=enveloped_by_openssl.certificate(name))
        [grip] = re.findall("^grp:+([0-9A-F]{40}):", run(*ask, "--list-keys", "--with-colons").decode(), re.M)
        keys = home / "private-keys-v1.d"
        keys.mkdir(mode=0o700, exist_ok=True)
        (keys / f"{grip}.key").write_bytes(key_of_agent(name))
    return home


def by_gpgsm(form, name):
    """gpgsm is told the password, for which it then doesn't ask. It ends with 2 where it doesn't know another
    recipient, also if it has decrypted."""
    path, password = enveloped_by_openssl.put("written", b"nothing"), f"{PASSWORD}\n".encode()
    words = "--batch", "--disable-dirmngr", "--disable-crl-checks", "--status-fd", "1", "--yes", "--output", path
    words += "--pinentry-mode", "loopback", "--passphrase-fd", "0", "--decrypt", form.path
    ran = ended("gpgsm", "--homedir", home_of_gpgsm(name), *words, text=password)
    return path.read_bytes() if b"[GNUPG:] DECRYPTION_OKAY\n" in ran.stdout else None


@functools.lru_cache(maxsize=None)
def key_pair_in_cryptography(name):
    """The certificate and the key of a recipient as cryptography has them."""
    from cryptography.hazmat.primitives.serialization import load_pem_private_key
    from cryptography.x509 import load_der_x509_certificate

    certificate = load_der_x509_certificate(enveloped_by_openssl.certificate(name))
    return certificate, load_pem_private_key(key_in_pem(name), None)


def by_cryptography(form, name):
    """pkcs7_decrypt_der takes key pairs alone."""
    from cryptography.exceptions import UnsupportedAlgorithm
    from cryptography.hazmat.primitives.serialization import pkcs7

    if name not in KEY_PAIRS:
        return None
    try:
        return pkcs7.pkcs7_decrypt_der(form.text, *key_pair_in_cryptography(name), [])
    except (TypeError, UnsupportedAlgorithm, ValueError):
        return None


# The table

PAGE = "docs/FORMATS.md"
TABLE = re.compile(r"^##+ Which programs read enveloped data$(.*?)(?=^#|\Z)", re.M | re.S)
OF_LIBRARY = {
    **{kind: functools.partial(by_check, kind) for kind in ("envelopeddata", "contentinfo")}, "der_ranges": by_ranges
}
# Those that decrypt.
DECRYPTERS = {
    "cms -decrypt": by_cms, "smime -decrypt": by_smime, "cmsutil": by_nss, "gpgsm": by_gpgsm,
    "cryptography": by_cryptography,
}
READERS = *OF_LIBRARY, "cms -cmsout", *DECRYPTERS


def table():
    """Of the table in docs/FORMATS.md each row and column, with its word."""
    page = (built.TOP / PAGE).read_text("utf-8")
    lines = [line for line in TABLE.search(page)[1].splitlines() if line.startswith("|")]
    (_, *columns), _, *rows = ([cell.strip(" `") for cell in line.strip("|").split("|")] for line in lines)
    return [((name, column), word) for name, *words in rows for column, word in itertools.zip_longest(columns, words)]


def in_a_word(found, content):
    """What the table says where programs decrypt this for each recipient of a form that has this content."""
    if content in found:
        return "yes" if all(it == content for it in found) else "some"
    return "no content" if all(it == b"" for it in found) else "no"


def has_to_refuse(reader, recipient):
    """Whether a program has to refuse another key for a recipient. By PKCS #1 v1.5 it may go on with a random key, so
    that nobody learns whether the padding was right (RFC 3218), and so openssl does wherever a key is encrypted by
    RSA."""
    is_by_rsa = recipient.element[0] == KEY_TRANSPORT
    return not (recipient.is_by_pkcs1 or is_by_rsa and reader in ("cms -decrypt", "smime -decrypt"))


class Readers(Comparing):
    """Programs that read enveloped data in each form that is built, beside the table in docs/FORMATS.md. The column of
    one that isn't there is left out."""

    def same_column(self, reader, read):
        """Compares what a reader makes of each form, in a word, with its column."""
        said = dict(table())
        for name, form in all_forms().items():
            self.same(read(form), said.get((name, reader)), f"{PAGE}, row {name}, column {reader}: it is")

    def decrypts(self, reader):
        """Compares the column of a reader that decrypts, for each recipient of a form that somebody has the key of."""
        decrypt, count = DECRYPTERS[reader], 0
        self.same_column(reader, lambda form: in_a_word([decrypt(form, name) for name in form.names], form.content))
        for name, form in all_forms().items():
            for recipient in (it for it in form.recipients if it.name):
                if decrypt(form, recipient.name) == form.content:
                    self.refuses_changed(reader, name, form, recipient)
                    count += 1
        self.at_least(count, 8, f"recipients for whom {reader} decrypts")

    def refuses_changed(self, reader, name, form, recipient):
        """Asks that a reader doesn't decrypt a form for a recipient with an octet changed, of its key or its name."""
        decrypt, what = DECRYPTERS[reader], (f"by {reader}, of {name}, for", recipient.name)
        found = decrypt(given_enveloped.with_another_key(form, recipient), recipient.name)
        self.same(found != form.content, True, "another key doesn't give the content,", *what)
        if has_to_refuse(reader, recipient):
            self.same(found, None, "another key,", *what)
        if recipient.identifier:
            found = decrypt(given_enveloped.with_another_name(form, recipient), recipient.name)
            self.same(found, None, "another recipient,", *what)

    def test_the_table_has_each_form_and_each_reader(self):
        found, all_cells = Counter(place for place, _ in table()), Counter(itertools.product(all_forms(), READERS))
        for place in {**found, **all_cells}:
            self.same(found[place], all_cells[place], PAGE + ", cells in row {}, column {}".format(*place))

    def test_the_library(self):
        for reader, read in OF_LIBRARY.items():
            self.same_column(reader, read)

    def test_openssl(self):
        self.same_column("cms -cmsout", by_cmsout)
        for reader in ("cms -decrypt", "smime -decrypt"):
            self.decrypts(reader)

    def test_openssl_refuses_another_key_where_it_is_to_say_so(self):
        """With -debug_decrypt it takes no random key in place of one that it can't decrypt. Of a key by PKCS #1 v1.5
        later versions take one also then."""
        count = 0
        for name, form in all_forms().items():
            for recipient in form.recipients:
                if recipient.name and not recipient.is_by_pkcs1:
                    changed = given_enveloped.with_another_key(form, recipient)
                    found = by_cms(changed, recipient.name, "-debug_decrypt")
                    self.same(found, None, "another key, of", name, "for", recipient.name)
                    found = by_cms(form, recipient.name, "-debug_decrypt")
                    self.same(found, form.content, "the right key, of", name, "for", recipient.name)
                    count += 1
        self.at_least(count, 8, "recipients")

    def test_openssl_decrypts_for_the_other_recipients_of_a_changed_form(self):
        """So only the recipient is changed that is to be."""
        count = 0
        for name, form in all_forms().items():
            for recipient in (it for it in form.recipients if it.name and len(form.names) > 1):
                for other in (it for it in form.names if it != recipient.name):
                    found = by_cms(given_enveloped.with_another_key(form, recipient), other)
                    self.same(found, form.content, "of", name, "for", other, "with another key for", recipient.name)
                    count += 1
        self.at_least(count, 12, "other recipients")

    @needs(*NSS)
    def test_nss(self):
        self.decrypts("cmsutil")

    @needs(*GPGSM)
    def test_gpgsm(self):
        try:
            self.decrypts("gpgsm")
        finally:
            for home in enveloped_by_openssl.room().glob("gnupg_*"):
                run("gpgconf", "--homedir", home, "--kill", "all")

    @needs("cryptography")
    def test_cryptography(self):
        from cryptography.hazmat.primitives.serialization import pkcs7

        if not hasattr(pkcs7, "pkcs7_decrypt_der"):
            self.skipTest("not there: pkcs7_decrypt_der")
        self.decrypts("cryptography")


# Files at random


@functools.lru_cache(maxsize=None)
def random_forms():
    built.use_shared()
    chance, room = random.Random(82), enveloped_by_openssl.room()
    plans = [given_enveloped.some_plan(chance) for _ in range(COUNT)]
    return [given_enveloped.form_of(plan, room / f"random{nth}.p7m") for nth, plan in enumerate(plans)]


class RandomFiles(Comparing):
    """Enveloped data of random recipients and contents."""

    def test_openssl_decrypts_them_for_each_recipient(self):
        counts = Counter()
        for form in random_forms():
            for name in form.names:
                found = by_cms(form, name)
                self.same(found, form.content, "what openssl decrypts for", name, "of", form.text)
                counts[name] += 1
        for name in (*KEY_PAIRS, *enveloped_by_openssl.SECRETS, enveloped_by_openssl.BY_PASSWORD):
            self.at_least(counts[name], COUNT // 25, f"recipients by the name {name}")

    def test_openssl_writes_them_as_they_are(self):
        for form in random_forms():
            self.same(by_cmsout(form), "yes", "written by openssl", form.text)

    def test_they_are_listed_as_they_were_given(self):
        for form in random_forms():
            self.same(answered(listed, form.text)[1], wanted(form), "listed", form.text)

    def test_what_is_listed_is_built_again(self):
        """Recipients in any order."""
        chance = random.Random(83)
        for form in random_forms():
            recipients, algorithm, content = listed(form.text)
            chance.shuffle(recipients)
            self.same(build.enveloped(content, recipients, algorithm, **form.more), form.text, "built again")


# Files of openssl


@functools.lru_cache(maxsize=None)
def files_of_openssl():
    """Each file of openssl, and the names of its recipients, by what it is."""
    built.use_shared()
    chance, files = random.Random(84), enveloped_by_openssl.FILES.items()
    contents_of = {name: chance.randbytes(chance.choice(given_enveloped.SIZES)) for name, _ in files}
    found = {
        name: (enveloped_by_openssl.encrypt(command, contents_of[name]), names) for name, (command, names) in files
    }
    its = enveloped_by_openssl.for_each_kind(given_enveloped.AES_256), ["one", "curve", "secret", "password"]
    return {**found, "for a recipient of each kind": its}


def as_given(element):
    """What build.recipient is given of a recipient of openssl that has a key pair of RSA or a key-encryption key; None
    of another one."""
    if element[0] not in (KEY_TRANSPORT, KEY_ENCRYPTION_KEY):
        return None
    _, named_by, algorithm, key = parts(element)
    if element[0] == KEY_ENCRYPTION_KEY:
        its = {"key_identifier": contents(part(named_by, 0)), "is_kek": True}
    elif named_by[0] == 0x80:
        its = {"key_identifier": contents(named_by)}
    else:
        certificates = map(enveloped_by_openssl.certificate, KEY_PAIRS)
        its = {"certificate": next(it for it in certificates if signing.identifier(it) == named_by)}
    return build.Recipient(algorithm, contents(key), **its)


class FilesOfOpenssl(Comparing):
    """Files that openssl encrypts."""

    def test_they_are_built_again_octet_for_octet(self):
        """Of what is listed, recipients in any order."""
        chance = random.Random(85)
        for name, (text, names) in files_of_openssl().items():
            recipients, algorithm, content = listed(text)
            self.at_least(len(recipients), len(names), "recipients")
            chance.shuffle(recipients)
            self.same(build.enveloped(content, recipients, algorithm), text, "a file", name)

    def test_their_recipients_are_built_again_octet_for_octet(self):
        count = 0
        for name, (text, _) in files_of_openssl().items():
            for element in enveloped_by_openssl.recipients_of(text):
                its = as_given(element)
                if its:
                    self.same(build.recipient(its), element, "a recipient of a file", name)
                    count += 1
        self.at_least(count, 18, "recipients")

    def test_their_algorithms_are_those_that_build_has_names_for(self):
        """But for OAEP with SHA-256: openssl leaves out the NULL of SHA-256, and reads it (RFC 4055, 2.1)."""
        for name, its in (
            ("for a certificate", PKCS1[:2]), ("by OAEP", given_enveloped.OAEP_BY_SHA1[:2]),
            ("for a key-encryption key", (build.AES_128_WRAP,)),
        ):
            first = enveloped_by_openssl.recipients_of(files_of_openssl()[name][0])[0]
            self.same(build.algorithm(*its), part(first, 2), "the algorithm of a file", name)


if __name__ == "__main__":
    unittest.main()
