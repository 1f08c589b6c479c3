"""The verbs of example_containers over files of openssl, beside what openssl writes or says: a key store is openssl's
octet for octet, and openssl opens it with a MAC that Python's hashlib makes; enveloped data are openssl's octet for
octet, and openssl decrypts what was encrypted outside; certificates as signed data likewise; and time stamps, digests of
programs, trust lists and revocation lists beside what openssl and osslsigncode say of them. And c/examples/digest.c
over signatures of a program and of a cabinet, beside what osslsigncode says, and over signed data by hand;
c/examples/entries.c over trust lists that openssl makes, and by hand; and c/examples/parameters.c over stores of
openssl, by what it was asked for, and by hand. Keys that c/examples/encrypt.c and python/examples/encrypt.py encrypt
openssl opens, with their password and with no other; so it does stores that python/examples/build_store.py builds, and
stores of c/examples/build_store.c, which are what is made by hand. What c/examples/build_signed.c and
python/examples/build_signed.py sign is what openssl makes in the same second, but for the signature by an elliptic
curve, and openssl verifies it. What c/examples/build_enveloped.c and python/examples/build_enveloped.py encrypt is what
openssl makes, but for what is random, and openssl decrypts it with the key of the certificate alone."""
import functools
import hashlib
import itertools
import os
import random
import re
import sys
import unittest
from pathlib import Path

from support import built, encrypted, inputs, macs, making, oids, tools
from support.cases import Comparing
from support.containers import SHA256, attribute, bag, bare_bag, bmp_string, content_info, store_of
from support.elements import at, contents, element, octet_string, part, parts, sequence
from support.inputs import CABINET, IMAGE, MAY_BE_ABSENT, TRUST_LIST, trust_entry, trust_list
from support.making import put, run
from support.signing import INDIRECT_DATA
from support.tools import needs
from vuyhanip.der import GivenSigner, PasswordHolder

WRAPPING_KEY, KEY_ID = bytes(range(16)), bytes.fromhex("C0FFEE")
SHA_256 = "2.16.840.1.101.3.4.2.1"
# The type of an entry's attribute in a trust list, its friendly name.
FRIENDLY_NAME = "1.3.6.1.4.1.311.10.11.11"
PASSWORD, ITERATIONS = "test", 2048
NAMES = "a", "Größe", "x" * 40
SIZES = 0, 1, 16, 1000, 70000
MONTHS = "Jan Feb Mar Apr May Jun Jul Aug Sep Oct Nov Dec".split()
DIGEST_IN_C, ENTRIES_IN_C, PARAMETERS_IN_C, ENCRYPT_IN_C, BUILD_IN_C, SIGN_IN_C, VERIFY_IN_C, ENVELOP_IN_C = (
    built.TOP / f"c/examples/{name}.c" for name in (
        "digest", "entries", "parameters", "encrypt", "build_store", "build_signed", "verify", "build_enveloped")
)
ENCRYPT_IN_PYTHON, BUILD_IN_PYTHON, SIGN_IN_PYTHON, ENVELOP_IN_PYTHON = (
    built.TOP / f"python/examples/{name}.py" for name in ("encrypt", "build_store", "build_signed", "build_enveloped")
)
# Passwords, and what an example says of a key that it encrypted with one, and of contents.
PASSWORDS = PASSWORD, "Größe, with blanks \r", "x" * 300
ENCRYPTED = "key: PBES2, PBKDF2, 600000 iterations, salt of 16 octets, hmacWithSHA256, aes-256-cbc"
ENCRYPTED_TOO = ENCRYPTED.replace("key", "contents")
# How many octets these have room for, which read one less, and what they say where there is nothing to say.
MOST_IN_C = 1 << 22
NO_DIGEST, NO_LIST = (f"no {what}: the content has another type" for what in ("digest of a file", "trust list"))
# What a program says of a file that is another than its type asks for.
ILL = "a file isn't what its type asks for"
OTHER = "the content has another type"


def octets(file):
    return Path(file).read_bytes()


def wrote(*words):
    """What example_containers writes."""
    return tools.run(built.program("example_containers"), *words)


def listed(word, file):
    """What example_containers lists of a file, without white space before and after lines."""
    lines = tools.run(built.program("example_containers"), word, file).decode().splitlines()
    return [line.strip() for line in lines]


def refusal(*words):
    """Why example_containers refuses the words."""
    ran = tools.ended(built.program("example_containers"), *words)
    return ran.stderr.decode().partition(": ")[2].strip() if ran.returncode == 1 else f"status {ran.returncode}"


def shown(file, what):
    """The contents of the elements of one kind of a file, at the places that openssl shows: of a salt whose octets happen
    to be printable it shows no hex dump, but text."""
    lines, whole = run(f"openssl asn1parse -inform DER -in {file}").decode().splitlines(), octets(file)
    return [at(whole, int(line.split(":")[0])).contents(whole) for line in lines if f" prim: {what}" in line]


def pem_blocks(text):
    return re.findall(rb"-----BEGIN.*?-----END [A-Z ]+-----\n", text, re.S)


def in_der(name):
    """Keeps a certificate in DER: NAME of NAME.pem."""
    run(f"openssl x509 -in {name}.pem -outform DER -out {name}")


def fingerprint(file):
    """The SHA-1 of a file, in hexadecimal."""
    return run(f"openssl dgst -sha1 -r {file}").decode().split()[0]


class Recipe(Comparing):
    """Tests of a recipe, each in a folder of its own."""

    def setUp(self):
        super().setUp()
        folder = making.inside_a_new_folder()
        folder.__enter__()
        self.addCleanup(folder.__exit__, None, None, None)


def opened(store, password=PASSWORD):
    """The key and the certificate of a store, which openssl takes out where the MAC is right."""
    ran = tools.ended("openssl", "pkcs12", "-in", store, "-passin", f"pass:{password}", "-nodes")
    return pem_blocks(ran.stdout) if ran.returncode == 0 else "refused"


def mac_of(covered, salt):
    """The MAC of RFC 7292, appendix B, by SHA-256."""
    return macs.mac("sha256", PASSWORD, salt, ITERATIONS, covered)


@functools.lru_cache(maxsize=None)
def keys():
    """The folder of two keys, of which there are PEM and, as KEY.pkcs8, KEY.der and KEY.id, what a store is made of."""
    room = built.room() / "recipes"
    room.mkdir()
    with making.inside(room):
        making.certificate("one")
        making.certificate("two", key="rsa:2048")
        for key in ("one", "two"):
            run(f"openssl pkcs8 -topk8 -nocrypt -in {key}.key -outform DER -out {key}.pkcs8")
            run(f"openssl x509 -in {key}.pem -outform DER -out {key}.der")
            # the key identifier is the SHA-1 of the certificate
            put(f"{key}.id", bytes.fromhex(fingerprint(f"{key}.der")))
    return room


class Stores(Recipe):
    """Stores of a key and its certificate, under a name."""

    def setUp(self):
        super().setUp()
        for file in keys().iterdir():
            put(file.name, file.read_bytes())

    def each(self):
        """Of each key and name what it is, and the key; the store is in the file `made`, and openssl's in the files `bare`,
        without a MAC, and `whole`."""
        for key in ("one", "two"):
            for name in NAMES:
                options = f"-keypbe NONE -certpbe NONE -name {name}"
                making.store("bare", f"{options} -nomac", key)
                making.store("whole", options, key)
                put("made", wrote("store", f"{key}.pkcs8", f"{key}.der", f"{key}.id", name))
                yield f"a store of {key} by the name {name}", key
        self.at_least(self.compared, 2 * len(NAMES), "stores")

    def test_a_store_is_that_of_openssl(self):
        for what, _ in self.each():
            self.same(octets("made"), octets("bare"), what)

    def test_a_mac_covers_what_that_of_openssl_covers(self):
        for what, _ in self.each():
            digest, salt = shown("whole", "OCTET STRING")[-2:]
            self.same(mac_of(wrote("covered", "made"), salt), digest, what)

    def test_a_store_with_the_mac_of_openssl_is_that_of_openssl(self):
        for what, _ in self.each():
            digest, salt = shown("whole", "OCTET STRING")[-2:]
            put("digest", digest)
            put("salt", salt)
            self.same(wrote("mac", "made", "digest", "salt"), octets("whole"), what)

    def test_openssl_opens_a_store_by_its_password_alone(self):
        """With a MAC by hashlib."""
        for what, key in self.each():
            salt = random.randbytes(20)
            put("salt", salt)
            put("digest", mac_of(wrote("covered", "made"), salt))
            put("sealed", wrote("mac", "made", "digest", "salt"))
            held = [run(f"openssl x509 -in {key}.pem"), run(f"openssl pkey -inform DER -in {key}.pkcs8")]
            self.same(opened("sealed"), held, what)
            self.same(opened("sealed", "other"), "refused", what, "with another password")

    def test_what_is_no_key_or_no_store_is_refused(self):
        # one of some 270 made-up key identifiers is an element, and this is none
        put("none", KEY_ID)
        self.same(refusal("store", "none", "one.der", "one.id", "a"), ILL, "a key that is no element")
        self.same(refusal("mac", "one.pkcs8", "one.id", "one.id"), "refused: invalid", "a store that is none")


class EnvelopedData(Recipe):
    """Content that is encrypted outside, by a key that is wrapped by another one."""

    PARTS = "key_id", "wrapped", "vector", "ciphertext"
    SECRET = f"-secretkey {WRAPPING_KEY.hex()} -secretkeyid {KEY_ID.hex()}"

    def setUp(self):
        super().setUp()
        put("key_id", KEY_ID)

    def test_openssl_decrypts_what_openssl_enc_encrypted(self):
        for size in SIZES:
            content, key, vector = random.randbytes(size), random.randbytes(32), random.randbytes(16)
            put("content", content)
            put("vector", vector)
            run(f"openssl enc -aes-256-cbc -K {key.hex()} -iv {vector.hex()} -in content -out ciphertext")
            run(f"openssl enc -id-aes128-wrap -K {WRAPPING_KEY.hex()} -iv {'A6' * 8}", key, "wrapped")
            put("made", wrote("enveloped", *self.PARTS))
            decrypted = run(f"openssl cms -decrypt -inform DER -binary {self.SECRET} -in made")
            self.same(decrypted, content, size, "octets of content")

    def test_the_parts_of_a_file_of_openssl_make_the_same_file(self):
        for size in SIZES:
            making.seal("sealed", f"-aes-256-cbc {self.SECRET}", random.randbytes(size))
            sealed = octets("sealed")
            _, wrapped, vector = shown("sealed", "OCTET STRING")
            put("wrapped", wrapped)
            put("vector", vector)
            put("ciphertext", contents(parts(making.fields_of(sealed)[-1])[-1]))
            self.same(wrote("enveloped", *self.PARTS), sealed, size, "octets of content")


class Bundles(Recipe):
    """Certificates as signed data without signers."""

    NAMES = "one", "two", "three"

    def setUp(self):
        super().setUp()
        making.certificate("one")
        making.certificate("two", key="rsa:2048")
        making.certificate("three", "/C=DE/O=Größe/CN=three")
        for name in self.NAMES:
            in_der(name)

    def each(self):
        """Some of the certificates; the file `made` has them."""
        for count in (1, 2, 3):
            put("made", wrote("certificates", *self.NAMES[:count]))
            yield self.NAMES[:count]

    def test_a_bundle_is_that_of_openssl(self):
        for names in self.each():
            files = " ".join(f"-certfile {name}.pem" for name in names)
            whole = run(f"openssl crl2pkcs7 -nocrl {files} -outform DER")
            self.same(octets("made"), whole, len(names), "certificates")

    def test_openssl_lists_its_certificates(self):
        for names in self.each():
            found = pem_blocks(run("openssl pkcs7 -inform DER -in made -print_certs"))
            self.same(found, [run(f"openssl x509 -in {name}.pem") for name in names], len(names), "certificates")

    def test_what_is_no_certificate_is_refused(self):
        put("none", KEY_ID)
        self.same(refusal("certificates", "none"), ILL, "a certificate that is no element")


class Lists(Recipe):
    def test_digests_and_attributes_of_a_trust_list(self):
        """By openssl asn1parse -genconf, with the digests of two certificates, and a name of the second."""
        making.certificate("one")
        making.certificate("two")
        in_der("one")
        in_der("two")
        prints = [fingerprint("one"), fingerprint("two")]
        sections = {
            **making.CATALOG,
            "entries": ["SEQUENCE:first", "SEQUENCE:second"],
            "first": [f"FORMAT:HEX,OCT:{prints[0]}", "SET"],
            "second": [f"FORMAT:HEX,OCT:{prints[1]}", "SET:attributes"],
            "attributes": ["SEQUENCE:name"],
            "name": [f"OID:{FRIENDLY_NAME}", "SET:names"],
            "names": ["FORMAT:HEX,OCT:410000000000"],
        }
        making.made_of(sections, "trusted")
        self.same(listed("trusted", "trusted"), [*prints, FRIENDLY_NAME], "a trust list")
        self.same(said_in_c(ENTRIES_IN_C, "trusted"), entry_lines(prints), "the entries in C")
        self.same(refusal("program", "trusted"), OTHER, "a trust list as a program")
        making.sign("signed", "-nodetach -md sha256", "one", random.randbytes(5000))
        self.same(refusal("trusted", "signed"), OTHER, "data as a trust list")

    def test_serial_numbers_days_and_extensions_of_revocation_lists(self):
        making.authority()
        making.revoked()
        for file in ("numbered", "old", "entries"):
            self.same(listed("revoked", file), list(entries(file)), "the revocation list", file)


def entries(file):
    """What a revocation list has, as openssl lists it: serial numbers, days and types of extensions."""
    names = {"CRL Reason Code": "2.5.29.21", "Invalidity Date": "2.5.29.24", "Hold Instruction Code": "2.5.29.23"}
    for line in run(f"openssl crl -inform DER -in {file} -noout -text").decode().splitlines():
        if found := re.match(r" *Serial Number: (\w+)$", line):
            # openssl leaves a first octet 00 out, which says that a number isn't negative
            yield ("00" if int(found[1][0], 16) > 7 else "") + found[1].lower()
        elif found := re.match(r" *Revocation Date: (\w+) +(\d+) [\d:]+ (\d+)", line):
            yield f"{found[3]}-{MONTHS.index(found[1]) + 1:02}-{int(found[2]):02}"
        elif (word := line.strip().removeprefix("X509v3 ").rstrip(":")) in names:
            yield names[word]


@needs("osslsigncode")
class Programs(Recipe):
    """Programs that osslsigncode signs, with a time stamp of its own and with one of a server."""

    FILES = "stamped", "stamped_by_server"

    def setUp(self):
        super().setUp()
        own = "-certs one.pem -key one.key"
        making.certificate("one")
        put("small.exe", making.image())
        with making.stamps() as address:
            making.signed_file("small.exe", "stamped", f"{own} -TSA-certs tsa.pem -TSA-key tsa.key")
            making.signed_file("small.exe", "stamped_by_server", f"{own} -ts {address}/stamp")

    def test_the_digest_of_a_program_is_that_which_osslsigncode_makes_anew(self):
        for file in self.FILES:
            self.same(listed("program", file), [f"{SHA_256} {made_anew(file)}"], file)

    def test_the_time_of_a_stamp_is_that_of_openssl(self):
        for file in self.FILES:
            put("token", token_of(file))
            said = run("openssl ts -reply -token_in -in token -text").decode()
            month, day, clock, year = re.search(r"Time stamp: (\w+) +(\d+) ([\d:]+)\S* (\d+)", said).groups()
            wanted = f"{year}{MONTHS.index(month) + 1:02}{int(day):02}{clock.replace(':', '')}Z"
            self.same(listed("stamps", file)[0], wanted, file)

    def test_openssl_verifies_a_stamp_over_the_digest(self):
        for file in self.FILES:
            put("token", token_of(file))
            time, digest = listed("stamps", file)
            verified = run(f"openssl ts -verify -digest {digest.split()[1]} -token_in -in token -CAfile tsa.pem")
            self.same(verified.strip(), b"Verification: OK", file, "at", time)


def made_anew(file):
    """The digest of a signed file that osslsigncode makes anew. It ends with 1, as it doesn't trust the certificate."""
    said = tools.ended("osslsigncode", "verify", f"{file}.signed").stdout.decode()
    return re.search(r"Calculated message digest *: (\w+)", said)[1].lower()


def token_of(file):
    """The signer's only time stamp, which is the only signed data below the whole."""
    lines, whole = run(f"openssl asn1parse -inform DER -in {file}").decode().splitlines(), octets(file)
    inner = [number for number, line in enumerate(lines) if ":pkcs7-signedData" in line][1]
    return at(whole, int(lines[inner - 1].split(":")[0])).of(whole)


def said_in_c(example, file, by=None):
    """How an example in C ends over a file, and its lines, or what it complains of."""
    ran = tools.ended(built.in_c(example, by=by), file)
    return ran.returncode, (ran.stdout or ran.stderr).decode().splitlines()


def digest_lines(kind, digest):
    """The end and the lines of digest.c on a digest by SHA-256, in hexadecimal, of what has this type."""
    return 0, [f"type: {kind}", f"algorithm: {SHA256.hex()}", f"digest: {digest}"]


def entry_lines(identifiers):
    """Those of entries.c on entries with these identifiers, in hexadecimal."""
    return 0, [f"entries: {len(identifiers)}", *identifiers]


class InC(Recipe):
    """Tests of an example in C."""

    def says(self, example, cases, by=None):
        """Compares how it ends over inputs, and its lines; and asks that it fails where it can't write these."""
        for made, said in cases:
            put("made", made)
            self.same(said_in_c(example, "made", by), said, example.name, made)
            if said[0] == 0 and said[1]:
                self.same(tools.ended_when_full(built.in_c(example, by=by), "made"), 1, example.name, made)

    def reads_less_than_its_room(self, example, of, lines_on):
        """Compares what it says of what is made of lengths: the longest that it reads, and longer ones."""
        length = 2 * MOST_IN_C - 1000 - len(of(MOST_IN_C - 1000))
        whole, less = of(length), of(length - 1)
        self.same(len(whole), MOST_IN_C, "octets")
        refused = 1, [f"not read, or longer than {MOST_IN_C - 1} octets"]
        for made, said in ((whole + b"more", refused), (whole, refused), (less, lines_on(length - 1))):
            put("long", made)
            self.same(said_in_c(example, "long") == said, True, example.name, len(made), "octets")


class Digests(InC):
    """Which digest a signature has, and of what."""

    @needs("osslsigncode")
    def test_it_is_that_which_osslsigncode_makes_anew_of_a_program_and_of_a_cabinet(self):
        making.certificate("one")
        for file, whole, kind in (("program", making.image(), IMAGE), ("cabinet", making.cabinet(), CABINET)):
            put("file", whole)
            making.signed_file("file", file, "-certs one.pem -key one.key")
            self.same(said_in_c(DIGEST_IN_C, file), digest_lines(kind, made_anew(file)), file)

    def example_agrees(self, by=None):
        """Compares what it says of signed data by hand: also of an object identifier with a number that 64 bits don't
        hold, which has no dotted form."""
        long = f"1.2.{2 ** 64}"
        for kind, said in ((IMAGE, IMAGE), ("1.2.3", "1.2.3"), (long, oids.contents(long).hex())):
            made = inputs.signed_over(INDIRECT_DATA, inputs.indirect_data(kind))
            self.says(DIGEST_IN_C, [(made, digest_lines(said, 32 * "11"))], by)
        text = octet_string(b"text")
        other = inputs.signed_over(INDIRECT_DATA, text)
        refused = [
            (inputs.signed_over("data", text), NO_DIGEST),
            (inputs.signed_over(INDIRECT_DATA), NO_DIGEST),
            (other, f"refused: invalid at {other.index(text)}"),
            (b"", "refused: missing at 0"),
        ]
        self.says(DIGEST_IN_C, [(made, (1, [said])) for made, said in refused], by)

    def test_it_is_that_of_signed_data_by_hand(self):
        self.example_agrees()

    @needs("gcc", "clang")
    def test_the_example_that_clang_builds_says_so_too(self):
        self.example_agrees("clang")

    def test_of_a_file_that_is_longer_than_the_example_reads_it_says_nothing(self):
        def of(length):
            attribute = sequence(oids.oid(IMAGE))
            return inputs.signed_over(INDIRECT_DATA, sequence(attribute, sequence(SHA256, octet_string(bytes(length)))))

        self.reads_less_than_its_room(DIGEST_IN_C, of, lambda length: digest_lines(IMAGE, "00" * length))


class TrustLists(InC):
    """The entries of a trust list."""

    def example_agrees(self, by=None):
        """Compares what it says of lists by hand: with all parts and without those that may be absent, of one entry
        whose identifier is empty, and of many; and of what is no list."""
        many = [number.to_bytes(2, "big") for number in range(1000)]
        lists = [({}, [20 * b"\x11", 20 * b"\x22"]), (dict.fromkeys(MAY_BE_ABSENT, b""), [])]
        lists += [({"entries": sequence(*map(trust_entry, its))}, its) for its in ([b""], many)]
        for others, identifiers in lists:
            made = inputs.signed_over(TRUST_LIST, trust_list(**others))
            self.says(ENTRIES_IN_C, [(made, entry_lines([it.hex() for it in identifiers]))], by)
        refused = [(made, f"refused: {reason} at {place}") for made, reason, place in inputs.refused_trust_lists()]
        others = inputs.signed_over("data", trust_list()), inputs.signed_over(TRUST_LIST)
        refused += [*((made, NO_LIST) for made in others), (b"", "refused: missing at 0")]
        self.says(ENTRIES_IN_C, [(made, (1, [said])) for made, said in refused], by)

    def test_they_are_those_of_lists_by_hand(self):
        self.example_agrees()

    def test_they_are_those_that_the_page_shows(self):
        ended, lines = said_in_c(ENTRIES_IN_C, built.TOP / "crates/example_containers/data/trusted")
        shown_there = "\n".join(["```text", *lines, "```"]) in (built.TOP / "docs/USING.md").read_text("utf-8")
        self.same((ended, shown_there), (0, True), "docs/USING.md", lines)

    @needs("gcc", "clang")
    def test_the_example_that_clang_builds_says_so_too(self):
        self.example_agrees("clang")

    def test_of_a_file_that_is_longer_than_the_example_reads_it_says_nothing(self):
        def of(length):
            return inputs.signed_over(TRUST_LIST, trust_list(entries=sequence(trust_entry(bytes(length)))))

        self.reads_less_than_its_room(ENTRIES_IN_C, of, lambda length: entry_lines(["00" * length]))


class Parameters(InC):
    """How a store is encrypted."""

    def example_agrees(self, by=None):
        """Compares what it says of stores by hand, also of an object identifier with a number that 64 bits don't hold,
        which has no dotted form, and of what is no store."""
        self.says(PARAMETERS_IN_C, [(made, (0, lines)) for made, lines in encrypted.stores_of_examples()], by)
        key = encrypted.encrypted_key(encrypted.algorithm(f"1.2.{2 ** 64}"))
        signed = inputs.signed_over("data")
        self.says(PARAMETERS_IN_C, [
            (store_of(bare_bag("shrouded key bag", key)), (0, ["key: unknown"])),
            (signed, (1, [f"refused: invalid at {signed.index(oids.oid('signed data'))}"])),
            (b"", (1, ["refused: missing at 0"])),
        ], by)

    def test_it_is_that_of_stores_by_hand(self):
        self.example_agrees()

    @needs("gcc", "clang")
    def test_the_example_that_clang_builds_says_so_too(self):
        self.example_agrees("clang")

    def test_it_is_that_which_the_page_shows(self):
        ended, lines = said_in_c(PARAMETERS_IN_C, built.TOP / "crates/example_containers/data/store.p12")
        shown_there = "\n".join(["```text", *lines, "```"]) in (built.TOP / "docs/USING.md").read_text("utf-8")
        self.same((ended, shown_there), (0, True), "docs/USING.md", lines)

    def test_it_is_that_which_openssl_was_asked_for(self):
        """The salts are as long as openssl has them."""
        making.certificate("one")
        by_aes = ", ".join(["PBES2, PBKDF2", "{} iterations", r"salt of \d+ octets", "hmacWithSHA256", "aes-{}-cbc"])
        by_des = "pbeWithSHA1And3-KeyTripleDES-CBC, 2048 iterations, salt of 8 octets"
        for options, contents_said, key_said in (
            ("-certpbe AES-256-CBC -keypbe AES-128-CBC -iter 7", by_aes.format(7, 256), by_aes.format(7, 128)),
            ("-certpbe PBE-SHA1-3DES -keypbe PBE-SHA1-3DES", by_des, by_des),
        ):
            making.store("store", options)
            ended, lines = said_in_c(PARAMETERS_IN_C, "store")
            wanted = f"contents: {contents_said}\nkey: {key_said}"
            self.same((ended, bool(re.fullmatch(wanted, "\n".join(lines)))), (0, True), options, lines)

    def test_of_a_file_that_is_longer_than_the_example_reads_it_says_nothing(self):
        def of(length):
            return store_of(bare_bag("shrouded key bag", encrypted.encrypted_key(encrypted.pkcs12(), bytes(length))))

        line = "key: pbeWithSHA1And3-KeyTripleDES-CBC, 2048 iterations, salt of 8 octets"
        self.reads_less_than_its_room(PARAMETERS_IN_C, of, lambda length: (0, [line]))


class Encryption(InC):
    """What is encrypted with a password."""

    def setUp(self):
        super().setUp()
        for file in keys().iterdir():
            put(file.name, file.read_bytes())

    def in_c(self, *files, text, by=None):
        """How the example in C ends over a file, where it reads a text, and what it writes."""
        return tools.ended(built.in_c(ENCRYPT_IN_C, "-lcrypto", by=by), *files, text=text)

    def in_python(self, *files, text):
        """The same of the example in Python."""
        return in_python(ENCRYPT_IN_PYTHON, *files, text=text)

    def encrypts(self, example):
        """Compares what openssl takes out of each key that an example encrypts, and what parameters.c says of it. No
        two are encrypted alike."""
        asked, seen = [("one", PASSWORD), ("two", PASSWORD), *(("one", it) for it in PASSWORDS)], set()
        for key, password in asked:
            ran = example(f"{key}.pkcs8", text=f"{password}\n".encode())
            said = ran.returncode, ran.stderr, decrypted(ran.stdout, password), decrypted(ran.stdout, "other")
            wanted = run(f"openssl pkey -in {key}.key -outform DER")
            self.same(said, (0, b"", wanted, "refused"), key, "with", password)
            store = store_of(bare_bag("shrouded key bag", ran.stdout))
            self.says(PARAMETERS_IN_C, [(store, (0, [ENCRYPTED]))])
            seen |= set(salt_and_vector(ran.stdout))
        self.same(len(seen), 2 * len(asked), "salts and vectors")

    def test_openssl_opens_what_the_example_in_c_encrypts(self):
        self.encrypts(self.in_c)

    @needs("gcc", "clang")
    def test_openssl_opens_what_the_example_that_clang_builds_encrypts(self):
        self.encrypts(functools.partial(self.in_c, by="clang"))

    def test_openssl_opens_what_the_example_in_python_encrypts(self):
        self.encrypts(self.in_python)

    def test_a_file_of_any_length_up_to_the_room_of_the_example_is_encrypted(self):
        """What is in it isn't looked at."""
        password = f"{PASSWORD}\n".encode()
        refused = 1, b"", f"not read, or longer than {MOST_IN_C - 1} octets\n".encode()
        for length in (MOST_IN_C, MOST_IN_C + 1):
            put("long", bytes(length))
            ran = self.in_c("long", text=password)
            self.same((ran.returncode, ran.stdout, ran.stderr), refused, length, "octets")
        for length in (0, 1, 15, 16, 17, MOST_IN_C - 1):
            put("file", random.Random(length).randbytes(length))
            for example in (self.in_c, self.in_python):
                ran = example("file", text=password)
                is_right = ran.returncode == 0 and decrypted_by_hand(ran.stdout) == octets("file")
                self.same(is_right, True, "what is encrypted of", length, "octets")

    def test_without_a_password_or_a_file_nothing_is_encrypted(self):
        line = f"{PASSWORD}\n".encode()
        for example in (self.in_c, self.in_python):
            ran = example("nothing", text=line)
            self.same((ran.returncode > 0, ran.stdout), (True, b""), example.__name__, "a file that isn't there")
            for text in (b"", line[:-1], b"\n", b"\n" + line):
                ran = example("one.pkcs8", text=text)
                said = ran.returncode, ran.stdout, ran.stderr
                self.same(said, (1, b"", b"no line with a password\n"), example.__name__, text)

    def test_without_the_name_of_one_file_nothing_is_encrypted(self):
        line = f"{PASSWORD}\n".encode()
        for example, usage in ((self.in_c, b""), (self.in_python, b"usage: encrypt.py FILE < PASSWORD\n")):
            for files in ([], ["one.pkcs8", "two.pkcs8"]):
                ran = example(*files, text=line)
                self.same((ran.returncode, ran.stdout, ran.stderr), (2, b"", usage), example.__name__, files)


def in_python(example, *words, text=b""):
    """How an example in Python ends."""
    package = {"PYTHONPATH": str(built.TOP / "python"), "VUYHANIP_LIBRARY": str(built.shared())}
    environment = {**tools.ENVIRONMENT, **package, "PYTHONDONTWRITEBYTECODE": "1"}
    return tools.ended(sys.executable, example, *words, text=text, env=environment)


def decrypted(key, password):
    """The key that openssl takes out of an encrypted one."""
    ran = tools.ended("openssl", "pkey", "-inform", "DER", "-passin", f"pass:{password}", "-outform", "DER", text=key)
    return ran.stdout if ran.returncode == 0 else "refused"


def salt_and_vector(key):
    """The salt and the vector of a key by PBES2."""
    derivation, scheme = parts(part(key, 0, 1))
    return contents(part(derivation, 1, 0)), contents(part(scheme, 1))


def decrypted_by_hand(key):
    """What is encrypted in what may be no key, by PBKDF2 of hashlib and openssl enc."""
    salt, vector = salt_and_vector(key)
    derived = hashlib.pbkdf2_hmac("sha256", PASSWORD.encode(), salt, 600000, 32)
    return run(f"openssl enc -d -aes-256-cbc -K {derived.hex()} -iv {vector.hex()}", contents(part(key, 1)))


class Building(InC):
    """Stores that are built."""

    # Names of stores; openssl shows of the last one other characters.
    NAMES = *NAMES, "a b", "日本", "", "\U0001F600 and more"

    def setUp(self):
        super().setUp()
        for file in keys().iterdir():
            put(file.name, file.read_bytes())

    def in_c(self, *words, by=None):
        """How the example in C ends, and what it writes."""
        return tools.ended(built.in_c(BUILD_IN_C, by=by), *words)

    def certificate_of(self, made, *what):
        """Compares what openssl takes out of a store without a password, and without a MAC."""
        put("made", made)
        found = tools.ended("openssl", "pkcs12", "-in", "made", "-passin", "pass:", "-nokeys")
        self.same(found.returncode, 0, "openssl, over", *what)
        return run("openssl x509 -outform DER", found.stdout), found.stdout.decode("latin-1")

    def builds(self, by=None):
        """Compares what the example in C builds with what is made by hand, and what openssl takes out of it."""
        for key, name in ((key, name) for key in ("one", "two") for name in self.NAMES):
            ran = self.in_c(f"{key}.der", name, by=by)
            held = content_info("X.509 certificate", octet_string(octets(f"{key}.der")))
            named = attribute("friendlyName", bmp_string(name.encode("utf-16-be")))
            wanted = 0, store_of(bag("certificate bag", held, named)), b""
            self.same((ran.returncode, ran.stdout, ran.stderr), wanted, key, name)
            found, said = self.certificate_of(ran.stdout, key, name)
            self.same(found, octets(f"{key}.der"), "the certificate of", key, name)
            shown_name = name.encode("utf-16-be")[1::2].split(b"\0")[0].decode("latin-1")
            self.same(f"    friendlyName: {shown_name}\n" in said, True, "the name of", key, name)

    def test_the_example_in_c_builds_what_is_made_by_hand(self):
        self.builds()

    @needs("gcc", "clang")
    def test_the_example_that_clang_builds_does_so_too(self):
        self.builds("clang")

    def test_what_the_example_in_c_refuses(self):
        """Another number of words, a file that isn't there, is too long or no element, and a name that is no UTF-8."""
        put("empty", b"")
        put("two elements", octet_string(b"1") + octet_string(b"2"))
        put("cut", octets("one.der")[:-1])
        most = (1 << 20) - 1
        put("longest", element(0x30, bytes(most - 5)))
        put("longer", element(0x30, bytes(most - 4)))
        self.same(len(octets("longest")), most, "octets")
        for words, status, said in (
            ([], 2, ""), (["one.der"], 2, ""), (["one.der", "a", "b"], 2, ""), (["nothing", "a"], 2, ""),
            (["longer", "a"], 1, "not read, or too long"),
            *(([file, "a"], 1, "the certificate is no DER") for file in ("empty", "two elements", "cut")),
            *((["one.der", name], 1, "the name is no UTF-8") for name in (b"\xFF", b"a\xC3", b"\xED\xA0\x80")),
        ):
            ran = self.in_c(*map(os.fsdecode, words))
            wanted = status, b"", f"{said}\n".encode() if said else b""
            self.same((ran.returncode, ran.stdout, ran.stderr), wanted, words)
        ran = self.in_c("longest", "a")
        self.same((ran.returncode, ran.stderr, len(ran.stdout) > most), (0, b"", True), "the longest file")

    def test_openssl_opens_what_the_example_in_python_builds(self):
        """With the password and no other; no two stores are encrypted alike."""
        asked, seen = 2 * [("two", self.NAMES[0], PASSWORD)], set()
        asked += [("one", name, it) for name, it in zip(self.NAMES[-3:], PASSWORDS)]
        for key, name, password in asked:
            words = name, f"{key}.pkcs8", f"{key}.der"
            ran = in_python(BUILD_IN_PYTHON, *words, text=f"{password}\n".encode())
            self.same((ran.returncode, ran.stderr), (0, b""), key, name, password)
            put("made", ran.stdout)
            wanted = sorted(block for file in (f"{key}.key", f"{key}.pem") for block in pem_blocks(octets(file)))
            self.same(sorted(opened("made", password)), wanted, "what openssl opens of", key, name, password)
            self.says(PARAMETERS_IN_C, [(ran.stdout, (0, [ENCRYPTED_TOO, ENCRYPTED]))])
            contents_made, shrouded = built.library().bags(ran.stdout)
            found = shrouded.friendly_name, bytes(shrouded.local_key_id)
            self.same(found, (name, octets(f"{key}.id")), "the name and the identifier of", key, name)
            its = built.library().mac(ran.stdout)
            self.same((its.iterations, len(its.salt)), (600000, 16), "the MAC of", key, name)
            seen |= {its.salt, *salts_of(contents_made.element, "CONTENTS"), *salts_of(shrouded.value, "KEY")}
        self.same(opened("made", "other"), "refused", "another password")
        self.same(len(seen), 5 * len(asked), "salts and vectors")

    @needs("keytool")
    def test_keytool_lists_what_the_example_in_python_builds(self):
        """Its name is past U+FFFF. keytool takes no shorter password."""
        line, name = f"{2 * PASSWORD}\n".encode(), "\U0001F600 and more"
        put("made", in_python(BUILD_IN_PYTHON, name, "one.pkcs8", "one.der", text=line).stdout)
        words = "-J-Duser.language=en", "-J-Dfile.encoding=UTF-8", "-J-Dsun.jnu.encoding=UTF-8"
        words += "-storetype", "PKCS12", "-keystore", "made", "-storepass", 2 * PASSWORD
        said = tools.run("keytool", "-list", *words).decode()
        found = re.findall(r"^([^,\n]*), .*, (\w+), *$", said, re.M)
        self.same(found, [(name, "PrivateKeyEntry")], "entries")

    def test_what_the_example_in_python_refuses(self):
        line, words = f"{PASSWORD}\n".encode(), ("name", "one.pkcs8", "one.der")
        usage = b"usage: build_store.py NAME KEY CERTIFICATE < PASSWORD\n"
        for asked in ((), words[:2], (*words, "more")):
            ran = in_python(BUILD_IN_PYTHON, *asked, text=line)
            self.same((ran.returncode, ran.stdout, ran.stderr), (2, b"", usage), asked)
        for text in (b"", line[:-1], b"\n", b"\n" + line):
            ran = in_python(BUILD_IN_PYTHON, *words, text=text)
            self.same((ran.returncode, ran.stdout, ran.stderr), (1, b"", b"no line with a password\n"), text)
        put("no element", b"no element")
        for asked, text in ((("name", "nothing", "one.der"), line), (("name", "one.pkcs8", "nothing"), line),
                            (("name", "one.pkcs8", "no element"), line), (words, b"\xFF\n")):
            ran = in_python(BUILD_IN_PYTHON, *asked, text=text)
            self.same((ran.returncode, ran.stdout, ran.stderr.count(b"\n")), (1, b"", 1), asked, text)


def salts_of(text, holder):
    """The salt and the vector by which something is encrypted."""
    its = built.library().password_parameters(bytes(text), PasswordHolder[holder])
    return bytes(its.salt), bytes(its.initialization_vector)


# How often a file is built, at most, until openssl builds one in the same second; how long a certificate is, at most,
# that the example in C takes; and what that says of one that isn't the key's.
TIMES, LONGEST_CERTIFICATE = 20, 1 << 16
ANOTHERS = "the key isn't that of the certificate"


class Signing(InC):
    """Signed data that is built."""

    def setUp(self):
        super().setUp()
        for file in keys().iterdir():
            put(file.name, file.read_bytes())

    def in_c(self, *words, by=None):
        """How the example in C ends over the names of files, and what it writes."""
        return tools.ended(built.in_c(SIGN_IN_C, "-lcrypto", by=by), *words)

    def both(self, example, key, options):
        """Keeps what an example builds of the file `content`, and what openssl builds of it in the same second."""
        for _ in range(TIMES):
            ran = example(key)
            self.same((ran.returncode, ran.stderr), (0, b""), key, "an example")
            put("made", ran.stdout)
            making.sign("theirs", f"-nosmimecap -md sha256 {options}", key, octets("content"))
            if shown("made", "UTCTIME")[-1] == shown("theirs", "UTCTIME")[-1]:
                return
        self.fail(f"the example and openssl built nothing in the same second, {TIMES} times")

    def builds_as_openssl(self, example, is_detached=True):
        """Compares what an example builds with a key with what openssl builds in the same second, but for the signature
        by an elliptic curve, which is another one each time; and what verifiers say of it."""
        for key, size in ((key, size) for key in ("one", "two") for size in SIZES):
            put("content", random.randbytes(size))
            self.both(example, key, "" if is_detached else "-nodetach")
            self.same(without_signature("made"), without_signature("theirs"), "beside openssl's", key, size)
            self.same(octets("made") == octets("theirs"), key == "two", "octet for octet", key, size)
            given = ("-content", "content") if is_detached else ()
            self.same(verified(key, *given), octets("content"), "what openssl verifies", key, size)
            put("other", octets("content") + b"more")
            for content, said in (("content", "verified"), ("other", "another content")):
                ran = tools.ended(built.in_c(VERIFY_IN_C, "-lcrypto"), "made", content)
                self.same(ran.stdout.decode(), f"signer 0: {said}\n", "verify.c, over the", content, key, size)
            if is_detached:
                self.same(verified(key, "-content", "other"), "refused", "another content", key, size)

    def test_what_the_example_in_c_builds_is_that_of_openssl(self):
        self.builds_as_openssl(lambda key: self.in_c(f"{key}.pkcs8", f"{key}.der", "content"))

    @needs("gcc", "clang")
    def test_what_the_example_that_clang_builds_writes_is_so_too(self):
        self.builds_as_openssl(lambda key: self.in_c(f"{key}.pkcs8", f"{key}.der", "content", by="clang"))

    def test_what_the_example_in_python_builds_is_that_of_openssl(self):
        def in_one(*words):
            return lambda key: in_python(SIGN_IN_PYTHON, *words, f"{key}.key", f"{key}.der", "content")

        self.builds_as_openssl(in_one(), is_detached=False)
        self.builds_as_openssl(in_one("--detached"))

    def test_signers_that_were_read_are_the_same_in_a_file_that_is_built(self):
        """Of a file of openssl with two signers, over attributes and over the content itself: in the same file, in one
        without its content, and in one without certificates."""
        making.joined("both.pem", "one.pem", "two.pem")
        verify = "openssl cms -verify -binary -inform DER -in made -CAfile both.pem"
        for options in ("", "-noattr"):
            put("content", random.randbytes(1000))
            making.sign("theirs", f"-nodetach -signer two.pem -inkey two.key {options}", text=octets("content"))
            its = built.library().signed(octets("theirs"))
            build = functools.partial(built.library().build_signed, signers=[given_again(it) for it in its.signers])
            self.same(len(its.signers), 2, "signers", options)
            made = build(oids.octets("data"), its.content, certificates=its.certificates)
            self.same(made, octets("theirs"), "the same file", options)
            for content, certificates, words in (
                (None, its.certificates, "-content content"), (its.content, (), "-certfile both.pem"),
            ):
                put("made", build(oids.octets("data"), content, certificates=certificates))
                self.same(run(f"{verify} {words}"), octets("content"), "what openssl verifies", words, options)

    def test_a_certificate_of_any_length_up_to_the_room_of_the_example_in_c_is_taken(self):
        def certified(size):
            words = f"openssl req -x509 -new -key two.key -subj /CN=long -set_serial 5 -addext nsComment={size * 'x'}"
            put("long", run("openssl x509 -outform DER", run(words, into="long.pem")))
            return len(octets("long"))

        put("content", b"content")
        size = 64000 + LONGEST_CERTIFICATE - certified(64000)
        self.same(certified(size), LONGEST_CERTIFICATE, "octets")
        ran = self.in_c("two.pkcs8", "long", "content")
        put("made", ran.stdout)
        said = ran.returncode, ran.stderr, verified("long", "-content", "content")
        self.same(said, (0, b"", b"content"), "the longest certificate")
        self.same(certified(size + 1), LONGEST_CERTIFICATE + 1, "octets")
        ran = self.in_c("two.pkcs8", "long", "content")
        said = ran.returncode, ran.stdout, ran.stderr
        self.same(said, (1, b"", b"the certificate is too long\n"), "a longer certificate")

    def test_what_the_example_in_c_refuses(self):
        """Another number of words, a file that isn't there, what is no key that signs, what is no certificate, or not
        that of the key, and octets after one."""
        put("content", b"content")
        put("empty", b"")
        put("more", octets("one.der") + b"\0")
        making.certificate("other", key="ed25519")
        run("openssl pkcs8 -topk8 -nocrypt -in other.key -outform DER -out other.pkcs8")
        files = "one.pkcs8", "one.der", "content"
        cases = [(words, 2, "usage: build_signed KEY CERTIFICATE FILE") for words in ((), files[:2], (*files, "more"))]
        for index in range(3):
            missing = [*files[:index], "nothing", *files[index + 1 :]]
            cases.append((missing, 2, "nothing isn't read, or has 1 GiB"))
        no_keys = "empty", "one.der", "one.key", "other.pkcs8"
        cases += [((key, *files[1:]), 1, "no key of RSA or of an elliptic curve") for key in no_keys]
        cases += [((files[0], it, files[2]), 1, ANOTHERS) for it in ("empty", "two.der", "one.pem", "one.pkcs8")]
        cases.append(((files[0], "more", files[2]), 1, "the certificate is no DER"))
        for words, status, said in cases:
            ran = self.in_c(*words)
            self.same((ran.returncode, ran.stdout, ran.stderr), (status, b"", f"{said}\n".encode()), words)

    def test_what_the_example_in_python_refuses(self):
        put("content", b"content")
        put("empty", b"")
        making.certificate("other", key="ed25519")
        in_der("other")
        files = "one.key", "one.der", "content"
        usage = b"usage: build_signed.py [--detached] KEY CERTIFICATE FILE\n"
        wrong = (), files[:2], (*files, "more"), ("--detached", *files[:2]), (*files, "--detached")
        for words in wrong:
            ran = in_python(SIGN_IN_PYTHON, *words)
            self.same((ran.returncode, ran.stdout, ran.stderr), (2, b"", usage), words)
        wrong = [[*files[:index], "nothing", *files[index + 1 :]] for index in range(3)]
        wrong += [("empty", *files[1:]), *((files[0], it, files[2]) for it in ("empty", "one.pem", "other"))]
        for words in ([*before, *those] for those in wrong for before in ([], ["--detached"])):
            ran = in_python(SIGN_IN_PYTHON, *words)
            said = ran.returncode, ran.stdout, b"Traceback" in ran.stderr, ran.stderr == b""
            self.same(said, (1, b"", False, False), words)
        # a key of RSA and one of an elliptic curve, and another one of an elliptic curve
        making.certificate("third")
        in_der("third")
        for key, certificate in itertools.permutations(("one", "two", "third"), 2):
            ran = in_python(SIGN_IN_PYTHON, f"{key}.key", certificate + ".der" * (certificate != "third"), "content")
            said = ran.returncode, ran.stdout, ran.stderr
            self.same(said, (1, b"", f"{ANOTHERS}\n".encode()), "the key of another", key, certificate)


def verified(key, *given):
    """The content of the file `made`, which openssl verifies by the certificate of a key."""
    words = "cms", "-verify", "-binary", "-inform", "DER", "-in", "made", "-CAfile", f"{key}.pem", *given
    ran = tools.ended("openssl", *words)
    return ran.stdout if ran.returncode == 0 else "refused"


def given_again(signer):
    """A signer that was read, as it is to be given."""
    return GivenSigner(
        signer.digest_algorithm, signer.signature_algorithm, signer.signature, certificate=signer.certificate,
        signed_attributes=signer.covered if signer.is_over_attributes else None,
        unsigned_attributes=signer.unsigned_attributes,
    )


def without_signature(file):
    """The parts of signed data with one signer, but for the signature."""
    *others, signers = making.fields_of(octets(file))
    [signer] = parts(signers)
    return others, parts(signer)[:-1]


# How openssl encrypts a key as python/examples/build_enveloped.py does with --oaep.
OAEP = "-keyopt rsa_padding_mode:oaep -keyopt rsa_oaep_md:sha256"
NO_RSA_KEY = "the certificate has no RSA key"


class Enveloping(InC):
    """Content that is encrypted for the holder of a certificate's key."""

    def setUp(self):
        super().setUp()
        for file in keys().iterdir():
            put(file.name, file.read_bytes())

    def in_c(self, *words, by=None):
        """How the example in C ends over the names of files, and what it writes."""
        return tools.ended(built.in_c(ENVELOP_IN_C, "-lcrypto", by=by), *words)

    def encrypts(self, example, options=""):
        """Compares what openssl decrypts of what an example encrypts of the file `content`, and all of that but what is
        random with what openssl encrypts. No two are encrypted alike."""
        making.certificate("other", key="rsa:1024")
        seen, count = set(), 0
        for size in SIZES:
            put("content", random.randbytes(size))
            ran = example()
            self.same((ran.returncode, ran.stderr), (0, b""), "an example, over octets", size)
            put("made", ran.stdout)
            making.seal("theirs", f"-aes-256-cbc -recip two.pem {options}", octets("content"))
            made, seen_in_it = but_for_what_is_random("made")
            self.same(made, but_for_what_is_random("theirs")[0], "beside openssl's", size)
            for words in ("-inkey two.key", "-recip two.pem -inkey two.key"):
                self.same(deciphered(words), octets("content"), "what openssl decrypts with", words, size)
            self.same(deciphered("-inkey other.key") == octets("content"), False, "with another key", size)
            said = deciphered("-recip other.pem -inkey other.key")
            self.same(said, "refused", "for another certificate", size)
            seen, count = seen | seen_in_it, count + len(seen_in_it)
        self.same(len(seen), count, "keys and vectors")
        self.at_least(count, 2 * len(SIZES), "keys and vectors")

    def test_openssl_decrypts_what_the_example_in_c_encrypts(self):
        self.encrypts(lambda: self.in_c("two.der", "content"))

    @needs("gcc", "clang")
    def test_openssl_decrypts_what_the_example_that_clang_builds_encrypts(self):
        self.encrypts(lambda: self.in_c("two.der", "content", by="clang"))

    @needs("cryptography")
    def test_openssl_decrypts_what_the_example_in_python_encrypts(self):
        """Of a file, and of standard input."""
        for words, options in (([], ""), (["--oaep"], OAEP)):
            example = functools.partial(in_python, ENVELOP_IN_PYTHON, *words, "two.der")
            self.encrypts(lambda example=example: example("content"), options)
            self.encrypts(lambda example=example: example(text=octets("content")), options)

    def no_certificates(self):
        """Files in which there is no certificate with a key of RSA."""
        put("content", b"content")
        put("empty", b"")
        put("more", octets("two.der") + b"\0")
        making.certificate("curve", key="ed25519")
        making.certificate("pss", key="rsa-pss -pkeyopt rsa_keygen_bits:2048")
        in_der("curve")
        in_der("pss")
        return "empty", "two.pem", "two.pkcs8", "one.der", "curve", "pss"

    def test_what_the_example_in_c_refuses(self):
        """Another number of words, a file that isn't there, what is no certificate, one with another key than of RSA,
        and octets after one."""
        wrong = self.no_certificates()
        usage = "usage: build_enveloped CERTIFICATE FILE"
        cases = [(words, 2, usage) for words in ((), ("two.der",), ("two.der", "content", "more"))]
        missing = ("nothing", "content"), ("two.der", "nothing")
        cases += [(words, 2, "nothing isn't read, or has 1 GiB") for words in missing]
        cases += [((it, "content"), 1, "no certificate with a key of RSA") for it in wrong]
        cases.append((("more", "content"), 1, "the certificate is no DER"))
        for words, status, said in cases:
            ran = self.in_c(*words)
            self.same((ran.returncode, ran.stdout, ran.stderr), (status, b"", f"{said}\n".encode()), words)

    @needs("cryptography")
    def test_what_the_example_in_python_refuses(self):
        *unread, curve, other_curve, pss = self.no_certificates()
        usage = b"usage: build_enveloped.py [--oaep] CERTIFICATE [FILE]\n"
        for words in ((), ("--oaep",), ("two.der", "content", "more"), ("--oaep", "two.der", "content", "more")):
            ran = in_python(ENVELOP_IN_PYTHON, *words)
            self.same((ran.returncode, ran.stdout, ran.stderr), (2, b"", usage), words)
        making.certificate("short", key="rsa:512")
        in_der("short")
        cases = [((it, "content"), NO_RSA_KEY) for it in (curve, other_curve, pss)]
        cases += [((it, "content"), "the certificate is refused: ") for it in (*unread, "more")]
        cases += [(words, "[Errno 2] ") for words in (("nothing", "content"), ("two.der", "nothing"), ("nothing",))]
        # a key of which OAEP has no room for another one
        cases.append((("--oaep", "short", "content"), ""))
        for words, said in cases:
            ran = in_python(ENVELOP_IN_PYTHON, *words)
            found = ran.stderr.decode()
            its = ran.returncode, ran.stdout, found.startswith(said), found.count("\n"), "Traceback" in found
            self.same(its, (1, b"", True, 1, False), words, found)


def deciphered(words):
    """What openssl decrypts of the file `made`."""
    given = "cms", "-decrypt", "-binary", "-inform", "DER", "-in", "made", *words.split()
    ran = tools.ended("openssl", *given)
    return ran.stdout if ran.returncode == 0 else "refused"


def but_for_what_is_random(file):
    """The parts of enveloped data with one recipient, of which the encrypted key, the vector and the encrypted content
    are lengths; and that key and that vector."""
    version, recipients, content = making.fields_of(octets(file))
    [recipient] = parts(recipients)
    *named, key = parts(recipient)
    content_type, algorithm, encrypted = parts(content)
    cipher, vector = parts(algorithm)
    lengths = [(it[0], len(it)) for it in (key, vector, encrypted)]
    return (version, recipient[0], named, content_type, cipher, lengths), {key, vector}


if __name__ == "__main__":
    unittest.main()
