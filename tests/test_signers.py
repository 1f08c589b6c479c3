"""Has openssl, gpgsm, NSS and osslsigncode sign data, and compares what c/examples/verify.c and
python/examples/verify.py say of each file, and of changed ones, with what is known of them: signers of version 1 and 3,
content in the file and detached, with signed attributes and without; another content, a changed signature, attributes
that RFC 5652 forbids, no certificate. Of the same files, what Library.signers and Library.signed say is compared with
Library.signer, Library.part and Library.attributes. Times of signing are compared with openssl's.

`der_signers` takes at most ten times as much processor time as `der_check` of the same file, of up to 6,000 signers of
version 1, each with a certificate of its own; of 6,000 signers at most 32 times what it takes of 750.

Needs the headers of openssl. Files of gpgsm, of NSS (certutil, cmsutil) and of osslsigncode, and what
python/examples/verify.py says, which needs the package cryptography, are skipped where these aren't there."""
import contextlib
import datetime
import functools
import io
import itertools
import random
import runpy
import sys
import unittest
import warnings
from typing import NamedTuple, Optional

from oracle import signed as oracle
from support import built, foreign
from support.built import TOP, library
from support.cases import Comparing
from support.elements import element, set_of, tags_and_contents, within
from support.oids import oid
from support.signed_attributes import SIGNER, attributes, of_another_content, of_type, twice, without, wrong_attributes
from support.tools import ended, needs, openssl, run
from vuyhanip.der import BadAttributes, Part, Refused, Signer

MESSAGE, OTHER = b"what is signed" * 20, b"what is sighed" * 20
DATA, SIGNED_DATA, SIGNING_TIME = oid("data"), oid("signed data"), oid("signingTime")
ATTACHED = ("-binary", "-nodetach")
# Values of signingTime (RFC 5652, 11.3), and what they say: a year below 50 is of this century, and what isn't in UTC
# and in whole seconds is none.
TIMES_OF_SIGNING = [
    (0x17, b"491231235959Z", "2049-12-31 23:59:59+00:00"),
    (0x17, b"500101000000Z", "1950-01-01 00:00:00+00:00"),
    (0x18, b"20500229000000Z", None),
    (0x18, b"20520229000000Z", "2052-02-29 00:00:00+00:00"),
    *((0x17, it, None) for it in (b"", b"4912312359Z", b"491231235959", b"491231235959+0100", b"49123123595\xFFZ")),
    *((0x18, it, None) for it in (b"20500101000000.5Z", b"205001010000Z", b"20500101000060Z", b"20501301000000Z")),
    (0x13, b"491231235959Z", None),
]
# Of how many signers times are taken, in how many runs, and of how many signatures are verified.
COUNTS, RUNS, VERIFIED = (1, 100, 750, 1500, 3000, 6000), 3, 1500
# Says how many microseconds of processor time der_signers, and der_check, take of a file, the shortest of many.
TIMES = r"""
#define _POSIX_C_SOURCE 199309L
#include "der.h"
#include <stdio.h>
#include <stdlib.h>
#include <time.h>
static uint8_t in[1 << 24];
static double now(void) {
  struct timespec it;
  clock_gettime(CLOCK_PROCESS_CPUTIME_ID, &it);
  return 1e6 * (double)it.tv_sec + (double)it.tv_nsec / 1e3;
}
int main(int count, char **words) {
  size_t len = fread(in, 1, sizeof in, stdin), all = strtoul(words[1], NULL, 10), found, place;
  der_signer_parts *signers = malloc(all * sizeof *signers);
  double shortest[2] = {1e9, 1e9}, began = now();
  while (count == 2 && signers && now() < began + 2e5)
    for (int which = 0; which < 2; which++) {
      double start = now();
      int repeats = all < 10 ? 100 : 1;
      for (int nth = 0; nth < repeats; nth++)
        if (which) place = der_check("pkcs7certificate", in, len, &found);
        else if (der_signers(in, len, 0, signers, all, &found, &place) != DER_NORMAL || found != all) return 1;
      double took = (now() - start) / repeats;
      if (took < shortest[which]) shortest[which] = took;
    }
  return printf("%.1f %.1f\n", shortest[0], shortest[1]) < 0;
}
"""


class File(NamedTuple):
    """Signed data, what a verifier says of each signer, and the content where it is detached."""

    name: str
    octets: bytes
    said: list
    content: Optional[bytes] = None


@functools.lru_cache(maxsize=None)
def folder():
    """A folder with keys, and with what is signed."""
    made = built.room() / "signers"
    made.mkdir()
    foreign.keys(made)
    foreign.texts(made, MESSAGE)
    return made


@functools.lru_cache(maxsize=None)
def example(name):
    """An example in C, as a program."""
    return built.in_c(TOP / f"c/examples/{name}.c", "-lcrypto")


# ---- files


def signed_by(key, *words):
    """What openssl signs by a key."""
    by = "-signer", f"{key}.pem", "-inkey", f"{key}.key"
    return openssl("cms", "-sign", "-in", "text", *by, *words, "-md", "sha256", "-outform", "DER", cwd=folder())


@functools.lru_cache(maxsize=None)
def signed_by_both():
    return signed_by("rsa", *ATTACHED, "-signer", "ec.pem", "-inkey", "ec.key")


@functools.lru_cache(maxsize=None)
def without_certificate():
    return signed_by("rsa", "-nocerts", "-nodetach")


def signed_and_changed(key, words, is_detached):
    """What openssl signs by a key, and changes of it."""
    name = " ".join([key, *words, "detached" if is_detached else "attached"])
    octets = signed_by(key, "-binary", *words) if is_detached else signed_by(key, *ATTACHED, *words)
    content, other = (MESSAGE, OTHER) if is_detached else (None, None)
    yield File(name, octets, ["verified"], content)
    said = "wrong signature" if "-noattr" in words else "another content"
    yield File(f"{name}, changed", octets.replace(MESSAGE, OTHER), [said], other)
    another = octets[:-1] + bytes([octets[-1] ^ 1])
    yield File(f"{name}, another signature", another, ["wrong signature"], content)
    if is_detached:
        yield File(f"{name}, alone", octets, ["no content"])
    if "-noattr" in words:
        yield File(f"{name}, of another type", of_another_content(octets), ["bad attributes"], content)
    else:
        for number, file in enumerate(wrong_attributes(octets)):
            yield File(f"{name}, attributes {number}", file, ["bad attributes"], content)


@functools.lru_cache(maxsize=None)
def by_openssl():
    """Signed data of openssl, and changes of them."""
    ways = itertools.product(("rsa", "ec"), ([], ["-keyid"], ["-noattr"], ["-keyid", "-noattr"]), (False, True))
    found = [file for way in ways for file in signed_and_changed(*way)]
    two = File("two signers", signed_by_both(), ["verified", "verified"])
    return [*found, two, File("no certificate", without_certificate(), ["no certificate"])]


def changed(name, octets):
    """A file of one signer, and the same with an octet of the content, and of the signature, changed."""
    yield File(name, octets, ["verified"])
    [row] = oracle.rows(octets)
    for part, said in (("content", "another content"), ("signature", "wrong signature")):
        at = sum(getattr(row, part)) - 1
        another = octets[:at] + bytes([octets[at] ^ 1]) + octets[at + 1 :]
        yield File(f"{name}, changed {part}", another, [said if row.over_attributes else "wrong signature"])


@functools.lru_cache(maxsize=None)
def by_tool(files_of_tool):
    """The signed data of a tool of support.foreign, in DER, and changes of them."""
    found = [(it.name, it.octets) for it in files_of_tool(folder()) if it.name.startswith("signed by")]
    return [file for name, ber in found for file in changed(name, run(example("from_ber"), text=ber))]


@functools.lru_cache(maxsize=None)
def by_osslsigncode():
    return list(changed("a cabinet signed by osslsigncode", foreign.cabinet_of_osslsigncode(folder())))


@functools.lru_cache(maxsize=None)
def by_pss():
    octets = signed_by("rsa", *ATTACHED, "-keyopt", "rsa_padding_mode:pss")
    return [File("RSASSA-PSS", octets, ["unknown signature algorithm"])]


@functools.lru_cache(maxsize=None)
def one_signer(version):
    """A file with one signer of a version, and the octets by which that names its certificate, which are in both."""
    octets = signed_by("ec", *ATTACHED, *(["-keyid"] if version == 3 else []))
    [(named, *_)] = oracle.signed_data(octets)[3]
    return octets, named[-1]


def with_signers(version, count):
    """A file with so many signers, each with a certificate of its own: other octets in place of those that name it. The
    certificates are in another order than the signers. Since the first octet is 1, the octets are those of a positive
    INTEGER in DER, whatever follows."""
    octets, old = one_signer(version)
    numbers = [b"\x01" + random.Random(number).randbytes(len(old) - 1) for number in range(count)]
    others = random.Random(count).sample(numbers, count)

    def many(data):
        parts = tags_and_contents(data)
        sets = {0xA0: others, 0x31: numbers}
        last = len(parts) - 1
        for at, (tag, contents) in enumerate(parts):
            if tag == 0xA0 or at == last:
                parts[at] = tag, b"".join(contents.replace(old, new) for new in sets[tag])
        return b"".join(element(*part) for part in parts)

    return within(octets, [0, 1, 0], many)


@functools.lru_cache(maxsize=None)
def by_many():
    """Files of many signers, whose signatures are right."""
    counts = [count for count in COUNTS if count <= VERIFIED]
    return [File(f"{count} signers of version {version}", with_signers(version, count), count * ["verified"])
            for version in (1, 3) for count in counts]


class Files:
    """Tests of files by `compare`, which a class defines."""

    def each(self, files, fewest):
        self.at_least(len(files), fewest, "files")
        for file in files:
            self.compare(file)

    def test_what_is_said_of_files_of_openssl(self):
        self.each(by_openssl(), 162)

    def test_what_is_said_of_files_of_many_signers(self):
        self.each(by_many(), 8)


class FilesOfTools(Files):
    """Tests of files some of which have algorithms that python/examples/verify.py doesn't know."""

    @needs(*foreign.GPGSM)
    def test_what_is_said_of_files_of_gpgsm(self):
        self.each(by_tool(foreign.files_of_gpgsm), 3)

    @needs(*foreign.SIGNED_BY_NSS)
    def test_what_is_said_of_files_of_nss(self):
        self.each(by_tool(foreign.signed_by_nss), 3)

    @needs(*foreign.OSSLSIGNCODE)
    def test_what_is_said_of_files_of_osslsigncode(self):
        self.each(by_osslsigncode(), 3)

    def test_what_is_said_of_a_file_of_rsassa_pss(self):
        self.each(by_pss(), 1)


# ---- verifiers


class Verifying(Comparing):
    """Compares what a verifier says, which a class has as `says`, with what is known of a file."""

    def compare(self, file):
        words = [folder() / "signed.der"]
        words[0].write_bytes(file.octets)
        if file.content is not None:
            words.append(folder() / "content")
            words[1].write_bytes(file.content)
        lines = "".join(f"signer {number}: {said}\n" for number, said in enumerate(file.said))
        status = 0 if all(said == "verified" for said in file.said) else 1
        self.same(self.says(*words), (lines, status), file.name)


class VerifierInC(FilesOfTools, Verifying):
    def says(self, *words):
        """What verify.c says, and its status."""
        ran = ended(example("verify"), *words)
        return ran.stdout.decode(), ran.returncode

    def test_a_file_that_is_not_read_ends_it_with_2(self):
        for words in ([], ["nothere"], ["."], ["text", "nothere"], ["text"] * 3):
            self.same(ended(example("verify"), *words, cwd=folder()).returncode, 2, "verify", *words)


@needs("cryptography")
class VerifierInPython(Files, Verifying):
    @classmethod
    def setUpClass(cls):
        built.use_shared()

    def says(self, *words):
        """What verify.py says, which runs in this process, and its status."""
        had, printed, status = sys.argv, io.StringIO(), 0
        sys.argv = ["verify.py", *map(str, words)]
        try:
            with contextlib.redirect_stdout(printed), warnings.catch_warnings():
                warnings.simplefilter("ignore", ResourceWarning)  # of a file that nothing closes
                runpy.run_path(str(TOP / "python/examples/verify.py"))
        except SystemExit as exited:
            status = int(exited.code)
        finally:
            sys.argv = had
        return printed.getvalue(), status


# ---- the calls of the library


def parts(which, octets):
    """All parts, by their indices."""
    found = []
    while (part := library().part(which, octets, len(found))) is not None:
        found.append(part)
    return found


def signer_at(octets, index):
    """The signer with an index, in whose place there may be a BadAttributes, or None where there are fewer."""
    try:
        return library().signer(octets, index)
    except BadAttributes as bad:
        return bad


def refusal(call, *given):
    """The reason and the place at which a call refuses what it is given, if it does."""
    try:
        call(*given)
    except Refused as refused:
        return refused.reason, refused.place
    return None


def signing_time(octets):
    """The time of the first signer, as text; None where it isn't one."""
    try:
        return str(library().signed(octets).signer_infos[0].signing_time)
    except ValueError:
        return None


class Parts(FilesOfTools, Comparing):
    """Compares what the calls of the library say of the same file."""

    def compare(self, file):
        name, octets = file.name, file.octets
        signers = library().signers(octets)
        self.same(len(signers), len(file.said), name, "signers")
        self.same(signer_at(octets, len(signers)), None, name, "a signer past the last one")
        first, by_index = signers[0], signer_at(octets, 0)
        if self.same(type(by_index), type(first), name, "the first signer by its index") and isinstance(first, Signer):
            self.same(by_index, first, name, "the first signer by its index")
            self.same(library().signers(bytearray(octets))[0], first, name, "the first signer of a bytearray")
            self.compare_signer(name, octets, first)
        self.compare_signed(name, octets)

    def compare_signer(self, name, octets, first):
        """Compares the first signer with the parts of the file."""
        content, algorithm, signature = (
            library().part(it, octets) for it in (Part.HASHED_CONTENT, Part.SIGNATURE_ALGORITHM, Part.SIGNATURE))
        over = library().part(Part.SIGNED_ATTRIBUTES, octets)
        digest = library().oid_text(library().part(Part.DIGEST_ALGORITHM, octets))
        self.same(first.content, content, name, "the content")
        self.same(first.signature_algorithm, algorithm, name, "the signature algorithm")
        self.same(first.signature, signature, name, "the signature")
        self.same(first.digest_oid, digest, name, "the digest algorithm")
        self.same(first.is_over_attributes, over is not None, name, "whether the signature is over attributes")
        self.same(first.covered, over or content, name, "what the signature covers")
        self.same(first.message_digest, first.digest, name, "the message digest")
        self.same(first.digest is not None, first.is_over_attributes, name, "whether there is a digest")

    def compare_signed(self, name, octets):
        """Compares Library.signed with the calls for signers, for parts and for attributes."""
        signed = library().signed(octets)
        signers, infos = signed.signers, signed.signer_infos
        types = [type(one) for one in library().signers(octets)]
        self.same([type(one) for one in signers], types, name, "types of signers")
        self.same(len(infos), len(signers), name, "signers as they are")
        self.same(signed.content, library().part(Part.HASHED_CONTENT, octets), name, "the content of all")
        self.same(list(map(bytes, signed.certificates)), parts(Part.CERTIFICATE, octets), name, "certificates")
        for info in infos[:3] + infos[-1:]:
            signer = signers[info.index]
            for one in [info, signer] if isinstance(signer, Signer) else [info]:
                self.compare_info(f"{name}: signer {info.index}", octets, one)
                self.same(one.element, info.element, name, "the element of signer", info.index)

    def compare_info(self, name, octets, info):
        part = functools.partial(library().part, data=octets, index=info.index)
        number = part(Part.SERIAL_NUMBER)
        number = None if number is None else int(library().integer_text(number))
        self.same(info.issuer, part(Part.ISSUER), name, "issuer")
        self.same(info.key_identifier, part(Part.KEY_IDENTIFIER), name, "key identifier")
        self.same(info.serial_number, number, name, "serial number")
        for is_signed, found in ((True, info.attributes), (False, info.unsigned_attributes)):
            listed = library().attributes(octets, info.index, is_signed)
            self.same(list(map(bytes, found)), list(map(bytes, listed)), name, "attributes")


class Calls(Comparing):
    def test_times_of_signing_are_those_of_openssl_and_of_rfc_5652(self):
        octets = signed_by("ec", *ATTACHED)
        said = openssl("cms", "-cmsout", "-print", "-inform", "DER", text=octets).decode()
        moment = said.rpartition("UTCTIME:")[2].split("\n")[0]
        wanted = datetime.datetime.strptime(moment, "%b %d %H:%M:%S %Y GMT").replace(tzinfo=datetime.timezone.utc)
        self.same(signing_time(octets), str(wanted), "the time of openssl")

        def changed_to(values):
            return attributes(octets, of_type(SIGNING_TIME, lambda _: SIGNING_TIME + set_of(values)))

        for tag, value, wanted in TIMES_OF_SIGNING:
            self.same(signing_time(changed_to(element(tag, value))), wanted, "the time", value)
        value = element(*TIMES_OF_SIGNING[0][:2])
        for name, file, wanted in (
            ("two times", changed_to(value + value), None),
            ("no value", changed_to(b""), None),
            ("two attributes", attributes(octets, twice(SIGNING_TIME)), None),
            ("no time", attributes(octets, without(SIGNING_TIME)), "None"),
        ):
            self.same(signing_time(file), wanted, name)

    def test_many_signers_are_in_the_order_of_the_file(self):
        """Each has another signature. 64 are read at once, and more in two readings."""
        for count in (64, 65, 1500):
            octets = within(without_certificate(), SIGNER[:-1], lambda one: b"".join(
                one[:-2] + number.to_bytes(2, "big") for number in range(count)))
            signers = library().signers(octets)
            numbers = [int.from_bytes(it.signature[-2:], "big") for it in signers]
            self.same(numbers, list(range(count)), f"{count} signers")
            self.same({bytes(it.covered) for it in signers}, {bytes(signers[0].covered)}, "what they cover")
            for index in (0, count - 1):
                self.same(library().signer(octets, index), signers[index], "signer", index, "of", count)

    def test_what_is_no_signed_data_is_refused_where_a_check_refuses_it(self):
        signed = signed_by_both()
        for octets in (b"", signed[:-1], signed + b"\0", signed.replace(SIGNED_DATA, DATA, 1)):
            said = refusal(library().signers, octets)
            self.same(said is None, False, octets, "isn't refused")
            self.same(said, refusal(library().check, "pkcs7certificate", octets), octets)


# ---- times


@functools.lru_cache(maxsize=None)
def timer():
    source = built.room() / "signer_times.c"
    source.write_text(TIMES)
    return built.in_c(source)


@functools.lru_cache(maxsize=None)
def took(version):
    """How many microseconds der_signers and der_check take, by the number of signers, the shortest of some runs: in
    each the memory is at other places, and what works beside takes another share of the caches."""
    found = {}
    for count in COUNTS:
        octets = with_signers(version, count)
        runs = (run(timer(), count, text=octets).split() for _ in range(RUNS))
        found[count] = [min(map(float, its)) for its in zip(*runs)]
    return found


class Times(Comparing):
    def at_most(self, took, most, *what):
        self.same(took <= most, True, *what, f"take {took:.1f} us, and at most {most:.1f} are wanted")

    def test_der_signers_takes_at_most_ten_times_as_long_as_der_check(self):
        for count, (signers, check) in took(1).items():  # what isn't of version 1 has no kind
            self.at_most(signers, 10 * check, count, "signers")

    def test_the_time_grows_as_the_number_of_signers(self):
        """A search for each signer would take 64 times as long of eight times as many. Caches take their share of what
        is allowed."""
        for version in (1, 3):
            times = [signers for signers, _ in took(version).values()]
            most, eighth = COUNTS[-1], COUNTS[-1] // 8
            self.at_most(times[-1], 32 * times[COUNTS.index(eighth)], most, "signers of version", version)


if __name__ == "__main__":
    unittest.main()
