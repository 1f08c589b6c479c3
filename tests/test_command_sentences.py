"""What the command says of changed files: a sentence of its manual page, on standard error and in each line of a check
and of a verdict."""
import contextlib
import errno
import io
import os
import random
import re
import unittest

from support import built
from support.command import Command

import vuyhanip
from vuyhanip import command, extracting, foreign

# The files that are changed, and how often each is changed in each way.
FILES = "store.p12 plain.p12 nested.p12 attributes.p7s two.p7s keyid.p7s stream.p7s signed.pem enveloped.p7m".split()
FILES += ["list.pem", "list.crl", "stamp.tsr", "stamp.tst", "stamp.tsq", "rsa.pem", "rsa.der", "rsa.key"]
TIMES = 2
# How many sentences there may be, and how many lines have to be looked at at least.
MOST, LEAST = 40, 700
# What the words in capitals of the manual page are. None is a sentence.
REASON, PATH = "(malformed|missing|invalid|too deep)", r"[A-Za-z0-9 >\[\]-]+"
COVERED = r"(the MAC|(the signatures?|counter signature \d+)( of (the list|(revocation list|signer|time stamp) \d+))*)"
OTHERS = ("an empty file", "a mail", "base64 without the lines of PEM", "OpenPGP", "a request of OCSP")
OTHERS += ("a response of OCSP", "a request for a time stamp", "a time stamp response without a token")
PARTS = "|".join({*extracting.LEFT_IN_STORES.values(), *extracting.LEFT_IN_SIGNED.values(), extracting.BLOCKS})
# What the rules of verdicts say, those that --allow-weak allows, and why openssl isn't asked.
RULES = (
    *("no signers", "0 iterations", "a time stamp with more than one signer"),
    "its content is no OCTET STRING of one piece",
    *("the content in the file isn't that which is given", "signed attributes that RFC 5652 forbids"),
    *("its content may be the signed attributes of another signature", r"openssl doesn't read certificate \d+"),
    *("its certificate isn't known", "two certificates that differ have its issuer and serial number"),
    *(r"[\w.-]+ (by a key of|over the digest) [\w.-]+", "parameters of RSASSA-PSS that aren't read"),
    "an RSA key that isn't read",
    *("a salt length that isn't a number of 31 bits", "an RSA key whose exponent is even, or below 3"),
    *(r"an RSA key whose exponent has more than \d+ bits", "a key on a curve without a name"),
    "openssl doesn't find its key right",
    "its signed attributes name (another|more than one) certificate",
)
WEAK = r"(the (digest|signature algorithm) [\w.-]+( of what is stamped)?|RSA of \d+ bits|a curve of \d+ bits|DSA)"
CAUSES = (
    *("no content, which --content gives", "no password, which --password-file or --ask-password gives"),
    *("openssl takes no such password", r"more than \d+ (certificates|levels)", r"the digest [\w.-]+ is not known"),
    r"more than \d+ octets, a certificate for each signer or time stamp",
    "there is no program openssl, whose yes a yes is here",
    "openssl has no purpose for programs, so --ca asks for --purpose any",
    r"OpenSSL [^,]+ verifies no (signatures of Ed25519 and Ed448 in CMS|signers by key identifier over such content)",
    r"(\d+|more than 2\*\*64) iterations, more than the \d+ that --most-iterations allows",
)
# What follows on a verdict: what isn't compared or checked, and what the signer is.
DESCRIPTION = (
    r"(, without the newline after its DER)?(, over the digest of a program, which isn't compared)?"
    r"(, counter signature not checked)?(, [\w.-]+(, [\w.-]+)?)?(, \d+ bits)?(, at [^,]+)?"
    r"(, by a certificate that calls itself .+)?"
)
WORDS = {
    "N": r"\d+",
    "WHO": r"(block \d+ of \d+|signers?( \d+)?|time stamp|nested signature)"
    r"(, (signers?( \d+)?|time stamp|nested signature))*",
    "RULE": rf"({'|'.join(RULES)}) \([^()]+\)",
    "WEAK": WEAK,
    "CAUSE": "|".join(CAUSES),
    "KIND": "[a-z0-9]+",
    "REASON": REASON,
    "PATH": PATH,
    "FORM": r"(PEM|PEM block \d+ of \d+|BER|PEM and BER|PEM block \d+ of \d+ and BER)",
    "THING": "|".join(map(re.escape, [*foreign.LABELS.values(), *(it[2] for it in foreign.FIRST_OCTETS), *OTHERS])),
    "FAULT": r"(that is encrypted|without (base64 in it|its END line)"
    r"|with (header lines|a blank line in it|BEGIN in a line that begins no block))",
    "SYSTEM": "|".join(re.escape(os.strerror(it)) for it in errno.errorcode),
    "OUT": r"[^ ]+",
    "COVERED": rf"{COVERED}(, {COVERED})*( and \d+ more)?",
    "PARTS": rf"({PARTS}): \d+(, ({PARTS}): \d+)*",
}


def sentences():
    """The patterns of the manual page: those of standard output, those of verdicts, and those of standard error."""
    page = (built.TOP / "docs/vuyhanip.1").read_text("utf-8")
    section = re.search(r"^\.SH DIAGNOSTICS$(.*?)^\.SH", page, re.M | re.S)[1].replace("\\-", "-")
    return [block.strip().splitlines() for block in re.findall(r"^\.nf$(.*?)^\.fi$", section, re.M | re.S)]


def pattern(sentence, kinds):
    """A sentence with patterns in the place of words in capitals. What is in brackets may be left out, and so may what the
    file was made of, and a kind before it."""
    made = re.escape(sentence).replace(r"\ ", " ")
    made = re.sub(r" \\\((PATH|from FORM)\\\)", r"( \\(\1\\))?", made)
    made = re.sub(r"[A-Z]+", lambda it: f"({WORDS[it[0]]})" if it[0] in WORDS else it[0], made)
    made = made.replace(f", but weak: ({WEAK})", f"(, but weak: ({WEAK}))?")
    if sentence.startswith("WHO: "):
        return f"({WORDS['WHO']}: )?{made[made.index(': ') + 2:]}{DESCRIPTION}"
    if sentence.startswith(("normal N", "loose N", "refused: REASON")):
        made = rf"(({kinds}) )?{made}" + ("" if "FORM" in sentence else rf"( \(from {WORDS['FORM']}\))?")
    return made


def changed(chance, octets):
    """Some octets changed in each way: an octet, a bit, less, more, a part twice, two parts exchanged, an end."""
    at, other = sorted(chance.randrange(len(octets)) for _ in range(2))
    yield octets[:at] + bytes([chance.randrange(256)]) + octets[at + 1 :]
    yield octets[:at] + bytes([octets[at] ^ 1 << chance.randrange(8)]) + octets[at + 1 :]
    yield octets[:at] + octets[at + 1 :]
    yield octets[:at] + bytes([chance.randrange(256)]) + octets[at:]
    yield octets[:at] + octets[at:other] + octets[at:]
    yield octets[:at] + octets[other:] + octets[at:other]
    yield octets[:at]
    yield octets[:64][:at] + bytes(chance.randrange(256) for _ in range(8)) + octets[:64][at + 8 :] + octets[64:]


class Sentences(Command):
    def setUp(self):
        super().setUp()
        self.kinds = "|".join(vuyhanip.library().kinds())
        here = os.getcwd()
        os.chdir(self.room)
        self.addCleanup(os.chdir, here)

    def ran(self, *words):
        """The status of the command in this process, and the lines of both its streams."""
        out, complaints = io.TextIOWrapper(io.BytesIO(), "utf-8"), io.StringIO()
        with contextlib.redirect_stdout(out), contextlib.redirect_stderr(complaints):
            status = command.main(words)
        out.flush()
        return status, out.buffer.getvalue().decode("utf-8").splitlines(), complaints.getvalue().splitlines()

    def mutants(self):
        """The names of changed files, which are written."""
        chance = random.Random(71)
        for name in FILES:
            octets = self.octets(name)
            for number in range(TIMES):
                for way, mutant in enumerate(changed(chance, octets)):
                    yield self.put(f"{number}-{way}-{name}", mutant)

    def test_each_line_is_a_sentence_of_the_manual_page(self):
        said, verdicts, complaints = (
            re.compile("|".join(f"({pattern(it, self.kinds)})" for it in group)) for group in sentences()
        )
        self.assertLessEqual(sum(map(len, sentences())), MOST)
        names, seen = list(self.mutants()), 0
        _, out, errors = self.ran("check", *names)
        for line in out:
            self.assertRegex(line, rf"^[^ ]+: ({said.pattern})$")
        self.verified(names, said, verdicts)
        for verb in (["show"], ["extract", "--into", "parts"], ["rewrite"], ["to-der"], ["tree"], ["page"]):
            for name in names:
                into = [*verb[:2], f"of-{name}"] if verb[0] == "extract" else verb
                if verb[0] in ("rewrite", "to-der", "page"):
                    into = [*verb, "-o", "made", "--overwrite"]
                status, _, more = self.ran(*into, name)
                self.assertIn(status, (0, 1, 3), (verb, name))
                errors += more
        for line in errors:
            self.assertRegex(line, rf"^[^ ]+: ({complaints.pattern}|{said.pattern})$")
            seen += 1
        self.assertGreater(seen + len(out), LEAST)

    def verified(self, names, said, verdicts):
        """Asks that each line of a verdict is a sentence, or has words of openssl."""
        for words in ([], ["--ca", "rsa.pem"], ["--password-file", "password", "--content", "data"]):
            status, out, errors = self.ran("verify", *words, *names, *FILES)
            self.assertEqual((status, errors), (1, []))
            self.assertGreaterEqual(len(out), len(names))
            self.assertGreater(sum(": signature right, " in line for line in out), 4)
            for line in out:
                self.assertRegex(line, rf"^[^ ]+: ({verdicts.pattern}|{said.pattern}|openssl: [^\x00-\x1f]+)$")

    def test_no_pattern_takes_a_sentence_that_isnt_there(self):
        groups = sentences()
        all_of = re.compile("|".join(f"({pattern(it, self.kinds)})" for group in groups for it in group))
        for line in (
            "list index out of range",
            "not enough values to unpack (expected 2, got 0)",
            "'utf-8' codec can't decode byte 0xe4 in position 1: invalid continuation byte",
            "not read: list index out of range",
            "refused: it is anything at all",
            "refused: some words at 3",
            "left in the file: what else",
            "normal 12 (from here on)",
            "signer 1: not checked: list index out of range",
            "signer 1: refused: anything (RFC 5652, 5.3)",
            "signer 1: signature right, and so on",
            "MAC not checked: something",
        ):
            self.assertIsNone(all_of.fullmatch(line), line)


if __name__ == "__main__":
    unittest.main()
