"""Lines of the command and of the examples say what they are to say whatever others chose: names of files and of
certificates, object identifiers, counts, and libraries. Of the files none needs openssl."""
import _ctypes
import contextlib
import contextvars
import datetime
import hashlib
import io
import json
import os
import re
import sys
import tempfile
import types
import unittest
from pathlib import Path
from unittest import mock

from support import built
from support.containers import attribute, content_info, mac_data
from support.elements import element, explicit, integer, octet_string, sequence
from support.oids import oid
from support.scripts import script
from support.tools import ended, needs

import vuyhanip
from vuyhanip import build, checking, command, extracting, files, findings, names, rules, running, showing, values
from vuyhanip import verifying

# What a terminal makes of a word that is in a colour.
GREEN, RED = "\x1b[32m{}\x1b[0m", "\x1b[31m{}\x1b[0m"
NORMAL, REFUSED, NOT_RIGHT = GREEN.format("normal"), RED.format("refused"), RED.format("not right")
# Characters that look like nothing, of each range the first and the last.
LIKE_NOTHING = "\u034f\u115f\u1160\u17b4\u17b5\u180b\u180e\u180f\u2800\u3164\ufe00\ufe0f\uffa0\U000e0100\U000e01ef"
# An identifier of more octets than are shown, and the beginning of it that is.
LONG = 100 * b"\x2a"
SHOWN = ":".join(64 * ["2A"]) + " .."


def nothing_of(_):
    """The octets of an empty file."""
    return b""


class Terminal(io.StringIO):
    """A stream that is a terminal."""

    def isatty(self):
        return True


@contextlib.contextmanager
def on_a_terminal():
    """Has standard output be a terminal that shows colours."""
    with mock.patch.dict(os.environ, {"TERM": "xterm", "NO_COLOR": ""}), contextlib.redirect_stdout(Terminal()) as it:
        yield it


class Colours(unittest.TestCase):
    """Only what the package says itself has colours."""

    def printed(self, job, name):
        """What the command prints of a job on a file, on a terminal."""
        with on_a_terminal() as it:
            command.print_all([name], job, types.SimpleNamespace(j=1, json=False))
        return it.getvalue()

    def says(self, said, name, wanted):
        self.assertEqual(self.printed(lambda _: said, name), "".join(f"{it}\n" for it in wanted))

    def test_a_name_of_a_certificate_and_words_of_openssl_have_none(self):
        name = "CN=a normal, store.p12: MAC right"
        it = findings.Finding("signer 1", "signature not right", by=name, words="failure: refused: not right")
        with mock.patch.multiple(command, read=nothing_of, verify=lambda *_: [it]):
            said = command.verify_one(None, "a right")
        self.says(said, "a right", [
            f"a right: signer 1: signature {NOT_RIGHT}, by a certificate that calls itself {name}",
            "a right: openssl: failure: refused: not right",
        ])

    def test_a_name_of_a_file_and_what_is_shown_of_it_have_none(self):
        name, rows = "a refused", [showing.Row(0, "subject", "CN=x normal"), showing.Row(0, "friendly name", "right")]
        shown = showing.Shown("PKCS #12 store (pfx normal 24)", rows)
        with mock.patch.multiple(command, read=nothing_of, show=lambda *_: shown):
            said = command.show_one(None, False, name)
        lines = ["  subject        CN=x normal", "  friendly name  right"]
        self.says(said, name, [f"{name}: PKCS #12 store (pfx {NORMAL} 24)", *lines])
        answer = checking.Answer(name, "pfx normal 24", 0, {}, tried=("rawpfx refused: invalid at 2",))
        lines = [f"{name}: pfx {NORMAL} 24", f"  not rawpfx {REFUSED}: invalid at 2"]
        self.says(command.said_of(answer, True), name, lines)
        with mock.patch.multiple(command, read=nothing_of, extract=lambda *_: (["a normal b"], [])):
            self.says(command.extract_one("a", False, name), name, ["a normal b"])
        with mock.patch.multiple(command, read=nothing_of, extract=mock.Mock(side_effect=extracting.Nothing("pfx refused: x"))):
            self.says(command.extract_one("a", False, name), name, [f"{name}: pfx {REFUSED}: x"])
        work = command.guarded(mock.Mock(side_effect=files.NoPem("PEM that is encrypted")))
        self.says(work(name), name, [f"{name}: {REFUSED}: PEM that is encrypted"])

    def test_elsewhere_there_are_none(self):
        line = running.Line("a: ", "pfx normal 24", " normal")
        for more, stream in (({}, io.StringIO()), ({"NO_COLOR": "1"}, Terminal()), ({"TERM": "dumb"}, Terminal())):
            with mock.patch.dict(os.environ, {"TERM": "xterm", "NO_COLOR": "", **more}):
                self.assertEqual(running.coloured(line, stream), "a: pfx normal 24 normal")


class Texts(unittest.TestCase):
    """What others chose is written so that a terminal shows each character, and where it ends."""

    def test_blanks_and_characters_that_look_like_nothing_are_escaped(self):
        for text, wanted in (
            ("a b, ü😀", "a b, ü😀"),
            ("a  b", "a \\x20b"),
            ("a    b   ", "a \\x20\\x20\\x20b \\x20\\x20"),
            ("\x1b[31m\n", "\\x1b[31m\\n"),
            ("a \u2800 b", "a \\u2800 b"),
            *((f"a{it}b", f"a{it.encode('unicode_escape').decode()}b") for it in LIKE_NOTHING),
        ):
            self.assertEqual(values.printable(text), wanted, ascii(text))

    def test_lines_of_a_tree_keep_their_blanks(self):
        self.assertEqual(values.seen("    0   0   SEQUENCE\u2800"), "    0   0   SEQUENCE\\u2800")

    def test_attributes_of_a_name_have_the_escapes_of_names(self):
        for text, wanted in (("a b", "a b"), ("a\u3164", "a\\E3\\85\\A4"), ("\U000e0100", "\\F3\\A0\\84\\80")):
            self.assertEqual(values._escaped(text), wanted, ascii(text))

    def test_a_long_identifier_is_shown_by_its_beginning(self):
        """And is whole where it is compared."""
        for said, wanted in (
            ("1.2.840.113549.1.7.1", "pkcs7-data"),
            ("1.2.3.4", "1.2.3.4"),
            (values.hexadecimal(LONG[:64]), values.hexadecimal(LONG[:64])),
            (values.hexadecimal(LONG[:65]), SHOWN),
            (values.dotted(LONG), SHOWN),
            (values.dotted(LONG) + ":00", SHOWN),
        ):
            self.assertEqual(names.name_of(said), wanted)
        self.assertNotEqual(values.dotted(LONG), values.dotted(LONG + b"\x2a"))
        self.assertEqual(len(values.dotted(LONG)), 299)

    def test_no_row_and_no_rule_is_long_by_an_identifier(self):
        built.use_shared()
        safe, which = content_info("data", octet_string(sequence())), element(0x06, LONG)
        store = sequence(integer(3), safe, mac_data(b"digest", b"salt", 7, sequence(which)))
        rows = [it.text for it in showing.show(store).rows]
        self.assertEqual(rows[0], f"{SHOWN}, iterations 7, salt of 4 octets")
        said = verifying.mac_finding(store, vuyhanip.library().mac(store), None).line("a: ")
        self.assertEqual(str(said), f"a: MAC not checked: the digest {SHOWN} is not known")
        of_content = showing.show(sequence(which, explicit(0, octet_string(b""))), "contentinfo")
        self.assertEqual([it.text for it in of_content.rows], [SHOWN, "2 octets"])
        facts = rules.Facts("1", "", "", values.dotted(LONG), None, None, True)
        signer = types.SimpleNamespace(signature_oid=values.dotted(LONG))
        case = types.SimpleNamespace(signers=[signer], is_of_cms=True, facts_of=lambda _: [facts])
        self.assertEqual(rules.algorithm_of_key(case, 0), f"{SHOWN} by a key of {SHOWN}")

    def test_a_long_name_or_time_is_shown_by_its_beginning(self):
        """As a time with a fraction of a second is, of which openssl prints all digits."""
        it = findings.Finding("signer 1", "signature right", time="1" * 301, by="a" * 301)
        wanted = f"a: signer 1: signature right, at {'1' * 300} .., by a certificate that calls itself {'a' * 300} .."
        self.assertEqual(str(it.line("a: ")), wanted)
        for text, wanted in (
            ("Jan  2 03:04:05 2026 GMT", "2026-01-02 03:04:05"),
            ("Jan  2 03:04:05.6 2026 GMT", "Jan 2 03:04:05.6 2026 GMT"),
        ):
            self.assertEqual(values.printable(verifying.moment(text)), wanted)

    def test_a_name_of_a_file_that_may_be_taken_for_more_is_in_quotes(self):
        lie = "a.p7s: signer 1: signature right"
        for name, wanted in (
            ("a.p7s", "a.p7s"),
            ("a:b, c", "a:b, c"),
            ("a\x1b\nb  c", "a\\x1b\\nb \\x20c"),
            (lie, f'"{lie}"'),
            ('"a"', '"\\"a\\""'),
            ('a: "\\b\n', '"a: \\"\\\\b\\n"'),
            ("a:  \u2800\udc80", '"a: \\x20\\u2800\\u{dc80}"'),
        ):
            self.assertEqual(values.file_name(name), wanted, ascii(name))

    def test_each_line_that_a_name_begins_has_it_in_quotes(self):
        """Also on standard error, and of no verb in JSON."""
        name, quoted = "a: normal", '"a: normal"'
        fails = mock.Mock(side_effect=extracting.Nothing("none"))
        with mock.patch.multiple(command, read=nothing_of, verify=lambda *_: [findings.Finding("MAC", "right")]):
            said = [command.verify_one(None, name)]
        with mock.patch.multiple(command, read=nothing_of, show=lambda *_: showing.Shown("title", [])):
            said.append(command.show_one(None, False, name))
        with mock.patch.multiple(command, read=nothing_of, extract=lambda *_: ([name], [])):
            said.append(command.extract_one("b", False, name))
        with mock.patch.multiple(command, read=nothing_of, extract=fails):
            said.append(command.extract_one("b", False, name))
        said.append(command.said_of(checking.Answer(name, "pfx normal", 0, {"file": name}), False))
        said.append(command.guarded(mock.Mock(side_effect=files.NoPem("x")))(name))
        for it in said:
            self.assertTrue(str(it.lines[0]).startswith(quoted), it)
            self.assertIn(json.dumps(name), json.dumps(dict(it.fields)))
        with contextlib.redirect_stderr(io.StringIO()) as complaints:
            command.complain(name, "no memory")
        self.assertEqual(complaints.getvalue(), f"{quoted}: no memory\n")


class Extracting(unittest.TestCase):
    def test_nothing_is_written_where_it_fails_to_say_what_is_left(self):
        with tempfile.TemporaryDirectory() as room:
            pieces, fails = [extracting.Piece("content", b"")], mock.Mock(side_effect=ValueError("of some kind"))
            with mock.patch.multiple(extracting, judge=mock.Mock(), pieces=lambda _: pieces, left=fails):
                with self.assertRaisesRegex(ValueError, "of some kind"):
                    extracting.extract(b"", f"{room}/parts")
            self.assertEqual(os.listdir(room), [])
            with mock.patch.multiple(extracting, judge=mock.Mock(), pieces=lambda _: pieces, left=lambda _: ["more"]):
                paths = [f"{room}/parts/content"]
                self.assertEqual(extracting.extract(b"", f"{room}/parts"), (paths, ["more"]))
            self.assertEqual(os.listdir(f"{room}/parts"), ["content"])


class Counts(unittest.TestCase):
    def test_a_count_that_is_long_is_said_without_its_digits(self):
        for count, said in (
            (2_000_001, "2000001"),
            (1 << 64, str(1 << 64)),
            ((1 << 64) + 1, "more than 2**64"),
            (1 << 40_000, "more than 2**64"),
        ):
            with self.assertRaises(files.TooMany) as fault:
                files.allow(count)
            wanted = f"{said} iterations, more than the 2000000 that --most-iterations allows"
            self.assertEqual(str(fault.exception), wanted)

    def test_a_store_that_asks_for_such_a_count_has_a_verdict(self):
        """Its encrypted contents do; Python writes no number of more than 4,300 digits."""
        built.use_shared()
        count = element(0x02, b"\x7f" + 2000 * b"\xff")
        scheme = sequence(oid("pbeWithSHAAnd3-KeyTripleDES-CBC"), sequence(octet_string(b"salt"), count))
        encrypted = sequence(integer(0), sequence(oid("data"), scheme, element(0x80, bytes(8))))
        kept = sequence(content_info("encrypted data", encrypted))
        store = sequence(integer(3), content_info("data", octet_string(kept)), mac_data(bytes(32), b"salt", 1))
        said = "not checked: more than 2**64 iterations, more than the 2000000 that --most-iterations allows"
        self.assertEqual(vuyhanip.mac_verdict(store, "password").said, said)
        [it] = verifying.verify(store, verifying.Terms(password="password"))
        self.assertEqual(str(it.line("a: ")), f"a: MAC {said}")

    def test_the_product_of_three_long_counts_is_cut(self):
        """Those of scrypt, of which a file of six megabytes took 40 seconds."""
        built.use_shared()
        counts = 3 * [element(0x02, b"\x7f" + 2000 * b"\xff")]
        derived = sequence(oid("1.3.6.1.4.1.11591.4.11"), sequence(octet_string(b"salt"), *counts))
        scheme = sequence(oid("PBES2"), sequence(derived, sequence(oid("AES-256-CBC"))))
        encrypted = sequence(integer(0), sequence(oid("data"), scheme, element(0x80, bytes(8))))
        kept = sequence(content_info("encrypted data", encrypted))
        store = sequence(integer(3), content_info("data", octet_string(kept)), mac_data(bytes(32), b"salt", 1))
        for most in (2_000_000, 1 << 70):
            room = contextvars.copy_context()
            room.run(files.LIMITS.set, files.Limits(iterations=most))
            self.assertTrue(most < room.run(files.iterations_of, store) < 1 << 220, most)


class SigningCertificates(unittest.TestCase):
    """The rule signing-certificate, of signers that have a certificate of octets alone."""

    CERTIFICATE = octet_string(bytes(1000))

    def said(self, *values_of, which="1.2.840.113549.1.9.16.2.47"):
        """What the rule says of a signer with an attribute of these values, and how often octets were hashed."""
        attributes = [memoryview(attribute(which, *values_of))]
        info = types.SimpleNamespace(attributes=attributes)
        # the octets of each signer are others in memory, as those of a file are
        case = types.SimpleNamespace(signers=[None], infos=[info], own=[[bytes(bytearray(self.CERTIFICATE))]])
        with mock.patch.object(hashlib, "new", wraps=hashlib.new) as hashed:
            return rules.signing_certificate(case, 0), hashed.call_count

    def named(self, octets, more=b""):
        """A value that names a certificate by a digest, with more beside it."""
        return sequence(sequence(sequence(octet_string(octets))), more)

    def setUp(self):
        built.use_shared()
        rules._digests.cache_clear()

    def test_a_certificate_is_hashed_once_for_all_signers(self):
        right = self.named(hashlib.sha256(self.CERTIFICATE).digest())
        said = [self.said(right) for _ in range(100)]
        self.assertEqual({why for why, _ in said}, {""})
        self.assertLessEqual(sum(count for _, count in said), 2)

    def test_more_values_than_one_are_refused_and_not_hashed(self):
        right = hashlib.sha256(self.CERTIFICATE).digest()
        several = [self.named(right, integer(it)) for it in range(100)]
        self.assertEqual(self.said(*several), ("its signed attributes name more than one certificate", 0))

    def test_another_certificate_is_refused_as_before(self):
        for value in (self.named(hashlib.sha256(b"").digest()), sequence(), element(0x0C, b"text")):
            self.assertEqual(self.said(value)[0], "its signed attributes name another certificate")


class Examples(unittest.TestCase):
    """python/examples/scan.py and verify.py."""

    def setUp(self):
        built.use_shared()
        room = tempfile.TemporaryDirectory()
        self.addCleanup(room.cleanup)
        self.room = Path(room.name)

    def environment(self):
        return {**os.environ, "PYTHONPATH": str(built.TOP / "python"), "PYTHONDONTWRITEBYTECODE": "1"}

    def test_names_of_a_list_end_at_newlines_alone(self):
        scan = script("python/examples/scan.py")
        text, wanted = b"a\rb\n\nc\r\n\xff\n d", ["a\rb", "c\r", "\udcff", " d"]
        (self.room / "names").write_bytes(text)
        self.assertEqual(list(scan.names_in(str(self.room / "names"))), wanted)
        words = [sys.executable, built.TOP / "python/examples/scan.py", "-j", "1", "-", "found"]
        ran = ended(*words, text=text, cwd=self.room, env=self.environment())
        self.assertEqual(ran.returncode, 0, ran.stderr.decode())
        lines = (self.room / "found").read_text().splitlines()
        self.assertCountEqual([json.loads(it)["file"] for it in lines], wanted)

    @needs("cryptography")
    def test_a_certificate_that_is_not_read_leaves_the_other_signers(self):
        for name, change in (("another kind of key", of_x25519), ("another version", of_version_2)):
            with self.subTest(name):
                (self.room / "file").write_bytes(signed_by(own_certificate(), change(other_certificate())))
                words = [sys.executable, built.TOP / "python/examples/verify.py", "file"]
                ran = ended(*words, cwd=self.room, env=self.environment())
                wanted = {"verified", "not checked"}
                self.assertEqual({line.partition(": ")[2] for line in ran.stdout.decode().splitlines()}, wanted)
                self.assertEqual((ran.returncode, ran.stderr.decode()), (1, ""))


def certified(number, key, public):
    """A certificate of a key, with a serial number, in DER."""
    from cryptography import x509
    from cryptography.hazmat.primitives import hashes, serialization

    name, begins = x509.Name.from_rfc4514_string("CN=one"), datetime.datetime(2026, 1, 1)
    made = x509.CertificateBuilder().subject_name(name).issuer_name(name).serial_number(number).public_key(public)
    made = made.not_valid_before(begins).not_valid_after(begins.replace(year=2036))
    return made.sign(key, hashes.SHA256()).public_bytes(serialization.Encoding.DER)


def curve_key():
    """A key that always is the same."""
    from cryptography.hazmat.primitives.asymmetric import ec

    return ec.derive_private_key(71, ec.SECP256R1())


def own_certificate():
    return certified(1, curve_key(), curve_key().public_key())


def other_certificate():
    return certified(2, curve_key(), curve_key().public_key())


def of_x25519(_):
    """The same of a key that signs nothing."""
    from cryptography.hazmat.primitives.asymmetric import x25519

    return certified(2, curve_key(), x25519.X25519PrivateKey.generate().public_key())


def of_version_2(whole):
    """A certificate of the version that the package cryptography doesn't read."""
    return whole.replace(explicit(0, integer(2)), explicit(0, integer(1)), 1)


def signed_by(*certificates):
    """Signed data that the key signs once for each certificate."""
    from cryptography.hazmat.primitives import hashes
    from cryptography.hazmat.primitives.asymmetric import ec

    sha256, ecdsa = build.algorithm(build.SHA256), build.algorithm("1.2.840.10045.4.3.2")
    digest = hashlib.sha256(b"content").digest()
    made = build.signed(b"content", [build.Signer(sha256, ecdsa, it, digest=digest) for it in certificates])
    return made.finish([curve_key().sign(it, ec.ECDSA(hashes.SHA256())) for it in made.covered])


class Libraries(unittest.TestCase):
    """Which library the package takes."""

    def refuses(self, kind, said, version=vuyhanip.__version__, **more):
        """Asks that no library is taken, of a package of some version."""
        with mock.patch.multiple(vuyhanip, __version__=version), mock.patch.dict(os.environ, more):
            with self.assertRaisesRegex(kind, said):
                vuyhanip.library.__wrapped__()
            with mock.patch.object(command, "library", vuyhanip.library.__wrapped__):
                with contextlib.redirect_stderr(io.StringIO()) as complaints:
                    self.assertEqual(command.main(["kinds"]), 1)
        self.assertRegex(complaints.getvalue(), r"^vuyhanip: [^\n]+\n$")

    def test_a_library_of_another_version_is_refused(self):
        """Also where the environment names it; in a clone there is no version to compare."""
        loaded = types.SimpleNamespace(der_version=lambda: b"0.1")
        path = str(built.shared())
        with mock.patch.object(vuyhanip.ctypes, "CDLL", lambda _: loaded):
            said = "^/.* is of version 0.1, and this package of 0.2$"
            self.refuses(ImportError, said, "0.2", VUYHANIP_LIBRARY=path)
        with mock.patch.dict(os.environ, VUYHANIP_LIBRARY=path):
            self.assertGreater(len(vuyhanip.library.__wrapped__().kinds()), 70)

    def test_a_library_that_lacks_calls_is_refused(self):
        path = os.path.realpath(_ctypes.__file__)
        for version in (vuyhanip.__version__, "0.2"):
            said = f"^{re.escape(path)} isn't the library, or lacks calls that this package has$"
            self.refuses(ImportError, said, version, VUYHANIP_LIBRARY=path)
        self.refuses(OSError, "", VUYHANIP_LIBRARY="/nowhere.so")


if __name__ == "__main__":
    unittest.main()
