"""`vuyhanip check` over files of openssl: what it says, and its exit statuses."""
import json
import os
import pty
import re
import subprocess
import sys
import unittest

from support.command import EMPTY, LOOSE, SIGNERS, Command
from support.containers import NULL, content_info
from support.elements import octet_string, sequence, within
from support.oids import oid

# The content of signed data, which is data.
STRING = octet_string(b"some content\n" * 10)


class Check(Command):
    def test_a_file_is_of_the_first_kind_that_accepts_it(self):
        for name, kind in (
            ("store.p12", "pfx"),
            ("attributes.p7s", "pkcs7certificate"),
            ("list.crl", "certificatelist"),
            ("enveloped.p7m", "contentinfo"),
        ):
            self.says(["check", name], [f"{name}: {kind} normal {len(self.octets(name))}"])

    def test_a_named_kind_is_not_said(self):
        self.says(["check", "--kind", "rawpfx", "empty.p12"], ["empty.p12: normal 24"])

    def test_standard_input(self):
        self.assertEqual(self.command("check", "-", text=EMPTY), (0, "-: pfx normal 24\n", ""))

    def test_pem_is_decoded(self):
        size = len(self.openssl("crl", "-in", "list.pem", "-outform", "DER"))
        self.says(["check", "list.pem"], [f"list.pem: certificatelist normal {size} (from PEM)"])
        self.finds(["check", "--strict", "list.pem"], ["^list.pem: .* refused: "], 1)

    def test_of_several_blocks_of_pem_the_first_is_read(self):
        self.put("both.pem", self.octets("list.pem") + self.octets("signed.pem"))
        size = len(self.octets("list.crl"))
        self.says(["check", "both.pem"], [f"both.pem: certificatelist normal {size} (from PEM block 1 of 2)"])
        self.put("empty.pem", b"-----BEGIN CMS-----\n*\n-----END CMS-----\n")
        self.says(["check", "empty.pem"], ["empty.pem: refused: PEM without base64 in it"], 1)

    def test_pem_of_which_others_may_read_something_else_is_refused(self):
        first, *lines = self.octets("list.pem").splitlines(keepends=True)
        for fault, octets in (
            ("header lines", [first, b"Comment: text\n\n", *lines]),
            ("a blank line in it", [first, lines[0], b" \n", *lines[1:]]),
            ("BEGIN in a line that begins no block", [first[:-1], b"\1\n", *lines, first, *lines]),
        ):
            self.put("other.pem", b"".join(octets))
            self.says(["check", "other.pem"], [f"other.pem: refused: PEM with {fault}"], 1)
        self.put("list-again.pem", b"".join([first, b"\n", *lines]))
        self.finds(["check", "list-again.pem"], ["certificatelist normal"])

    def test_refusals_of_kinds_that_were_tried_are_told(self):
        said = self.finds(["check", "-v", "list.crl"], ["^list.crl: certificatelist normal"])
        tried = re.findall(r"^  not (\w+) refused: \w+ at \d+ \(SEQUENCE", said, re.MULTILINE)
        self.assertEqual(tried, ["pfx", "rawpfx", "pkcs7certificate"])

    def test_ber_is_converted_and_not_normal(self):
        self.assertIn(b"\x30\x80", self.octets("stream.p7s")[:2])
        self.finds(["check", "stream.p7s"], [r"^stream\.p7s: pkcs7certificate normal \d+ \(from BER\)$"], 3)
        self.finds(["check", "--strict", "stream.p7s"], [r"refused: malformed at 0"], 1)

    def test_loose(self):
        self.put("digest.der", LOOSE)
        self.says(["check", "--kind", "pkcs12digestinfo", "digest.der"], ["digest.der: loose 33 -> 35"], 3)

    def test_a_refusal_has_its_place_and_path(self):
        self.put("version.p12", EMPTY[:4] + b"\2" + EMPTY[5:])
        said = "version.p12: refused: invalid at 2 (SEQUENCE > INTEGER 0)"
        self.says(["check", "--kind", "pfx", "version.p12"], [said], 1)
        self.put("after.p12", EMPTY + b"\0")
        said = "after.p12: refused: malformed at 24 (after SEQUENCE)"
        self.says(["check", "--kind", "pfx", "after.p12"], [said], 1)
        self.put("missing.p12", bytes.fromhex("3003020103"))
        said = "missing.p12: refused: missing at 5 (end of SEQUENCE)"
        self.says(["check", "--kind", "pfx", "missing.p12"], [said], 1)

    def test_a_missing_file_leaves_the_others(self):
        ended, said, complaints = self.command("check", "nothere", "empty.p12", ".")
        self.assertEqual((ended, said), (1, "empty.p12: pfx normal 24\n"))
        self.assertEqual(complaints, "nothere: No such file or directory\n.: Is a directory\n")

    def test_what_is_in_content_of_a_known_type_is_looked_into(self):
        """The kind contentinfo takes any element there."""
        whole, by_key = self.octets("attributes.p7s"), self.octets("keyid.p7s")
        version = whole.index(b"\x02\x01\x01")
        junk = sequence(bytes.fromhex("DEADBEEF"))
        for name, octets, place in (
            ("version.p7s", whole[:version] + b"\x13" + whole[version + 1 :], version),
            ("junk.p7s", content_info("signed data", junk), 17),
            ("junk.p7m", content_info("1.2.840.113549.1.7.3", junk), 17),
            ("junk.data", content_info("data", junk), 15),
            ("string.p7s", whole.replace(STRING, b"\x0c" + STRING[1:]), whole.index(STRING)),
            ("string3.p7s", by_key.replace(STRING, b"\x0c" + STRING[1:]), by_key.index(STRING)),
        ):
            self.put(name, octets)
            self.assertFalse(self.succeeds("cms", "-cmsout", "-noout", "-inform", "DER", "-in", name), name)
            self.finds(["check", name], [rf"^{name}: \w+ refused: \w+ at {place} \("], 1)
            for verb in (["show"], ["verify"], ["extract", "--into", "parts"]):
                self.assertIn("refused: ", self.command(*verb, name)[1], verb)
            self.finds(["check", "--kind", "contentinfo", name], [": normal"])

    def test_ber_in_der_is_converted_before_content_is_taken_as_it_is(self):
        """A length of two octets in an attribute, which openssl verifies as DER has it."""
        longer = lambda it: it.replace(b"\x31\x0b", b"\x31\x81\x0b", 1)
        self.put("length.p7s", within(self.octets("attributes.p7s"), [*SIGNERS, 0, 0xA0, 0], longer))
        words = ["-noverify", "-binary", "-inform", "DER", "-out", "out"]
        self.assertTrue(self.succeeds("cms", "-verify", *words, "-in", "length.p7s"))
        size = len(self.octets("attributes.p7s"))
        self.says(["check", "length.p7s"], [f"length.p7s: pkcs7certificate normal {size} (from BER)"], 3)
        self.assertEqual(self.command("to-der", "length.p7s", "-o", "made")[0], 0)
        self.assertEqual(self.octets("made"), self.octets("attributes.p7s"))

    def test_content_that_only_its_type_refuses_is_said_and_accepted(self):
        """A cabinet's (1.3.6.1.4.1.311.2.1.25), where the type reads a program's."""
        cabinet = sequence(sequence(oid("1.3.6.1.4.1.311.2.1.25"), sequence(octet_string(b""))), sequence(NULL))
        whole = self.signed_over("1.3.6.1.4.1.311.2.1.4", cabinet)
        self.put("cabinet.p7s", whole)
        place = whole.index(cabinet)
        unread = r"its content isn't read: \w+ at (\d+) \(SEQUENCE > .*\)"
        wanted = rf"^cabinet\.p7s: contentinfo normal {len(whole)}, {unread}$"
        said = self.finds(["check", "cabinet.p7s"], [wanted])
        self.assertIn(int(re.search(wanted, said)[1]), range(place, place + len(cabinet) + 1))
        told = json.loads(self.command("check", "--json", "cabinet.p7s")[1])
        self.assertEqual((told["verdict"], told["unread"].split()[1]), ("normal", "at"))

    def test_statuses(self):
        self.put("digest.der", LOOSE)
        for names, status in (
            (["empty.p12"], 0),
            (["empty.p12", "stream.p7s"], 3),
            (["stream.p7s", "broken.p7s", "empty.p12"], 1),
        ):
            self.assertEqual(self.command("check", *names)[0], status)
        for words in ("", "check", "check --kind p12 empty.p12", "chek empty.p12", "check -j 0 empty.p12"):
            self.assertEqual(self.command(*words.split())[0], 2, words)

    def test_json_and_processes(self):
        names = ["empty.p12", "nothere", "broken.p7s", "stream.p7s", "store.p12"] * 4
        _, said, _ = self.command("check", "--json", "-j", "3", *names)
        lines = [json.loads(line) for line in said.splitlines()]
        self.assertEqual([it["file"] for it in lines], names)
        self.assertEqual(said, self.command("check", "--json", *names)[1])
        for key in ("file", "kind", "verdict", "length", "place", "path", "error"):
            self.assertTrue(all(key in it for it in lines), key)
        self.assertEqual([it["verdict"] for it in lines[:3]], ["normal", None, "refused"])
        self.assertEqual(lines[1]["error"], "No such file or directory")
        self.assertEqual((lines[0]["kind"], lines[0]["length"]), ("pfx", 24))

    def test_names_are_printed_without_control_characters(self):
        name = self.put("a\x1b[31m\nb", EMPTY)
        self.says(["check", name], ["a\\x1b[31m\\nb: pfx normal 24"])

    def test_colours_are_for_terminals(self):
        words = [sys.executable, "-m", "vuyhanip", "check", "empty.p12"]
        for more, is_there in (({}, True), ({"NO_COLOR": "1"}, False)):
            upper, lower = pty.openpty()
            environment = self.environment(TERM="xterm", **more)
            subprocess.run(words, stdout=lower, check=True, cwd=self.room, env=environment)
            self.assertEqual(b"\x1b[32mnormal" in os.read(upper, 1000), is_there)
            os.close(lower)
            os.close(upper)

    def test_each_verb_has_help_with_an_example(self):
        for verb in "check show extract to-der rewrite tree verify page".split():
            ended, said, _ = self.command(verb, "--help")
            self.assertEqual(ended, 0)
            self.assertIn(f"example:\n  vuyhanip {verb} ", said)


if __name__ == "__main__":
    unittest.main()
