"""What the command writes of files of openssl: `vuyhanip extract`, `to-der`, `rewrite` and `tree`."""
import errno
import json
import os
import re
import stat
import subprocess
import sys
import unittest
import unittest.mock
from concurrent.futures import ThreadPoolExecutor

from support import built, tools
from support.command import EMPTY_LIST, LOOSE, SIGNERS, Command, nested_store
from support.containers import attribute
from support.elements import contents, element, sequence, within
from support.oids import ARCS

import vuyhanip
from vuyhanip import containers, writing

# The types of a bag of certificates and of one of revocation lists, with the type of X.509.
X509 = {
    "certificate": (ARCS["certificate bag"], ARCS["X.509 certificate"]),
    "list": (ARCS["list bag"], ARCS["X.509 list"]),
}
# A segment in another, in an OCTET STRING (X.690, 8.7.3).
SEGMENTS = bytes.fromhex("2480 2480 040141 0000 0000")


def parts_of(which, whole):
    """The parts that the library says of a file, one after another."""
    found, index = [], 0
    while (said := vuyhanip.library().part(which, whole, index)) is not None:
        found, index = [*found, said], index + 1
    return found


class Extract(Command):
    def test_extract_signed(self):
        self.finds(["extract", "two.p7s", "--into", "parts"], ["parts/content", "parts/certificate-2.der"])
        self.assertEqual(self.octets("parts/content"), self.octets("data"))
        written = {self.octets(f"parts/certificate-{it}.der") for it in (1, 2)}
        self.assertEqual(written, {self.octets("rsa.der"), self.octets("ec.der")})

    def test_extract_signed_by_key_identifier(self):
        self.finds(["extract", "keyid.p7s", "--into", "by-key"], ["by-key/content", "by-key/certificate-1.der"])
        self.assertEqual(self.octets("by-key/content"), self.octets("data"))
        self.assertEqual(self.octets("by-key/certificate-1.der"), self.octets("rsa.der"))

    def test_what_is_found_in_python_is_what_the_library_says(self):
        """Parts of files that are normal, which the library has by their indices, and the command as it finds them."""
        part = vuyhanip.Part
        for name in ("attributes.p7s", "two.p7s", "noattributes.p7s", "nocertificate.p7s"):
            text = self.octets(name)
            self.assertEqual(containers.signed(text).certificates, parts_of(part.CERTIFICATE, text))
        stores = [self.octets(it) for it in ("store.p12", "plain.p12", "nomac.p12", "empty.p12", "smile.p12")]
        nested = [nested_store(self.octets("plain.p12")), self.octets("nested.p12")]
        # two bags, then three times those so far and the bag around them, and two more
        self.assertEqual([len(list(containers.bags(it))) for it in nested], [25, 25])
        for store in (*stores, *nested):
            its = vuyhanip.library().store(store)
            certificates, lists = (list(containers.x509_values(store, *X509[it])) for it in ("certificate", "list"))
            self.assertEqual(certificates, parts_of(part.STORE_CERTIFICATE, store))
            self.assertEqual((certificates, lists), (list(its.certificates), list(its.crls)))
            for kind, which in (("KEY_BAG", part.STORE_KEY), ("SHROUDED_KEY_BAG", part.STORE_ENCRYPTED_KEY)):
                found = containers.bag_values(store, getattr(containers, kind))
                self.assertEqual([it.encoding for it in found], parts_of(which, store))
            bags = [bag for bag in its.bags if bag.kind is not vuyhanip.BagKind.UNREAD]
            shown = [(level, it.encoding) for level, it in containers.bags(store)]
            self.assertEqual([(it.level, it.element) for it in bags], shown)
            self.assertEqual([it.element for it in bags], parts_of(part.STORE_BAG, store))

    def test_extract_keys(self):
        self.finds(["extract", "plain.p12", "--into", "keys"], ["keys/key-1.der", "keys/certificate-1.der"])
        self.assertEqual((self.room / "keys/key-1.der").stat().st_mode & 0o777, 0o600)
        shown = self.openssl("pkey", "-inform", "DER", "-in", "keys/key-1.der", "-pubout")
        self.assertEqual(shown, self.openssl("pkey", "-in", "rsa.key", "-pubout"))
        said = self.command("extract", "store.p12", "--into", "locked")
        left = "store.p12: left in the file: encrypted contents: 1\n"
        self.assertEqual(said, (0, "locked/encrypted-key-1.der\n", left))
        words = ["-inform", "DER", "-in", "locked/encrypted-key-1.der", "-passin", "file:password", "-pubout"]
        self.assertEqual(self.openssl("pkey", *words), shown)

    def test_extract_a_store_with_names_past_uffff_and_bags_in_bags(self):
        for name, count, left in (("smile.p12", 1, ""), ("nested.p12", 8, "certificates that aren't of X.509: 1")):
            status, said, complaints = self.command("extract", name, "--into", f"of-{name}")
            self.assertEqual((status, complaints), (0, left and f"{name}: left in the file: {left}\n"))
            self.assertIn(f"of-{name}/certificate-{count}.der\n", said)
            self.assertEqual(self.octets(f"of-{name}/certificate-{count}.der"), self.octets("rsa.der"))
            self.assertEqual((self.room / f"of-{name}/key-{count}.der").stat().st_mode & 0o777, 0o600)
            key = self.openssl("pkey", "-inform", "DER", "-in", f"of-{name}/key-{count}.der")
            self.assertEqual(key, self.openssl("pkey", "-in", "rsa.key"))
        self.assertEqual(self.octets("of-nested.p12/revocation-list-1.der"), EMPTY_LIST)
        refused = r"^half\.p12: rawpfx, whose bags are refused: invalid at"
        self.finds(["extract", "half.p12", "--into", "half"], [refused], 1)

    def test_blocks_of_pem_that_are_left_are_told(self):
        """All of them are verified, and the first is read."""
        self.put("three.pem", 3 * self.octets("signed.pem"))
        status, said, complaints = self.command("extract", "three.pem", "--into", "first")
        self.assertEqual((status, said), (0, "first/certificate-1.der\nfirst/content\n"))
        self.assertEqual(complaints, "three.pem: left in the file: blocks of PEM: 2\n")
        self.assertEqual(self.command("extract", "signed.pem", "--into", "alone")[2], "")

    def test_what_is_left_of_a_signed_file_is_told(self):
        stamp = element(0xA1, attribute("1.2.840.113549.1.9.16.2.14", self.octets("stamp.tst")))
        stamped = within(self.octets("attributes.p7s"), SIGNERS, lambda it: sequence(contents(it), stamp))
        self.put("stamped.p7s", stamped)
        _, said, complaints = self.command("extract", "stamped.p7s", "--into", "stamped", "--json")
        self.assertEqual(complaints, "stamped.p7s: left in the file: time stamps: 1\n")
        self.assertEqual(json.loads(said)["left"], ["time stamps: 1"])

    def test_nothing_is_overwritten(self):
        (self.room / "full").mkdir()
        self.put("full/content", b"mine")
        ended, said, complaints = self.command("extract", "attributes.p7s", "--into", "full")
        self.assertEqual((ended, said), (1, ""))
        self.assertEqual(complaints, "attributes.p7s: full/content is there already\n")
        self.assertEqual(os.listdir(self.room / "full"), ["content"])
        self.assertEqual(self.octets("full/content"), b"mine")


class Write(Command):
    def test_to_der(self):
        for name in ("list.pem", "list.crl"):
            self.assertEqual(self.command("to-der", name, "-o", "made", "--overwrite")[0], 0)
            self.assertEqual(self.octets("made"), self.octets("list.crl"))
        self.command("to-der", "stream.p7s", "-o", "made", "--overwrite")
        self.assertTrue(self.succeeds("cms", "-verify", "-noverify", "-inform", "DER", "-in", "made", "-out", "out"))
        self.assertEqual(self.octets("out"), self.octets("data"))
        self.says(["check", "made"], [f"made: pkcs7certificate normal {len(self.octets('made'))}"])
        ended, said, complaints = self.command("to-der", "broken.p7s")
        self.assertEqual((ended, said), (1, ""))
        self.assertIn("broken.p7s: refused: ", complaints)

    def test_rewrite(self):
        self.put("digest.der", LOOSE)
        self.assertEqual(self.command("rewrite", "--kind", "pkcs12digestinfo", "digest.der", "-o", "made")[0], 0)
        wanted = "3021300906052B0E03021A05000414" + "9B9F5586D85A3861A22D402FE789669C64027681"
        self.assertEqual(self.octets("made").hex().upper(), wanted)
        self.assertEqual(self.command("rewrite", "broken.p7s")[0], 1)


# The verbs that write a file.
WRITING = ("to-der", "rewrite", "page")


class Out(Command):
    """Where a verb writes, and who may read it."""

    def mode(self, name):
        return (self.room / name).stat().st_mode & 0o777

    def test_a_file_that_is_there_is_overwritten_only_where_that_is_asked_for(self):
        for verb in WRITING:
            self.put("made", b"before")
            for name in ("made", "plain.p12"):
                before = self.octets(name)
                said = self.command(verb, "plain.p12", "-o", name)
                self.assertEqual(said, (1, "", f"{name}: there already; --overwrite replaces it\n"), verb)
                self.assertEqual(self.octets(name), before)
            self.assertEqual(self.command(verb, "plain.p12", "-o", "made", "--overwrite"), (0, "", ""), verb)
            self.assertNotEqual(self.octets("made"), b"before")
            self.assertEqual([it for it in os.listdir(self.room) if it.startswith(".")], [])

    def test_a_file_that_comes_to_be_there_is_not_overwritten(self):
        """Between when it was looked for and when it is written; also where a file can't have two names."""
        without_links = unittest.mock.Mock(side_effect=OSError(errno.EPERM, "no links"))
        for name, link in (("linked", os.link), ("without", without_links)):
            made = str(self.room / name)
            with unittest.mock.patch("os.lstat", side_effect=FileNotFoundError), unittest.mock.patch("os.link", link):
                writing.write(b"mine", made)
                with self.assertRaises(FileExistsError):
                    writing.write(b"other", made)
            self.assertEqual(self.octets(made), b"mine")
            self.assertEqual([it for it in os.listdir(self.room) if it.startswith(".")], [])

    def test_what_may_hold_a_key_is_for_its_owner_only(self):
        self.openssl("pkey", "-in", "rsa.key", "-out", "key.pem")
        os.chmod(self.room / "plain.p12", 0o644)
        stores = ((verb, "plain.p12", 0) for verb in WRITING)
        for verb, name, status in (*stores, ("to-der", "key.pem", 0), ("page", "key.pem", 1)):
            made = f"{verb}-{name}"
            self.assertEqual(self.command(verb, name, "-o", made)[0], status, made)
            self.assertEqual(self.mode(made), 0o600, made)
            os.chmod(self.room / made, 0o664)
            self.assertEqual(self.command(verb, name, "-o", made, "--overwrite")[0], status, made)
            self.assertEqual(self.mode(made), 0o600, made)

    def test_others_have_the_mode_of_what_is_replaced_or_of_the_input(self):
        before = os.umask(0o022)
        self.addCleanup(os.umask, before)
        for name in ("list.crl", "attributes.p7s"):
            for verb in WRITING:
                for mode, wanted in ((0o640, 0o640), (0o666, 0o644), (0o600, 0o600)):
                    os.chmod(self.room / name, mode)
                    made = f"{verb}-{name}-{mode:o}"
                    self.assertEqual(self.command(verb, name, "-o", made), (0, "", ""))
                    self.assertEqual(self.mode(made), wanted, made)
                os.chmod(self.room / made, 0o666)
                self.assertEqual(self.command(verb, name, "-o", made, "--overwrite"), (0, "", ""))
                self.assertEqual(self.mode(made), 0o666)
        os.chmod(self.room / "rsa.pem", 0o644)
        self.assertEqual(self.command("to-der", "rsa.pem", "-o", "of-certificate"), (0, "", ""))
        self.assertEqual(self.mode("of-certificate"), 0o644)
        self.assertEqual(self.command("to-der", "-", "-o", "of-input", text=self.octets("list.pem"))[0], 0)
        self.assertEqual(self.mode("of-input"), 0o644)

    def test_what_is_no_regular_file_is_written_and_not_replaced(self):
        whole = self.octets("list.crl")
        for words in ((), ("--overwrite",)):
            self.assertEqual(self.command("to-der", "list.crl", "-o", "/dev/null", *words), (0, "", ""))
            self.assertTrue(stat.S_ISCHR(os.stat("/dev/null").st_mode))
            name = self.room / f"pipe{len(words)}"
            os.mkfifo(name)
            with ThreadPoolExecutor(1) as pool:
                read = pool.submit(name.read_bytes)
                self.assertEqual(self.command("to-der", "list.crl", "-o", name, *words), (0, "", ""))
                self.assertEqual(read.result(), whole)
            self.assertTrue(name.is_fifo())
            ended, _, complaints = self.command("to-der", "list.crl", "-o", ".", *words)
            self.assertEqual((ended, complaints), (1, ".: Is a directory\n"))

    def test_standard_output_by_its_names_is_written_from_where_it_is_on(self):
        """Also where it is a file that has something already."""
        whole = self.octets("list.crl")
        for name in ("-", "/dev/stdout", "/dev/fd/1", "/proc/self/fd/1"):
            with open(self.room / "appended", "wb") as file:
                file.write(b"before")
                file.flush()
                words = [sys.executable, "-m", "vuyhanip", "to-der", "list.crl", "-o", name]
                subprocess.run(words, stdout=file, check=True, cwd=self.room, env=self.environment())
            self.assertEqual(self.octets("appended"), b"before" + whole, name)

    def test_nothing_is_written_through_a_symbolic_link(self):
        self.put("there", b"before")
        for name, target in (("link", "there"), ("dangling", "nothere")):
            os.symlink(target, self.room / name)
            for words in ((), ("--overwrite",)):
                ended, said, complaints = self.command("to-der", "list.crl", "-o", name, *words)
                self.assertEqual((ended, said), (1, ""))
                self.assertEqual(complaints, f"{name}: a symbolic link, through which nothing is written\n")
            self.assertTrue((self.room / name).is_symlink())
        self.assertEqual(self.octets("there"), b"before")
        self.assertFalse((self.room / "nothere").exists())

    def test_what_isnt_written_leaves_nothing(self):
        os.link(self.room / "list.crl", self.room / "again.crl")
        self.assertEqual(self.command("to-der", "list.pem", "-o", "list.crl", "--overwrite")[0], 0)
        self.assertFalse(os.path.samefile(self.room / "list.crl", self.room / "again.crl"))
        ended, said, complaints = self.command("to-der", "list.crl", "-o", "nowhere/made")
        self.assertEqual((ended, said, complaints), (1, "", "nowhere/made: No such file or directory\n"))
        ended, said, complaints = self.command("to-der", "list.crl", "-o", "/dev/full")
        self.assertEqual((ended, said, complaints), (1, "", "/dev/full: No space left on device\n"))


class Tree(Command):
    def test_tree(self):
        for dertree in (str(built.program("dertree")), ""):
            ended, said, _ = self.command("tree", "empty.p12", more={"VUYHANIP_DERTREE": dertree})
            self.assertEqual(ended, 0)
            field = " -- Pfx.authSafe.contentType" if dertree else ""
            self.assertIn(f"      7   2     OBJECT IDENTIFIER 9: 1.2.840.113549.1.7.1 (pkcs7-data){field}\n", said)

    def test_no_program_of_the_current_folder_is_run(self):
        """An empty folder in PATH is the current one."""
        for name in ("dertree", "openssl"):
            self.put(name, b"#!/bin/sh\ntouch ran\n")
            os.chmod(self.room / name, 0o755)
        environment = self.environment(PATH=f":.:{os.environ['PATH']}")
        del environment["VUYHANIP_DERTREE"]
        for words in (["tree", "empty.p12"], ["verify", "attributes.p7s"]):
            tools.ended(sys.executable, "-m", "vuyhanip", *words, cwd=self.room, env=environment)
            self.assertFalse((self.room / "ran").exists(), words)

    def octets(self):
        """OCTET STRINGs that are one whole element of BER, and that aren't."""
        for number, octets in enumerate(("04053081020500", "040430800000", "04053080000000", "040730803080000000")):
            yield self.put(f"octets{number}.ber", bytes.fromhex(octets))

    def test_trees_are_those_of_dertree(self):
        files = "store.p12 attributes.p7s stream.p7s list.crl broken.p7s enveloped.p7m stamp.tst".split()
        for name in [*files, self.put("segments.ber", SEGMENTS), self.put("cut.ber", SEGMENTS[:-3]), *self.octets()]:
            ended, own, _ = self.command("tree", name, more={"VUYHANIP_DERTREE": ""})
            of_dertree = self.command("tree", name)
            self.assertEqual(ended, of_dertree[0])
            # Only dertree says the names of fields, and bytes that are no element have none.
            self.assertEqual(" -- " in of_dertree[1], name != "broken.p7s", name)
            without = re.sub(r" -- [^ \n]+$", "", of_dertree[1], flags=re.MULTILINE)
            self.assertEqual(*(re.findall("^ *[0-9]+ .*$", it, re.MULTILINE) for it in (own, without)), name)

    def test_a_segment_in_another_has_an_end_of_contents(self):
        own = self.command("tree", self.put("segments.ber", SEGMENTS), more={"VUYHANIP_DERTREE": ""})[1]
        self.assertEqual([line[-15:] for line in own.splitlines()[3:5]], 2 * ["end of contents"])


if __name__ == "__main__":
    unittest.main()
