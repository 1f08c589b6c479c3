"""What the command reads, and how much of it: pipes, folders, long files, blocks of PEM in any text."""
import base64
import functools
import json
import os
import subprocess
import sys
import threading
import time
import unittest

from support import built
from support.command import EMPTY, Command
from support.containers import NULL, SHA256, attribute, content_info, mac_data
from support.elements import element, explicit, integer, octet_string, part, parts, sequence, set_of, within
from support.oids import oid
from support.signed_attributes import SIGNER
from support.tools import ended, run

import vuyhanip
from vuyhanip import files, rules, verifying
from vuyhanip.judging import Terms

# How many times as long as grep a search for PEM may take where few lines have to be looked at, and where all have.
TIMES, TIMES_OF_ALL = 20, 200
# Most seconds that a program may take, in place of for ever.
SECONDS = 60
# What PEM is looked for in: lines that begin blocks, without an end or with another one, ends, and what only looks so.
BEGIN, OTHER, END = b"-----BEGIN A-----\n", b"-----BEGIN B-----\n", b"-----END A-----\n"
FEW_LINES = (BEGIN, END, b"-----BEGIN ")
ALL_LINES = (BEGIN + END, OTHER + END, BEGIN + b"A: b\n" + END, b"-----BEGIN A\n")
MEGABYTE = 1 << 20


def pem(label, octets):
    """A block of PEM (RFC 7468, 3)."""
    return b"-----BEGIN %s-----\n%s-----END %s-----\n" % (label, base64.encodebytes(octets), label)


def fastest(call):
    """The least of the seconds that some calls take."""
    taken = []
    for _ in range(5):
        began = time.monotonic()
        call()
        taken.append(time.monotonic() - began)
    return min(taken)


class Reading(Command):
    def bounded(self, *words, text=None):
        """What the command says, which has to end."""
        words = [sys.executable, "-m", "vuyhanip", *words]
        ran = subprocess.run(
            words, input=text, capture_output=True, check=False, cwd=self.room, env=self.environment(), timeout=SECONDS
        )
        return ran.returncode, ran.stdout.decode(), ran.stderr.decode()

    def pipe(self, name, data):
        """A pipe into which another thread writes, as long as someone reads."""

        def write():
            with open(self.room / name, "wb") as file:
                try:
                    file.write(data)
                    file.flush()
                except BrokenPipeError:
                    file.raw.close()

        os.mkfifo(self.room / name)
        thread = threading.Thread(target=write)
        thread.start()
        self.addCleanup(thread.join)
        return name


class Limits(Reading):
    def test_a_file_longer_than_its_limit_is_not_read(self):
        self.says(["check", "--most-octets", "24", "empty.p12"], ["empty.p12: pfx normal 24"])
        longer = "longer than the 23 octets that --most-octets allows\n"
        for verb in (["check"], ["show"], ["verify"], ["extract", "--into", "made"], ["to-der"], ["rewrite"], ["tree"]):
            said = self.command(*verb, "--most-octets", "23", "empty.p12")
            self.assertEqual(said, (1, "", f"empty.p12: {longer}"), verb)
        said = self.command("page", "--most-octets", "23", "-", text=EMPTY)
        self.assertEqual(said, (1, "", f"-: {longer}"))

    def test_a_file_of_more_than_a_gibibyte_is_not_read_unless_that_is_asked_for(self):
        self.put("long", b"")
        os.truncate(self.room / "long", (1 << 30) + 1)
        wanted = "long: longer than the 1073741824 octets that --most-octets allows\n"
        self.assertEqual(self.bounded("check", "long"), (1, "", wanted))

    def test_what_never_ends_is_read_up_to_the_limit(self):
        wanted = "longer than the 100000 octets that --most-octets allows\n"
        said = self.bounded("check", "--most-octets", "100000", "/dev/zero", self.pipe("pipe", bytes(MEGABYTE)))
        self.assertEqual(said, (1, "", f"/dev/zero: {wanted}pipe: {wanted}"))

    def test_pipes_and_standard_input_are_read_by_name(self):
        for words in ((), ("-j", "2")):
            name = self.pipe(f"pipe{len(words)}", EMPTY)
            said = self.bounded("check", *words, name, "/dev/stdin", "empty.p12", text=EMPTY)
            wanted = "".join(f"{it}: pfx normal 24\n" for it in (name, "/dev/stdin", "empty.p12"))
            self.assertEqual(said, (0, wanted, ""))

    def test_standard_streams_may_be_closed(self):
        """Standard input as in a service: no number of its is that of the pipe to openssl. Nothing can be said where
        standard output is, so nothing is right."""
        words = ["vuyhanip", "verify", "--password-file", "password", "store.p12"]
        how = {"cwd": self.room, "env": self.environment()}
        for closed, wanted in (
            ("<&-", (0, b"store.p12: MAC right\n", b"")),
            (">&-", (1, b"", b"standard output: Bad file descriptor\n")),
        ):
            ran = ended("sh", "-c", f'exec "$@" {closed}', "sh", sys.executable, "-m", *words, **how)
            self.assertEqual((ran.returncode, ran.stdout, ran.stderr), wanted, closed)

    def test_processes_keep_the_limit(self):
        names = ["empty.p12", "store.p12"] * 4
        ended_, said, complaints = self.command("check", "-j", "2", "--most-octets", "24", *names)
        self.assertEqual((ended_, said), (1, "empty.p12: pfx normal 24\n" * 4))
        self.assertEqual(complaints, "store.p12: longer than the 24 octets that --most-octets allows\n" * 4)

    def test_a_long_file_of_short_elements_takes_no_memory_for_each(self):
        """8 MB of NULLs, in a gigabyte; of which a list would take more."""
        nulls = NULL * (4 * MEGABYTE)
        self.put("nulls", sequence(nulls))
        self.put("nested", sequence(sequence(nulls)))
        words = ["sh", "-c", 'ulimit -v 1000000 && exec "$@"', "sh", sys.executable, "-m", "vuyhanip"]
        for verb in (["check"], ["show"], ["extract", "--into", "made"], ["rewrite"]):
            for name in ("nulls", "nested"):
                how = {"cwd": self.room, "env": self.environment(), "timeout": SECONDS}
                ran = subprocess.run([*words, *verb, name], capture_output=True, check=False, **how)
                self.assertRegex(ran.stdout + ran.stderr, rf"^{name}: \w+ refused: invalid at \d+ ".encode(), verb)

    def test_a_bound_that_is_no_number_is_refused(self):
        for words in ("--most-octets -1", "--most-octets 1G", "--most-iterations x"):
            self.assertEqual(self.command("check", *words.split(), "empty.p12")[0], 2, words)


class Iterations(Reading):
    def test_the_iterations_of_a_mac_are_counted(self):
        built.use_shared()
        plain = ["-keypbe", "NONE", "-certpbe", "NONE", "-inkey", "ec.key", "-in", "ec.pem", "-passout", "pass:secret"]
        for count in (1, 3, 5000):
            self.openssl("pkcs12", "-export", *plain, "-iter", str(count), "-out", "counted.p12")
            self.assertEqual(files.iterations_of(self.octets("counted.p12")), count)
        self.assertEqual(files.iterations_of(EMPTY), 0)

    def test_the_iterations_of_encrypted_contents_are_counted_too(self):
        """openssl decrypts them where the MAC is right, though it writes nothing; but no key in them."""
        built.use_shared()
        plain = ["-keypbe", "NONE", "-inkey", "ec.key", "-in", "ec.pem", "-passout", "pass:secret"]
        for words in ((), ("-certpbe", "PBE-SHA1-3DES"), ("-legacy",)):
            self.openssl("pkcs12", "-export", *plain, *words, "-iter", "3000", "-nomaciter", "-out", "counted.p12")
            self.assertEqual(files.iterations_of(self.octets("counted.p12")), 3001, words)
            said = ["counted.p12: MAC not checked: 3001 iterations, more than the 3000 that --most-iterations allows"]
            self.says(["verify", "--password-file", "password", "--most-iterations", "3000", "counted.p12"], said, 1)
        version, safe, mac = parts(self.octets("counted.p12"))
        of_scrypt = "1.3.6.1.4.1.11591.4.11", (1024, 8, 2), 16384
        for which, numbers, count in (of_scrypt, ("1.2.840.113549.1.5.12", (7,), 7)):
            derived = sequence(oid(which), sequence(octet_string(b"salt"), *map(integer, numbers), integer(32)))
            scheme = sequence(oid("1.2.840.113549.1.5.13"), sequence(derived, sequence(oid("1.2.3.4"))))
            encrypted = sequence(integer(0), sequence(oid("data"), scheme, element(0x80, bytes(8))))
            kept = sequence(*3 * [content_info("1.2.840.113549.1.7.6", encrypted)])
            store = sequence(version, content_info("data", octet_string(kept)), mac)
            self.assertEqual(files.iterations_of(store), 3 * count + 1)

    def test_those_of_the_function_that_derives_the_key_are_counted_where_that_is_named(self):
        """PBMAC1 (RFC 9579, 3), whose own field says 1."""
        built.use_shared()
        derived = sequence(oid("1.2.840.113549.1.5.12"), sequence(octet_string(b"salt"), integer(700_000), integer(32)))
        scheme = sequence(oid("1.2.840.113549.1.5.14"), sequence(derived, sequence(oid("1.2.840.113549.2.9"))))
        safe = content_info("data", octet_string(sequence()))
        store = sequence(integer(3), safe, mac_data(bytes(32), b"salt", 1, scheme))
        self.assertEqual(files.iterations_of(store), 700_000)

    def test_a_mac_of_more_than_two_million_iterations_is_not_derived_unless_that_is_asked_for(self):
        """8,000,000 of them took twelve seconds; NSS asks for 600,000 in the MAC, and for as many in the contents."""
        version, safe, mac = parts(self.octets("store.p12"))
        self.put("many.p12", sequence(version, safe, sequence(*parts(mac)[:2], integer(2_000_001 - 2048))))
        words = ["verify", "--password-file", "password", "--most-iterations"]
        for name, count, most in (("many.p12", 2_000_001, 2_000_000), ("store.p12", 4096, 4095)):
            said = f"{name}: MAC not checked: {count} iterations, more than the {most} that --most-iterations allows\n"
            given = words[:-1] if most == 2_000_000 else [*words, str(most)]
            self.assertEqual(self.bounded(*given, name), (1, said, ""))
        self.says([*words, "4096", "store.p12"], ["store.p12: MAC right"])
        self.finds(["verify", "many.p12"], ["MAC not checked: no password"], 1)

    def test_iterations_are_counted_whatever_is_after_a_store_or_beside_it(self):
        """Newlines, and in PEM another store of fewer iterations than none."""
        whole, safe = self.octets("store.p12"), content_info("data", octet_string(sequence()))
        none = element(0x02, b"\xc0\0\0\0")
        derived = sequence(oid("1.2.840.113549.1.5.12"), sequence(octet_string(b"salt"), none, integer(32)))
        scheme = sequence(oid("1.2.840.113549.1.5.14"), sequence(derived, sequence(oid("1.2.840.113549.2.9"))))
        fewer = sequence(integer(3), safe, mac_data(bytes(32), b"salt", 1, scheme))
        for name, octets in (
            ("unix.p12", whole + b"\n"),
            ("windows.p12", whole + b"\r\n"),
            ("two.pem", pem(b"PKCS12", fewer) + pem(b"PKCS12", whole)),
        ):
            said = f"{name}: MAC not checked: 4096 iterations, more than the 4095 that --most-iterations allows"
            self.put(name, octets)
            self.says(["verify", "--password-file", "password", "--most-iterations", "4095", name], [said], 1)
        notes = ["unix.p12: MAC right"]
        self.says(["verify", "--password-file", "password", "--most-iterations", "4096", "unix.p12"], notes)

    def test_programs_keep_the_limit_too(self):
        built.use_shared()
        whole = self.octets("store.p12")
        self.assertTrue(vuyhanip.mac_verdict(whole, "secret").is_right)
        version, safe, mac = parts(whole)
        many = sequence(version, safe, sequence(*parts(mac)[:2], integer(2_000_000)))
        said = vuyhanip.mac_verdict(many, "secret")
        self.assertEqual((said.is_right, said.said[:35]), (False, "not checked: 2002048 iterations, mo"))

    def test_more_than_the_limit_are_refused(self):
        files.allow(2_000_000)
        with self.assertRaisesRegex(files.TooMany, "2000001 iterations, more than the 2000000 that --most-iterations"):
            files.allow(2_000_001)


class Signers(Reading):
    def many(self, name, count, octets, content):
        """Signed data of many signers without attributes, whose signatures are wrong, beside a certificate."""
        certificate = self.octets("ec.der")
        tbs, *rest = parts(certificate)
        extension = sequence(oid("1.2.3.4"), octet_string(bytes(octets)))
        long_one = sequence(sequence(*parts(tbs)[:-1], explicit(3, sequence(extension))), *rest)
        named = sequence(part(certificate, 0, 3), part(certificate, 0, 1))
        ecdsa = sequence(oid("1.2.840.10045.4.3.2"))
        signer = sequence(integer(1), named, SHA256, ecdsa, octet_string(bytes(70)))
        info = sequence(oid("data"), explicit(0, octet_string(content)))
        fields = integer(1), set_of(SHA256), info, explicit(0, long_one), set_of(*count * [signer])
        self.put(name, content_info("signed data", sequence(*fields)))

    def test_a_certificate_is_not_taken_once_for_each_of_many_signers(self):
        """openssl would write 140 MB of a file of 0.3 MB, and a terabyte of one a hundred times as long."""
        self.many("long.p7s", 700, 200_000, b"content")
        why = "more than 134217728 octets, a certificate for each signer or time stamp"
        self.assertEqual(self.bounded("verify", "long.p7s"), (1, f"long.p7s: not checked: {why}\n", ""))
        ended_, said, complaints = self.bounded("show", "long.p7s")
        self.assertEqual((ended_, complaints), (1, ""))
        self.assertRegex(said, rf"\n  not shown +{why}\n$")

    def test_certificates_are_not_given_to_openssl_once_for_each_of_many_time_stamps(self):
        """Which would write 200 MB of a file of 0.2 MB."""
        self.many("long.p7s", 1, 200_000, b"content")
        stamps = attribute("1.2.840.113549.1.9.16.2.14", *(sequence(integer(it)) for it in range(1000)))
        made = within(self.octets("long.p7s"), SIGNER, lambda it: it + element(0xA1, stamps))
        self.put("stamped.p7s", made)
        why = "more than 134217728 octets, a certificate for each signer or time stamp"
        self.assertEqual(self.bounded("verify", "stamped.p7s"), (1, f"stamped.p7s: not checked: {why}\n", ""))

    def test_content_is_looked_through_once_for_all_signers(self):
        """Where it may be the signed attributes of another signature."""
        built.use_shared()
        self.many("few.p7s", 1, 1, element(0x31, bytes(MEGABYTE)))
        self.many("many.p7s", 2000, 1, element(0x31, bytes(MEGABYTE)))
        self.many("short.p7s", 2000, 1, b"content")
        case = {}
        for name in ("few.p7s", "many.p7s", "short.p7s"):
            data = verifying.read_signed(self.octets(name), False)
            case[name] = verifying.case_of(data, Terms(), verifying.Around())

        def asks(it):
            rules._has_digest.cache_clear()
            for number in range(len(it.signers)):
                rules.attributes_as_content(it, number)

        def took(name):
            return fastest(functools.partial(asks, case[name]))

        self.assertLess(took("many.p7s"), 10 * took("short.p7s") + 10 * took("few.p7s"))


class Folders(Reading):
    def test_files_of_folders_are_read_in_order_of_names(self):
        (self.room / "many/b/c").mkdir(parents=True)
        for name in ("many/b/c/1", "many/a", "many/b/2", "many/c"):
            self.put(name, EMPTY)
        os.symlink("..", self.room / "many/b/around")
        os.symlink("/", self.room / "many/root")
        os.symlink("nothere", self.room / "many/broken")
        os.symlink("a", self.room / "many/link")
        os.mkfifo(self.room / "many/pipe")
        names = ["many/a", "many/b/2", "many/b/c/1", "many/c", "many/link", "empty.p12"]
        wanted = "".join(f"{it}: pfx normal 24\n" for it in names)
        self.assertEqual(self.bounded("check", "-r", "many", "empty.p12"), (0, wanted, ""))
        self.assertEqual(self.bounded("check", "-r", "-j", "2", "many", "empty.p12"), (0, wanted, ""))
        self.assertEqual(self.bounded("check", "many"), (1, "", "many: Is a directory\n"))
        for verb in ("show", "verify"):
            _, said, complaints = self.bounded(verb, "-r", "many")
            found = [line.split(":")[0] for line in said.splitlines() if line.startswith("many/")]
            self.assertEqual((found, complaints), (names[:-1], ""), verb)

    def test_folders_without_files_are_not_right(self):
        """Nothing in them is wrong, and the status of what is right is 0."""
        (self.room / "none").mkdir()
        os.symlink("/", self.room / "none/root")
        os.symlink("nothere", self.room / "none/broken")
        os.mkfifo(self.room / "none/pipe")
        for words in (("none",), ("none", "none"), ("--json", "none")):
            said = self.bounded("verify", "-r", "--ca", "rsa.pem", *words)
            self.assertEqual(said, (1, "", "vuyhanip: no file to verify\n"), words)
        self.assertEqual(self.bounded("check", "-r", "none"), (0, "", ""))

    def test_a_file_of_a_folder_whose_name_is_too_long_is_told(self):
        """It can't be looked at, and so can't be passed over as no file."""
        top, folder = self.room / "long", os.open(self.room, os.O_RDONLY)
        for name in ("long", *20 * ("x" * 240,)):
            os.mkdir(name, dir_fd=folder)
            inner = os.open(name, os.O_RDONLY, dir_fd=folder)
            os.close(folder)
            folder = inner
        os.close(folder)
        self.addCleanup(run, "rm", "-rf", top)
        for verb in ("verify", "check"):
            ended, said, complaints = self.bounded(verb, "-r", "long")
            self.assertEqual((ended, said), (1, ""), verb)
            self.assertRegex(complaints, r"^long(/x{240})+: File name too long\n$", verb)

    def test_a_scan_reads_regular_files_only_and_up_to_the_limit(self):
        (self.room / "many").mkdir()
        self.put("many/a", EMPTY)
        os.mkfifo(self.room / "many/pipe")
        os.symlink("nothere", self.room / "many/broken")
        self.put("names", b"many/a\nmany/pipe\n/dev/zero\nwith\0zero\nstore.p12\n")
        for source, wanted in (
            ("many", {"many/a": None}),
            (
                "names",
                {
                    "many/a": None,
                    "many/pipe": "not a regular file",
                    "/dev/zero": "not a regular file",
                    "with\0zero": "not a regular file",
                    "store.p12": "longer than the 24 octets that --most-octets allows",
                },
            ),
        ):
            words = [built.TOP / "python/examples/scan.py", "-j", "2", "--most-octets", "24", source, f"of-{source}"]
            how = {"cwd": self.room, "env": self.environment(), "timeout": SECONDS}
            ran = subprocess.run([sys.executable, *words], capture_output=True, check=False, **how)
            self.assertEqual(ran.returncode, 0, ran.stderr)
            lines = map(json.loads, self.octets(f"of-{source}").splitlines())
            self.assertEqual({it["file"]: it["error"] for it in lines}, wanted)


class Pem(Reading):
    def test_text_before_a_block_may_begin_with_anything(self):
        size = len(self.octets("list.crl"))
        texts = b"0 s:CN = x\n", b"0", b"\xef\xbb\xbf", "0é\n".encode(), b"\x00\x01\n", b"-----BEGIN\n", b"0" * 48 + b"\n"
        for before in texts:
            self.put("text.pem", before + self.octets("list.pem"))
            self.says(["check", "text.pem"], [f"text.pem: certificatelist normal {size} (from PEM)"])
        self.put("text.pem", b"0 s:CN = x\n" + self.octets("list.pem"))
        self.assertTrue(self.succeeds("crl", "-in", "text.pem", "-noout"))

    def test_pem_in_der_is_not_taken_for_the_file(self):
        self.sign("signed.p7s", "-nodetach", "-in", "list.pem")
        whole = self.octets("signed.p7s")
        self.assertIn(b"-----BEGIN X509 CRL-----", whole)
        self.finds(["check", "signed.p7s"], [r"^signed\.p7s: pkcs7certificate normal \d+$"])
        self.put("signed.p7s", whole + b"\n")
        self.finds(["check", "signed.p7s"], [rf"^signed\.p7s: pkcs7certificate refused: malformed at {len(whole)} "], 1)

    def test_a_block_without_its_end_is_said_to_be_so(self):
        said = "cut.pem: refused: PEM without its END line"
        whole = self.octets("signed.pem")
        other = whole.replace(b"-----END CMS-----", b"-----END PKCS7-----")
        for text in (whole[:200], whole[:200] + b"\n" + whole, other, BEGIN * 1000):
            self.put("cut.pem", text)
            self.says(["check", "cut.pem"], [said], 1)

    def test_all_blocks_are_found(self):
        text = b"text\n" + pem(b"CMS", EMPTY) + b"more\n" + pem(b"X9.42 DH-PARAMETERS", b"other") + b"\n" + BEGIN
        found = list(files.blocks(text))
        self.assertEqual([it.label for it in found], ["CMS", "X9.42 DH-PARAMETERS", "A"])
        self.assertEqual([it.octets for it in found[:2]], [EMPTY, b"other"])
        with self.assertRaisesRegex(files.NoPem, "without its END line"):
            found[2].octets

    def test_a_megabyte_of_lines_that_begin_pem_is_checked_at_once(self):
        """Of which 288 KB took a minute once."""
        self.put("begins.pem", BEGIN * (MEGABYTE // len(BEGIN)))
        self.assertEqual(self.bounded("check", "begins.pem")[1], "begins.pem: refused: PEM without its END line\n")

    def test_pem_is_found_in_time_that_grows_as_the_text_does(self):
        for those, times in ((FEW_LINES, TIMES), (ALL_LINES, TIMES_OF_ALL)):
            for unit in those:
                text = unit * (MEGABYTE // len(unit))
                self.put("text", text + BEGIN)
                grep = fastest(functools.partial(run, "grep", "-c", "BEGIN", self.room / "text"))
                ours = fastest(functools.partial(lambda it: sum(1 for _ in files.blocks(it)), text))
                self.assertLess(ours, times * grep, unit)


if __name__ == "__main__":
    unittest.main()
