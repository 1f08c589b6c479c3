"""How the package runs openssl: with a time limit, of its output a beginning, in a folder that goes, with no octet of a
file among its arguments; and what it takes of what openssl prints of a certificate, whatever names are in that."""
import os
import re
import shutil
import signal
import stat
import subprocess
import sys
import tempfile
import time
import unittest
import unittest.mock
from pathlib import Path

from support import tools
from support.command import Command
from support.elements import element, part, parts, sequence, set_of, within
from support.oids import oid

import vuyhanip
from vuyhanip import judging, tool

# What a stand-in for openssl writes about a run: its arguments, its environment, and in which folder it is.
NOTES = """#!/bin/sh
echo "$@" >> {0}/arguments
env | cut -d= -f1 >> {0}/environment
pwd >> {0}/places
exec {1} "$@"
"""
# An extract of what openssl prints of a certificate, as a name may have it.
LIE = """x
        Subject Public Key Info:
            Public Key Algorithm: rsaEncryption
                Public-Key: (8192 bit)
"""


def heed_interrupts():
    """Has SIGINT do what it does by itself: a shell ignores it for what runs in the background."""
    signal.signal(signal.SIGINT, signal.SIG_DFL)


class Tool(Command):
    def setUp(self):
        super().setUp()
        self.clear()
        self.addCleanup(self.clear)

    def clear(self):
        """Has openssl be looked for anew, and certificates asked about."""
        for it in (tool.program, tool.version, judging.facts):
            it.cache_clear()

    def stand_in(self, text):
        """Has a script be openssl, here and in the command."""
        folder = self.room / "bin"
        folder.mkdir(exist_ok=True)
        (folder / "openssl").write_text(text)
        (folder / "openssl").chmod(0o755)
        self.clear()
        path = f"{folder}{os.pathsep}{os.environ['PATH']}"
        self.enterContext(unittest.mock.patch.dict(os.environ, PATH=path))

    def enterContext(self, context):
        """As unittest has it from Python 3.11 on."""
        self.addCleanup(context.__exit__, None, None, None)
        return context.__enter__()

    def temporary(self):
        """A folder that is the one for temporary files."""
        folder = self.room / "temporary"
        folder.mkdir()
        return folder

    def ends(self, file):
        """Asks that the process ends whose number a file has: a busy machine may take a moment to end it."""
        state = Path(f"/proc/{int(self.octets(file))}/stat")
        for _ in range(100):
            try:
                if " Z " in state.read_text():
                    return
            except (FileNotFoundError, ProcessLookupError):
                return
            time.sleep(0.1)
        self.fail(f"the process of {file} goes on")

    def test_a_run_that_takes_too_long_is_killed_with_all_that_it_started(self):
        self.stand_in(f"#!/bin/sh\nsleep 60 & echo $! > {self.room}/child\necho begun\nwait\n")
        with unittest.mock.patch.object(tool, "MOST_SECONDS", 0.5):
            began = time.monotonic()
            ran = tool.run(["version"])
            self.assertEqual((ran.status, ran.is_yes, ran.words), (None, False, "no answer in 0.5 seconds"))
        self.assertLess(time.monotonic() - began, 30)
        self.ends("child")

    def test_of_much_output_a_beginning_is_kept(self):
        self.stand_in("#!/bin/sh\nhead -c 100000000 /dev/zero | tr '\\0' a\nhead -c 1000000 /dev/zero >&2\nexit 3\n")
        ran = tool.run(["version"])
        kept = (ran.status, ran.output, len(ran.errors))
        self.assertEqual(kept, (3, b"a" * tool.MOST_OUTPUT, tool.MOST_OUTPUT))

    def test_a_signal_is_no_yes(self):
        self.stand_in("#!/bin/sh\nkill -9 $$\n")
        self.assertEqual(tool.run(["version"])[:1], (-9,))

    def test_words_are_printable(self):
        self.stand_in("#!/bin/sh\nprintf 'a\\033[31m\\302\\205b\\377\\n' >&2\nexit 1\n")
        self.assertEqual(tool.run(["version"]).words, "a\\x1b[31m\\x85b\\xff")

    def test_nothing_of_a_file_is_an_argument_and_the_folder_goes(self):
        """Nor a password."""
        self.stand_in(NOTES.format(self.room, tools.run("which", "openssl").decode().strip()))
        more = {"TMPDIR": str(self.temporary()), "OPENSSL_CONF": "/nowhere", "SSL_CERT_FILE": "/nowhere"}
        for words in (
            ["--content", "data", "detached.p7s"],
            ["--content", "data", "--ca", "clock.pem", "--certificate", "rsa.pem", "stamp.tsr"],
            ["--password-file", "password", "store.p12"],
        ):
            self.assertIn(self.command("verify", *words, more=more)[0], (0, 4))
        arguments = self.octets("arguments").decode().split()
        self.assertEqual([it for it in arguments if not re.fullmatch(r"[A-Za-z0-9_:,/+-]+", it)], [])
        self.assertNotIn("secret", arguments)
        environment = self.octets("environment").decode().split()
        self.assertIn("PATH", environment)
        self.assertEqual([it for it in environment if it.startswith(("OPENSSL_", "SSL_CERT_"))], [])
        places = set(self.octets("places").decode().split()) - {"/"}
        room = re.compile(rf"{re.escape(more['TMPDIR'])}/vuyhanip-\w+")
        self.assertTrue(places and all(map(room.fullmatch, places)), places)
        self.assertEqual(os.listdir(more["TMPDIR"]), [])

    def test_a_folder_and_its_files_are_ours(self):
        """Also where the umask lets others read."""
        umask = os.umask(0)
        self.addCleanup(os.umask, umask)
        self.enterContext(unittest.mock.patch.object(tempfile, "tempdir", str(self.temporary())))
        with tool.room() as room:
            room.put("file", b"octets")
            [path] = (self.room / "temporary").glob("vuyhanip-*/file")
            modes = [stat.S_IMODE(it.stat().st_mode) for it in (path.parent, path)]
            self.assertEqual((modes, room.get("file"), room.get("none")), ([0o700, 0o600], b"octets", b""))
        self.assertFalse(path.parent.exists())

    def test_the_folder_goes_where_the_command_is_ended(self):
        """By a signal, while openssl runs, which ends too."""
        for number, status in ((signal.SIGTERM, 128 + signal.SIGTERM), (signal.SIGINT, 130)):
            with self.subTest(number):
                shutil.rmtree(self.room / "temporary", ignore_errors=True)
                self.stand_in(f"#!/bin/sh\necho $$ > {self.room}/pid\nexec sleep 60\n")
                environment = self.environment(TMPDIR=str(self.temporary()))
                words = [sys.executable, "-m", "vuyhanip", "verify", "attributes.p7s"]
                given = {"cwd": self.room, "env": environment, "stdout": subprocess.DEVNULL}
                with subprocess.Popen(words, preexec_fn=heed_interrupts, **given) as process:
                    while not (self.room / "pid").exists() or not self.octets("pid"):
                        time.sleep(0.05)
                    process.send_signal(number)
                    self.assertEqual(process.wait(30), status)
                self.assertEqual(os.listdir(self.room / "temporary"), [])
                self.ends("pid")
                (self.room / "pid").unlink()

    def test_a_name_does_not_say_what_a_key_is(self):
        """A certificate whose subject and issuer have the lines that openssl prints of a key, between newlines."""
        name = sequence(set_of(sequence(oid("commonName"), element(0x0C, LIE.encode()))))
        made = self.octets("rsa.der")
        fields = parts(part(made, 0))
        made = within(made, [0, 0], lambda it: b"".join([*fields[:3], name, fields[4], name, *fields[6:]]))
        facts, honest = judging.facts(made), judging.facts(self.octets("rsa.der"))
        self.assertEqual((facts.key, facts.bits, facts.exponent), (honest.key, honest.bits, honest.exponent))
        self.assertEqual((facts.bits, facts.serial), (2048, honest.serial))
        self.assertNotIn("\n", facts.subject)

    def test_keys_are_those_that_openssl_made(self):
        big = str((1 << 70) + 1)
        for name, how, wanted in (
            ("small", ["rsa:1024"], ("rsaEncryption", 1024, 65537)),
            ("three", ["rsa:2048", "-pkeyopt", "rsa_keygen_pubexp:3"], ("rsaEncryption", 2048, 3)),
            ("big", ["rsa:2048", "-pkeyopt", f"rsa_keygen_pubexp:{big}"], ("rsaEncryption", 2048, int(big))),
            ("pss", ["rsa-pss", "-pkeyopt", "rsa_keygen_bits:2048"], ("rsassaPss", 2048, 65537)),
            ("curve", ["ec", "-pkeyopt", "ec_paramgen_curve:P-384"], ("id-ecPublicKey", 384, None)),
            ("edwards", ["ed25519"], ("ED25519", None, None)),
        ):
            with self.subTest(name):
                words = ["-newkey", *how, "-nodes", "-subj", f"/CN={name}", "-keyout", "key", "-set_serial", "-5"]
                self.openssl("req", "-x509", *words, "-outform", "DER", "-out", f"{name}.der")
                facts = judging.facts(self.octets(f"{name}.der"))
                self.assertEqual((facts.key, facts.bits, facts.exponent, facts.number), (*wanted, -5))
                self.assertEqual(facts.subject, f"CN={name}")
        for octets in (b"", b"\x30\x00", self.octets("rsa.der")[:-1], b"\xa2" + self.octets("rsa.der")[1:]):
            self.assertIsNone(judging.facts(octets))

    def test_passwords_that_openssl_would_cut_are_not_given_to_it(self):
        """It reads a line of 1,023 octets, and up to a zero."""
        for password in ("secret\0x", "secret\nx", "secret" + "x" * 1100, "secret\ud800"):
            self.assertIn("not checked: openssl takes no such password", self.verdict("store.p12", password).said)
        self.assertTrue(self.verdict("store.p12", "secret").is_right)
        self.put("long", b"x" * tool.MOST_OF_PASSWORD + b"\n")
        both = ["-inkey", "rsa.key", "-in", "rsa.pem", "-passout", "file:long"]
        self.openssl("pkcs12", "-export", *both, "-out", "long.p12")
        self.assertTrue(self.verdict("long.p12", "x" * tool.MOST_OF_PASSWORD).is_right)
        self.assertFalse(self.verdict("long.p12", "x" * (tool.MOST_OF_PASSWORD - 1)).is_right)

    def verdict(self, name, password):
        """What the package says of the MAC of a store."""
        return vuyhanip.mac_verdict(self.octets(name), password)

    def test_a_certificate_is_asked_about_once(self):
        with unittest.mock.patch.object(tool, "run", wraps=tool.run) as run_of:
            for _ in range(3):
                judging.facts(self.octets("rsa.der"))
        self.assertEqual(run_of.call_count, 1)


if __name__ == "__main__":
    unittest.main()
