"""Compares what `ber_trial` answers with the converter of tests/oracle/ber.py, over made-up inputs and changed ones,
and over files of other tools. openssl then verifies or decrypts each of these files, and its DER, to the same octets.
`derbox` reads this DER as one of its kinds. Of stores in BER `example_containers list` says the numbers that openssl does.

Files of gpgsm, of NSS (certutil, cmsutil, pk12util) and of Bouncy Castle (java, Debian's libbcpkix-java) are skipped
where these tools aren't there."""
import re
import tempfile
import unittest
from pathlib import Path

from oracle import ber
from support import foreign
from support.ber_inputs import made_up
from support.built import program
from support.cases import Comparing
from support.tools import ended, needs, openssl, run

COUNT = 20000
# How many of the made-up inputs each answer has to be given of, by the word with which it begins.
FEWEST = {"refused": 9000, "is": 4000, "converted": 5000, "ambiguous": 400}
KINDS = ("pkcs7certificate", "contentinfo")


def answers(inputs):
    """The lines of ber_trial."""
    text = "\n".join(octets.hex() or "-" for octets in inputs)
    return run(program("ber_trial"), text=text.encode()).decode().splitlines()


def is_of_a_kind(der):
    """Whether derbox reads it as one of the kinds that data of CMS may be, normal or loose."""
    return any(ended(program("derbox"), "check", kind, text=der).returncode in (0, 3) for kind in KINDS)


class Converted(Comparing):
    def setUp(self):
        super().setUp()
        folder = tempfile.TemporaryDirectory()
        self.addCleanup(folder.cleanup)
        self.room = Path(folder.name)

    def test_made_up_and_changed_inputs_are_converted_alike(self):
        inputs = made_up(COUNT)
        wanted = [ber.answer(octets) for octets in inputs]
        said = answers(inputs)
        self.same(len(said), len(inputs), "lines")
        for octets, line, its in zip(inputs, said, wanted):
            self.same(line, its, octets[:100])
        for word, fewest in FEWEST.items():
            self.at_least(sum(line.startswith(word) for line in wanted), fewest, f"lines that begin with {word}")

    def test_files_of_openssl_are_read_alike(self):
        self.files_are_read_alike(foreign.files_of_openssl, 15)

    @needs(*foreign.NSS)
    def test_files_of_nss_are_read_alike(self):
        self.files_are_read_alike(foreign.files_of_nss, 3)

    @needs(*foreign.GPGSM)
    def test_files_of_gpgsm_are_read_alike(self):
        self.files_are_read_alike(foreign.files_of_gpgsm, 2)

    @needs(*foreign.BOUNCY_CASTLE)
    def test_files_of_bouncy_castle_are_read_alike(self):
        self.files_are_read_alike(foreign.files_of_bouncy_castle, 3)

    def files_are_read_alike(self, make, count):
        """Compares the DER of the files, and what is read of it and of them."""
        foreign.keys(self.room)
        foreign.texts(self.room)
        made = list(make(self.room))
        self.same(len(made), count, "files")
        said = answers([file.octets for file in made])
        self.same(len(said), count, "lines")
        for file, line in zip(made, said):
            self.same(line, ber.answer(file.octets), file.name, "by the converter")
            word, _, der = line.partition(" ")
            if self.same(word in ("converted", "ambiguous"), True, file.name, "as BER:", line[:100]):
                self.compare_file(file, bytes.fromhex(der))

    def compare_file(self, file, der):
        """Compares what openssl reads of a file and of its DER, and what derbox, or example_containers, says of it."""
        of_ber, of_der = (self.read_by_openssl(file, octets) for octets in (file.octets, der))
        self.same(of_der, of_ber, file.name, "as DER")
        if file.written:
            self.same(of_der, (self.room / file.written).read_bytes(), file.name, "as it was written")
        if file.name.startswith("a store"):  # whose MAC is over BER, so that its DER is no right one
            self.compare_store(file, der)
        else:
            self.same(is_of_a_kind(der), True, file.name, "by derbox")

    def read_by_openssl(self, file, octets):
        (self.room / "read").write_bytes(octets)
        return foreign.wrote(f"{file.reading} read", self.room)

    def compare_store(self, file, der):
        """Compares how often a store's MAC iterates, and how many octets it covers, with what openssl says."""
        (self.room / "store").write_bytes(der)
        shown = openssl("asn1parse", "-inform", "DER", "-in", "store", cwd=self.room).decode()
        size = re.search(r" l= *(\d+) prim: OCTET STRING", shown)[1]
        words = f"openssl pkcs12 -legacy -info -noout -passin pass:{foreign.PASSWORD} -in store".split()
        count = re.search(rb"MAC: \w+, Iteration (\d+)", ended(*words, cwd=self.room).stderr)[1].decode()
        (self.room / "ber").write_bytes(file.octets)
        *_, iterations, covered = run(program("example_containers"), "list", "ber", cwd=self.room).decode().splitlines()
        self.same(covered, f"the MAC covers {size} octets; in BER", file.name)
        self.same(iterations.endswith(f", {count} iterations"), True, file.name, f"{count} iterations:", iterations)


if __name__ == "__main__":
    unittest.main()
