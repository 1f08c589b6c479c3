"""What a verification of the MAC of a PKCS #12 store needs, as the calls say it, is what is found element by element: the
range that the MAC covers, which c/examples/mac.c writes too, its numbers, and its parts, into just the room that they
need. The MAC of stores in BER is made of what the calls say, and is that of the store, which openssl verifies: of
stores of openssl, and of NSS's pk12util."""
import tempfile
import unittest
from pathlib import Path

from support import built, foreign, inputs, macs
from support.cases import Comparing
from support.containers import NULL, content_info, in_ber, mac_data, store
from support.elements import octet_string, sequence
from support.parts import covered, mac_parts, over_any_octets
from support.rooms import InRooms
from support.statuses import LOOSE, NORMAL, answered, checked, outcome
from support.tools import ended, ended_when_full, needs, openssl
from oracle.answers import is_over_attributes
from vuyhanip import der

MAC_IN_C = built.TOP / "c/examples/mac.c"
# How many octets an example in C has room for, which reads one less.
MOST_IN_C = 1 << 22
PASSWORD = foreign.PASSWORD
# How many stores of each form there are at least.
LEAST = 4


def stores():
    """What is read as a PKCS #12 store, by what tests ask of inputs of all kinds."""
    for kind, text in inputs.cases(built.library().kinds(), is_over_attributes):
        if kind == "rawpfx":
            yield text


def accepted(texts):
    """Those of the inputs that are PKCS #12 stores."""
    return [text for text in texts if checked("rawpfx", text)[0] <= LOOSE]


def long_stores():
    return accepted(text for kind, text in inputs.long() if kind == "rawpfx")


class TestMacs(InRooms):
    """What is said of MACs, beside what is found element by element."""

    def same_mac(self, text, calls):
        """Compares what calls in Python say of the MAC of a store, and what is written of its parts."""
        place, (found, rounds), wanted = covered(text), mac_parts(text), None
        library = built.library()
        if place and found:
            oid, digest, salt = found.values()
            wanted = range(*place), der.dotted(oid), digest, salt, rounds, text[slice(*place)]
        for call in calls:
            status, mac, where = answered(getattr(library, call), text)
            self.same((status, mac and tuple(mac), where), (NORMAL, wanted, 0), call, text)
        for part in der.MAC_PARTS:
            octets = found.get((part, 0))
            answer = answered(library.mac_part_ber, part, text)
            self.same(answer, (NORMAL, octets, 0), "mac_part_ber", part.name, text)
            if octets is not None:
                given = part.value, text, len(text)
                self.same_octets("der_mac_part_ber", given, octets, part.name, text)

    def test_numbers_and_parts_of_a_mac_are_those_found(self):
        texts = accepted(stores())
        for text in texts:
            self.same_mac(text, ("mac", "mac_ber"))
        self.at_least(len(texts), LEAST, "stores")

    def test_a_mac_over_what_is_no_der_is_told_of_converted_files(self):
        """Such a store is refused, unless it is asked for as one in BER that was converted."""
        refused = [text for text in stores() if checked("rawpfx", text)[0] > LOOSE]
        texts = [text for text in refused if checked("rawpfx", over_any_octets(text))[0] <= LOOSE]
        for text in texts:
            self.same_mac(text, ["mac_ber"])
        self.at_least(len(texts), LEAST, "stores")

    def test_numbers_and_parts_of_macs_of_long_stores_are_those_found(self):
        texts = long_stores()
        for text in texts:
            self.same_mac(text, ("mac", "mac_ber"))
        self.at_least(len(texts), LEAST, "stores")

    def test_the_range_is_that_of_the_octets_that_a_mac_covers(self):
        for text in [*accepted(stores()), *long_stores()]:
            place = covered(text)
            answer = answered(built.library().mac_range, text)
            self.same(answer, (NORMAL, place and range(*place), 0), text)

    def test_equal_octets_elsewhere_are_not_the_range(self):
        """Digest and salt of a MAC have the octets that it covers, which are as short as octets of other parts."""
        library = built.library()
        for octets in (sequence(), sequence(sequence()), sequence(NULL), sequence(octet_string(sequence() * 8))):
            text = store("data", octet_string(octets), 3, mac_data(octets, octets, 1))
            place = range(*covered(text))
            self.assertGreater(text.count(octets), 2)
            self.same(answered(library.mac_range, text), (NORMAL, place, 0), text)
            for call in (library.mac, library.mac_ber):
                self.same(call(text).covered, place, text)
        for octets in (b"", b"\x30", b"\x02\x01\x03"):
            text = store("data", octet_string(octets), 3, mac_data(octets, octets, 1))
            self.same(library.mac_ber(text).covered, range(*covered(text)), text)

    def example_agrees(self, program):
        """Compares what c/examples/mac.c writes of each store, which is nothing of one without a MAC."""
        for text in stores():
            place = covered(text) if checked("rawpfx", text)[0] <= LOOSE and mac_parts(text)[0] else None
            wanted = (0, text[slice(*place)]) if place else (1, b"")
            self.same(outcome(program, text=text), wanted, program.name, text)

    def test_the_example_in_c_writes_what_a_mac_covers(self):
        self.example_agrees(built.in_c(MAC_IN_C))

    def test_examples_in_c_fail_where_nothing_can_be_written(self):
        """Each over a store that it reads, to a device that is full."""
        text = store("data", octet_string(sequence()), 3, mac_data(b"MAC", b"salt", 1))
        path = built.room() / "small.p12"
        path.write_bytes(text)
        for name, words in (("store", [path]), ("mac", []), ("from_ber", [])):
            program = built.in_c(MAC_IN_C.with_name(f"{name}.c"))
            self.same(ended(program, *words, text=text).returncode, 0, name)
            self.same(ended_when_full(program, *words, text=text), 1, name, "to a full device")

    def test_examples_in_c_say_nothing_of_a_file_that_is_longer_than_they_read(self):
        """A store of just as many octets as there is room for, and more after it."""
        def of(length):
            kept = content_info("1.2.3.4", octet_string(bytes(length)))
            return store("data", octet_string(sequence(kept)), 3, mac_data(b"", b"", 1))

        length = 2 * MOST_IN_C - 1000 - len(of(MOST_IN_C - 1000))
        whole, less = of(length), of(length - 1)
        self.same(len(whole), MOST_IN_C, "octets")
        path = built.room() / "long.p12"
        for name in ("store", "mac", "from_ber"):
            program = built.in_c(MAC_IN_C.with_name(f"{name}.c"))
            for text, is_read in ((whole + b"more", False), (whole, False), (less, True)):
                path.write_bytes(text)
                ran = ended(program, *([path] if name == "store" else []), text=text)
                self.same((ran.returncode, bool(ran.stdout)), (0, True) if is_read else (1, False), name, len(text))

    @needs("gcc", "clang")
    def test_the_example_that_clang_builds_does_so(self):
        self.example_agrees(built.in_c(MAC_IN_C, by="clang"))


def mac_of(salt, octets):
    """The MAC data of a store with these octets, and the password (RFC 7292, 4 and B)."""
    return mac_data(macs.mac("sha256", PASSWORD, salt, 2048, octets), salt, 2048)


def stores_of_openssl(room):
    """The name of each store, and its octets: one of openssl with the octets that its MAC covers in segments, and one
    in which these are BER, so that the MAC is made anew."""
    key = "req -x509 -newkey rsa:2048 -nodes -keyout k.pem -out c.pem -subj /CN=ber"
    openssl(*key.split(), cwd=room)
    export = f"pkcs12 -export -in c.pem -inkey k.pem -passout pass:{PASSWORD} -out store.p12"
    openssl(*export.split(), cwd=room)
    made = (room / "store.p12").read_bytes()
    yield "a store of openssl, in segments", in_ber(made, cuts=True)
    safe = in_ber(made[slice(*covered(made))])
    mac = mac_of(bytes(range(8)), safe)
    yield "a store of openssl, over BER", in_ber(store("data", octet_string(safe), 3, mac), cuts=True)


class TestStoresInBer(Comparing):
    """MACs of stores in BER."""

    def same_macs(self, makes):
        """Makes the MAC of stores of what the calls say of them, and compares it with that of the store; and one over a
        changed octet. openssl verifies the same stores."""
        with tempfile.TemporaryDirectory() as folder:
            for name, text in makes(Path(folder)):
                Path(folder, "read").write_bytes(text)
                openssl("pkcs12", "-legacy", "-passin", f"pass:{PASSWORD}", "-noout", "-in", "read", cwd=folder)
                made = built.library().from_ber(text)
                mac = built.library().mac_ber(made)
                octets = bytearray(mac.octets)
                self.same(bytes(octets), made[mac.covered.start : mac.covered.stop], name, "the octets of the MAC")
                given = der.digest_name(mac.digest_algorithm), PASSWORD, mac.salt, mac.iterations
                self.same(macs.mac(*given, octets), mac.digest, name, "the MAC")
                octets[len(octets) // 2] ^= 1
                self.same(macs.mac(*given, octets) == mac.digest, False, name, "the MAC of other octets")

    def test_macs_of_stores_of_openssl_are_those_of_the_stores(self):
        self.same_macs(stores_of_openssl)

    @needs("certutil", "pk12util")
    def test_macs_of_stores_of_nss_are_those_of_the_stores(self):
        self.same_macs(foreign.stores_of_nss)


if __name__ == "__main__":
    unittest.main()
