"""Where der_certificate says that a certificate has its parts, beside what openssl shows of certificates that it makes,
with keys of RSA, EC and Ed25519, of versions 1 and 3, and beside the reader of tests/oracle, of certificates of the
worked examples, made by hand and changed, also where they are refused. What is written is looked at between marks."""
import random
import re
import unittest

from support import built, inputs
from support.elements import element, explicit, integer, octet_string, sequence
from support.oids import oid
from support.rooms import CERTIFICATE, InRooms, in_struct, marked, octets_of
from support.statuses import INVALID, MALFORMED, MISSING, NORMAL, answered
from support.tools import openssl
from oracle import answers

KEYS = {
    "rsa": ["-algorithm", "RSA", "-pkeyopt", "rsa_keygen_bits:2048"],
    "ec": ["-algorithm", "EC", "-pkeyopt", "ec_paramgen_curve:P-256"],
    "ed25519": ["-algorithm", "ED25519"],
}
# Extensions, None where the certificate is of version 1, and the identifier of the key among them.
PROFILES = {
    "version 1": (None, None),
    "identifier": ("subjectKeyIdentifier = 01:02:03:04:05", "0102030405"),
    "others": ("subjectKeyIdentifier = none\nbasicConstraints = critical, CA:TRUE\nkeyUsage = keyCertSign", None),
    "last": ("basicConstraints = CA:FALSE\nsubjectAltName = DNS:example.org\nsubjectKeyIdentifier = 07", "07"),
}
LINE = re.compile(r" *(\d+):d=(\d+) +hl=(\d+) l= *(\d+) (?:prim|cons): (.*?) *")
# How many changed ones of each certificate are asked for their parts.
CHANGES = 60


def certificate_of(key, extensions):
    """A certificate that openssl makes, and the place of each element in it, in its words: the depth, where it begins,
    where its contents begin, where it ends, and its type."""
    room = built.room() / "certificate_parts"
    room.mkdir(exist_ok=True)
    secret, words, path = room / f"{key}.pem", room / "words.cnf", room / "certificate.der"
    if not secret.exists():
        openssl("genpkey", *KEYS[key], "-out", secret)
    words.write_text(f"[req]\ndistinguished_name = name\n[name]\n[more]\n{extensions or ''}\n")
    request = openssl("req", "-new", "-key", secret, "-config", words, "-subj", "/C=DE/O=Example/CN=subject")
    more = ["-extfile", words, "-extensions", "more"] if extensions else []
    openssl("x509", "-req", "-signkey", secret, "-days", 30, *more, "-outform", "DER", "-out", path, text=request)
    text = path.read_bytes()
    lines = [LINE.fullmatch(line) for line in openssl("asn1parse", "-inform", "DER", text=text).decode().splitlines()]
    numbers = [(*map(int, line.groups()[:4]), line[5]) for line in lines if line]
    return text, [(depth, at, at + head, at + head + size, said) for at, depth, head, size, said in numbers]


def whole(line):
    return line[1], line[3] - line[1]


def contents(line):
    return line[2], line[3] - line[2]


def places_of(lines):
    """Where openssl shows the parts of a certificate, by their names in der.h, but for the identifier of the key."""
    tbs = lines[1]
    its = [line for line in lines if line[0] == 2 and line[1] < tbs[3]]
    if its[0][4] == "cont [ 0 ]":
        its = its[1:]
    serial, _, issuer, validity, subject, key, *rest = its
    _, oid_line, *parameters, bits = [line for line in lines if key[1] < line[1] < key[3] and line[0] in (3, 4)]
    found = {
        "serial_number": contents(serial), "issuer": whole(issuer), "validity": whole(validity),
        "subject": whole(subject), "subject_public_key_info": whole(key), "key_algorithm": contents(oid_line),
        "public_key": (bits[2] + 1, bits[3] - bits[2] - 1),
    }
    found |= {"key_parameters": whole(line) for line in parameters}
    return found | {"extensions": contents(line) for line in rest if line[4] == "cont [ 3 ]"}


class TestCertificates(InRooms):
    """The parts of certificates."""

    def same_parts(self, text):
        """Compares where the parts are said to be, and what Python is told. Returns the row."""
        status, row, where = answers.certificate(text)
        wanted = status, where, marked(octets_of([row.numbers()]), CERTIFICATE)
        self.same(in_struct("der_certificate", text, CERTIFICATE), wanted, "der_certificate", text)
        said, found, place = answered(built.library().certificate, text)
        self.same((said, place), (status, where), "a certificate in Python", text)
        if status == NORMAL and found:
            flags = row.has_key, row.has_key_parameters, row.has_key, row.has_extensions, row.has_key_identifier
            octets = [text[start : start + size] for start, size in row[4:]]
            wanted = [*octets[:5], *(its if is_there else None for its, is_there in zip(octets[5:], flags))]
            self.same([it if it is None else bytes(it) for it in found], wanted, "parts in Python", text)
        return status, row

    def test_parts_are_where_openssl_shows_them(self):
        for key in KEYS:
            for profile, (extensions, identifier) in PROFILES.items():
                text, lines = certificate_of(key, extensions)
                _, row = self.same_parts(text)
                found = {name: it for name, it in row._asdict().items() if it != (0, 0) and name[:4] != "has_"}
                start, size = found.pop("key_identifier", (0, 0))
                self.same(found, places_of(lines), "places", key, profile, text)
                self.same(text[start : start + size].hex() or None, identifier, "identifier", key, profile, text)
                self.same_words(text)

    def same_words(self, text):
        """Compares what Python makes of the parts with openssl's words."""
        parts, library = built.library().certificate(text), built.library()
        words = "-serial", "-subject", "-issuer", "-nameopt", "RFC2253"
        said = openssl("x509", "-inform", "DER", "-noout", *words, text=text).decode().splitlines()
        serial, *names = [line.split("=", 1)[1] for line in said]
        self.same(parts.serial_number, int(serial, 16), "serial number", text)
        self.same([library.name_text(parts.subject), library.name_text(parts.issuer)], names, "names", text)
        pem = openssl("x509", "-inform", "DER", "-noout", "-pubkey", text=text)
        key = openssl("pkey", "-pubin", "-outform", "DER", text=pem)
        self.same(bytes(parts.subject_public_key_info), key, "key", text)

    def test_parts_are_those_of_the_other_reader_also_of_changed_certificates(self):
        chance, counts = random.Random(23), {}
        made = [certificate_of(key, extensions)[0] for key in KEYS for extensions, _ in PROFILES.values()]
        for text in [*made, *inputs.certificates(), *inputs.signed_data()[:5]]:
            for its in [text, *(inputs.changed(chance, text) for _ in range(CHANGES))]:
                status, row = self.same_parts(its)
                kind = status, *row[:4]
                counts[kind] = counts.get(kind, 0) + 1
        for kind in [(NORMAL, 1, 1, 1, 1), (NORMAL, 1, 1, 1, 0), (NORMAL, 1, 0, 0, 0), (NORMAL, 0, 0, 1, 1)]:
            self.at_least(counts.get(kind, 0), 5, f"certificates with {kind[1:]}")
        for status in (MALFORMED, MISSING, INVALID):
            self.at_least(counts.get((status, 0, 0, 0, 0), 0), 10, f"refusals by {status}")

    def test_parts_of_certificates_by_hand(self):
        """With unique identifiers, several elements [3], several identifiers, an explicit FALSE, and what is no key."""
        algorithm, empty = sequence(oid("data")), sequence()
        name = oid("subjectKeyIdentifier")
        false, value = element(0x01, b"\0"), octet_string(octet_string(b"key"))
        lists = [
            sequence(sequence(name, false, value), sequence(name, octet_string(octet_string(b"other")))),
            sequence(sequence(oid("data"), octet_string(b"")), sequence(name, value)),
            sequence(sequence(name, octet_string(b"key"))), sequence(), integer(1),
        ]
        unique = element(0x81, b"\0"), element(0x82, b"\0")
        rests = [b"", *(b"".join(unique) + explicit(3, it) for it in lists), explicit(3, empty) + explicit(3, lists[0])]
        rests += [unique[1], explicit(3) + empty, explicit(3, lists[1], empty)]
        bits = element(0x03, b"\0\7"), element(0x03, b"\0"), element(0x03, b"\4\xF0"), element(0x03, b"")
        parameters = sequence(oid("data"), empty)
        keys = [empty, integer(1), sequence(algorithm), *(sequence(algorithm, it) for it in bits)]
        keys += [sequence(parameters, bits[0]), sequence(algorithm, *bits[:2]), sequence(parameters + empty, bits[0])]
        kinds = set()
        for rest in rests:
            for key in keys:
                for version in (b"", explicit(0, integer(0)), explicit(0, integer(2)), explicit(0, integer(3))):
                    tbs = sequence(version, integer(7), algorithm, empty, empty, empty, key, rest)
                    status, row = self.same_parts(sequence(tbs, algorithm, bits[0]))
                    kinds.add((status, *row[:4]))
        self.at_least(len(kinds), 10, "kinds of certificates")


if __name__ == "__main__":
    unittest.main()
