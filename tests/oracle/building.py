"""Writes what says how data is encrypted with a password (RFC 8018, A; RFC 7292, C; RFC 5958, 3; RFC 5652, 8) from
parts that are given, or says which of them can't be written. It is the second opinion on `der_build_parameters`, as
der.h describes it, and shares nothing with tests/support."""
from . import passwords, signed
from .bags import DATA
from .signed import Elements, Refused

# The numbers of parts, by their names in der.h.
PARTS = {
    "algorithm": 1, "parameters": 2, "derivation": 3, "derivation_parameters": 4, "salt": 5, "prf": 6, "encryption": 7,
    "encryption_parameters": 8, "initialization_vector": 9, "encrypted": 10, "iterations": 11, "key_length": 12,
    "scheme": 13,
}
# The contents octets of id-PBES2 and id-PBKDF2 (RFC 8018, C).
PBES2, PBKDF2 = (bytes.fromhex("2A864886F70D01050" + digit) for digit in "DC")


def written(tag, *parts):
    """The encoding of an element (X.690, 8.1 and 10.1)."""
    contents = b"".join(parts)
    size, count = len(contents), (len(contents).bit_length() + 7) // 8
    length = [size] if size < 128 else [128 + count, *size.to_bytes(count, "big")]
    return bytes([tag, *length]) + contents


def is_read(octets, read):
    """Whether octets are one element that a reader takes."""
    elements = Elements(octets, 0, len(octets))
    try:
        read(elements)
    except Refused:
        return False
    return elements.at == elements.end


def is_element(octets):
    return is_read(octets, Elements.any)


def is_identifier(octets):
    return is_read(written(0x06, octets), signed.identifier)


class Given:
    """The parts of a row over an input, and the numbers of those that can't be written, in the order of der.h."""

    def __init__(self, octets, row):
        self.octets, self.row, self.wrong = octets, row, []

    def part(self, name, is_right=lambda octets: True):
        """The octets of a range, which have to be right."""
        start, size = getattr(self.row, name)
        octets = self.octets[start : start + size]
        if start + size > len(self.octets) or not is_right(octets):
            self.wrong.append(PARTS[name])
        return octets

    def needed(self, name):
        """The octets of a range that has to be given."""
        if not getattr(self.row, f"has_{name}"):
            self.wrong.append(PARTS[name])
        return self.part(name)

    def identifier(self, name, kinds=None):
        """An OBJECT IDENTIFIER, which has to be of one of these kinds, if they are named."""
        octets = self.part(name, is_identifier)
        if kinds is not None and passwords.dotted(octets) not in kinds:
            self.wrong.append(PARTS[name])
        return written(0x06, octets)

    def number(self, name):
        """An INTEGER below 2^32."""
        found = getattr(self.row, name)
        if found >= 1 << 32:
            self.wrong.append(PARTS[name])
        return written(0x02, found.to_bytes(found.bit_length() // 8 + 1, "big"))

    def element(self, name):
        """Parameters as an element, if there are some."""
        return self.part(name, is_element) if getattr(self.row, f"has_{name}") else b""

    def algorithm(self):
        row = self.row
        if [row.is_pbes1, row.is_pkcs12, row.is_pbes2].count(0) < 2:
            self.wrong.append(PARTS["scheme"])
        if row.is_pbes2:
            return written(0x30, written(0x06, PBES2), written(0x30, self.derivation(), self.encryption()))
        if row.is_pbes1 or row.is_pkcs12:
            kind = self.identifier("algorithm", passwords.PBES1 if row.is_pbes1 else passwords.PKCS12)
            return written(0x30, kind, written(0x30, written(0x04, self.needed("salt")), self.number("iterations")))
        return written(0x30, self.identifier("algorithm"), self.element("parameters"))

    def derivation(self):
        """PBKDF2 with a salt, or any derivation with its parameters: PBKDF2 too, but not without these."""
        row = self.row
        if not row.is_pbkdf2 or row.has_derivation_parameters and not row.has_salt:
            return written(0x30, self.identifier("derivation"), self.element("derivation_parameters"))
        its = [written(0x04, self.needed("salt")), self.number("iterations")]
        its += [self.number("key_length")] if row.has_key_length else []
        its += [written(0x30, self.identifier("prf"), written(0x05))] if row.has_prf else []
        return written(0x30, written(0x06, PBKDF2), written(0x30, *its))

    def encryption(self):
        kind = self.identifier("encryption")
        if self.row.has_initialization_vector:
            return written(0x30, kind, written(0x04, self.part("initialization_vector")))
        return written(0x30, kind, self.element("encryption_parameters"))

    def key(self):
        return written(0x30, self.algorithm(), written(0x04, self.needed("encrypted")))

    def contents(self):
        its = [written(0x06, DATA), self.algorithm()]
        its += [written(0x80, self.part("encrypted"))] if self.row.has_encrypted else []
        data = written(0x30, written(0x02, b"\0"), written(0x30, *its))
        return written(0x30, written(0x06, passwords.ENCRYPTED_DATA), written(0xA0, data))


# The writers of holders, by their numbers.
HOLDERS = {0: Given.algorithm, 1: Given.key, 2: Given.contents}


def text(holder, octets, row):
    """What is written from a row over an input for the holder with that number, or None; and the numbers of the parts
    that keep it from being written, of which the first is told."""
    given = Given(octets, row)
    made = HOLDERS[holder](given)
    return None if given.wrong else made, given.wrong
