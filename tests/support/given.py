"""Sets of parts as der_build_parameters takes them, by the names of the fields of der_password_parts that it looks at:
a part as octets, a number, and a flag as 0 or 1. Each set is laid out in one input, with made-up octets and numbers."""
from .elements import element, octet_string
from .encrypted import ALGORITHM, CONTENTS, KEY
from .oids import contents

# The contents octets of object identifiers of PBES1 (RFC 8018, A.3) and of PKCS #12 (RFC 7292, C), by their flags.
KINDS = {
    "is_pbes1": [contents(f"1.2.840.113549.1.5.{arc}") for arc in (1, 3, 4, 6, 10, 11)],
    "is_pkcs12": [contents(f"1.2.840.113549.1.12.1.{arc}") for arc in (1, 2, 3, 4, 5, 6)],
}
NO_SCHEME = {"is_pbes1": 0, "is_pkcs12": 0, "is_pbes2": 0}
# Parts that are object identifiers, parts that are elements, and parts that are numbers.
IDENTIFIERS = "algorithm", "derivation", "prf", "encryption"
ELEMENTS = "parameters", "derivation_parameters", "encryption_parameters"
COUNTS = "iterations", "key_length"
# Numbers on both sides of what takes an octet more, up to the greatest that is written; lengths of parts; and what
# flags are that are set.
NUMBERS = 0, 1, 127, 128, 255, 256, 2048, 32767, 32768, 2**23 - 1, 2**23, 2**31 - 1, 2**31, 2**32 - 1
SIZES = 0, 1, 8, 16, 127, 128, 255, 256, 300
FLAGS = 1, 2, 2**32, 2**63, 2**64 - 1
# Arcs of made-up object identifiers below 2.999, which is for examples, and tags of made-up elements, but for that of
# OCTET STRING.
ARCS = 0, 5, 127, 128, 2**14, 2**32, 2**64, 2**100
TAGS = 0x02, 0x05, 0x06, 0x0C, 0x24, 0x30, 0x31, 0x80, 0xA0, 0xDE
# Octets that are no object identifier: none, a group that begins with 0, the first or a later one, and one without an
# end.
NO_IDENTIFIERS = b"", b"\x80", b"\x80\1", b"\x2A\x80\1", b"\x2A\x03\x80\x7F", b"\x81", b"\x2A\x86"
# Octets that are no element, or not one alone: too short, an octet or an element more, a tag of several octets, a
# length that isn't said, and lengths in more octets than they take.
NO_ELEMENTS = (
    b"", b"\x05", b"\x04\2\1", b"\x30\x81", b"\x30\x82\1", b"\x05\0\0", b"\x05\0\x05\0", b"\x1F\1\0", b"\x30\x80\0\0",
    b"\x04\x81\1\7", b"\x04\x81\x7F" + bytes(127), b"\x04\x82\0\x80" + bytes(128), b"\x04\xFF" + bytes(127),
    octet_string(bytes(128))[:-1], octet_string(bytes(300)) + b"\0",
)


def some_octets(chance):
    return chance.randbytes(chance.choice(SIZES))


def some_identifier(chance):
    """The contents octets of an object identifier that no algorithm has."""
    arcs = chance.choices(ARCS, k=chance.randrange(1, 5))
    return contents(".".join(map(str, (2, 999, *arcs))))


def some_element(chance):
    return element(chance.choice(TAGS), some_octets(chance))


def there_or_not(name, it):
    """A part that is there, and none."""
    return {f"has_{name}": 1, name: it}, {f"has_{name}": 0}


def with_a_salt(chance):
    """Algorithms of a salt and a count."""
    for flag, kinds in KINDS.items():
        for kind in kinds:
            its = {"has_salt": 1, "salt": some_octets(chance), "iterations": chance.choice(NUMBERS)}
            yield {**NO_SCHEME, flag: 1, "algorithm": kind, **its}


def derivations(chance):
    """PBKDF2 with a salt, and others: also what may say that it is PBKDF2, without a salt, but with parameters."""
    for length in there_or_not("key_length", chance.choice(NUMBERS)):
        for prf in there_or_not("prf", some_identifier(chance)):
            its = {"salt": some_octets(chance), "iterations": chance.choice(NUMBERS)}
            yield {"is_pbkdf2": 1, "has_salt": 1, **its, **length, **prf}
    there, absent = there_or_not("derivation_parameters", some_element(chance))
    for its in ({"is_pbkdf2": 0, **there}, {"is_pbkdf2": 0, **absent}, {"has_salt": 0, **there}):
        yield {**its, "derivation": some_identifier(chance)}


def encryptions(chance):
    """Encryption schemes with a vector, and others."""
    for vector in there_or_not("initialization_vector", some_octets(chance)):
        others = there_or_not("encryption_parameters", some_element(chance))
        for parameters in [{}] if "initialization_vector" in vector else others:
            yield {**vector, "encryption": some_identifier(chance), **parameters}


def algorithms(chance):
    """Algorithms of each kind."""
    yield from with_a_salt(chance)
    for derivation in derivations(chance):
        for encryption in encryptions(chance):
            yield {**NO_SCHEME, "is_pbes2": 1, **derivation, **encryption}
    for parameters in there_or_not("parameters", some_element(chance)):
        yield {**NO_SCHEME, "algorithm": some_identifier(chance), **parameters}


def held(chance, its):
    """An algorithm for each holder, by its number, with what is encrypted, and for contents also without."""
    there, absent = there_or_not("encrypted", some_octets(chance))
    for holder, more in ((ALGORITHM, {}), (KEY, there), (CONTENTS, there), (CONTENTS, absent)):
        yield holder, {**its, **more}


def sets(chance):
    """Sets of parts of each kind, each for a holder."""
    for its in algorithms(chance):
        yield from held(chance, its)


def is_flag(name):
    return name.startswith(("is_", "has_"))


def laid_out(chance, its):
    """An input that has the parts of a set, in any order, with octets between them or one within another, and the
    fields that say so, with places and lengths."""
    text, fields = b"", dict(its)
    for name in chance.sample(sorted(its), len(its)):
        if isinstance(its[name], bytes):
            text += chance.randbytes(chance.randrange(4))
            text += its[name] if its[name] not in text else b""
            fields[name] = text.index(its[name]), len(its[name])
        elif is_flag(name) and its[name]:
            fields[name] = chance.choice(FLAGS)
    return text + chance.randbytes(chance.randrange(4)), fields


def wrong_ranges(text, place):
    """Ranges that aren't in an input, though the place or the length of one that is may be in them: an octet too long,
    too far, past the end, and with an end of 2^64 or more, of which 64 bits keep what may be in the input."""
    (start, size), after = place, len(text) + 1
    found = [(start, after - start), (after - size, size), (0, after), (after, 0), (len(text), 1)]
    found += [(0, 2**64 - 1), (start, 2**64 - 1), (start + 1, 2**64 - 1 - start)]
    sizes = 0, size, 2**64 - 1
    return found + [(at, it) for at in (2**63, 2**64 - 1) for it in (*sizes, 2**64 - at, 2**64 - at + len(text))]
