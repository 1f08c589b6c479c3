"""What no clause says of the crates that are made of ASN.1 modules, or one that is made with them, beside the modules,
which are read here without tools/asn1: the octets of each object identifier's constant, the numbers of named numbers,
of named bits and of enumerations, and which bit a function tests. Each definition of a module has its constant, function
or number, and there is no other. The same is asked of sources in which something is turned, where it has to be told."""
import re
import unittest

from support import built
from support.oids import contents

MODULES = built.TOP / "asn1"
# The first arcs by name (X.660).
ARCS = {"iso": (1,), "joint-iso-itu-t": (2,), "joint-iso-ccitt": (2,)}
IDENTIFIER = re.compile(r"^([a-z][\w-]*) OBJECT IDENTIFIER ::= \{([^}]*)\}", re.M)
NAMED = re.compile(r"^([A-Z][\w-]*) ::= (?:INTEGER|BIT STRING|ENUMERATED) \{([^}]*)\}", re.M)
CONSTANT = re.compile(
    r"/// `([\w-]+)`, [\d.]+, by its contents octets\.\npub const (\w+): \[u8; (\d+)\] = \[([^\]]*)\];")
NUMBER = re.compile(r"/// `([\w-]+)`\npub const (\w+): (\w+) = (\d+);")
BIT = re.compile(r"/// The bit `([\w-]+)` of `([\w-]+)`\.\npub const (\w+): usize = (\d+);")
TEST = re.compile(
    r"/// Whether the bit `([\w-]+)` of `([\w-]+)` is 1\.\npub fn (\w+)\(bits: &(\w+)\) -> bool\n"
    r"    ensures \{ IsTrue result ↔ HasBit \(contents_of bits\.now\.0\) (\d+) \}\n"
    r"\{\n    has_bit\(bits, (\d+)\)\n\}")
# The number of an alternative, in specs/.
ENUMERATED = re.compile(r"^(\w+)_value (\w+)Is\.(\w+) = (\d+)$", re.M)


def plain(name):
    """A name without what ASN.1 and Rust write differently: hyphens, underscores, capitals."""
    return re.sub(r"[-_]", "", name).lower()


def modules(files):
    """The text of modules without their comments."""
    read = ((MODULES / name).read_text("utf-8") for name in files)
    return "\n".join(re.sub(r"--.*?(--|$)", "", text, flags=re.M) for text in read)


def arcs_of(name, defined):
    """The arcs of a defined object identifier."""
    arcs = ()
    for word in defined[name].split():
        numbered = re.fullmatch(r"(?:[\w-]+\()?(\d+)\)?", word)
        if numbered:
            arcs += (int(numbered[1]),)
        else:
            arcs += ARCS[word] if word in ARCS else arcs_of(word, defined)
    return arcs


def numbers_of(text):
    """The named numbers, bits and alternatives of modules with their numbers, by the type's name."""
    return {name: {word: int(number) for word, number in re.findall(r"([\w-]+)\s*\((\d+)\)", listed)}
            for name, listed in NAMED.findall(text)}


def wanted(text, others):
    """What sources should have: constants of object identifiers, of named numbers and of bits, by their plain names."""
    defined = dict(IDENTIFIER.findall(others) + IDENTIFIER.findall(text))
    found = {plain(name): contents(".".join(map(str, arcs_of(name, defined)))) for name, _ in IDENTIFIER.findall(text)}
    for kind, names in numbers_of(text).items():
        found.update({plain(kind + word): number for word, number in names.items()})
    return found


def said(source):
    """What sources have: each constant and function by its plain name, and what is wrong with it by itself."""
    found, faults = {}, []

    def add(named, name, value):
        if plain(named) != plain(name):
            faults.append(f"{name} is that of {named}")
        if found.setdefault(plain(name), value) != value:
            faults.append(f"{name} is {value} and {found[plain(name)]}")

    for named, name, count, octets in CONSTANT.findall(source):
        value = bytes(int(octet, 16) for octet in re.findall(r"0x([0-9A-F]{2})", octets))
        if len(value) != int(count):
            faults.append(f"{name} has {len(value)} octets")
        add(named, name, value)
    for named, name, kind, number in NUMBER.findall(source):
        add(kind + named, name, int(number))
    for named, kind, name, number in BIT.findall(source):
        add(kind + named, name, int(number))
    for kind, of, name, number in ENUMERATED.findall(source):
        add(of + name, kind + name, int(number))
    for named, kind, name, given, proved, number in TEST.findall(source):
        if not proved == number or plain(given) != plain(kind):
            faults.append(f"{name} tests {number} of {given}, and its clause says {proved}")
        add(kind + named, name, int(number))
    return found, faults


def faults_of(text, others, source):
    """What is wrong with the constants and functions of sources that were made of a module."""
    has, faults = said(source)
    wants = wanted(text, others)
    faults += [f"{name}: {has.get(name)}, and not {wants.get(name)}"
               for name in sorted(has.keys() | wants.keys()) if has.get(name) != wants.get(name)]
    counted = sum(map(len, (form.findall(source) for form in (CONSTANT, NUMBER, BIT, TEST))))
    there = len(re.findall(r"^pub const ", source, re.M)) + len(re.findall(r"\bhas_bit\(bits, \d+\)", source))
    return faults + ([f"{there} constants and tests of bits, of which {counted} are read"] if there != counted else [])


def crates():
    """The modules of each made crate, those that it may import, and its sources."""
    tables = "".join((MODULES / name).read_text("utf-8") for name in ("crates", "examples"))
    listed = [line.split(":") for line in tables.splitlines() if line and not line.startswith("#")]
    everything = modules(name for _, files in listed for name in files.split())
    for crate, files in listed:
        folder = built.TOP / "crates" / crate
        sources = sorted([*folder.glob("src/*.rt"), *folder.glob("specs/*.antt")])
        yield crate, modules(files.split()), everything, "\n".join(path.read_text("utf-8") for path in sources)


# What is turned in a source: a form that is in it once or more, and what is in its place.
TURNED = {
    "an octet of an object identifier": (r"(pub const ID_\w+: \[u8; \d+\] = \[\s*0x)[0-9A-F]{2}", r"\g<1>7F"),
    "a named number": (r"(pub const \w+: (?:Version|PkiStatus) = )\d+", r"\g<1>9"),
    "a bit's number": (r"(pub const \w+: usize = )\d+", r"\g<1>30"),
    "the bit that a function tests": (r"has_bit\(bits, 6\)", "has_bit(bits, 5)"),
    "both the bit and its clause": (
        r"(HasBit \(contents_of bits\.now\.0\) )6( \}\n\{\n    has_bit\(bits, )6", r"\g<1>5\g<2>5"),
    "the number of an alternative": (r"(_value \w+Is\.\w+ = )1\b", r"\g<1>2"),
    "the name of a constant": (r"pub const ID_CE_KEY_USAGE:", "pub const ID_CE_KEY_USE:"),
    "a constant, gone": (r"/// `id-ce-keyUsage`[^\n]*\npub const [^=]*= [^;]*;\n", ""),
    "a constant more": (r"\Z", "\n/// Seven.\npub const SEVEN: u8 = 7;\n"),
}


class Made(unittest.TestCase):
    def test_constants_are_those_of_the_modules(self):
        for crate, text, others, source in crates():
            with self.subTest(crate=crate):
                self.assertEqual([], faults_of(text, others, source))
                self.assertTrue(wanted(text, others))

    def test_what_is_turned_is_told(self):
        told = {what: 0 for what in TURNED}
        for _, text, others, source in crates():
            for what, (form, other) in TURNED.items():
                turned, count = re.subn(form, other, source, count=1)
                if count:
                    self.assertNotEqual([], faults_of(text, others, turned), what)
                    told[what] += 1
        self.assertTrue(all(told.values()), told)


if __name__ == "__main__":
    unittest.main()
