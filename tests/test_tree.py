"""Compares what dertree shows with what `openssl asn1parse` does, of the files that tests/vectors/outside makes, as
they are and with lengths and octet strings in other forms of BER: the same offsets, depths, lengths and types, in the
same order, the same lengths in more octets than DER takes, and the same ends of contents. With the kind that outside
reads a file as, the last line and the exit status have to be those of `derbox check`, and what isn't canonical is said
of loose files alone, each with one of the five causes of docs/FORMATS.md. What derbox says of the files is compared
too, and what other tools say of the files that it writes, as outside does. Made-up and changed inputs in BER are shown
as the reader of tests/oracle/trees.py has their lines.

Of files that openssl makes here, the fields that NAMED lists have the values that openssl says; of files made by hand,
LOOSE lists what isn't canonical. Files of tools that aren't there are skipped."""
import functools
import hashlib
import random
import re
import unittest
from pathlib import Path

from oracle import trees
from support import elements, making
from support.asking import Asked
from support.ber_inputs import made_up
from support.built import program, room
from support.cases import Comparing
from support.elements import element
from support.scripts import script
from support.tools import ended, needs

# The fields of a file as a kind or type: the names, each with what begins the value.
NAMED = """
one.der Certificate
  Certificate.tbsCertificate.version 2
  Certificate.tbsCertificate.serialNumber 4711
  Certificate.tbsCertificate.issuer.rdnSequence[0][0].value "one"
  Certificate.tbsCertificate.subject.rdnSequence[0][0].type 2.5.4.3
  Certificate.tbsCertificate.validity.notBefore.utcTime {notBefore}
  Certificate.tbsCertificate.validity.notAfter.utcTime {notAfter}
  Certificate.tbsCertificate.subjectPublicKeyInfo.algorithm.algorithm 1.2.840.10045.2.1
  Certificate.tbsCertificate.extensions[0].extnID 2.5.29.19
  Certificate.tbsCertificate.extensions[0].critical TRUE
  Certificate.signatureAlgorithm.algorithm 1.2.840.10045.4.3.2
signed.p7s pkcs7certificate
  Pkcs7Certificate.contentType 1.2.840.113549.1.7.2
  Pkcs7Certificate.content.digestAlgorithms[0].algorithm 2.16.840.1.101.3.4.2.1
  Pkcs7Certificate.content.encapContentInfo.eContentType 1.2.840.113549.1.7.1
  Pkcs7Certificate.content.encapContentInfo.eContent.data 68 65 6C 6C 6F
  Pkcs7Certificate.content.certificates[0].certificate.tbsCertificate.serialNumber 4711
  Pkcs7Certificate.content.signerInfos[0].version 1
  Pkcs7Certificate.content.signerInfos[0].sid.issuerAndSerialNumber.serialNumber 4711
  Pkcs7Certificate.content.signerInfos[0].signedAttrs[0].attrValues[0].contentType 1.2.840.113549.1.7.1
  Pkcs7Certificate.content.signerInfos[0].signedAttrs[2].attrValues[0].messageDigest {digest}
  Pkcs7Certificate.content.signerInfos[0].signatureAlgorithm.algorithm 1.2.840.10045.4.3.2
signed.p7s contentinfo
  ContentInfo.content.signedData.signerInfos[0].sid.issuerAndSerialNumber.serialNumber 4711
store.p12 pfx
  Pfx.version 3
  Pfx.authSafe.content.data[0].content.data[0].bagId 1.2.840.113549.1.12.10.1.3
  Pfx.authSafe.content.data[0].content.data[0].bagValue.certBag.certId 1.2.840.113549.1.9.22.1
  Pfx.authSafe.content.data[0].content.data[0].{certificate}.serialNumber 4711
  Pfx.authSafe.content.data[1].content.data[0].{key}.algorithm 1.2.840.113549.1.5.13
  Pfx.authSafe.content.data[1].content.data[0].{key}.parameters.pbes2.{derived}.iterationCount 3001
  Pfx.authSafe.content.data[1].content.data[0].bagAttributes[0].attrValues[0].friendlyName "first"
  Pfx.macData.mac.digestAlgorithm.algorithm 2.16.840.1.101.3.4.2.1
  Pfx.macData.iterations 3001
list.der certificatelist
  CertificateList.tbsCertList.version 1
  CertificateList.tbsCertList.issuer[0][0].value "one"
list.der CertificateList
  CertificateList.tbsCertList.issuer.rdnSequence[0][0].value "one"
  CertificateList.tbsCertList.revokedCertificates[0].userCertificate 51966
"""
# Parts of these names.
LONG = {
    "certificate": "bagValue.certBag.certValue.x509Certificate.tbsCertificate",
    "key": "bagValue.pkcs8ShroudedKeyBag.encryptionAlgorithm",
    "derived": "keyDerivationFunc.parameters.pbkdf2",
}
# What isn't canonical in octets as a kind: the place, the path and the cause.
LOOSE = """
pkcs12digestinfo 301F300706052B0E03021A0414{digest}
  2, 0.0: absent parameters, which are written as 05 00
pkcs12digestinfo 3022300A06052B0E03021A0101FF0414{digest}
  11, 0.0.1: parameters, which are written as 05 00
pkcs12digestinfo 3024300C06052B0E03021A30030101FF0414{digest}
  11, 0.0.1: parameters, which are written as 05 00
revokedcertificate 3023020101170D3236313132373030303030305A300F300D0603551D1501010004030A0101
  29, 0.2.0.1: FALSE, which is the default and isn't written
signerinfo 301F02010130053000020101300506032A0304A000300506032A0304040100A100
  19, 0.3: an empty set, which isn't written
  31, 0.6: an empty set, which isn't written
spcpeimagedata 3005A003800161
  0, 0: absent flags, which are written as 03 02 05 80
"""
# Lines of octets as a kind, without the names: the offset, the depth, and what is there. An octet string is opened where
# the element is in it that is refused or isn't canonical, or where one is missing at its end, and not where it ends before
# that element.
LEADING = """
signerinfo 301E02010130053000020105300306012A300306012A0406630241426A09A100
  22 1 OCTET STRING 6: 63 02 41 42 6A 09
  30 1 [1] constructed 0
signerinfo 301E02010130053000020105300306012A300306012A0406630241426A090500
  22 1 OCTET STRING 6: 63 02 41 42 6A 09
  30 1 NULL 0
pfx 3018020103301306092A864886F70D010701A006040430023000
  20 3 OCTET STRING 4
  22 4 SEQUENCE 2
  24 5 SEQUENCE 0
pfx 3018020103301306092A864886F70D010701A006040430000500
  20 3 OCTET STRING 4
  22 4 SEQUENCE 0
  24 4 NULL 0
"""
# What is shown of octets without a kind: the offset, the depth, and what is there.
PLAIN = """
3080020105
  0 0 SEQUENCE, indefinite length
  2 1 INTEGER 1: 5
  5 1 missing end of contents
3080
  0 0 SEQUENCE, indefinite length
  2 1 missing end of contents
2403020105
  0 0 OCTET STRING constructed 3
  2 1 INTEGER 1, segment: 5
30053080020105
  0 0 SEQUENCE 5
  2 1 SEQUENCE, indefinite length
  4 2 INTEGER 1: 5
  7 2 missing end of contents
300530800201050500
  0 0 SEQUENCE 5
  2 1 SEQUENCE, indefinite length
  4 2 INTEGER 1: 5
  7 2 missing end of contents
  7 0 NULL 0
308030800500
  0 0 SEQUENCE, indefinite length
  2 1 SEQUENCE, indefinite length
  4 2 NULL 0
  6 2 missing end of contents
  6 1 missing end of contents
308030020500
  0 0 SEQUENCE, indefinite length
  2 1 SEQUENCE 2
  4 2 NULL 0
  6 1 missing end of contents
308000
  0 0 SEQUENCE, indefinite length
  2 1 1 byte that is no element: 00
  3 1 missing end of contents
30800000
  0 0 SEQUENCE, indefinite length
  2 1 end of contents
"""
# What is shown of octets without a kind where each octet string is open that is one whole element.
WHOLE = """
04053081020500
  0 0 OCTET STRING 5
  2 1 SEQUENCE 2, length in 2 octets
  5 2 NULL 0
04083084000000020500
  0 0 OCTET STRING 8
  2 1 SEQUENCE 2, length in 5 octets
  8 2 NULL 0
040430800000
  0 0 OCTET STRING 4
  2 1 SEQUENCE, indefinite length
  4 2 end of contents
04053080000000
  0 0 OCTET STRING 5: 30 80 00 00 00
040730803080000000
  0 0 OCTET STRING 7: 30 80 30 80 00 00 00
04083080308000000000
  0 0 OCTET STRING 8
  2 1 SEQUENCE, indefinite length
  4 2 SEQUENCE, indefinite length
  6 3 end of contents
  8 2 end of contents
040630800402FFFF
  0 0 OCTET STRING 6: 30 80 04 02 FF FF
040830800402FFFF0000
  0 0 OCTET STRING 8
  2 1 SEQUENCE, indefinite length
  4 2 OCTET STRING 2: FF FF
  8 2 end of contents
04033002FF
  0 0 OCTET STRING 3: 30 02 FF
04043002FFFF
  0 0 OCTET STRING 4
  2 1 SEQUENCE 2
  4 2 2 bytes that are no element: FF FF
"""
# How many made-up inputs are shown, and how many of their lines at least have to be of each word.
MADE = 600
OPEN = 20
FEWEST = {"missing end of contents": 20, "end of contents": 300, "inf": 300, "that are no element": 60}
# What makes the files of NAMED, in order.
MAKING = """
openssl req -x509 -newkey ec -pkeyopt ec_paramgen_curve:P-256 -nodes -set_serial 4711 -subj /CN=one -days 30 \
    -addext basicConstraints=critical,CA:TRUE -extensions none -config none.cnf -keyout one.key -out one.pem
openssl x509 -in one.pem -outform DER -out one.der
openssl cms -sign -binary -nodetach -md sha256 -signer one.pem -inkey one.key -in text -outform DER -out signed.p7s
openssl pkcs12 -export -in one.pem -inkey one.key -name first -certpbe NONE -iter 3001 -passout pass:test -out store.p12
openssl ca -config list.cnf -keyfile one.key -cert one.pem -gencrl -out list.pem
openssl crl -in list.pem -outform DER -out list.der
"""
TEXT = b"hello"
CONFIGURATIONS = {
    "none.cnf": "[ req ]\ndistinguished_name = empty\n[ empty ]\n[ none ]\n",
    "list.cnf": "[ ca ]\ndefault_ca = it\n[ it ]\ndatabase = list.txt\ndefault_md = sha256\ndefault_crl_days = 9\n"
                "crl_extensions = ext\n[ ext ]\nauthorityKeyIdentifier = keyid\n",
    "list.txt": "R\t301127110000Z\t261127110000Z\tCAFE\tunknown\t/CN=gone\n",
}
# Names of types as openssl has them, and in ASN.1, where these differ.
TYPES = {
    "OBJECT": "OBJECT IDENTIFIER", "OBJECT DESCRIPTOR": "ObjectDescriptor", "EOC": "[UNIVERSAL 0]",
    "<ASN1 11>": "EMBEDDED PDV", "<ASN1 13>": "RELATIVE-OID", "<ASN1 14>": "TIME", "<ASN1 15>": "[UNIVERSAL 15]",
    "<ASN1 29>": "CHARACTER STRING", "T61STRING": "TeletexString", "UTCTIME": "UTCTime",
    "GENERALIZEDTIME": "GeneralizedTime", "UTF8STRING": "UTF8String", "BMPSTRING": "BMPString",
    "IA5STRING": "IA5String", "NUMERICSTRING": "NumericString", "PRINTABLESTRING": "PrintableString",
    "VIDEOTEXSTRING": "VideotexString", "GRAPHICSTRING": "GraphicString", "VISIBLESTRING": "VisibleString",
    "GENERALSTRING": "GeneralString", "UNIVERSALSTRING": "UniversalString",
}
CLASSES = {"cont": "[{}]", "appl": "[APPLICATION {}]", "priv": "[PRIVATE {}]"}
# Types that are constructed, of which a header says where it is primitive; of others it says where it is constructed.
CONSTRUCTED = {"SEQUENCE", "SET", "EXTERNAL", "EMBEDDED PDV", "CHARACTER STRING"}
PARSED = re.compile(r" *(\d+):d=(\d+) +hl=(\d+) +l= *(\d+|inf) +(cons|prim): (.{1,18})")
SHOWN = re.compile(r" *(\d+) +(\d+) +(?:(.*), indefinite length|(.*) (\d+)(?:, length in (\d+) octets)?)")
END = re.compile(r" *(\d+) +(\d+) +end of contents")
BARE = re.compile(r" *(\d+) +(\d+) +(missing end of contents|\d+(?= bytes? that))")


# ---- other forms


def der_at(text, place, end):
    """The element of DER that begins at a place, if one does."""
    if end - place < 2 or text[place] % 32 == 31:
        return None
    found = elements.at(text, place)
    return found if found.end <= end and element(found.tag, found.contents(text)) == found.of(text) else None


def written(dice, tag, contents):
    """An element with a length of one of the forms of X.690, 8.1.3. A length of 0 is in one octet, since OpenSSL
    refuses others where what holds the element ends."""
    size, form = len(contents), dice.random()
    if tag & 0x20 and form < 0.4:
        return bytes([tag, 128]) + contents + b"\0\0"
    if form < 0.6 and size:
        count = dice.randint((size.bit_length() + 7) // 8, 8)
        return bytes([tag, 128 + count]) + size.to_bytes(count, "big") + contents
    return element(tag, contents)


def string(dice, contents):
    """An octet string in one piece, or in segments (X.690, 8.7.3)."""
    if dice.random() < 0.6:
        return written(dice, 0x04, contents)
    middle = dice.randint(0, len(contents))
    return written(dice, 0x24, string(dice, contents[:middle]) + string(dice, contents[middle:]))


def other_forms(dice, text, place, end):
    """The elements from one place to another, with other lengths, and octet strings in segments. What isn't DER is kept
    as it is, with all that follows it."""
    made = b""
    while place < end:
        found = der_at(text, place, end)
        if not found:
            return made + text[place:end]
        contents = found.contents(text)
        if found.tag == 0x04:
            made += string(dice, contents)
        else:
            inner = other_forms(dice, text, found.start, found.end) if found.tag & 0x20 else contents
            made += written(dice, found.tag, inner)
        place = found.end
    return made


# ---- headers: the offset, the depth, the length, the type, and in how many octets the length is, where DER takes fewer


def type_of(name, form):
    """The type and form as dertree writes them, of those that openssl does."""
    of_class = re.fullmatch(r"(cont|appl|priv) \[ (\d+) \]", name)
    name = CLASSES[of_class[1]].format(of_class[2]) if of_class else TYPES.get(name, name)
    if name in CONSTRUCTED:
        return name if form == "cons" else f"{name} primitive"
    return f"{name} constructed" if form == "cons" else name


def by_openssl(octets):
    """The headers that openssl shows, up to where it refuses the octets."""
    found = []
    for line in ended("openssl", "asn1parse", "-inform", "DER", text=octets).stdout.decode("latin-1").split("\n"):
        if parsed := PARSED.match(line):
            offset, depth, header, length, form, name = parsed.groups()
            count, more = int(header) - 1, None
            if length != "inf":
                fewest = 1 if int(length) < 128 else 1 + (int(length).bit_length() + 7) // 8
                more = str(count) if count > fewest else None
            found.append((offset, depth, length, type_of(name.rstrip(), form), more))
    return found


def by_dertree(tree):
    """The headers that dertree shows. A line that shows none is kept as it is."""
    found = []
    for line in tree.splitlines():
        bare = re.sub(r", segment$", "", re.sub(r": .*", "", re.sub(r" -- [^ ]+$", "", line)))
        if end := END.fullmatch(bare):
            found.append((*end.groups(), "0", "[UNIVERSAL 0]", None))
        elif shown := SHOWN.fullmatch(bare):
            offset, depth, open_type, closed_type, length, more = shown.groups()
            found.append((offset, depth, length or "inf", closed_type or open_type, more))
        else:
            found.append(line)
    return found


def tree_of(octets, *words):
    """What dertree shows, and its status."""
    ran = ended(program("dertree"), *words, text=octets)
    return ran.stdout.decode(), ran.returncode


# ---- what another reader shows


def bare(line):
    """What a line shows: the offset, the depth, and the length, or a word, as tests/oracle/trees.py has them."""
    header, = by_dertree(line)
    if isinstance(header, str):
        offset, depth, word = BARE.match(header).groups()
        return int(offset), int(depth), f"{word} that are no element" if word.isdigit() else word
    is_end = header[3:] == ("[UNIVERSAL 0]", None) and line.endswith("end of contents")
    return int(header[0]), int(header[1]), "end of contents" if is_end else header[2]


class Plain(Comparing):
    def test_what_bare_octets_are_is_shown(self):
        for (octets,), shown in blocks(PLAIN):
            tree, status = tree_of(bytes.fromhex(octets))
            self.same((status, [" ".join(line.split()) for line in tree.splitlines()]), (0, shown), octets)

    def test_made_up_inputs_are_shown_as_another_reader_has_them(self):
        words = []
        for octets in made_up(MADE):
            self.shown_alike(octets, False)
            words += [word for _, _, word in trees.lines(octets, False)]
        for word, fewest in FEWEST.items():
            self.at_least(sum(it.endswith(word) for it in words), fewest, f"lines of {word}")

    def test_octet_strings_that_are_one_whole_element_are_open(self):
        for octets, shown in blocks(WHOLE):
            tree = tree_of(bytes.fromhex("".join(octets)), "--open")[0]
            self.same([" ".join(line.split()) for line in tree.splitlines()], shown, *octets)

    def test_made_up_octet_strings_are_open_where_another_reader_opens_them(self):
        dice, found = random.Random(8), 0
        for octets in made_up(MADE):
            contents = dice.choice((octets, octets, octets[:-1], octets + b"\0", octets + b"\0\0"))
            text = element(0x04, contents)
            self.shown_alike(text, True)
            found += len(trees.lines(text, True)) > 1 and trees.header(contents, 0, len(contents))[2] is None
        self.at_least(found, OPEN, "open octet strings of indefinite length")

    def shown_alike(self, octets, opens):
        """Compares the lines of octets."""
        tree, status = tree_of(octets, *["--open"][:opens])
        self.same(status, 0, octets.hex()[:100], "status")
        self.same([bare(line) for line in tree.splitlines()], trees.lines(octets, opens), octets.hex()[:100], opens)


# ---- files of tests/vectors/outside


class Kept(Asked):
    """Asks derbox of files, and keeps them by their kinds, and what differs."""

    def __init__(self):
        super().__init__(program("derbox"))
        self.kept, self.wrong = {}, []

    def differs(self, what):
        self.wrong.append(what)

    def is_(self, word, kind, *files):
        super().is_(word, kind, *files)
        self.kept.update({(kind, Path(file).read_bytes()): file for file in files})


@functools.lru_cache(maxsize=None)
def folder():
    """A folder with the keys that outside takes."""
    made = room() / "trees"
    made.mkdir()
    with making.inside(made):
        making.certificate("one")
        making.certificate("two")
        making.certificate("rsa", key="rsa:2048")
    return made


@functools.lru_cache(maxsize=None)
def asked(maker):
    """What was asked of the files that a function of outside makes."""
    made = Kept()
    with making.inside(folder()):
        getattr(script("tests/vectors/outside"), maker)(made)
    return made


class Trees(Comparing):
    def files_of(self, makers, fewest):
        """Compares the trees of the files, as they are and in other forms."""
        is_ber, files = 0, 0
        for maker in makers:
            self.same(asked(maker).wrong, [], maker)
            for (kind, octets), name in asked(maker).kept.items():
                others = other_forms(random.Random(octets), octets, 0, len(octets))
                for form, text in ((name, octets), (f"{name} in other forms", others)):
                    files += 1
                    is_ber += self.compare_headers(f"{maker}: {form}", text)
                    self.compare_verdicts(f"{maker}: {form} as {kind}", kind, text)
        self.at_least(files, 2 * fewest, "files")
        self.at_least(is_ber, fewest, "files in BER")

    def compare_headers(self, name, octets):
        """Compares what dertree shows with openssl. Returns whether it is BER."""
        tree, status = tree_of(octets)
        self.same(status, 0, name, "status of dertree")
        ours, theirs = by_dertree(tree), by_openssl(octets)
        self.same(len(ours), len(theirs), name, "headers")
        self.at_least(len(theirs), 1, f"{name}: headers")
        for header, its in zip(ours, theirs):
            self.same(header, its, name)
        return bool(re.search(r", (indefinite length|length in [0-9]+ octets|segment)", tree))

    def compare_verdicts(self, name, kind, octets):
        """Compares what dertree says of a kind with derbox."""
        checked = ended(program("derbox"), "check", kind, text=octets)
        for form in ([], ["--ber"]):
            tree, status = tree_of(octets, "--open", *form, kind)
            self.same(status, checked.returncode, name, *form, "status")
            self.same(tree.splitlines(keepends=True)[-1:], [checked.stdout.decode()], name, *form)
            places = re.findall(r"^>>> not canonical at.*$", tree, re.MULTILINE)
            self.same(bool(places), status == 3, name, *form, "what isn't canonical:", *places)
            unknown = [place for place in places if place.endswith(" written otherwise")]
            self.same(unknown, [], name, *form, "without a cause")

    def test_files_of_openssl_are_shown_alike(self):
        self.files_of(("key_stores", "loose_store", "signatures", "lists", "responses", "envelopes"), 40)

    @needs("certtool")
    def test_a_store_of_certtool_is_shown_alike(self):
        self.files_of(["certtool_store"], 2)

    @needs("certutil", "pk12util")
    def test_a_store_of_nss_is_shown_alike(self):
        self.files_of(["nss_store"], 1)

    @needs("cryptography")
    def test_a_store_of_python_is_shown_alike(self):
        self.files_of(["python_store"], 2)

    @needs("keytool")
    def test_stores_of_keytool_are_shown_alike(self):
        self.files_of(["java_stores"], 4)

    @needs("keytool", "jarsigner")
    def test_a_signature_of_jarsigner_is_shown_alike(self):
        asked("java_stores")  # which have the key
        self.files_of(["java_archive"], 1)

    @needs("osslsigncode")
    def test_signatures_of_osslsigncode_are_shown_alike(self):
        self.files_of(["authenticode"], 3)

    @needs("certutil", "pk12util", "osslsigncode", "pesign")
    def test_a_signature_of_pesign_is_shown_alike(self):
        asked("nss_store")  # which has the key
        self.files_of(["image"], 1)


# ---- fields, and what isn't canonical


def blocks(text, **values):
    """The blocks of a table above: the words of each first line, and the others."""
    found = []
    for line in text.strip().splitlines():
        line = line.format(**values)
        if line.startswith(" "):
            found[-1][1].append(line.strip())
        else:
            found.append((line.split(), []))
    return found


def made_files():
    """The files of NAMED, and what openssl says of the certificate's dates."""
    with making.inside_a_new_folder() as made:
        for name, text in {**CONFIGURATIONS, "text": TEXT}.items():
            making.put(name, text)
        for line in MAKING.replace("\\\n", "").strip().splitlines():
            making.run(line)
        dates = making.run("openssl x509 -in one.pem -noout -startdate -enddate -dateopt iso_8601").decode()
        files = {path.name: path.read_bytes() for path in made.iterdir()}
    return files, dict(re.findall(r"^(\w+)=(.*)Z$", dates, re.MULTILINE))


class Opened(Comparing):
    def test_fields_have_the_values_that_openssl_says(self):
        files, dates = made_files()
        digest = hashlib.sha256(TEXT).digest()[:8].hex(" ").upper()
        for (file, kind), fields in blocks(NAMED, digest=digest, **dates, **LONG):
            lines = tree_of(files[file], "--open", kind)[0].splitlines()
            for name, value in (field.split(" ", 1) for field in fields):
                shown = [line for line in lines if line.endswith(f" -- {name}")]
                self.same(any(f": {value}" in line for line in shown), True, file, "as", kind, name, value, *shown)
        self.at_least(self.compared, 34, "fields")

    def test_octet_strings_on_the_way_to_a_mark_are_open(self):
        for (kind, octets), shown in blocks(LEADING):
            tree = tree_of(bytes.fromhex(octets), kind)[0]
            lines = [" ".join(line.split(" -- ")[0].split()) for line in tree.splitlines()]
            self.same([line for line in lines if line in shown], shown, kind, octets, *lines)
        self.at_least(self.compared, 4, "files")

    def test_what_is_not_canonical_has_its_place_and_cause(self):
        for (kind, octets), places in blocks(LOOSE, digest="11" * 20):
            tree, status = tree_of(bytes.fromhex(octets), "--open", kind)
            found = [line.split(" at ", 1)[1] for line in tree.splitlines() if line.startswith(">>> not canonical")]
            self.same((status, found), (3, places), kind, octets)
        self.at_least(self.compared, 6, "files")


if __name__ == "__main__":
    unittest.main()
