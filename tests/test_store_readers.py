"""What der_bag_rows lists of stores of openssl and keytool, and of the worked examples, is built again, octet for octet
where it is normal. And stores of random contents, encrypted or not, with a MAC, are listed as they were given, and
openssl opens them, and shows their keys, certificates and names: 50 stores, or as many as the environment variable
STORES says, for a release 1,000. keytool and pk12util open others. Which of these programs read which form of a store
is as the table in docs/USING.md says."""
import base64
import functools
import hashlib
import itertools
import os
import random
import re
import unittest
from collections import Counter
from concurrent.futures import ThreadPoolExecutor
from pathlib import Path
from typing import NamedTuple

from support import built, elements, inputs, macs, making
from support.cases import Comparing
from support.containers import NULL, attribute, bmp_string, store_around
from support.elements import element, explicit, integer, octet_string, parts, sequence, set_of
from support.encrypting import STORES, store_of, store_of_keytool
from support.given import NUMBERS, some_octets
from support.given_stores import KINDS, NAMES
from support.oids import ARCS, oid
from support.statuses import answered, refusal
from support.stores import FURTHER, LONG, OF_OTHER_TYPES, made_in_python
from support.tools import Failed, ended, needs, openssl, run
from oracle.building import is_element
from vuyhanip import build, der
from vuyhanip.der import BadBag, BagKind, GivenBag, GivenMac

# How many random stores there are.
COUNT = int(os.environ.get("STORES", 50))


# What is listed


def all_stores():
    """Stores of openssl, of the worked examples, long ones, and those that examples are tried with."""
    yield from (store_of(options) for options in STORES)
    yield from (text for kind, text in inputs.with_parts() if kind in inputs.STORES)
    yield from (text for kind, text in inputs.long() if kind == "rawpfx" and refusal("rawpfx", text) is None)
    paths = sorted([*built.TOP.glob("rust/tests/*.p12"), *built.TOP.glob("crates/*/data/*.p12")])
    yield from (path.read_bytes() for path in paths)


def safe_contents_of(text):
    """The contents of a store that are data, as tests/support finds them: each a SafeContents. There are none where
    authSafe is of another type."""
    kind, *held = parts(elements.part(text, 1))
    if kind != oid("data"):
        return []
    safe = elements.contents(elements.part(held[0], 0))
    infos = [parts(it) for it in parts(safe)]
    return [elements.contents(elements.part(it[1], 0)) for it in infos if it[0] == oid("data")]


def in_order(text):
    """A SafeContents with the attributes of each of its bags in the order of DER, and without empty sets: what is built
    again of its bags."""
    bags = []
    for it in parts(text):
        kind, held, *its_set = parts(it)
        attributes = sorted(parts(its_set[0])) if its_set else []
        bags.append(sequence(kind, held, *([set_of(*attributes)] if attributes else [])))
    return sequence(*bags)


def can_be_built(bags):
    """Whether bags that were listed are of kinds that are written, and what they hold are elements: of a certificate
    and a revocation list that isn't asked where they are listed."""
    return all(it.kind.value in KINDS and is_element(bytes(it.value)) for it in bags)


def renamed(library, text, name):
    """A store whose bags have another name, those that aren't encrypted and aren't in a bag."""
    if library.mac_range(text) is None:
        raise ValueError("the store is signed")
    bags = [it for it in library.bags(text) if it.level == 0]
    return build.store(
        it.element if it.kind is BagKind.UNREAD else [it._replace(friendly_name=name)] for it in bags
    )


def others_than_a_name(bag_found):
    """The attributes of a bag but for its name."""
    return [it for it in bag_found.attributes if der.attribute_oid(it) != ARCS["friendlyName"]]


class TestListed(Comparing):
    """What is listed is built again."""

    def built_again(self, texts):
        """Compares what is built of the bags of each store with its SafeContents. Returns how many of these are normal,
        and how many aren't."""
        counts = {True: 0, False: 0}
        for text in texts:
            try:
                rows = [it for it in built.library().bags(text) if it.level == 0 and it.kind is not BagKind.UNREAD]
            except der.Refused:
                continue
            for bags in safe_contents_of(text):
                those, rows = rows[: len(parts(bags))], rows[len(parts(bags)) :]
                if can_be_built(those):
                    again = made_in_python(built.library().build_bags, those)
                    self.same(again, in_order(bags), "built again", bags)
                    counts[in_order(bags) == bags] += len(those)
            self.same(rows, [], "bags that are left of", text)
        return counts

    def test_bags_of_stores_are_built_again_as_they_were(self):
        counts = self.built_again(all_stores())
        self.at_least(counts[True], 40, "bags in SafeContents that are normal")
        self.at_least(counts[False], 40, "bags in others")

    @needs("keytool")
    def test_bags_of_a_store_of_keytool_are_built_again(self):
        counts = self.built_again([store_of_keytool()])
        self.at_least(sum(counts.values()), 1, "bags")

    def test_whole_stores_are_built_again_as_they_were(self):
        """Of what is listed, and of their MAC: all of it is told by der_bag_rows and der_mac."""
        built.use_shared()
        count = 0
        for text in (store_of(options) for options in STORES):
            rows, mac = built.library().bags(text), built.library().mac(text)
            made = build.store(it.element if it.kind is BagKind.UNREAD else [it] for it in rows)
            its = mac and GivenMac(mac.digest_algorithm, mac.digest, mac.salt, mac.iterations)
            self.same(made.finish(its), text, "built again")
            count += 1
        self.at_least(count, 10, "stores")

    def test_bags_of_a_store_get_another_name(self):
        """They keep all else, but the order of their attributes, and so do bags in them. A store that is signed is
        refused, and one that has a bag which can't be written."""
        built.use_shared()
        library, name, counts = built.library(), "another \U0001F600", dict.fromkeys(("signed", "told", "renamed"), 0)
        for text in (*all_stores(), store_around(OF_OTHER_TYPES)):
            try:
                rows = library.bags(text)
            except der.Refused:
                continue
            try:
                made = renamed(library, text, name)
            except BadBag:
                those = [it for it in rows if it.level == 0 and it.kind is not BagKind.UNREAD]
                self.same(can_be_built(those), False, "told", text)
                counts["told"] += 1
            except ValueError:
                self.same([it.element for it in rows], [elements.part(text, 1)], "the only content of", text)
                counts["signed"] += 1
            else:
                self.same_but_for_names(rows, library.bags(made.finish()), name, text)
                counts["renamed"] += 1
        for (said, count), least in zip(counts.items(), (5, 2, 50)):
            self.at_least(count, least, f"stores that are {said}")

    def same_but_for_names(self, rows, found, name, text):
        """Compares bags that have a new name, and all in them, with what they were."""
        self.same(len(found), len(rows), "bags of", text)
        for had, it in zip(rows, found):
            is_new = had.level == 0 and had.kind is not BagKind.UNREAD
            wanted = had._replace(friendly_name=name, element=it.element) if is_new else had
            self.same(it, wanted, "a bag with another name", text)
            others = others_than_a_name(had)
            self.same(others_than_a_name(it), sorted(others) if is_new else others, "other attributes", text)


# What other tools open

PASSWORD = "password"
ITERATIONS = 1, 2, 50
# What openssl says of bags, in the order of a store, with their kinds, and what of others; and of a MAC that isn't that
# of the store.
SAID = {"Key bag": BagKind.KEY, "Shrouded Keybag": BagKind.SHROUDED_KEY, "Certificate bag": BagKind.CERTIFICATE,
        "Secret bag": BagKind.SECRET, "Safe Contents bag": BagKind.SAFE_CONTENTS}
UNSUPPORTED, MAC_ERROR = "Warning unsupported bag type", b"Mac verify error"


class Made(NamedTuple):
    """A bag that is given, those in it, and of an encrypted key, or another one, that key."""

    bag: GivenBag
    inner: tuple = ()
    key: bytes = None


class Content(NamedTuple):
    """A content that is given: its bags, and where they are encrypted the ContentInfo."""

    bags: tuple
    info: bytes = None


@functools.lru_cache(maxsize=None)
def pairs():
    """Keys, as PKCS #8, with their certificates."""
    room = built.room() / "store_readers"
    room.mkdir()
    with making.inside(room):
        for name, kind in (("first", making.ELLIPTIC), ("second", "rsa:2048"), ("third", "ed25519")):
            making.certificate(name, key=kind)
    found = []
    for name in ("first", "second", "third"):
        key = openssl("pkcs8", "-topk8", "-nocrypt", "-in", room / f"{name}.key", "-outform", "DER")
        found.append((key, openssl("x509", "-in", room / f"{name}.pem", "-outform", "DER")))
    return found


def by_pbes2(chance, text, count=None):
    """Parameters by which a text is encrypted, and that text."""
    salt, vector, count = chance.randbytes(16), chance.randbytes(16), count or chance.choice(ITERATIONS)
    key = hashlib.pbkdf2_hmac("sha256", PASSWORD.encode(), salt, count, 32)
    made = openssl("enc", "-aes-256-cbc", "-K", key.hex(), "-iv", vector.hex(), text=text)
    return build.pbes2(
        build.AES_256_CBC, initialization_vector=vector, salt=salt, iterations=count, prf=build.HMAC_WITH_SHA256,
        encrypted=made,
    )


def by_pkcs12(chance, text):
    """The same by triple DES, with a key and a vector as RFC 7292, B.2, derives them."""
    salt, count = chance.randbytes(8), chance.choice(ITERATIONS)
    key = macs.derived("sha1", macs.FOR_KEY, PASSWORD, salt, count, 24)
    vector = macs.derived("sha1", macs.FOR_VECTOR, PASSWORD, salt, count, 8)
    made = openssl("enc", "-des-ede3-cbc", "-K", key.hex(), "-iv", vector.hex(), text=text)
    return build.pkcs12(ARCS["pbeWithSHAAnd3-KeyTripleDES-CBC"], salt=salt, iterations=count, encrypted=made)


def encrypted_key(chance, key):
    return build.encrypted_key(chance.choice((by_pbes2, by_pkcs12))(chance, key))


def fit_attributes(chance):
    """Further attributes whose values are what they say, as openssl asks, and which are in any order."""
    values = octet_string(some_octets(chance)), integer(chance.choice(NUMBERS)), NULL, element(0x0C, "ß".encode())
    its = [attribute(chance.choice(("1.2.3", "2.999.7")), chance.choice(values)) for _ in range(chance.randrange(3))]
    return [*its, *its[:1]]


def random_bag(chance, level=0):
    """A bag of any kind, with what fits it, as openssl takes it."""
    (key, certificate), kind, inner = chance.choice(pairs()), chance.choice(list(BagKind)[: len(KINDS)]), ()
    if kind is BagKind.SAFE_CONTENTS:
        inner = tuple(random_bag(chance, level + 1) for _ in range(chance.randrange(3 if level < 3 else 1)))
    value = {
        BagKind.KEY: lambda: key,
        BagKind.SHROUDED_KEY: lambda: encrypted_key(chance, key),
        BagKind.CERTIFICATE: lambda: certificate,
        BagKind.CRL: lambda: sequence(integer(chance.choice(NUMBERS))),
        BagKind.SECRET: lambda: sequence(oid("1.2.3"), explicit(0, octet_string(some_octets(chance)))),
        BagKind.SAFE_CONTENTS: lambda: build.bags(it.bag for it in inner),
        BagKind.OTHER: lambda: sequence(octet_string(some_octets(chance))),
    }[kind]()
    name = chance.choice((None, *NAMES))
    key_id = chance.choice((None, b"", hashlib.sha1(certificate).digest()))
    identifier = "2.999.1" if kind is BagKind.OTHER else None
    return Made(GivenBag(kind, value, name, key_id, fit_attributes(chance), identifier), inner, key)


def random_content(chance):
    """Some bags, which may be encrypted."""
    bags = tuple(random_bag(chance) for _ in range(chance.randrange(5)))
    if chance.random() < 0.6:
        return Content(bags)
    text = build.bags(it.bag for it in bags)
    return Content(bags, build.encrypted_contents(chance.choice((by_pbes2, by_pkcs12))(chance, text)))


def finished(those, digest, salt, count):
    """What a MAC covers of a store with some contents, that MAC, by a digest, and the store with it."""
    made = build.store([it.info or [its.bag for its in it.bags] for it in those])
    [arcs] = [arcs for arcs, name in der.DIGESTS.items() if name == digest]
    mac = build.Mac(arcs, macs.mac(digest, PASSWORD, salt, count, made.covered), salt, count)
    return made.covered, mac, made.finish(mac)


def finished_at_random(chance, those):
    """The same of a MAC by any digest."""
    digest = chance.choice(("sha1", "sha224", "sha256", "sha384", "sha512"))
    return finished(those, digest, some_octets(chance) or b"salt", chance.choice(ITERATIONS))


def every(bags):
    """Bags, and after each those in it."""
    for it in bags:
        yield it
        yield from every(it.inner)


def wanted_rows(bags, level=0):
    """What is listed of bags: kind, level, value, name, identifier and attributes."""
    for it in bags:
        kind, value, name, key_id, further, _ = it.bag
        its = [] if name is None else [attribute("friendlyName", bmp_string(name.encode("utf-16-be")))]
        its += [] if key_id is None else [attribute("localKeyId", octet_string(key_id))]
        yield kind, level, value, name, key_id, tuple(sorted([*its, *further]))
        yield from wanted_rows(it.inner, level + 1)


def listed(rows):
    """The same of rows that were listed."""
    return [(*row[:2], row.value, row.friendly_name, row.local_key_id, row.attributes) for row in rows]


@functools.lru_cache(maxsize=None)
def random_stores():
    """Random contents, each with what a MAC covers, the MAC, and the store."""
    built.use_shared()
    chance, found = random.Random(71), []
    for _ in range(COUNT):
        those = [random_content(chance) for _ in range(chance.randrange(1, 4))]
        found.append((those, *finished_at_random(chance, those)))
    return found


class OfOpenssl(NamedTuple):
    """What openssl says of a store: how it ended, the kinds of the bags, certificates and keys in DER, and the names
    and identifiers of those bags that it shows."""

    status: int
    kinds: list
    certificates: list
    keys: list
    names: list


def pem_blocks(text, what):
    """What is in PEM blocks."""
    found = re.findall(rf"-----BEGIN {what}-----(.*?)-----END {what}-----", text, re.S)
    return list(map(base64.b64decode, found))


def shown(text, password=PASSWORD):
    """How openssl pkcs12 -info ended over a store, and what it wrote."""
    path = built.room() / "random.p12"
    path.write_bytes(text)
    return ended("openssl", "pkcs12", "-info", "-nodes", "-in", path, "-passin", f"pass:{password}")


def by_openssl(text):
    """What openssl says of a store."""
    ran = shown(text)
    out, heads = ran.stdout.decode("latin-1"), ran.stderr.decode("latin-1")
    kinds = [SAID.get(word) for word in re.findall(f"{'|'.join(SAID)}|{UNSUPPORTED}", heads)]
    names = []
    for block in re.split("^Bag Attributes", out, flags=re.M)[1:]:
        name, key_id = (re.search(f"^    {it}: (.*)$", block, re.M) for it in ("friendlyName", "localKeyID"))
        names.append((name and name[1], key_id and bytes.fromhex(key_id[1])))
    return OfOpenssl(ran.returncode, kinds, pem_blocks(out, "CERTIFICATE"), pem_blocks(out, "PRIVATE KEY"), names)


def wanted_of_openssl(those):
    """The same of the contents that were given. Of a name openssl shows the low octet of each unit, up to the first
    that is 0; of a bag that it doesn't support nothing."""
    bags = [it for content in those for it in every(content.bags)]
    kinds = [it.bag.kind if it.bag.kind in SAID.values() else None for it in bags]
    names = [(low_octets(it.bag.friendly_name), it.bag.local_key_id) for it, kind in zip(bags, kinds) if kind]
    certificates = [it.bag.value for it in bags if it.bag.kind is BagKind.CERTIFICATE]
    return OfOpenssl(0, kinds, certificates, [it.key for it in bags if it.bag.kind in der.KEYS], names)


def low_octets(name):
    """A name as openssl shows it."""
    return None if name is None else name.encode("utf-16-be")[1::2].split(b"\0")[0].decode("latin-1")


class TestStores(Comparing):
    """Whole stores."""

    def setUp(self):
        super().setUp()
        built.use_shared()

    def test_random_stores_are_listed_as_they_were_given(self):
        counts = {}
        for those, covered, mac, text in random_stores():
            wanted = []
            for it in those:
                wanted += [(BagKind.UNREAD, 0, it.info, None, None, ())] if it.info else wanted_rows(it.bags)
            rows = built.library().bags(text)
            self.same(listed(rows), wanted, "bags of", text)
            its = built.library().mac(text)
            self.same(its.octets, covered, "what the MAC covers of", text)
            self.same(tuple(its)[1:5], tuple(mac)[:4], "the MAC of", text)
            verdict = built.library().check("rawpfx", text)
            self.same((verdict.is_normal, verdict.length), (True, len(text)), "normal", text)
            names = "".join(row.friendly_name or "" for row in rows)
            self.same(refusal("pfx", text) is None, max(names, default="") <= "\uFFFF", "names past U+FFFF", text)
            for row in rows:
                counts[row.kind] = counts.get(row.kind, 0) + 1
        for kind in list(BagKind)[: len(KINDS) + 1]:
            self.at_least(counts.get(kind, 0), 5, kind)

    def test_openssl_opens_random_stores(self):
        """Also with names past U+FFFF, of which it shows others. What it takes out of encrypted contents is what was
        encrypted."""
        counts = dict.fromkeys(("certificates", "keys", "names"), 0)
        for those, _, _, text in random_stores():
            found = by_openssl(text)
            wanted = wanted_of_openssl(those)
            for name, it, other_it in zip(found._fields, found, wanted):
                self.same(it, other_it, "by openssl,", name, "of", text)
            for name in counts:
                counts[name] += len(getattr(wanted, name))
            self.has_another_mac(shown(text, "other"), "by another password, of", text)
        for name, count in counts.items():
            self.at_least(count, 30, name)

    def has_another_mac(self, ran, *what):
        """Asks that openssl refuses a store for its MAC."""
        found = ran.returncode > 0, ran.stdout, MAC_ERROR in ran.stderr
        self.same(found, (True, b"", True), "the status, what is shown, and the word on the MAC", *what)

    def test_a_changed_store_is_not_opened(self):
        """A MAC covers each octet of the bags."""
        chance, count = random.Random(72), 0
        for those, covered, _, text in random_stores()[:20]:
            at = text.index(covered) + chance.randrange(len(covered))
            changed_text = text[:at] + bytes([text[at] ^ 1]) + text[at + 1 :]
            self.has_another_mac(shown(changed_text), "with a changed octet at", at, "of", text)
            count += 1
        self.at_least(count, 20, "stores")

    @needs("keytool")
    def test_keytool_opens_stores(self):
        """With names past U+FFFF too, keys by their passwords, and a certificate that is trusted."""
        for number, names in enumerate(ALIASES):
            text, wanted = for_keytool(random.Random(73 + number), names)
            path = built.room() / f"keytool{number}.p12"
            path.write_bytes(text)
            self.same(by_keytool(path), wanted, "entries of", text)
            said = ended("keytool", "-list", *WORDS, "-keystore", path, "-storepass", 2 * PASSWORD).returncode
            self.same(said > 0, True, "another password, of", text)
            signed = run("keytool", "-certreq", "-alias", names[0], *WORDS, "-keystore", path, "-storepass", PASSWORD)
            found = openssl("req", "-verify", "-noout", "-pubkey", text=signed)
            theirs = openssl("x509", "-inform", "DER", "-noout", "-pubkey", text=pairs()[0][1])
            self.same(found, theirs, "what is signed by the key of", text)

    @needs("certutil", "pk12util")
    def test_nss_takes_a_store(self):
        """Its certificate, and its key, of RSA, which openssl takes out of a store that NSS writes."""
        room, name, (key, certificate) = built.room() / "nss_of_stores", "of RSA", pairs()[1]
        room.mkdir()
        run("certutil", "-N", "-d", room, "--empty-password")
        path, again = room / "made.p12", room / "again.p12"
        path.write_bytes(with_a_password(random.Random(77), [(name, key, certificate)], (), count=2048))
        run("pk12util", "-i", path, "-d", room, "-W", PASSWORD)
        self.same(run("certutil", "-L", "-d", room, "-n", name, "-r"), certificate, "the certificate")
        run("pk12util", "-o", again, "-n", name, "-d", room, "-W", PASSWORD)
        pem = openssl("pkcs12", "-legacy", "-nocerts", "-nodes", "-in", again, "-passin", f"pass:{PASSWORD}")
        found, wanted = (openssl("pkey", "-outform", "DER", *words, text=text) for words, text in (
            ((), pem), (("-inform", "DER"), key)))
        self.same(found, wanted, "the key")


# What keytool is asked, and names of the entries of each store, which it keeps in lower case: the first are of keys,
# and the last of a certificate that is trusted.
WORDS = ["-J-Duser.language=en", "-J-Dfile.encoding=UTF-8", "-J-Dsun.jnu.encoding=UTF-8", "-storetype", "PKCS12"]
ALIASES = (["me"], ["smile \U0001F600", "ключ", "\U0001F511\U0001D4B3"], ["a b", "日本"])
# An attribute by which Java trusts a certificate, for any use.
TRUSTED = attribute("2.16.840.1.113894.746875.1.1", oid("2.5.29.37.0"))
ENTRY = re.compile(r"^Entry type: (\w+)$(?:.*?^\s+SHA256: ([0-9A-F:]+)$)?", re.M | re.S)


def with_a_password(chance, keys, trusted, count=None):
    """A store as tools write it: certificates, which are encrypted, and then encrypted keys, each under its name; and
    certificates that Java is to trust, alike."""
    built.use_shared()
    certificates, shrouded = [], []
    for name, key, certificate in keys:
        key_id = hashlib.sha1(certificate).digest()
        certificates.append(GivenBag(BagKind.CERTIFICATE, certificate, name, key_id))
        made = build.encrypted_key(by_pbes2(chance, key, count))
        shrouded.append(GivenBag(BagKind.SHROUDED_KEY, made, name, key_id))
    certificates += [GivenBag(BagKind.CERTIFICATE, it, name, attributes=[TRUSTED]) for name, it in trusted]
    held = build.encrypted_contents(by_pbes2(chance, build.bags(certificates), count))
    made = build.store([held, shrouded])
    salt = chance.randbytes(16)
    mac = macs.mac("sha256", PASSWORD, salt, 2048, made.covered)
    return made.finish(build.Mac(build.SHA256, mac, salt, 2048))


def for_keytool(chance, names):
    """A store with a key under each name but the last of several, which is that of a certificate; and its entries."""
    keys = [(name, *pairs()[nth]) for nth, name in enumerate(names[:-1] or names)]
    trusted = [(names[-1], pairs()[-1][1])] if names[1:] else []
    entries = [(name, "PrivateKeyEntry", it) for name, _, it in keys]
    entries += [(name, "trustedCertEntry", it) for name, it in trusted]
    wanted = {(name, kind, hashlib.sha256(it).hexdigest()) for name, kind, it in entries}
    return with_a_password(chance, keys, trusted), wanted


def by_keytool(path):
    """The entries of a store as keytool lists them: the name of each, its kind, and the SHA-256 of its certificate, or
    nothing."""
    said = run("keytool", "-list", "-v", *WORDS, "-keystore", path, "-storepass", PASSWORD).decode()
    blocks = [block.partition("\n") for block in re.split("^Alias name: ", said, flags=re.M)[1:]]
    return {(name, kind, in_hex(digest)) for name, _, block in blocks for kind, digest in ENTRY.findall(block)}


def in_hex(digest):
    """A digest with colons between its octets as hashlib writes it."""
    return digest.replace(":", "").lower()


# Which programs read which form of a store

TABLE = re.compile(r"^### Which programs read it$(.*?)(?=^#|\Z)", re.M | re.S)
READERS = "pfx", "rawpfx", "der_bag_rows", "openssl", "keytool", "pk12util"
# The digest and the count of a MAC, and those of the forms that have another one, or none.
OF_MAC = "sha256", 2048
MACS = {
    "a certificate, no MAC": None,
    "a certificate, MAC by SHA-256 with 600,000 iterations": ("sha256", 600_000),
    "a certificate, MAC by SHA-1, whose count of 1 is left out": ("sha1", 1),
}
# What keytool lists as an entry.
ENTRIES = {
    "trustedCertEntry": [BagKind.CERTIFICATE], "PrivateKeyEntry": [BagKind.KEY, BagKind.CERTIFICATE],
    "SecretKeyEntry": [BagKind.SECRET],
}
# What pk12util lists, and the lines that say what it is, its name and its digest.
ITEMS = {"Certificate": BagKind.CERTIFICATE, "Key": BagKind.KEY}
ITEM = re.compile(rf"^({'|'.join(ITEMS)})(?:\([\w ]+\))?:$(.*?)(?=^\w|\Z)", re.M | re.S)
FRIENDLY_NAME, FINGERPRINT = r"^    Friendly Name: (.*)$", r"^    Fingerprint \(SHA-256\):\s+([0-9A-F:]+)$"


class Form(NamedTuple):
    """A store in a form: its contents, and its octets, which a file has too."""

    contents: list
    text: bytes
    path: Path


def in_clear(*bags, key=None):
    """Contents that are one list of bags, not encrypted, with what a key is of them."""
    return [Content(tuple(Made(it, key=key) for it in bags))]


def contents_of_forms(chance):
    """The contents of each form, by its name in docs/USING.md."""
    (key, certificate), (_, another) = pairs()[1], pairs()[0]
    key_id = hashlib.sha1(certificate).digest()
    alone = GivenBag(BagKind.CERTIFICATE, certificate, "me", attributes=[TRUSTED])
    both = alone, alone._replace(value=another, friendly_name="another")
    of_key = GivenBag(BagKind.CERTIFICATE, certificate, "me", key_id)
    shrouded = GivenBag(BagKind.SHROUDED_KEY, build.encrypted_key(by_pbes2(chance, key)), "me", key_id)
    clear = shrouded._replace(kind=BagKind.KEY, value=key)
    secret = GivenBag(BagKind.SECRET, sequence(oid("1.2.3"), explicit(0, octet_string(b"secret"))), "secret")
    of_bags = GivenBag(BagKind.SAFE_CONTENTS, build.bags([alone]), "bags")
    return {
        "a certificate without Java's attribute": in_clear(alone._replace(attributes=())),
        "a certificate with a name past U+FFFF": in_clear(alone._replace(friendly_name="smile \U0001F600")),
        "a certificate with an empty name": in_clear(alone._replace(friendly_name="")),
        "a certificate with further attributes": in_clear(alone._replace(attributes=[TRUSTED, *FURTHER, LONG])),
        "certificates encrypted by PBES2 (AES-256-CBC, HMAC with SHA-256)": [
            Content(tuple(map(Made, both)), build.encrypted_contents(by_pbes2(chance, build.bags(both))))
        ],
        "a key shrouded by PBES2 and its certificate": in_clear(of_key, shrouded, key=key),
        "a key in clear and its certificate": in_clear(of_key, clear, key=key),
        "a certificate and a revocation list": in_clear(alone, GivenBag(BagKind.CRL, revocation_list(), "list")),
        "a certificate and a secret bag": in_clear(alone, secret),
        "a certificate and a bag of another identifier": in_clear(
            alone, GivenBag(BagKind.OTHER, NULL, "other", identifier="2.999.1")
        ),
        "a certificate in a bag of bags": [Content((Made(of_bags, (Made(alone),)),))],
        **{name: in_clear(alone) for name in MACS},
        "no bags": [],
    }


def revocation_list():
    """A revocation list of openssl."""
    with making.inside(built.room() / "store_readers"):
        making.list_configuration()
        making.put("index", "")
        making.revocation_list("list", "ca.cnf -keyfile second.key -cert second.pem")
        return Path("list").read_bytes()


@functools.lru_cache(maxsize=None)
def all_forms():
    """A store in each form, by its name."""
    built.use_shared()
    chance, found = random.Random(78), {}
    for name, contents in contents_of_forms(chance).items():
        its_mac = MACS.get(name, OF_MAC)
        digest, count = its_mac or OF_MAC
        covered, _, text = finished(contents, digest, chance.randbytes(16), count)
        path = built.room() / f"form{len(found)}.p12"
        path.write_bytes(text if its_mac else build.Store(covered).finish())
        found[name] = Form(contents, path.read_bytes(), path)
    return found


def table():
    """Of the table in docs/USING.md each row and column, with its word."""
    page = (built.TOP / "docs/USING.md").read_text("utf-8")
    lines = [line for line in TABLE.search(page)[1].splitlines() if line.startswith("|")]
    (_, *columns), _, *rows = ([cell.strip(" `") for cell in line.strip("|").split("|")] for line in lines)
    return [((name, column), word) for name, *words in rows for column, word in itertools.zip_longest(columns, words)]


def in_a_word(found, wanted):
    """What the table says where a reader finds something in a store, None where it refuses it, beside what is in it."""
    return "no" if found is None else "yes" if found == wanted else "opens"


def all_bags(form):
    return [it.bag for content in form.contents for it in every(content.bags)]


def item(kind, name, digest):
    """A bag as keytool and pk12util show it: its kind and its name, and the SHA-256 of a certificate."""
    return BagKind.KEY if kind in der.KEYS else kind, name, digest if kind is BagKind.CERTIFICATE else None


def items(form):
    """The bags of a store alike, but for those that hold others."""
    bags = [it for it in all_bags(form) if it.kind is not BagKind.SAFE_CONTENTS]
    return {item(it.kind, it.friendly_name, hashlib.sha256(it.value).hexdigest()) for it in bags}


def by_check(kind, form):
    """The word for a kind of the library."""
    _, verdict, _ = answered(built.library().check, kind, form.text)
    return in_a_word(verdict and verdict.is_normal, True)


def by_rows(form):
    """The word for der_bag_rows."""
    _, rows, _ = answered(built.library().bags, form.text)
    wanted = [row for it in form.contents for row in wanted_rows(it.bags)]
    return in_a_word(None if rows is None else listed(rows), wanted)


def word_of_openssl(form):
    found, bags = by_openssl(form.text), all_bags(form)
    kinds, names = [it.kind for it in bags], [(it.friendly_name, it.local_key_id) for it in bags]
    wanted = wanted_of_openssl(form.contents)._replace(kinds=kinds, names=names)
    return in_a_word(None if found.status else found, wanted)


def word_of_keytool(form):
    try:
        entries = by_keytool(form.path)
    except Failed:
        return "no"
    found = {item(kind, name, digest) for name, entry, digest in entries for kind in ENTRIES[entry]}
    return in_a_word(found, items(form))


def word_of_nss(form):
    """The word for pk12util, which lists a store beside any folder."""
    try:
        said = run("pk12util", "-l", form.path, "-d", form.path.parent, "-W", PASSWORD).decode()
    except Failed:
        return "no"
    found = set()
    for word, block in ITEM.findall(said):
        name, digest = (re.search(it, block, re.M) for it in (FRIENDLY_NAME, FINGERPRINT))
        found.add(item(ITEMS[word], name and name[1], digest and in_hex(digest[1])))
    return in_a_word(found, items(form))


class Readers(Comparing):
    """Programs that read stores in each form that is built, beside the table in docs/USING.md. The column of one that
    isn't there is left out, which fails the gate."""

    def same_column(self, reader, words):
        """Compares what a reader makes of each form, in a word, with its column."""
        said = dict(table())
        for name, word in zip(all_forms(), words):
            self.same(word, said.get((name, reader)), f"docs/USING.md, row {name}, column {reader}: it is")

    def test_the_table_has_each_form_and_each_reader(self):
        found, wanted = Counter(place for place, _ in table()), Counter(itertools.product(all_forms(), READERS))
        for place in {**found, **wanted}:
            self.same(found[place], wanted[place], "docs/USING.md, cells in row {}, column {}".format(*place))

    def test_the_library(self):
        for kind in ("pfx", "rawpfx"):
            self.same_column(kind, [by_check(kind, form) for form in all_forms().values()])
        self.same_column("der_bag_rows", map(by_rows, all_forms().values()))

    def test_openssl(self):
        self.same_column("openssl", map(word_of_openssl, all_forms().values()))

    @needs("keytool")
    def test_keytool(self):
        with ThreadPoolExecutor() as pool:
            self.same_column("keytool", pool.map(word_of_keytool, all_forms().values()))

    @needs("pk12util")
    def test_nss(self):
        self.same_column("pk12util", map(word_of_nss, all_forms().values()))


if __name__ == "__main__":
    unittest.main()
