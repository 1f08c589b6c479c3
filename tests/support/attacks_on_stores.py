"""Attacks on key stores (RFC 7292): see tests/support/attacks.py. A store is right where its MAC is, under the password
that is given."""
import functools
import hashlib
import hmac

from . import signing, tools
from .attacks import UNNAMED, attack, changed, of_file
from .containers import NULL, content_info
from .elements import contents, element, integer, octet_string, part, parts, sequence
from .signing import DIGESTS, Signer, algorithm, certificate, put, room

PASSWORD, WRONG = "secret", "Secret"
PBMAC1, PBKDF2, HMAC_SHA256 = "1.2.840.113549.1.5.14", "1.2.840.113549.1.5.12", "1.2.840.113549.2.9"
# Numbers of iterations that openssl 3.0 takes for one, and the rule that refuses them, where it isn't the library.
TAKEN_FOR_ONE = {"0": "iterations", "1 and 2 to the 32nd": UNNAMED, "2 to the 32nd": UNNAMED}
# The block of each digest, by which RFC 7292, B.2 fills.
BLOCKS = {"md5": 64, "sha1": 64, "sha256": 64, "sha512": 128}


# ---- the MAC


def filled(octets, size):
    """Octets, over and over, to a multiple of a size."""
    count = -(-len(octets) // size) * size
    return (octets * (count // max(1, len(octets)) + 1))[:count]


def key_of(password, salt, iterations, digest):
    """The key of a MAC (RFC 7292, B.2), which is as long as the digest."""
    block = BLOCKS[digest]
    spelled = b"" if password is None else password.encode("utf-16-be") + b"\0\0"
    made = hashlib.new(digest, b"\3" * block + filled(salt, block) + filled(spelled, block)).digest()
    for _ in range(1, iterations):
        made = hashlib.new(digest, made).digest()
    return made


def mac_of(safe, password=PASSWORD, digest="sha256", salt=b"saltsalt", iterations=2, **said):
    """The MacData of the octets of an authSafe; what it says can be another than what is so."""
    made = hmac.digest(key_of(password, salt, iterations, digest), safe, digest)
    count = said.get("count", integer(iterations))
    return sequence(
        sequence(
            said.get("algorithm", algorithm(DIGESTS[digest], NULL)), octet_string(said.get("change", bytes)(made)),
        ),
        octet_string(said.get("salt", salt)),
        count,
    )


# ---- stores


@functools.lru_cache(maxsize=None)
def store(*words, password=PASSWORD):
    """A store of openssl."""
    certificate("rsa")
    given = ["-inkey", "rsa.key", "-in", "rsa.pem", "-passout", f"pass:{password}"]
    return tools.openssl("pkcs12", "-export", *given, *words, cwd=room())


PLAIN = ("-keypbe", "NONE", "-certpbe", "NONE")


def safe_of(whole):
    """The octets that a MAC covers: the contents of authSafe."""
    return contents(part(whole, 1, 1, 0))


def with_mac(whole, mac=b"", safe=None):
    """A store with another MAC, and other contents where they are given."""
    version, safe_there, *_ = parts(whole)
    info = safe_there if safe is None else content_info("data", octet_string(safe))
    return sequence(version, info, mac)


def pkcs12(name, password):
    """What openssl is asked of a store."""
    return ("pkcs12", "-in", name, "-noout", "-legacy", "-passin", f"file:{password_file(password)}")


def password_file(password):
    return put(f"password.{hashlib.sha256(password.encode()).hexdigest()[:8]}", password.encode() + b"\n")


def locked(name, octets, rule=None, password=PASSWORD):
    """An attack on a store, under a password."""
    words = ("--password-file", password_file(password))
    return attack(name, octets, rule, words, questions=(pkcs12(of_file(name), password),))


def without_mac():
    """A store without a MAC, which openssl takes under any password."""
    for name, words in (("plain", PLAIN), ("encrypted", ()), ("of old algorithms", ("-legacy",))):
        whole = store(*words, "-nomac")
        for how, password in (("right", PASSWORD), ("wrong", WRONG), ("empty", "")):
            yield locked(f"no MAC, {name}, {how} password", whole, "no-mac", password)
    yield locked("no MAC any more", with_mac(store(*PLAIN)), "no-mac")
    yield locked("no MAC, and no bags", with_mac(store(*PLAIN), safe=sequence()), "no-mac")
    signed = part(Signer("rsa", content=safe_of(store(*PLAIN))).file(), 1, 0)
    yield locked("no MAC, but a signature", sequence(integer(3), content_info("signed data", signed)))


def wrong_passwords():
    """A store under another password."""
    for digest in ("sha1", "sha256", "sha512"):
        for name, words in (("plain", PLAIN), ("encrypted", ())):
            whole = store(*words, "-macalg", digest, "-iter", "3")
            yield locked(f"another password, {name}, {digest}", whole, None, WRONG)
    whole = store(*PLAIN)
    for name, password in (
        ("empty", ""),
        ("longer", PASSWORD + " "),
        ("shorter", PASSWORD[:-1]),
        ("in capitals", PASSWORD.upper()),
        ("of a zero", "\0"),
        ("before a zero", PASSWORD + "\0"),
        ("very long", PASSWORD * 200),
    ):
        octets = store(*PLAIN, password="") if name == "of a zero" else whole
        yield locked(f"a password that is {name}", octets, UNNAMED if name == "before a zero" else None, password)
    yield locked("a password for none", store(*PLAIN, password=""), None, WRONG)
    yield attack("no password", whole, questions=(pkcs12(of_file("no password"), ""),))


def changed_stores():
    """A store that was changed after its MAC was made, or whose MAC is another's."""
    whole = store(*PLAIN)
    safe, mac = safe_of(whole), parts(whole)[2]
    info, salt, count = parts(mac)
    for name, place in (("first", 40), ("last", -1), ("middle", len(safe) // 2)):
        yield locked(f"contents changed in the {name} octet", with_mac(whole, mac, changed(safe, place)))
    kind, digest = parts(info)

    def told(*fields):
        return with_mac(whole, sequence(*fields))

    def digested(octets):
        return told(sequence(kind, octet_string(octets)), salt, count)

    made = contents(digest)
    yield locked("a MAC changed", digested(changed(made)))
    yield locked("a MAC cut", digested(made[:-1]))
    yield locked("a MAC of an octet", digested(made[:1]))
    yield locked("an empty MAC", digested(b""))
    yield locked("a longer MAC", digested(made + b"\0"))
    yield locked("a MAC twice", digested(made + made))
    yield locked("another salt", told(info, octet_string(changed(contents(salt))), count))
    yield locked("no salt", told(info, octet_string(b""), count))
    yield locked("other iterations", told(info, salt, integer(2049)))
    yield locked("no iterations", told(info, salt))
    yield locked("another digest", told(sequence(algorithm(DIGESTS["sha512"], NULL), digest), salt, count))
    yield locked("the MAC of another store", with_mac(whole, parts(store(*PLAIN, "-name", "other"))[2]))
    yield locked("the contents of another store", with_mac(whole, mac, safe_of(store(*PLAIN, "-name", "other"))))
    yield locked("a MAC over the OCTET STRING", with_mac(whole, mac_of(octet_string(safe))))
    yield locked("a zero after a store", whole + b"\0", UNNAMED)
    yield locked("NULL in a store", sequence(*parts(whole), NULL))
    yield locked("a store cut", whole[:-1])
    yield locked(
        "a bag added", with_mac(whole, mac, sequence(*parts(safe), content_info("data", octet_string(sequence())))),
    )


def contents_under_another_password():
    """A MAC that is right under a password under which nothing of the contents is."""
    for name, words in (("new", ()), ("old", ("-legacy",)), ("certificates alone", ("-keypbe", "NONE"))):
        safe = safe_of(store(*words, password=WRONG))
        whole = with_mac(store(), mac_of(safe), safe)
        yield locked(f"contents under another password, {name}", whole)
        yield locked(f"contents under this password and a MAC under another, {name}", whole, None, WRONG)


def unknown_digests():
    """A MAC by what openssl doesn't know, or by PBMAC1 (RFC 9579)."""
    whole = store(*PLAIN)
    safe = safe_of(whole)
    derivation = algorithm(
        PBKDF2, sequence(octet_string(b"salt"), integer(2), integer(32), algorithm(HMAC_SHA256, NULL)),
    )
    key = hashlib.pbkdf2_hmac("sha256", PASSWORD.encode(), b"salt", 2, 32)
    mac = octet_string(hmac.digest(key, safe, "sha256"))
    pbmac1 = algorithm(PBMAC1, sequence(derivation, algorithm(HMAC_SHA256, NULL)))
    yield locked(
        "PBMAC1", with_mac(whole, sequence(sequence(pbmac1, mac), octet_string(b"salt"), integer(1))), "mac-digest",
    )
    for name, which in (
        ("unknown", "1.2.3.4"),
        ("an algorithm of signatures", signing.WITH_RSA["sha256"]),
        ("an algorithm of MACs", HMAC_SHA256),
        ("MD2", "1.2.840.113549.2.2"),
        ("MD4", "1.2.840.113549.2.4"),
    ):
        yield locked(
            f"a digest that is {name}", with_mac(whole, mac_of(safe, algorithm=algorithm(which, NULL))), "mac-digest",
        )


def iterations():
    """Numbers of iterations that are none, and MACs of one iteration, for which openssl takes some of them."""
    whole = store(*PLAIN)
    safe = safe_of(whole)
    for name, octets in (
        ("0", b"\0"),
        ("minus 1", b"\xff"),
        ("minus 2048", b"\xf8\0"),
        ("minus 2 to the 31st", b"\x80\0\0\0"),
        ("1 and 2 to the 32nd", b"\1\0\0\0\1"),
        ("2 to the 31st", b"\0\x80\0\0\0"),
        ("2 to the 32nd", b"\1\0\0\0\0"),
        ("1 and 2 to the 64th", b"\1" + bytes(7) + b"\1"),
        ("1 and 2 to the 200th", b"\1" + bytes(24) + b"\1"),
    ):
        mac = mac_of(safe, iterations=1, count=element(0x02, octets))
        yield locked(f"{name} iterations", with_mac(whole, mac), TAKEN_FOR_ONE.get(name))
    for name, count in (("no", b""), ("an empty number of", element(0x02)), ("a text for", element(0x0C, b"1"))):
        yield locked(f"{name} iterations, of two", with_mac(whole, mac_of(safe, iterations=2, count=count)))


CLASSES = (without_mac, wrong_passwords, changed_stores, contents_under_another_password, unknown_digests, iterations)
