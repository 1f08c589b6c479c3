"""Attacks on signatures, their algorithms and their keys: see tests/support/attacks.py."""
import functools

from . import signing, tools
from .attacks import attack, changed, given
from .containers import NULL, attribute, bit_string
from .elements import contents, element, explicit, integer, octet_string, part, parts, sequence, set_of, within
from .oids import oid
from .signed_attributes import SIGNER
from .signing import (
    CONTENT,
    DIGESTS,
    PSS,
    RSA,
    WITH_ECDSA,
    WITH_RSA,
    Signer,
    algorithm,
    attributes_of,
    by_pss,
    by_rsa,
    certificate,
    digest_info,
    digest_of,
    key,
    padded,
    padded_by,
    prime,
    pss_parameters,
    signature_by,
    signed_data,
)

# The algorithm of a key on a curve, which some signers name as that of their signatures.
EC = "1.2.840.10045.2.1"
# The order of each curve (SEC 2, 2.4.2 and 2.5.1).
ORDERS = {
    "p256": 0xFFFFFFFF00000000FFFFFFFFFFFFFFFFBCE6FAADA7179E84F3B9CAC2FC632551,
    "p384": int("F" * 48 + "C7634D81F4372DDF581A0DB248B0A77AECEC196ACCC52973", 16),
}

# The first number of the generator of P-256 (SEC 2, 2.4.2).
GENERATOR = 0x6B17D1F2E12C4247F8BCE6E563A440F277037D812DEB33A0F4A13945D898C296


# ---- algorithms


def algorithms_that_disagree():
    """A digest algorithm that isn't the one of the signature, and digestAlgorithms without the signer's (RFC 5652, 5.1
    and 5.3)."""
    for by, table in (("rsa", WITH_RSA), ("p256", WITH_ECDSA)):
        for said, signs in (("sha256", "sha512"), ("sha512", "sha256"), ("sha256", "sha384"), ("sha1", "sha256")):
            sign = functools.partial(signature_by, by, signs)
            file = Signer(by, digest=said, algorithm=algorithm(table[signs]), sign=sign).file()
            yield attack(f"a digest {said} and a signature by {signs}, {by}", file)
        for said, named in (("sha256", "sha512"), ("sha512", "sha256"), ("sha384", "sha256")):
            signer = Signer(by, digest=said, algorithm=algorithm(table[named]))
            name = f"a signature by {said} that is said to be by {named}, {by}"
            yield attack(name, signer.file(), "digest-of-signature")
            detached = signer.file(content=False)
            yield attack(f"{name}, detached", detached, "digest-of-signature", *given(CONTENT))
    md5 = Signer(
        "rsa", digest="md5", algorithm=algorithm(WITH_RSA["sha256"]), sign=functools.partial(by_rsa, "rsa", "sha256"),
    )
    yield attack("a digest md5 and a signature by sha256", md5.file())
    for name, digests in (
        ("none", []),
        ("another", [algorithm(DIGESTS["sha512"], NULL)]),
        ("an unknown one", [algorithm("1.2.3.4")]),
    ):
        yield attack(f"digest algorithms are {name}", Signer("rsa").file(digests=digests))
    unknown = algorithm("1.2.3.4", NULL)
    yield attack("an unknown digest", Signer("rsa", digest_algorithm=unknown).file(digests=[unknown]))
    yield attack("an unknown signature algorithm", Signer("rsa", algorithm=unknown).file())
    yield attack(
        "a digest algorithm as signature algorithm", Signer("rsa", algorithm=algorithm(DIGESTS["sha256"])).file(),
    )


def keys_of_another_kind():
    """A signature algorithm that isn't one of the key's."""
    for by, of, name in (
        ("rsa", algorithm(signing.ED25519), "Ed25519"),
        ("rsa", algorithm(WITH_ECDSA["sha256"]), "ECDSA"),
        ("rsa", algorithm(signing.WITH_DSA["sha256"]), "DSA"),
        ("rsa", pss_parameters(), "RSASSA-PSS"),
        ("p256", algorithm(WITH_RSA["sha256"], NULL), "RSA"),
        ("p256", pss_parameters(), "RSASSA-PSS"),
        ("p256", algorithm(signing.ED25519), "Ed25519"),
        ("pss", algorithm(RSA, NULL), "RSA"),
        ("pss", algorithm(WITH_RSA["sha256"], NULL), "SHA-256 with RSA"),
        ("dsa", algorithm(RSA, NULL), "RSA"),
    ):
        rule = "algorithm-of-key" if by in ("p256", "dsa") else None
        for how, those in (("attributes", attributes_of(CONTENT)), ("no attributes", None))[: 1 if by == "rsa" else 2]:
            yield attack(f"a key {by} for {name}, {how}", Signer(by, attributes=those, algorithm=of).file(), rule)
    by_old = functools.partial(by_rsa, "pss", "sha256")
    for name, of in (("RSA", algorithm(RSA, NULL)), ("SHA-256 with RSA", algorithm(WITH_RSA["sha256"], NULL))):
        yield attack(
            f"a key for RSASSA-PSS alone by {name} of PKCS #1", Signer("pss", algorithm=of, sign=by_old).file()
        )
    for by in ("p256", "rsa"):
        file = Signer(by, sign=functools.partial(signature_by, "again", "sha256")).file()
        yield attack(f"a signature by another key than {by}", file)


def by_ed25519():
    """Ed25519 (RFC 8419), which openssl 3.0 doesn't verify in CMS."""
    for name, change in (
        ("one octet is changed", changed),
        ("it is cut", lambda it: it[:-1]),
        ("it is zeros", lambda it: bytes(64)),
        ("a zero follows", lambda it: it + b"\0"),
    ):
        sign = functools.partial(signature_by, "ed25519", "sha512")
        signer = Signer("ed25519", digest="sha512", sign=lambda covered, by=sign, change=change: change(by(covered)))
        yield attack(f"Ed25519 of which {name}", signer.file())


# ---- RSASSA-PSS


# The salts of pss_declared whose length isn't a number of 31 bits. openssl accepts the second.
NOT_OF_31_BITS = {f"a salt of {it}" for it in (2**31, 2**32 + 32, 2**64 + 32, -1, -2, -3, -4, -32)}


def pss_declared():
    """By name: what is said of a signature whose digest and mask are by SHA-256, and whose salt has 32 octets."""
    yield "another mask function", pss_parameters(function="1.2.3.4")
    yield "a mask by SHA-1", pss_parameters(mask="sha1")
    yield "a mask by SHA-512", pss_parameters(mask="sha512")
    yield "trailer 2", pss_parameters(trailer=2)
    yield "trailer 0", pss_parameters(trailer=0)
    yield "trailer 188", pss_parameters(trailer=188)
    for number in (1, 2, 3, 4, 32):
        yield f"a salt of -{number}", pss_parameters(salt=bytes([256 - number]))
    for number in (0, 20, 31, 33, 222, 223, 256, 2**31, 2**32 + 32, 2**64 + 32):
        yield f"a salt of {number}", pss_parameters(salt=number)
    for name in ("md5", "sha1", "sha384", "sha512"):
        yield f"a digest by {name}", pss_parameters(digest=name)
        yield f"a digest and a mask by {name}", pss_parameters(digest=name, mask=name)
    yield "no parameters", algorithm(PSS)
    yield "NULL as parameters", algorithm(PSS, NULL)
    yield "empty parameters", algorithm(PSS, sequence())
    yield "an INTEGER as parameters", algorithm(PSS, integer(32))
    whole = part(pss_parameters(), 1)
    yield "a salt twice", algorithm(PSS, sequence(contents(whole), explicit(2, integer(32))))
    yield "NULL after the parameters", algorithm(PSS, whole, NULL)
    mask = explicit(1, algorithm(signing.MGF1))
    yield "a mask without digest", algorithm(PSS, sequence(parts(whole)[0], mask, parts(whole)[2]))


def parameters_of_pss():
    """Parameters of RSASSA-PSS (RFC 8017, A.2.3) that aren't those of the signature, and signatures that aren't as the
    parameters say; the digest isn't another than the signer's (RFC 4056, 3)."""
    sign = functools.partial(by_pss, "rsa")
    for name, of in pss_declared():
        rule = "salt-length" if name in NOT_OF_31_BITS else None
        yield attack(f"PSS with {name}", Signer("rsa", algorithm=of, sign=sign).file(), rule)
    for name, of in list(pss_declared())[:8:2]:
        yield attack(f"PSS key with {name}", Signer("pss", algorithm=of, sign=functools.partial(by_pss, "pss")).file())
    for name, how in (
        ("another trailer", {"trailer": b"\xcc"}),
        ("a trailer of two octets", {"trailer": b"\x33\xcc"}),
        ("a mask by SHA-1", {"mask": "sha1"}),
        ("a salt of 20", {"salt": 20}),
        ("no salt", {"salt": 0}),
    ):
        wrong = functools.partial(by_pss, "rsa", **how)
        yield attack(f"PSS signed with {name}", Signer("rsa", algorithm=pss_parameters(), sign=wrong).file())
    for name, of, how in (
        ("a salt of 20", pss_parameters(salt=20), {"salt": 20}),
        ("SHA-384", pss_parameters("sha384", "sha384", 48), {"digest": "sha384", "salt": 48}),
        ("a mask by SHA-512", pss_parameters(mask="sha512"), {"mask": "sha512"}),
    ):
        digest = how.get("digest", "sha256")
        for by, those in (("bound", attributes_of(CONTENT, digest=digest)), ("bound", None)):
            signer = Signer(
                by, digest=digest, algorithm=of, attributes=those, sign=functools.partial(by_pss, by, **how),
            )
            yield attack(f"a key bound to other parameters than {name}, {'no ' if those is None else ''}attributes",
                         signer.file())


# ---- octets of signatures


def lengths():
    """Signatures by RSA of other lengths and numbers (RFC 8017, 8.2.2)."""
    modulus = key("rsa").modulus

    def number(change):
        return lambda it: change(int.from_bytes(it, "big")).to_bytes(257, "big").lstrip(b"\0").rjust(256, b"\0")

    for name, change in (
        ("is empty", lambda it: b""),
        ("is cut", lambda it: it[:-1]),
        ("is cut in front", lambda it: it[1:]),
        ("has a zero in front", lambda it: b"\0" + it),
        ("has many zeros in front", lambda it: bytes(256) + it),
        ("has a zero at its end", lambda it: it + b"\0"),
        ("is there twice", lambda it: it + it),
        ("is one octet", lambda it: it[:1]),
        ("has the modulus added", number(lambda it: it + modulus)),
        ("is 0", lambda it: bytes(256)),
        ("is 1", lambda it: bytes(255) + b"\1"),
        ("is the modulus", number(lambda it: modulus)),
        ("is the modulus and 1", number(lambda it: modulus + 1)),
        ("is one less than the modulus", number(lambda it: modulus - 1)),
        ("is negated", number(lambda it: modulus - it)),
        ("is all ones", lambda it: b"\xff" * 256),
        ("is turned round", lambda it: it[::-1]),
        ("is an INTEGER", lambda it: integer(int.from_bytes(it, "big"))),
        ("is a BIT STRING in it", bit_string),
    ):
        sign = lambda covered, change=change: change(by_rsa("rsa", "sha256", covered))  # noqa: E731
        yield attack(f"a signature that {name}", Signer("rsa", sign=sign).file())
    for name, string in (
        ("as BIT STRING", lambda it: bit_string(it)),
        ("as UTF8String", lambda it: element(0x0C, it)),
        ("under a tag of its own", lambda it: explicit(4, octet_string(it))),
    ):
        yield attack(f"a signature {name}", Signer("rsa", string=string).file())
    yield attack("a signature without its zero in front", beginning_with_zero())
    longer = within(Signer("rsa").file(), SIGNER, lambda it: it + octet_string(b""))
    yield attack("a signature before an octet", longer)


def beginning_with_zero():
    """A file whose signature would begin with a zero octet, and has none."""
    for number in range(10000):
        hint = attribute(signing.CONTENT_HINTS, sequence(integer(number), oid("data")))
        those = [*attributes_of(CONTENT), hint]
        made = key("rsa").of(padded_by("rsa", digest_info("sha256", set_of(*sorted(those)))))
        if made[0] == 0:
            return Signer("rsa", attributes=those, sign=lambda covered: made[1:]).file()
    raise AssertionError("no signature begins with a zero")


def signed_integer(octets):
    return element(0x02, octets)


def octets_of(number):
    """The contents of an INTEGER."""
    return contents(integer(number))


def pairs(r, s, order):
    """Signatures of ECDSA other than this one, by name: SEQUENCE of two INTEGERs (RFC 5480 and RFC 3279, 2.2.3)."""
    first, second, zero = integer(r), integer(s), integer(0)
    yield "r is zero", sequence(zero, second)
    yield "s is zero", sequence(first, zero)
    yield "both are zero", sequence(zero, zero)
    yield "r is empty", sequence(signed_integer(b""), second)
    yield "r is negative", sequence(signed_integer((-r).to_bytes(len(octets_of(r)) + 1, "big", signed=True)), second)
    yield "s is negative", sequence(first, signed_integer((-s).to_bytes(len(octets_of(s)) + 1, "big", signed=True)))
    yield "r is not minimal", sequence(signed_integer(b"\0" + octets_of(r)), second)
    yield "s is not minimal", sequence(first, signed_integer(b"\0\0\0" + octets_of(s)))
    yield "r is larger by the order", sequence(integer(r + order), second)
    yield "s is larger by the order", sequence(first, integer(s + order))
    yield "r is the order", sequence(integer(order), second)
    yield "s is the order", sequence(first, integer(order))
    yield "they change places", sequence(second, first)
    yield "they are 1", sequence(integer(1), integer(1))
    yield "a third follows", sequence(first, second, integer(1))
    yield "s lacks", sequence(first)
    yield "both lack", sequence()
    yield "it is a SET", set_of(first, second)
    yield "a zero follows", sequence(first, second) + b"\0"
    yield "its length is longer", b"\x30\x81" + sequence(first, second)[1:]
    yield "it is of indefinite length", b"\x30\x80" + first + second + b"\0\0"
    size = (order.bit_length() + 7) // 8
    yield "it has no headers", r.to_bytes(size, "big") + s.to_bytes(size, "big")
    yield "r is an OCTET STRING", sequence(octet_string(octets_of(r)), second)
    yield "it is empty", b""


def numbers_of_ecdsa():
    """Each of them on a curve, and some on another."""
    for by, digest, step in (("p256", "sha256", 1), ("p384", "sha384", 3)):
        covered = Signer(by, digest=digest).covered
        made = signature_by(by, digest, covered)
        r, s = (int.from_bytes(contents(it), "big") for it in parts(made))
        for name, other in list(pairs(r, s, ORDERS[by]))[::step]:
            yield attack(f"ECDSA of which {name}, {by}", Signer(by, digest=digest, sign=lambda _, it=other: it).file())


# ---- the padding of PKCS #1 v1.5


def paddings(size, covered):
    """Octets that aren't those of a DigestInfo in its padding (RFC 8017, 9.2), by name."""
    digest, info = digest_of("sha256", covered), digest_info("sha256", covered)

    def filled(of, front=b"\0\1", by=b"\xff", after=b""):
        return front + by * (size - 3 - len(of) - len(after)) + b"\0" + of + after

    yield "no NULL", filled(digest_info("sha256", covered, b""))
    yield "garbage for NULL", filled(digest_info("sha256", covered, octet_string(b"garbage")))
    yield "an empty SEQUENCE for NULL", filled(digest_info("sha256", covered, sequence()))
    yield "NULL twice", filled(digest_info("sha256", covered, 2 * NULL))
    yield "garbage at its end", filled(info[:1] + bytes([info[1] + 2]) + info[2:] + NULL)
    yield "garbage after it", filled(info, after=b"garbage")
    yield "a zero after it", filled(info, after=b"\0")
    yield "no header", filled(digest)
    yield "only an OCTET STRING", filled(octet_string(digest))
    yield "SHA-512 as its algorithm", filled(sequence(algorithm(DIGESTS["sha512"], NULL), octet_string(digest)))
    yield "SHA-1 as its algorithm", filled(sequence(algorithm(DIGESTS["sha1"], NULL), octet_string(digest)))
    yield "an unknown algorithm", filled(sequence(algorithm("1.2.3.4", NULL), octet_string(digest)))
    yield "a shorter digest", filled(sequence(algorithm(DIGESTS["sha256"], NULL), octet_string(digest[:-1])))
    yield "no digest", filled(sequence(algorithm(DIGESTS["sha256"], NULL), octet_string(b"")))
    yield "a longer length", filled(b"\x30\x81" + info[1:])
    yield "a DigestInfo around it", filled(sequence(algorithm(DIGESTS["sha256"], NULL), octet_string(info)))
    yield "padding of type 2", filled(info, front=b"\0\2", by=b"\x11")
    yield "padding of type 0", filled(info, front=b"\0\0", by=b"\0")
    yield "padding of other octets", filled(info, by=b"\xfe")
    yield "another first octet", filled(info, front=b"\1\1")
    whole = filled(info)
    yield "no zero before it", whole[: -len(info) - 1] + b"\xff" + info
    yield "one octet of its padding changed", changed(whole, 9)
    short = b"\0\1" + 8 * b"\xff" + b"\0" + info
    yield "short padding, and garbage after it", short + bytes(range(1, 256))[: size - len(short)]
    yield "no padding, and garbage after it", b"\0\1\0" + info + bytes(size - len(info) - 3)


def root(number, exponent):
    """The least number whose power is at least this one."""
    low, high = 0, 1 << (number.bit_length() // exponent + 1)
    while low < high:
        middle = (low + high) // 2
        low, high = (middle + 1, high) if middle**exponent < number else (low, middle)
    return low


def forged(covered):
    """A signature for the exponent 3 made without the private key, which some verifiers took: the cube root of padding
    of eight octets, a DigestInfo, and what follows."""
    size = key("three").size
    front = b"\0\1" + 8 * b"\xff" + b"\0" + digest_info("sha256", covered)
    return root(int.from_bytes(front.ljust(size, b"\0"), "big"), 3).to_bytes(size, "big")


def digest_infos():
    """Signatures from which each of them comes back, by the key or by the exponent 3 alone."""
    for by, step in (("rsa", 1), ("three", 3)):
        signer = Signer(by)
        for name, block in list(paddings(key(by).size, signer.covered))[::step]:
            made = key(by).of(block)
            if made is not None:
                yield attack(f"a DigestInfo with {name}, {by}", Signer(by, sign=lambda _, it=made: it).file())
    yield attack("a forged DigestInfo", Signer("three", sign=forged).file())
    yield attack("a forged DigestInfo, no attributes", Signer("three", attributes=None, sign=forged).file())


# ---- weak ones


def weak_signers():
    """Signers that are weak (NIST SP 800-131A): by name, with what is said of the file, and what is weak of them."""
    digest, short = "weak-digest", "weak-rsa"
    yield "SHA-1", Signer("rsa", digest="sha1"), {}, digest
    yield "MD5", Signer("rsa", digest="md5"), {}, digest
    yield "SHA-1 with RSA", Signer("rsa", digest="sha1", algorithm=algorithm(WITH_RSA["sha1"], NULL)), {}, digest
    yield "MD5 with RSA", Signer("rsa", digest="md5", algorithm=algorithm(WITH_RSA["md5"], NULL)), {}, digest
    yield "SHA-1 on a curve", Signer("p256", digest="sha1"), {}, digest
    yield "SHA-1 by a key identifier", Signer("rsa", digest="sha1", keyid=True), {"version": 3}, digest
    yield "SHA-1 over another type", Signer("rsa", digest="sha1", content_type="1.2.3.4"), {"version": 3}, digest
    yield "SHA-1 in RSASSA-PSS", Signer("pss", digest="sha1"), {}, digest
    yield "SHA-1 without attributes", Signer("rsa", digest="sha1", attributes=None), {}, digest
    yield "MD5 without attributes", Signer("rsa", digest="md5", attributes=None), {}, digest
    for name in ("sha1", "md5"):
        named = algorithm(WITH_RSA[name], NULL)
        for by, of in (("rsa", algorithm(RSA, NULL)), ("p256", algorithm(EC))):
            signer = Signer(by, digest=name, digest_algorithm=named, algorithm=of)
            yield f"{name} by the name of its signatures, {by}", signer, {"digests": [named]}, digest
    yield "RSA of 1024 bits", Signer("short"), {}, short
    yield "RSA of 1024 bits by a key identifier", Signer("short", keyid=True), {"version": 3}, short
    yield "RSA of 1024 bits without attributes", Signer("short", attributes=None), {}, short
    yield "RSA of 1024 bits by SHA-512", Signer("short", digest="sha512"), {}, short
    yield "RSA of 2047 bits", Signer("nearly"), {}, short
    by_short = functools.partial(by_pss, "short")
    yield "RSASSA-PSS of 1024 bits", Signer("short", algorithm=pss_parameters(), sign=by_short), {}, short
    yield "a curve of 192 bits", Signer("p192"), {}, "weak-curve"
    yield "a curve of 192 bits without attributes", Signer("p192", attributes=None), {}, "weak-curve"
    for place in (3, 5):
        named = Signer("short", certificate=telling("short", place))
        yield f"RSA of 1024 bits, whose certificate tells of another key in field {place}", named, {}, short
    yield "DSA", Signer("dsa"), {}, "weak-dsa"
    yield "DSA by SHA-1", Signer("dsa", digest="sha1"), {}, digest
    yield "DSA without attributes", Signer("dsa", attributes=None), {}, "weak-dsa"


def telling(by, place):
    """A certificate whose subject, or issuer, has lines as openssl x509 writes them of a key that isn't weak."""
    lines = ["x", 8 * " " + "Subject Public Key Info:", 12 * " " + "Public Key Algorithm: rsaEncryption",
             16 * " " + "Public-Key: (4096 bit)", 16 * " " + "Exponent: 65537 (0x10001)", "x"]
    tbs, by_ca, _ = parts(certificate(by))
    fields = parts(tbs)
    fields[place] = sequence(set_of(sequence(oid("commonName"), element(0x0C, "\n".join(lines).encode()))))
    made = sequence(*fields)
    return sequence(made, by_ca, bit_string(by_rsa("ca", "sha256", made)))


def weak():
    """Each of them, attached and detached, and beside a signer that isn't weak; and by a certificate that is given."""
    for number, (name, signer, more, rule) in enumerate(weak_signers()):
        yield attack(f"weak, {name}", signer.file(**more), rule)
        if number % 2 == 0:
            yield attack(f"weak, {name}, detached", signer.file(content=False, **more), rule, *given(CONTENT))
    for name, signer, rule in (
        ("SHA-1", Signer("again", digest="sha1"), "weak-digest"), ("1024 bits", Signer("short"), "weak-rsa"),
    ):
        for place, signers in (("first", [signer, Signer("rsa")]), ("last", [Signer("rsa"), signer])):
            yield attack(f"weak, {name}, {place} of two", signed_data(signers), rule)
    certificate("short")
    file = Signer("short").file(certificates=[])
    yield attack(
        "weak, by a certificate given", file, "weak-rsa", ("--certificate", "short.pem"), ("-certfile", "short.pem"),
    )


def exponents():
    """Exponents of RSA with which anyone signs (1), or that are none (2), also where weak ones are allowed; and one
    with which a signature takes long (RFC 8017, 3.1)."""
    for name, by in (("1", "one"), ("2", "two")):
        for how, words in (("", ()), (" with --allow-weak", ("--allow-weak",))):
            yield attack(f"the exponent {name}{how}", signed_by_exponent(by, 0).file(), "exponent", words)
            other = signed_by_exponent(by, 64).file(content=False)
            ours, openssls = given(CONTENT)
            yield attack(f"the exponent {name}{how}, detached", other, "exponent", (*words, *ours), openssls)
    yield attack("an exponent of 65 bits", Signer("large").file(), "exponent")
    yield attack("an exponent of 65 bits, with --allow-weak", Signer("large").file(), "exponent", ("--allow-weak",))


def of_key(info):
    """A certificate by `ca` for a key, whose SubjectPublicKeyInfo is given."""
    tbs, by_ca, _ = parts(certificate("p256"))
    fields = parts(tbs)
    fields[6] = info
    made = sequence(*fields)
    return sequence(made, by_ca, bit_string(by_rsa("ca", "sha256", made)))


def curve_of_three_points():
    """A curve over the field of P-256 with a point of order 3, which is said to have the order of P-256: the numbers of
    the curve, and those of the point (SEC 1, C.2)."""
    field = 2**256 - 2**224 + 2**192 + 2**96 - 1
    first = field - 3
    for x in range(2, 100):
        second = (first**2 - 3 * x**4 - 6 * first * x**2) * pow(12 * x, -1, field) % field
        square = (x**3 + first * x + second) % field
        y = pow(square, (field + 1) // 4, field)
        if y * y % field == square:
            return field, first, second, x, y
    raise AssertionError("no point is found")


def on_a_curve_of_three_points():
    """A certificate by `ca` for a key on it, and a signature by anyone: of three numbers s about one is right."""
    field, first, second, x, y = curve_of_three_points()
    point = b"\4" + b"".join(it.to_bytes(32, "big") for it in (x, y))
    numbers = sequence(*(octet_string(it.to_bytes(32, "big")) for it in (first, second)))
    of = sequence(integer(1), sequence(oid("1.2.840.10045.1.1"), integer(field)), numbers, octet_string(point),
                  integer(ORDERS["p256"]), integer(1))

    def sign(covered):
        order, digest = ORDERS["p256"], int.from_bytes(digest_of("sha256", covered), "big")
        for s in range(1, 100):
            factors = (it * pow(s, -1, order) % order for it in (digest, x))
            if sum(factors) % 3 == 1:
                return sequence(integer(x), integer(s))
        raise AssertionError("no signature is found")

    return of_key(sequence(sequence(oid(EC), of), bit_string(point))), sign


def of_the_point_at_infinity():
    """A certificate by `ca` for a key on P-256 that is no point of numbers, and a signature by anyone: r is that of the
    generator, and s the digest."""
    def sign(covered):
        s = int.from_bytes(digest_of("sha256", covered), "big") % ORDERS["p256"]
        return sequence(integer(GENERATOR), integer(s))

    return of_key(sequence(part(certificate("p256"), 0, 6, 0), bit_string(b"\0"))), sign


@functools.lru_cache(maxsize=None)
def multiple_of_the_generator(number):
    """A number and the first coordinate of that many times the generator of sect233k1."""
    made = parts(tools.openssl("ecparam", "-name", "sect233k1", "-genkey", "-noout", "-outform", "DER"))
    point = contents(contents(made[3]))[1:]
    return int.from_bytes(contents(made[1]), "big"), int.from_bytes(point[1:31], "big")


def curves_without_a_name():
    """Keys on curves that are written out in numbers (RFC 5480, 2.1.1), on one of which anyone signs, and one by which
    anyone does; also where weak ones are allowed."""
    whole, sign = on_a_curve_of_three_points()
    for how, words in (("", ()), (" with --allow-weak", ("--allow-weak",))):
        for name, those in (("attributes", attributes_of(CONTENT)), ("no attributes", None)):
            signer = Signer("p256", certificate=whole, sign=sign, attributes=those)
            yield attack(f"a curve of three points, {name}{how}", signer.file(), "named-curve", words)
    signer = Signer("written")
    yield attack("P-256 in numbers", signer.file(), "named-curve")
    whole, sign = of_the_point_at_infinity()
    for how, words in (("", ()), (" with --allow-weak", ("--allow-weak",))):
        signer = Signer("p256", certificate=whole, sign=sign)
        yield attack(f"a key that is the point at infinity{how}", signer.file(), "named-curve", words)


def of_a_prime_modulus():
    """A certificate for a key of RSA whose modulus is prime, and a signature by anyone."""
    modulus, exponent = prime(2048), 65537
    info = sequence(algorithm(RSA, NULL), bit_string(sequence(integer(modulus), integer(exponent))))

    def sign(covered):
        block = int.from_bytes(padded(256, digest_info("sha256", covered)), "big")
        return pow(block, pow(exponent, -1, modulus - 1), modulus).to_bytes(256, "big")

    return of_key(info), sign


def of_a_point_of_order_two():
    """A certificate for a key on sect233k1 that is its point of order 2, and a signature by anyone: an even number of
    such points is none."""
    order = 0x8000000000000000000000000000069D5BB915BCD46EFB1AD5F173ABDF
    info = sequence(sequence(oid(EC), oid("1.3.132.0.26")), bit_string(b"\4" + bytes(59) + b"\1"))

    def sign(covered):
        digest = int.from_bytes(digest_of("sha256", covered), "big") >> 24
        for number in range(100):
            k, x = multiple_of_the_generator(number)
            r, s = x % order, digest * pow(k, -1, order) % order
            if r * pow(s, -1, order) % order % 2 == 0:
                return sequence(integer(r), integer(s))
        raise AssertionError("no signature is found")

    return of_key(info), sign


def of_dsa_of_ones():
    """A certificate for a key of DSA whose generator is 1, as then it is itself, and a signature by anyone."""
    which, numbers = parts(part(certificate("dsa"), 0, 6, 0))
    info = sequence(sequence(which, sequence(*parts(numbers)[:2], integer(1))), bit_string(integer(1)))
    return of_key(info), lambda covered: sequence(integer(1), integer(1))


def keys_of_anyone():
    """Keys by which anyone signs (NIST SP 800-89, 4 and 5), which openssl finds wrong where it is asked for that alone;
    also where weak ones are allowed."""
    for name, by, (whole, sign) in (
        ("a prime modulus", "rsa", of_a_prime_modulus()),
        ("a point of order 2", "p256", of_a_point_of_order_two()),
        ("a generator that is 1", "dsa", of_dsa_of_ones()),
    ):
        signer = Signer(by, certificate=whole, sign=sign)
        for how, words in (("", ()), (" with --allow-weak", ("--allow-weak",))):
            yield attack(f"a key of {name}{how}", signer.file(), "public-key", words)
        bare = Signer(by, certificate=whole, sign=sign, attributes=None).file(content=False)
        yield attack(f"a key of {name}, detached", bare, "public-key", *given(CONTENT))


def signed_by_exponent(by, first):
    """A signer by a key of which some signatures aren't there, so that some attributes are tried."""
    for number in range(first, first + 64):
        hint = attribute(signing.CONTENT_HINTS, sequence(integer(number), oid("data")))
        signer = Signer(by, attributes=[*attributes_of(CONTENT), hint])
        if signer.signature is not None:
            return signer
    raise AssertionError("no square is found")


CLASSES = (
    *(algorithms_that_disagree, keys_of_another_kind, by_ed25519, parameters_of_pss, lengths, numbers_of_ecdsa),
    *(digest_infos, weak, exponents, curves_without_a_name),
    keys_of_anyone,
)
