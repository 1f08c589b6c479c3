"""Files that nobody may call right, by classes: signed data whose content, attributes, form or signers are wrong or say
two things. Each has the words by which `vuyhanip verify` is asked of it, the words by which openssl is, and where
openssl alone accepts it the rule of ours that is to refuse it. tests/support/attacks_on_keys.py has those of signatures
and keys, attacks_on_trust.py those of certificates, time stamps and nested signatures, attacks_on_stores.py those of
stores.

All are signed anew, so that nothing is wrong with a file but what its class says."""
import base64
import re
from typing import NamedTuple, Optional, Tuple

from . import signing
from .containers import NULL, attribute, content_info, in_ber
from .elements import element, explicit, integer, octet_string, part, parts, sequence, set_of, within
from .oids import oid
from .signed_attributes import SIGNER
from .signing import CONTENT, OTHER, Signer, attributes_of, digest_of, pem, put, signed_data

# In place of a rule: the library refuses what openssl reads, or openssl isn't asked, and no rule is named.
UNNAMED = "none"
# Where the certificates and the signers are in signed data.
CERTIFICATES, SIGNERS = [0, 1, 0, 0xA0], SIGNER[:-1]


class Attack(NamedTuple):
    """A file that isn't right: its name, its octets, the words of `vuyhanip verify` before its name, what openssl is
    asked, all of which it would have to accept, and the rule that refuses it, which has to be there where openssl
    accepts it."""

    name: str
    octets: bytes
    words: Tuple[str, ...]
    questions: Tuple[Tuple[str, ...], ...]
    rule: Optional[str]
    environment: Tuple[Tuple[str, str], ...] = ()


def cms(name, *more, trust=("-noverify",)):
    """What openssl is asked of signed data."""
    return ("cms", "-verify", "-binary", *trust, "-inform", "DER", "-in", name, "-out", "/dev/null", *more)


def smime(name, content, *more, trust=("-noverify",)):
    """What openssl is asked of signed data whose content is no OCTET STRING."""
    given = ("-inform", "DER", "-in", name, "-content", content, "-out", "/dev/null")
    return ("smime", "-verify", "-binary", *trust, *given, *more)


def given(content):
    """The words that give content: of ours, and of openssl."""
    name = put(f"content.{digest_of('sha256', content).hex()[:12]}", content)
    return ("--content", name), ("-content", name)


def attack(name, octets, rule=None, words=(), more=(), questions=None):
    """An attack whose file is put into the folder. openssl is asked of it as signed data, with some more words."""
    file = put(name.replace(" ", "-").replace(",", "") + ".file", octets)
    return Attack(file, octets, tuple(words), questions or (cms(file, *more),), rule)


def of_file(name):
    """The name of the file of an attack by its own name."""
    return name.replace(" ", "-").replace(",", "") + ".file"


def changed(octets, place=-1):
    """The octets with a bit of one of them changed."""
    made = bytearray(octets)
    made[place] ^= 1
    return bytes(made)


# ---- content


def several():
    """Signers of several kinds, by name, with what is said of the file around them."""
    yield "attributes", [Signer("rsa")], {}
    yield "no attributes", [Signer("rsa", attributes=None)], {}
    yield "curve", [Signer("p256")], {}
    yield "larger curve", [Signer("p384", digest="sha384")], {}
    yield "PSS", [Signer("pss")], {}
    yield "key identifier", [Signer("rsa", keyid=True)], {"version": 3}
    yield "other type", [Signer("rsa", content_type="1.2.3.4")], {"version": 3}
    yield "two signers", [Signer("rsa"), Signer("p256")], {}


def other_content():
    """Content of the file's own beside content that is given: either one is what is signed."""
    for name, signers, more in several():
        ours, openssls = given(CONTENT)
        file = signed_data(signers, content=octet_string(OTHER), **more)
        yield attack(f"content in the file is another, {name}", file, "other-content", ours, openssls)
        ours, openssls = given(OTHER)
        yield attack(f"content given is another, {name}", signed_data(signers, **more), "other-content", ours, openssls)
        detached = signed_data(signers, content=False, **more)
        yield attack(f"content of a detached one is another, {name}", detached, None, ours, openssls)
        yield attack(f"content of a detached one is not there, {name}", detached)
    file = Signer("rsa").file(content=False)
    for name, content in (
        ("shorter", CONTENT[:-1]),
        ("longer", CONTENT + b"\0"),
        ("empty", b""),
        ("with CR LF", CONTENT.replace(b"\n", b"\r\n")),
        ("its digest", digest_of("sha256", CONTENT)),
    ):
        yield attack(f"content of a detached one is {name}", file, None, *given(content))
        words = () if name == "empty" else given(CONTENT)
        embedded = Signer("rsa").file(content=octet_string(content))
        yield attack(f"content in the file is {name}", embedded, "other-content" if words else None, *words)


def attributes_as_content():
    """The attributes that a signer signed, as the content of a signature without attributes: one signature, and two
    messages (the first octet is that of a SET, and A0 in signed attributes: RFC 5652, 5.4)."""
    hints = attribute(signing.CONTENT_HINTS, sequence(oid("data")))
    for name, signer, more in (
        ("RSA", {"by": "rsa"}, {}),
        ("curve", {"by": "p256"}, {}),
        ("larger curve", {"by": "p384", "digest": "sha384"}, {}),
        ("PSS", {"by": "pss"}, {}),
        ("SHA-512", {"by": "rsa", "digest": "sha512"}, {}),
        ("key identifier", {"by": "rsa", "keyid": True}, {"version": 3}),
    ):
        for how, those in (("two", []), ("three", [hints])):
            digest = signer.get("digest", "sha256")
            content = set_of(*sorted([*attributes_of(CONTENT, digest=digest), *those]))
            file = Signer(content=content, attributes=None, **signer)
            yield attack(f"{how} attributes as content, {name}", file.file(**more), "attributes-as-content")
            yield attack(
                *(f"{how} attributes as content given, {name}", file.file(content=False, **more)),
                *("attributes-as-content", *given(content)),
            )
    for name, other in (
        ("of a tag above 30", sequence(oid("1.2.3.4"), element(0x31, b"\x9f\x1f\0"))),
        ("without values", sequence(oid("1.2.3.4"))),
        ("of a time that is none", attribute("signingTime", element(0x17, b"none"))),
        ("before the others", attribute("1.2.3.4", integer(1))),
    ):
        those = [*attributes_of(CONTENT), other]
        content = set_of(*(those[::-1] if "before" in name else sorted(those)))
        file = Signer("rsa", content=content, attributes=None).file()
        yield attack(f"attributes as content, one {name}", file, "attributes-as-content")


# ---- attributes


def broken_attributes():
    """Signed attributes that RFC 5652 forbids (5.3, 11.1, 11.2), by name."""
    kind, digested = attributes_of(CONTENT)
    hashed, other = (octet_string(digest_of("sha256", it)) for it in (CONTENT, OTHER))
    data, stamp = oid("data"), oid("TSTInfo")
    yield "two digests", [kind, digested, digested]
    yield "two digests, one other", [kind, digested, attribute("messageDigest", other)]
    yield "two content types", [kind, kind, digested]
    yield "two content types, one other", [kind, attribute("contentType", stamp), digested]
    yield "a digest of two values", [kind, attribute("messageDigest", hashed, other)]
    yield "a digest of the same value twice", [kind, attribute("messageDigest", hashed, hashed)]
    yield "a content type of two values", [attribute("contentType", data, stamp), digested]
    yield "no digest", [kind]
    yield "no content type", [digested]
    yield "a digest of no value", [kind, attribute("messageDigest")]
    yield "a content type of no value", [attribute("contentType"), digested]
    yield "no attribute", []
    yield "another attribute alone", [attribute(signing.CONTENT_HINTS, sequence(data))]
    yield "a digest of another type", [kind, attribute("messageDigest", element(0x0C, digest_of("sha256", CONTENT)))]
    yield "a content type of another type", [attribute("contentType", element(0x0C, b"data")), digested]


def other_digests():
    """Signed attributes whose digest isn't that of the content, by name."""
    kind, made = attributes_of(CONTENT)[0], digest_of("sha256", CONTENT)
    for name, octets in (
        ("of other content", digest_of("sha256", OTHER)),
        ("that is cut", made[:-1]),
        ("with a zero after it", made + b"\0"),
        ("that is empty", b""),
        ("by another algorithm", digest_of("sha512", CONTENT)),
        ("of the attributes", digest_of("sha256", kind)),
    ):
        yield f"a digest {name}", [kind, attribute("messageDigest", octet_string(octets))]


def attributes_that_are_wrong():
    """Each of them by a key of RSA or on a curve, attached or detached."""
    for number, (name, those) in enumerate([*broken_attributes(), *other_digests()]):
        rule = "bad-attributes" if number < len(list(broken_attributes())) else None
        by = ("rsa", "p256")[number % 2]
        yield attack(f"{name}, {by}", Signer(by, attributes=those).file(), rule)
        if number % 3 == 0:
            detached = Signer("rsa", attributes=those).file(content=False)
            yield attack(f"{name}, detached", detached, rule, *given(CONTENT))


def content_types():
    """Attributes that say another content type than the content has, which openssl doesn't compare with id-data; and
    none where the content isn't data (RFC 5652, 5.3, 11.1)."""
    for by in ("rsa", "p256"):
        for said, type_there in (("TSTInfo", "data"), ("1.2.3.4", "data"), ("data", "1.2.3.4")):
            those = attributes_of(CONTENT, said)
            file = Signer(by, content_type=type_there, attributes=those).file(version=3)
            yield attack(f"content of {type_there} as {said}, {by}", file, "bad-attributes")
        for type_there in ("TSTInfo", "1.2.3.4", signing.INDIRECT_DATA):
            signer = Signer(by, content_type=type_there, attributes=None)
            yield attack(f"no attributes over {type_there}, {by}", signer.file(version=3), "bad-attributes")
            detached = signer.file(version=3, content=False)
            yield attack(f"no attributes over {type_there} given, {by}", detached, "bad-attributes", *given(CONTENT))


# ---- form


def retagged_content():
    """Content of id-data that is no OCTET STRING: one signature fits them all (RFC 5652, 4)."""
    tags = {"UTF8String": 0x0C, "SEQUENCE": 0x30, "SET": 0x31, "BIT STRING": 0x03, "context tag": 0x80,
            "constructed context tag": 0xA1, "application tag": 0x41, "INTEGER": 0x02}
    text = sequence(integer(7)) * 12
    for name, tag in tags.items():
        for how, those in (("attributes", attributes_of(text)), ("no attributes", None)):
            file = Signer("rsa", content=text, attributes=those).file(content=element(tag, text))
            yield attack(f"content as {name}, {how}", file, UNNAMED)
    segments = octet_string(CONTENT[:9]) + octet_string(CONTENT[9:])
    for how, those in (("attributes", attributes_of(segments)), ("no attributes", None)):
        file = Signer("rsa", content=segments, attributes=those).file(content=element(0x24, segments))
        yield attack(f"content as segments whose headers are signed, {how}", file)
    other = Signer("rsa", content=segments, content_type="1.2.3.4").file(content=element(0x24, segments), version=3)
    yield attack("content of another type as segments whose headers are signed", other)
    mixed = octet_string(CONTENT[:9]) + element(0x0C, CONTENT[9:])
    file = Signer("rsa", content=mixed).file(content=element(0x24, mixed))
    yield attack("content as segments of two types", file, UNNAMED)
    file = Signer("rsa", content=mixed, content_type="1.2.3.4").file(content=element(0x24, mixed), version=3)
    yield attack("content of another type as segments of two types", file, "content-form")
    for name, content in (("nothing", b""), ("two OCTET STRINGs", 2 * octet_string(CONTENT))):
        info = sequence(oid("data"), explicit(0, content))
        whole = Signer("rsa").file()
        yield attack(f"content as {name}", with_content(whole, info))


def with_content(whole, info):
    """Signed data with another encapsulated content."""
    return within(
        whole, [0, 1, 0], lambda data: b"".join([*parts(sequence(data))[:2], info, *parts(sequence(data))[3:]]),
    )


def trailing():
    """Octets after the end: of the file, of an element in it."""
    whole, wrong = Signer("rsa").file(), Signer("rsa").file(content=octet_string(OTHER))
    for name, more in (
        ("a zero", b"\0"),
        ("end-of-contents octets", b"\0\0"),
        ("many zeros", bytes(100)),
        ("garbage", b"garbage"),
        ("a wrong file", wrong),
        ("the file again", whole),
        ("two lines", b"\nmore\n"),
        ("a block of PEM", pem(wrong, "PKCS7")),
    ):
        yield attack(f"after the file {name}", whole + more, UNNAMED)
    for name, steps in (
        ("signed data", [0, 1, 0]),
        ("the content", [0, 1]),
        ("a signer", SIGNER),
        ("certificates", CERTIFICATES),
    ):
        yield attack(f"NULL at the end of {name}", within(whole, steps, lambda it: it + NULL))
    before = within(Signer("rsa").file(), [0, 1, 0], lambda it: it[:3] + NULL + it[3:])
    yield attack("NULL after the version", before)


def blocks_of_pem():
    """PEM with more than one block (RFC 7468): all are judged, and one is wrong. openssl reads the first, and is asked
    of the wrong one by itself."""
    right, wrong = Signer("rsa").file(), Signer("rsa").file(content=octet_string(OTHER))
    good, bad, spare = pem(right, "CMS"), pem(wrong, "CMS"), pem(wrong, "PKCS7")
    alone = put("block.file", wrong)
    for name, text in (
        ("the second of two", good + bad),
        ("the first of two", bad + good),
        ("the second, of another label", good + spare),
        ("the third", good + good + bad),
        ("the middle", good + bad + good),
        ("the second, after words", good + b"some words\n\n" + bad),
        ("the second, with CR LF", (good + bad).replace(b"\n", b"\r\n")),
        ("the only one", bad),
        ("the last of ten", 9 * good + bad),
    ):
        yield attack(f"PEM of which {name} is wrong", text, questions=(cms(alone),))
    for name, text, rule in (
        ("a second block without an end", good + bad.partition(b"-----END")[0], UNNAMED),
        ("a block with no base64", good.replace(b"-----END", b"!!\n-----END"), None),
        ("a block with another end", good.replace(b"END CMS", b"END PKCS7"), None),
    ):
        question = pem_question(f"PEM with {name}")
        yield attack(f"PEM with {name}", text, rule, questions=(question,))
    inner = put("inner.file", right + b"\0")
    yield attack("PEM of a file with a zero after it", pem(right + b"\0", "CMS"), UNNAMED, questions=(cms(inner),))


def misread_pem():
    """PEM of which other readers may read something else than what is read here, since the lines of a block aren't only
    base64, or more is in the line that begins it (RFC 7468, 2)."""
    right, wrong = Signer("rsa").file(), Signer("rsa").file(content=octet_string(OTHER))
    right_text, wrong_text = base64.b64encode(right), base64.b64encode(wrong + bytes(-len(wrong) % 3))
    key = re.match(rb"[A-Za-z0-9]+", wrong_text)[0]
    for name, lines in (
        ("a header line", [b"Comment: text", b"", right_text]),
        ("a header line, and none after it", [b"Comment: text", right_text]),
        ("a header line that is base64 of another file", [wrong_text.replace(key, key + b":", 1), right_text]),
        ("a blank line before another file", [base64.b64encode(up_to(wrong)), b"", base64.b64encode(wrong)]),
    ):
        name = f"PEM with {name}"
        text = b"\n".join([b"-----BEGIN CMS-----", *lines, b"-----END CMS-----", b""])
        yield attack(name, text, UNNAMED, questions=(pem_question(name),))
    for name, more in (
        ("a control character", b"\1"),
        ("a zero and text", b"\0text"),
        ("a blank that isn't ASCII", b"\xc2\xa0"),
        ("many blanks, and text", 300 * b" " + b"text"),
    ):
        hidden = pem(wrong, "CMS").replace(b"-----BEGIN CMS-----", b"-----BEGIN CMS-----" + more)
        name = f"PEM whose first block, which is wrong, has {name} in its first line"
        yield attack(name, hidden + pem(right, "CMS"), UNNAMED, questions=(pem_question(name),))


def up_to(last):
    """A right file that ends with another one, as far as that: a number of octets that base64 needs no `=` for."""
    for filler in (b"", b"\0", b"\0\0"):
        around = Signer("rsa", unsigned=attribute("1.2.3.4", octet_string(filler + last))).file()
        before = around[: -len(last)]
        if around.endswith(last) and len(before) % 3 == 0:
            return before
    raise AssertionError("no such file is found")


def pem_question(name):
    """What openssl is asked of PEM."""
    return tuple("PEM" if it == "DER" else it for it in cms(of_file(name)))


def in_other_forms():
    """BER (X.690, 8) of what is wrong, and BER that is none."""
    wrong = Signer("rsa").file(content=octet_string(OTHER))
    for cuts in (False, True):
        how = "in segments" if cuts else "of indefinite length"
        yield attack(f"other content {how}", in_ber(wrong, cuts))
        yield attack(f"other content {how}, on a curve", in_ber(Signer("p256").file(content=octet_string(OTHER)), cuts))
        yield attack(f"no certificate {how}", in_ber(Signer("rsa").file(certificates=[]), cuts))
        right = in_ber(Signer("rsa").file(), cuts)
        yield attack(f"a zero after a file {how}", right + b"\0", UNNAMED)
        yield attack(f"a file {how} without its end", right[:-2])
        yield attack(f"PEM of other content {how}", pem(in_ber(wrong, cuts), "CMS"), questions=(cms("of-ber.file"),))
        put("of-ber.file", in_ber(wrong, cuts))
    segments = octet_string(CONTENT[:9]) + octet_string(OTHER[9:])
    yield attack("segments of which one is wrong", Signer("rsa").file(content=element(0x24, segments)))
    swapped = octet_string(CONTENT[9:]) + octet_string(CONTENT[:9])
    yield attack("segments in another order", Signer("rsa").file(content=element(0x24, swapped)))
    text = element(0x24, octet_string(CONTENT[:9]) + element(0x0C, CONTENT[9:]))
    yield attack("a segment of another type", Signer("rsa").file(content=text), UNNAMED)
    deep = octet_string(CONTENT)
    for _ in range(70):
        deep = element(0x24, deep)
    yield attack("segments in seventy levels", Signer("rsa").file(content=deep))


# ---- signers


def several_signers():
    """Files of several signers of which one is wrong, and of none."""
    good, curve = Signer("rsa"), Signer("p256")
    wrong = {
        "a signature": Signer("again", sign=lambda covered: changed(signing.by_rsa("again", "sha256", covered))),
        "content": Signer("again", content=OTHER),
        "no digest": Signer("again", attributes=attributes_of(CONTENT)[:1]),
        "another key": Signer("again", sign=lambda covered: signing.by_rsa("rsa", "sha256", covered)),
        "an empty signature": Signer("again", sign=lambda covered: b""),
    }
    for name, bad in wrong.items():
        for place, signers in (
            ("first", [bad, good]),
            ("last", [good, bad]),
            ("middle", [good, bad, curve]),
        ):
            rule = "bad-attributes" if name == "no digest" else None
            file = signed_data(signers, octet_string(CONTENT))
            yield attack(f"several signers, the {place} is wrong by {name}", file, rule)
    both = signed_data([good, curve], certificates=[signing.certificate("rsa")])
    yield attack("several signers, one without a certificate", both)
    yield attack("several signers, none with a certificate", signed_data([good, curve], certificates=[]))
    for name, certificates in (("no certificate", []), ("a certificate", [signing.certificate("rsa")])):
        more = {"certificates": certificates, "digests": []}
        yield attack(f"no signer and {name}", signed_data([], **more), "no-signers")
        detached = signed_data([], content=False, **more)
        yield attack(f"no signer and {name}, detached", detached, "no-signers", *given(CONTENT))
    yield attack("the certificate of another", good.file(certificates=[signing.certificate("again")]))


def no_signed_data():
    """Files that hold no signature."""
    data = content_info("data", octet_string(CONTENT))
    whole = Signer("rsa").file()
    for name, octets in (
        ("an empty file", b""),
        ("data alone", data),
        ("a certificate", signing.certificate("rsa")),
        ("a cut file", whole[:-1]),
        ("a file cut in its middle", whole[: len(whole) // 2]),
        ("only its header", whole[:4]),
        ("text", CONTENT),
        ("signed data without ContentInfo", part(whole, 1, 0)),
        ("signed data as enveloped data", content_info("enveloped data", part(whole, 1, 0))),
        ("signed data under another type", content_info("1.2.3.4", part(whole, 1, 0))),
    ):
        yield attack(name, octets)


CLASSES = (
    *(other_content, attributes_as_content, attributes_that_are_wrong, content_types, retagged_content, trailing),
    *(blocks_of_pem, misread_pem, in_other_forms, several_signers, no_signed_data),
)
