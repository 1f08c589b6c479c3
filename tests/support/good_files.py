"""Files that are right, of each scheme, key, digest and form that openssl and osslsigncode write: signed data, time
stamps, signatures of programs, key stores. All keys are under the authority `ca`. A program that says of everything
that it is wrong refuses no attack too little."""
import functools
from typing import NamedTuple, Optional, Tuple

from . import making, signing, tools
from .attacks import cms, given, smime
from .attacks_on_stores import PASSWORD, password_file, store
from .attacks_on_trust import below, of_program, respelt, response, stamping, token, ts
from .containers import NULL, attribute, in_ber
from .elements import contents, element, integer, octet_string, part, sequence
from .oids import oid
from .signing import CONTENT, INDIRECT_DATA, Signer, algorithm, attributes_of, certificate, pem, put, room, signed_data


class Good(NamedTuple):
    """A file that is right: its name, the words of `vuyhanip verify` before its name, what openssl is asked, and the
    words that have its certificates judged, where it has some."""

    name: str
    words: Tuple[str, ...]
    questions: Tuple[Tuple[str, ...], ...]
    judged: Optional[Tuple[str, ...]] = ("--ca", "ca.pem")


def good(name, octets, words=(), more=(), questions=None, judged=("--ca", "ca.pem")):
    file = put(f"good {name}".replace(" ", "-").replace(",", "") + ".file", octets)
    return Good(file, tuple(words), questions or (cms(file, *more),), judged)


def good_name(name):
    return f"good {name}".replace(" ", "-").replace(",", "") + ".file"


def in_pem(name):
    """What openssl is asked of PEM."""
    return (tuple("PEM" if it == "DER" else it for it in cms(good_name(name))),)


# ---- signed data of openssl


def signed_by(tool, by, *words, content=CONTENT, form="DER"):
    """What openssl cms or smime signs by keys."""
    put("signed.txt", content)
    signers = []
    for name in by.split():
        certificate(name)
        signers += ["-signer", f"{name}.pem", "-inkey", f"{name}.key"]
    given_words = [tool, "-sign", "-binary", "-in", "signed.txt", *signers, "-outform", form]
    return tools.openssl(*given_words, *words, cwd=room())


def schemes():
    """Keys and digests, by the words of openssl."""
    for digest in "sha224 sha256 sha384 sha512 sha512-224 sha512-256 sha3-224 sha3-256 sha3-384 sha3-512".split():
        yield "rsa", digest, ()
    for by in ("p256", "p384", "p521"):
        for digest in "sha224 sha256 sha384 sha512".split():
            yield by, digest, ()
    for digest in "sha256 sha384 sha512".split():
        yield "three", digest, ()
        yield "pss", digest, ("-keyopt", "rsa_padding_mode:pss")
        yield "rsa", digest, ("-keyopt", "rsa_padding_mode:pss")
    for salt in ("0", "1", "20", "digest", "max"):
        yield "rsa", "sha256", ("-keyopt", "rsa_padding_mode:pss", "-keyopt", f"rsa_pss_saltlen:{salt}")
    yield "rsa", "sha256", ("-keyopt", "rsa_padding_mode:pss", "-keyopt", "rsa_mgf1_md:sha512")
    yield "bound", "sha256", ("-keyopt", "rsa_padding_mode:pss", "-keyopt", "rsa_pss_saltlen:32")


def of_each_scheme():
    """Each of them with attributes and without."""
    for by, digest, words in schemes():
        name = " ".join([by, digest, *(it.replace(":", " ") for it in words if it != "-keyopt")])
        yield good(f"{name}", signed_by("cms", by, "-nodetach", "-md", digest, *words))
        if digest == "sha256":
            yield good(f"{name} no attributes", signed_by("cms", by, "-nodetach", "-noattr", "-md", digest, *words))


def of_each_form():
    """Attached and detached, in DER, PEM and BER, with a key identifier, by cms and by smime."""
    ours, openssls = given(CONTENT)
    options = (), ("-noattr",), ("-keyid",), ("-keyid", "-noattr"), ("-nosmimecap",), ("-cades",)
    for by, count in (("rsa", 6), ("p256", 3)):
        for words in options[:count]:
            name = " ".join([by, *words])
            attached = signed_by("cms", by, "-nodetach", *words)
            yield good(f"attached {name}", attached)
            yield good(f"detached {name}", signed_by("cms", by, *words), ours, openssls)
            yield good(f"in PEM {name}", pem(attached, "CMS"), questions=in_pem(f"in PEM {name}"))
            yield good(f"in BER {name}", signed_by("cms", by, "-nodetach", "-stream", *words))
        for words in ((), ("-noattr",), ("-nosmimecap",)):
            name = f"of smime {by} {' '.join(words)}".strip()
            yield good(name, signed_by("smime", by, "-nodetach", *words))
            yield good(f"{name} detached", signed_by("smime", by, *words), ours, openssls)
            yield good(f"{name} in BER", signed_by("smime", by, "-nodetach", "-stream", *words))
    segments = octet_string(CONTENT[:9]) + octet_string(CONTENT[9:])
    yield good("content in segments", Signer("rsa").file(content=element(0x24, segments)))
    whole = Signer("rsa").file()
    for cuts in (False, True):
        how = "in segments" if cuts else "of indefinite length"
        yield good(f"all {how}", in_ber(whole, cuts))
        yield good(f"PEM {how}", pem(in_ber(whole, cuts), "CMS"), questions=in_pem(f"PEM {how}"))


def of_each_pem():
    """Blocks of PEM with other labels, text around them, and several of them."""
    whole = Signer("rsa").file()
    block = pem(whole, "CMS")
    for name, text in (
        ("labelled PKCS7", pem(whole, "PKCS7")),
        ("after text", b"some text\n" + block),
        ("before text", block + b"some text\n"),
        ("with CR LF", block.replace(b"\n", b"\r\n")),
        ("two blocks", block + block),
        ("nine blocks", 9 * block),
    ):
        yield good(f"PEM {name}", text, questions=in_pem(f"PEM {name}"))
    for name, more in (("a newline", b"\n"), ("CR LF", b"\r\n")):
        yield good(f"DER before {name}", whole + more)


def of_each_content():
    """Contents and types of them."""
    for name, content in (
        ("nothing", b""), ("a zero", b"\0"), ("zeros", bytes(300)), ("much", bytes(range(256)) * 300),
    ):
        yield good(f"over {name}", signed_by("cms", "rsa", "-nodetach", content=content))
        yield good(f"over {name} detached", signed_by("cms", "p256", content=content), *given(content))
    for which in ("1.2.3.4", "1.2.840.113549.1.9.16.1.2", signing.CONTENT_HINTS):
        yield good(f"of type {which}", signed_by("cms", "rsa", "-nodetach", "-econtent_type", which))
    yield good("content given too", Signer("rsa").file(), given(CONTENT)[0], given(CONTENT)[1])
    yield good("over attributes with attributes", Signer("rsa", content=b"\x31" + sequence()[1:]).file())
    other = signing.sorted_set(attribute(signing.CONTENT_HINTS, integer(1)))
    yield good("over a SET without attributes", Signer("rsa", content=other, attributes=None).file())


def of_several_signers():
    """Several signers, certificates beside theirs, and none in the file."""
    for by in ("rsa p256", "p256 rsa", "rsa p384 three", "rsa again p256 p384 p521"):
        yield good(f"signers {by}", signed_by("cms", by, "-nodetach"))
        yield good(f"signers {by} detached", signed_by("cms", by), *given(CONTENT))
    certificate("again")
    for name, words in (("given", ("-nocerts",)), ("given, of a key identifier", ("-nocerts", "-keyid"))):
        file = signed_by("cms", "rsa", "-nodetach", *words)
        yield good(f"a certificate {name}", file, ("--certificate", "rsa.pem"), ("-certfile", "rsa.pem"))
    yield good("a certificate given too", Signer("rsa").file(), ("--certificate", "rsa.pem"), ("-certfile", "rsa.pem"))
    yield good("more certificates", signed_by("cms", "rsa", "-nodetach", "-certfile", "again.pem"))
    whole = Signer("rsa").file(certificates=[certificate(it) for it in ("again", "p256", "ca", "rsa")])
    yield good("the certificate last", whole)
    leaf = below()
    chained = Signer("again", certificate=leaf)
    yield good("a chain", chained.file(certificates=[leaf, certificate("middle")]))
    yield good("a chain given", chained.file(), ("--certificate", "middle.pem"), ("-certfile", "middle.pem"))
    yield good("the same certificate twice", Signer("rsa").file(certificates=[certificate("rsa"), in_place("rsa")]))
    twice = signed_data([Signer("rsa"), Signer("rsa", digest="sha512")])
    yield good("one key twice", twice)


def in_place(name):
    """A certificate once more, in octets of its own."""
    return bytes(bytearray(certificate(name)))


def of_octets_of_our_own():
    """What openssl reads and no tool here writes: orders, versions, names, algorithms without parameters."""
    right = Signer("rsa")
    for version in (1, 3, 4, 5):
        yield good(f"version {version}", right.file(version=version))
    yield good("SHA-256 with RSA", Signer("rsa", algorithm=algorithm(signing.WITH_RSA["sha256"], NULL)).file())
    yield good("RSA without NULL", Signer("rsa", algorithm=algorithm(signing.RSA)).file())
    bare = algorithm(signing.DIGESTS["sha256"])
    yield good("a digest without NULL", Signer("rsa", digest_algorithm=bare).file(digests=[bare]))
    hint = attribute(signing.CONTENT_HINTS, sequence(oid("data")))
    yield good("another attribute", Signer("rsa", attributes=[*attributes_of(CONTENT), hint]).file())
    yield good("unsigned attributes", Signer("rsa", unsigned=hint).file())
    high = sequence(oid("1.2.3.4"), element(0x31, b"\x9f\x1f\0"))
    yield good("an unsigned attribute of a tag above 30", Signer("rsa", unsigned=high).file())
    counter = Signer("p256", content=right.signature, attributes=[attributes_of(right.signature)[1]])
    yield good("a counter signature", Signer("rsa", unsigned=attribute(signing.COUNTER_SIGNATURE, counter.info)).file(
        certificates=[certificate("rsa"), certificate("p256")]))
    held = element(0xA2, sequence(integer(1)))
    yield good("an attribute certificate beside the signer's", right.file(certificates=[certificate("rsa"), held]))
    inner = Signer("p256").file()
    nested = Signer("rsa", unsigned=attribute(signing.NESTED_SIGNATURE, inner)).file()
    put("nested.inner", inner)
    yield good("a nested signature", nested, questions=(cms(good_name("a nested signature")), cms("nested.inner")))
    levels = inner
    for _ in range(8):
        levels = Signer("rsa", unsigned=attribute(signing.NESTED_SIGNATURE, levels)).file()
    yield good("eight levels", levels, questions=(cms(good_name("eight levels")), cms("nested.inner")))
    yield good("other forms of lengths", long_lengths(right.file()))


def long_lengths(whole):
    """BER with a longer length at its beginning."""
    return b"\x30\x84" + len(contents(whole)).to_bytes(4, "big") + contents(whole)


def of_weak_ones():
    """What is weak, and allowed."""
    allowed = ("--allow-weak",)
    judged = ("--ca", "ca.pem")
    yield good("weak SHA-1", signed_by("cms", "rsa", "-nodetach", "-md", "sha1"), allowed, judged=judged)
    yield good("weak MD5", signed_by("cms", "rsa", "-nodetach", "-md", "md5"), allowed, judged=judged)
    yield good("weak SHA-1 on a curve", signed_by("cms", "p256", "-nodetach", "-md", "sha1"), allowed, judged=judged)
    yield good("weak RSA of 1024 bits", signed_by("cms", "short", "-nodetach"), allowed, judged=judged)
    yield good("weak RSA of 2047 bits", signed_by("cms", "nearly", "-nodetach"), allowed, judged=judged)
    yield good("weak curve of 192 bits", signed_by("cms", "p192", "-nodetach"), allowed, judged=judged)
    yield good("weak DSA", signed_by("cms", "dsa", "-nodetach", "-md", "sha256"), allowed, judged=judged)
    yield good("weak SHA-1 without attributes", signed_by("cms", "rsa", "-nodetach", "-noattr", "-md", "sha1"), allowed)


def of_ed25519():
    """Ed25519 in CMS (RFC 8419), which openssl 3.0 doesn't verify."""
    yield good("Ed25519", Signer("ed25519", digest="sha512").file())


# ---- time stamps


@functools.lru_cache(maxsize=None)
def configuration():
    """The configuration of an authority of time stamps."""
    lines = ["[tsa]", "default_tsa=it", "[it]", "serial=stamps.serial", "default_policy=1.2.3.4.1"]
    lines += ["signer_digest=sha256", "digests=sha1,sha224,sha256,sha384,sha512", "ess_cert_id_alg=sha256"]
    put("stamps.serial", b"01\n")
    return put("stamps.cnf", "\n".join(lines).encode() + b"\n")


def stamped_by_openssl(digest, by, whole, has_certificate):
    """A response of openssl ts."""
    put("signed.txt", CONTENT)
    words = [
        "ts", "-query", "-data", "signed.txt", f"-{digest}", *(["-cert"] if has_certificate else []), "-out", "query"
    ]
    tools.openssl(*words, cwd=room())
    words = ["-config", configuration(), "-queryfile", "query", "-signer", f"{whole}.pem", "-inkey", f"{by}.key"]
    tools.openssl("ts", "-reply", *words, "-out", "reply", cwd=room())
    return signing.octets("reply")


def of_time_stamps():
    """Time stamps and responses of openssl, and of our own, of content that is given and of signatures."""
    certificate("tsa")
    stamping("rsa-tsa")
    ours, content = given(CONTENT)[0], given(CONTENT)[1][1]
    for digest in ("sha224", "sha256", "sha384", "sha512"):
        for by, whole in (("tsa", "tsa"), ("again", "rsa-tsa")):
            for has_certificate in (True, False):
                made = stamped_by_openssl(digest, by, whole, has_certificate)
                words = (*ours, *(() if has_certificate else ("--certificate", f"{whole}.pem")))
                name = f"{digest} {whole}{'' if has_certificate else ' certificate given'}"
                for form, octets in (("response", made), ("stamp", part(made, 1))):
                    question = ts(good_name(f"{form} {name}"), content, f"{whole}.pem", form == "stamp")
                    question += () if has_certificate else ("-untrusted", f"{whole}.pem")
                    yield good(f"{form} {name}", octets, words, questions=(question,))
    name = "response with mods"
    yield good(name, response(token(CONTENT), 1), ours, questions=(ts(good_name(name), content, is_token=False),))
    name = "stamp whose issuer is in other letters"
    yield good(name, respelt(certificate("tsa")), ours, questions=(ts(good_name(name), content),))
    signature = Signer("rsa").signature
    data, stamp = put("signature.octets", signature), token(signature)
    inner = put("good.stamp", stamp)
    for name, which in (("CMS", signing.STAMP_TOKEN), ("Microsoft", signing.STAMP_OF_MICROSOFT)):
        for count in (1, 2):
            file = f"signature with {count} stamps as of {name}"
            octets = Signer("rsa", unsigned=attribute(which, *count * [stamp])).file()
            yield good(file, octets, questions=(cms(good_name(file)), ts(inner, data)))


# ---- indirect data, and signatures of programs


def over_any(name, octets, content, words=()):
    """A file whose content is no OCTET STRING. Its purpose is named, since openssl has none for programs."""
    question = smime(good_name(name), put(good_name(name) + ".content", content))
    return good(name, octets, words, questions=(question,), judged=("--ca", "ca.pem", "--purpose", "any"))


def of_indirect_data():
    content = of_program()
    for by, digest in (
        ("rsa", "sha256"), ("p256", "sha256"), ("p384", "sha384"), ("rsa", "sha512"), ("three", "sha256"),
    ):
        file = Signer(by, content=content, content_type=INDIRECT_DATA, digest=digest).file(content=sequence(content))
        yield over_any(f"indirect data {by} {digest}", file, content)


def signed_by_osslsigncode(file, *words, by="rsa"):
    """The signature that osslsigncode makes of a program or a cabinet, and what its content is."""
    certificate(by)
    for made in ("made.signed", "made.p7s"):
        (room() / made).unlink(missing_ok=True)
    given_words = ["sign", "-certs", f"{by}.pem", "-key", f"{by}.key", *words, "-in", file, "-out", "made.signed"]
    tools.run("osslsigncode", *given_words, cwd=room())
    tools.run("osslsigncode", "extract-signature", "-in", "made.signed", "-out", "made.p7s", cwd=room())
    whole = signing.octets("made.p7s")
    return whole, contents(part(whole, 1, 0, 2, 1, 0))


def of_osslsigncode():
    """Signatures of programs and cabinets, nested ones, and time stamps made without a network."""
    put("small.exe", making.image())
    put("section.exe", making.image_with_a_section())
    put("old.exe", making.image_of_32_bits())
    put("small.cab", making.cabinet())
    for file in ("small.exe", "section.exe", "old.exe", "small.cab"):
        for by, digest in (
            ("rsa", "sha256"), ("p256", "sha256"), ("rsa", "sha384"), ("p384", "sha384"), ("rsa", "sha512"),
        ):
            yield over_any(f"{file} {by} {digest}", *signed_by_osslsigncode(file, "-h", digest, by=by))
    certificate("tsa")
    for name, words in (
        ("described", ("-n", "a name", "-i", "http://localhost/")),
        ("commercial", ("-comm",)),
        ("of low permissions", ("-jp", "low")),
        ("stamped", ("-TSA-certs", "tsa.pem", "-TSA-key", "tsa.key")),
        ("with a blob", ("-addUnauthenticatedBlob",)),
    ):
        yield over_any(f"small.exe {name}", *signed_by_osslsigncode("small.exe", *words))
    yield over_any("section.exe with page hashes", *signed_by_osslsigncode("section.exe", "-ph"))
    signed_by_osslsigncode("small.exe")
    put("once.exe", signing.octets("made.signed"))
    yield over_any("nested", *signed_by_osslsigncode("once.exe", "-nest", "-h", "sha384", by="p256"))
    put("twice.exe", signing.octets("made.signed"))
    yield over_any("nested and stamped", *signed_by_osslsigncode(
        "twice.exe", "-nest", "-h", "sha512", "-TSA-certs", "tsa.pem", "-TSA-key", "tsa.key", by="p384"))


# ---- stores


def opened(name, octets, password=PASSWORD):
    """A store, which has no certificate to judge."""
    file = password_file(password)
    question = ("pkcs12", "-in", good_name(name), "-noout", "-legacy", "-passin", f"file:{file}")
    return good(name, octets, ("--password-file", file), questions=(question,), judged=None)


def of_stores():
    """Stores of openssl by all its algorithms of MACs and of encryption, numbers of iterations, names and passwords."""
    plain = ("-keypbe", "NONE", "-certpbe", "NONE")
    digests = "md5 sha1 sha224 sha256 sha384 sha512 sha512-224 sha512-256 sha3-224 sha3-256 sha3-384 sha3-512"
    for digest in digests.split():
        yield opened(f"store by {digest}", store(*plain, "-macalg", digest, "-iter", "2"))
    for scheme in (
        "AES-128-CBC", "AES-256-CBC", "PBE-SHA1-3DES", "PBE-SHA1-RC2-40", "PBE-SHA1-RC4-128", "DES-EDE3-CBC",
    ):
        words = ("-keypbe", scheme, "-certpbe", scheme, "-iter", "2", *(("-legacy",) if "RC" in scheme else ()))
        yield opened(f"store encrypted by {scheme}", store(*words))
    for name, words in (
        ("of the usual kind", ()),
        ("of the old kind", ("-legacy",)),
        ("of one iteration", (*plain, "-noiter", "-nomaciter")),
        ("of many iterations", (*plain, "-iter", "20000")),
        ("of a key alone", ("-nocerts",)),
        ("of a certificate alone", ("-nokeys",)),
        ("with a name", (*plain, "-name", "a name")),
        ("with certificates", (*plain, "-certfile", "ca.pem", "-caname", "root")),
    ):
        yield opened(f"store {name}", store(*words))
    for name, password in (
        ("empty", ""),
        ("of a blank", " "),
        ("of umlauts", "Größe"),
        ("in Cyrillic", "пароль"),
        ("with an emoji", "Größe 🔑"),
        ("with a blank at its end", "secret "),
        ("of 200 letters", 200 * "a"),
    ):
        yield opened(f"store under a password {name}", store(*plain, "-iter", "2", password=password), password)
    whole = store(*plain)
    for cuts in (False, True):
        yield opened(f"store in BER {cuts}", in_ber(whole, cuts))
    lacking = making.without_null(whole)
    yield opened("store whose MAC has no NULL", lacking)


CLASSES = (
    *(of_each_scheme, of_each_form, of_each_pem, of_each_content, of_several_signers, of_octets_of_our_own),
    *(of_weak_ones, of_ed25519, of_time_stamps, of_indirect_data, of_osslsigncode, of_stores),
)
