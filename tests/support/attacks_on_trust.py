"""Attacks by certificates, chains of them, time stamps and signatures in signatures: see tests/support/attacks.py."""
import functools

from . import signing, tools
from .attacks import UNNAMED, attack, changed, cms, given, of_file, smime
from .containers import NULL, attribute, content_info
from .elements import contents, element, explicit, integer, octet_string, part, parts, sequence, set_of
from .oids import oid
from .signing import (
    AUTHORITY,
    CONTENT,
    DIGESTS,
    INDIRECT_DATA,
    OTHER,
    SIGNS,
    STAMPS,
    Signer,
    algorithm,
    attributes_of,
    certificate,
    certify,
    digest_of,
    put,
    room,
    serial_number,
    signed_data,
)

SIGNING_CERTIFICATE, SIGNING_CERTIFICATE_OF_SHA1 = (f"1.2.840.113549.1.9.16.2.{it}" for it in (47, 12))
# The configuration of an authority that dates certificates as it likes.
DATES = """[ca]
default_ca = it
[it]
database = dates.txt
serial = dates.serial
default_md = sha256
new_certs_dir = .
policy = any
unique_subject = no
[any]
commonName = supplied
[own]
keyUsage = critical,digitalSignature
"""
STRICT = ("-no-CApath", "-no-CAstore", "-auth_level", "2")


def under(name, purpose="smimesign"):
    """The words of openssl that ask for a chain to a certificate of a file."""
    return ("-CAfile", name, *STRICT, "-purpose", purpose)


# ---- certificates in a file


@functools.lru_cache(maxsize=None)
def twin():
    """A certificate with the issuer and the serial number of another, of another key."""
    return certify("twin", *SIGNS, of="again", number=serial_number(certificate("rsa")))


@functools.lru_cache(maxsize=None)
def renamed():
    """A certificate with the issuer, the serial number and the key of another, and another subject."""
    return certify("renamed", *SIGNS, of="rsa", number=serial_number(certificate("rsa")))


def two_certificates():
    """Two certificates with the issuer and the serial number of the signer (RFC 5652, 5.3: they name one)."""
    right, rule = certificate("rsa"), "same-issuer-and-serial"
    by_twin = {"by": "again", "certificate": twin()}
    for how, those in (("attributes", attributes_of(CONTENT)), ("no attributes", None)):
        signer, other = Signer("rsa", attributes=those), Signer(attributes=those, **by_twin)
        yield attack(f"another certificate second, {how}", signer.file(certificates=[right, twin()]), rule)
        yield attack(f"another certificate first, {how}", signer.file(certificates=[twin(), right]), rule)
        yield attack(f"the certificate of another second, {how}", other.file(certificates=[twin(), right]), rule)
        yield attack(f"a certificate by another name second, {how}", signer.file(certificates=[right, renamed()]), rule)
        yield attack(f"a certificate by another name first, {how}", signer.file(certificates=[renamed(), right]), rule)
        more = signer.file(certificates=[right, certificate("p256"), certificate("ca"), twin()])
        yield attack(f"another certificate fourth, {how}", more, rule)
    words = ("--certificate", "twin.pem"), ("-certfile", "twin.pem")
    yield attack("another certificate given", Signer("rsa").file(), rule, *words)
    words = ("--certificate", "renamed.pem"), ("-certfile", "renamed.pem")
    yield attack("a certificate by another name given", Signer("rsa").file(), rule, *words)
    both = put("both.pem", signing.octets("rsa.pem") + signing.octets("renamed.pem"))
    words = ("--certificate", both), ("-certfile", both)
    yield attack("two certificates given", Signer("rsa").file(certificates=[]), rule, *words)
    two = ("--certificate", "rsa.pem", "--certificate", "renamed.pem")
    yield attack(
        "two certificates given in two files", Signer("rsa").file(certificates=[]), rule, two, ("-certfile", both),
    )


@functools.lru_cache(maxsize=None)
def another_name():
    """A certificate of another's key and another subject, which who has no private key may have been given."""
    certificate("ca")
    return certify("another-name", *SIGNS, of="rsa", subject="/CN=another name")


def names_of_certificates():
    """By name, signed attributes that name a certificate, which isn't that of `another_name` (RFC 5035, 5.4)."""
    def of(*identifiers, which=SIGNING_CERTIFICATE):
        return attribute(which, *(sequence(sequence(it)) for it in identifiers))

    whole = certificate("rsa")
    hashed = {it: octet_string(digest_of(it, whole)) for it in ("sha1", "sha256", "sha512")}
    by_sha512 = sequence(algorithm(DIGESTS["sha512"], NULL), hashed["sha512"])
    own = sequence(octet_string(digest_of("sha256", another_name())))
    issuer = sequence(sequence(explicit(4, part(whole, 0, 3))), part(whole, 0, 1))
    yield "by SHA-256", [of(sequence(hashed["sha256"]))]
    yield "by SHA-512", [of(by_sha512)]
    yield "by SHA-1", [of(sequence(hashed["sha1"]), which=SIGNING_CERTIFICATE_OF_SHA1)]
    yield "by SHA-256 and its issuer", [of(sequence(hashed["sha256"], issuer))]
    yield "by a digest of no algorithm that is known", [of(sequence(algorithm("1.2.3.4"), hashed["sha256"]))]
    yield "by nothing", [of(sequence())]
    yield "by a text", [attribute(SIGNING_CERTIFICATE, element(0x0C, b"text"))]
    yield "in no list", [attribute(SIGNING_CERTIFICATE, sequence())]
    yield "in the second of two values", [of(own, sequence(hashed["sha256"]))]
    yield "in the second of two attributes", [of(own), of(sequence(hashed["sha1"]), which=SIGNING_CERTIFICATE_OF_SHA1)]


def named_certificates():
    """A signature that was made for one certificate beside another one of the same key: only what is signed says so."""
    rule = "signing-certificate"
    for name, those in names_of_certificates():
        for how, more in (("", {}), (", by key identifier", {"keyid": True})):
            signer = Signer("rsa", certificate=another_name(), attributes=[*attributes_of(CONTENT), *those], **more)
            yield attack(f"another certificate is named {name}{how}", signer.file(version=3 if more else 1), rule)
    name, those = next(names_of_certificates())
    signer = Signer("rsa", certificate=another_name(), attributes=[*attributes_of(CONTENT), *those])
    yield attack("another certificate is named, detached", signer.file(content=False), rule, *given(CONTENT))
    yield trusted("another certificate is named", signer.file(), "ca.pem", rule=rule)
    right = of_program()
    those = [*attributes_of(right, INDIRECT_DATA), *those]
    signer = Signer("rsa", content=right, content_type=INDIRECT_DATA, certificate=another_name(), attributes=those)
    file = put("named-indirect.content", right)
    octets = signer.file(content=sequence(right))
    name = "another certificate is named, indirect data"
    yield attack(name, octets, rule, questions=(smime(of_file(name), file),))


def broken_certificates():
    """By name, what is no certificate (RFC 5280, 4.1), beside that of the signer."""
    whole = certificate("again")
    tbs, *rest = parts(whole)
    fields = parts(tbs)
    yield "an empty SEQUENCE", sequence()
    yield "an INTEGER", sequence(integer(1))
    yield "one that is cut", sequence(tbs)
    yield "one with more", sequence(tbs, *rest, NULL)
    yield "one with NULL in it", sequence(sequence(*fields, NULL), *rest)
    yield "one without its key", sequence(sequence(*fields[:6], *fields[7:]), *rest)
    yield "one without its times", sequence(sequence(*fields[:4], *fields[5:]), *rest)
    yield "one of another type of time", sequence(
        sequence(*fields[:4], sequence(integer(1), integer(2)), *fields[5:]), *rest,
    )


def unread_certificates():
    """A certificate that isn't read; and attribute certificates and others in the place of the signer's (RFC 5652,
    10.2.2), with the octets of one."""
    right, rule = certificate("rsa"), "unread-certificate"
    for name, broken in broken_certificates():
        yield attack(f"{name} as second certificate", Signer("rsa").file(certificates=[right, broken]), rule)
        yield attack(f"{name} as first certificate", Signer("rsa").file(certificates=[broken, right]), rule)
    for name, tag in (
        ("an extended certificate", 0xA0),
        ("an attribute certificate of version 1", 0xA1),
        ("an attribute certificate", 0xA2),
    ):
        other, own = (element(tag, contents(it)) for it in (twin(), right))
        yield attack(f"{name} of the signer alone", Signer("rsa").file(certificates=[own]), rule)
        yield attack(f"{name} of another alone", Signer("again", certificate=twin()).file(certificates=[other]), rule)
    other = element(0xA3, oid("1.2.3.4"), right)
    yield attack("a certificate of another form alone", Signer("rsa").file(certificates=[other]), rule)


# ---- chains


@functools.lru_cache(maxsize=None)
def below(name="below", of="again", by="middle", *extensions, more=()):
    """A certificate under an authority that is none of the roots."""
    certificate("middle")
    return certify(name, *(extensions or SIGNS), of=of, by=by, more=more)


@functools.lru_cache(maxsize=None)
def dated(name, start, end):
    """A certificate by the authority from one time to another."""
    certificate("ca")
    for file, text in (("dates.txt", b""), ("dates.serial", b"%X\n" % (0x5000 + len(name)))):
        put(file, text)
    put("dates.cnf", DATES.encode())
    asked = ["-key", "again.key", "-subj", f"/CN={name}", "-out", "asked.pem"]
    tools.openssl("req", "-new", "-config", "no.cnf", *asked, cwd=room())
    words = ["-batch", "-notext", "-config", "dates.cnf", "-cert", "ca.pem", "-keyfile", "ca.key", "-in", "asked.pem"]
    times = ["-startdate", start, "-enddate", end, "-extensions", "own", "-out", f"{name}.pem"]
    tools.openssl("ca", *words, *times, cwd=room())
    return put_der(name)


def put_der(name):
    put(f"{name}.der", signing.octets_of_pem(signing.octets(f"{name}.pem")))
    return signing.octets(f"{name}.der")


def leaves():
    """Certificates that don't do under the authority `ca`, by what is wrong with them."""
    yield "expired", dated("expired", "20200101000000Z", "20210101000000Z"), []
    yield "not yet valid", dated("later", "20480101000000Z", "20490101000000Z"), []
    for name, usage in (("a server", "serverAuth"), ("code", "codeSigning"), ("time stamps", "critical,timeStamping")):
        extensions = (*SIGNS, f"extendedKeyUsage={usage}")
        yield f"for {name}", below(f"for-{name.replace(' ', '-')}", "again", "ca", *extensions), []
    yield "for encryption", below("for-encryption", "again", "ca", "keyUsage=critical,keyEncipherment"), []
    yield "critical in a way", below("critical", "again", "ca", *SIGNS, "1.2.3.4=critical,DER:0500"), []
    yield "signed by SHA-1", below("by-sha1", "again", "ca", *SIGNS, more=("-sha1",)), []
    yield "signed by MD5", below("by-md5", "again", "ca", *SIGNS, more=("-md5",)), []
    yield "signed by itself", below("alone", "again", None, *SIGNS), []
    yield "signed by itself as an authority", below("own-root", "again", None, *AUTHORITY), []
    yield "under another root", below("foreign", "again", root("elsewhere"), *SIGNS), [certificate("elsewhere")]
    yield "without what is between", below(), []
    certificate("rsa")
    yield "under a leaf", below("under-a-leaf", "again", "rsa", *SIGNS), [certificate("rsa")]
    fake = certify("fake", *AUTHORITY, of="elsewhere", by=None, subject="/CN=ca")
    yield "under a root of the same name", below("under-a-fake", "again", "fake", *SIGNS), [fake]
    short = certify("short-root", *AUTHORITY, of="short", by="ca")
    yield "under a key of 1024 bits", below("under-short", "again", "short-root", *SIGNS), [short]
    no_more = certify("no-more", AUTHORITY[0] + ",pathlen:0", AUTHORITY[1], of="middle")
    one_more = certify("one-more", *AUTHORITY, of="p384", by="no-more")
    yield "under one authority too many", below("too-deep", "again", "one-more", *SIGNS), [no_more, one_more]


def root(name):
    """The name of a root, whose certificate is there."""
    certificate(name)
    return name


def forged_leaf():
    """A certificate whose signature is changed."""
    return changed(certificate("rsa"), -2)


def chains():
    """A signer whose signature is right, and whose certificate isn't by `--ca` (RFC 5280, 6)."""
    for name, leaf, more in leaves():
        file = Signer("again", certificate=leaf).file(certificates=[leaf, *more])
        yield trusted(f"a certificate {name}", file, "ca.pem")
    file = Signer("rsa").file()
    yield trusted("a certificate under another root than asked", file, root("elsewhere") + ".pem")
    whole = Signer("rsa").file(certificates=[certificate("rsa"), certificate("ca")])
    yield trusted("a root in the file", whole, "elsewhere.pem")
    yield trusted("a certificate of another signature", Signer("rsa", certificate=forged_leaf()).file(), "ca.pem")
    leaf = below()
    chained = Signer("again", certificate=leaf).file(certificates=[leaf, certificate("middle")])
    yield trusted("a certificate between as root", chained, "middle.pem")
    yield trusted("a leaf as root", file, "rsa.pem")
    both = signed_data([Signer("rsa"), Signer("again", certificate=below("alone", "again", None, *SIGNS))])
    yield trusted("two signers, one under no root", both, "ca.pem")
    for name, octets in (
        ("no octets", b""),
        ("text", b"no certificate\n"),
        ("a key", signing.octets("rsa.key")),
        ("a cut certificate", signing.octets("ca.pem")[:200]),
        ("a certificate of no base64", b"-----BEGIN CERTIFICATE-----\n!!!!\n-----END CERTIFICATE-----\n"),
        ("a signed file", signing.pem(file, "CMS")),
    ):
        yield trusted(f"a root file of {name}", file, put(f"root of {name}".replace(" ", "-"), octets))
    yield trusted("another purpose", file, "ca.pem", "timestampsign")
    for name, at in (("before", 1500000000), ("after", 2500000000)):
        yield trusted(f"a time {name} the certificate's", file, "ca.pem", at=at)
    yield trusted("a chain to weak keys, allowed for smime alone", Signer("short").file(), "ca.pem", rule=None)
    yield from roots_of_the_system(file)


def trusted(name, file, root_file, purpose=None, at=None, rule=None):
    """An attack on a chain to a root."""
    words = ["--ca", root_file, *(["--purpose", purpose] if purpose else []), *(["--at", str(at)] if at else [])]
    trust = [*under(root_file, purpose or "smimesign"), *(["-attime", str(at)] if at else [])]
    name = f"chain, {name}"
    return attack(name, file, rule, words, questions=(cms(of_file(name), trust=tuple(trust)),))


def roots_of_the_system(file):
    """A root that the system trusts, and FILE doesn't have: by SSL_CERT_FILE and SSL_CERT_DIR of openssl."""
    folder = room() / "system"
    if not folder.is_dir():
        folder.mkdir()
        number = tools.openssl("x509", "-in", "ca.pem", "-noout", "-hash", cwd=room()).decode().strip()
        (folder / f"{number}.0").write_bytes(signing.octets("ca.pem"))
    certificate("elsewhere")
    for name, value in (("SSL_CERT_FILE", room() / "ca.pem"), ("SSL_CERT_DIR", folder)):
        made = trusted(f"a root of the system by {name}", file, "elsewhere.pem")
        yield made._replace(environment=((name, str(value)),))


# ---- content of other types


def of_program(digest=b"\x11" * 32):
    """The contents octets of SpcIndirectDataContent, over the digest of a program."""
    kind = sequence(
        oid("1.3.6.1.4.1.311.2.1.15"), sequence(element(0x03, b"\0"), explicit(0, explicit(2, element(0x80)))),
    )
    return kind + sequence(algorithm(DIGESTS["sha256"], NULL), octet_string(digest))


def indirect_data():
    """Content that is no OCTET STRING, as PKCS #7 1.5 has it (7 and 9.3): its contents octets are signed."""
    right, wrong = of_program(), of_program(b"\x12" * 32)

    def asked(name, file, contents_octets, rule=None, words=()):
        name = f"indirect data, {name}"
        question = smime(of_file(name), put(f"{of_file(name)}.content", contents_octets))
        return attack(name, file, rule, words, questions=(question,))

    for by in ("rsa", "p256"):
        signer = Signer(by, content=right, content_type=INDIRECT_DATA)
        yield asked(f"another digest, {by}", signer.file(content=sequence(wrong)), wrong)
        yield asked(f"more octets, {by}", signer.file(content=sequence(right, NULL)), right + NULL)
        yield asked(f"less, {by}", signer.file(content=sequence(parts(sequence(right))[1])), parts(sequence(right))[1])
        bad = Signer(by, content=right, content_type=INDIRECT_DATA, sign=lambda it, by=by: changed(
            signing.signature_by(by, "sha256", it), 40))
        yield asked(f"another signature, {by}", bad.file(content=sequence(right)), right)
        over_header = Signer(by, content=sequence(right), content_type=INDIRECT_DATA)
        yield asked(f"a digest over the header too, {by}", over_header.file(content=sequence(right)), right)
        none = Signer(by, content=right, content_type=INDIRECT_DATA, attributes=None)
        yield asked(f"no attributes, {by}", none.file(content=sequence(right)), right, "bad-attributes")
        as_data = Signer(by, content=right, content_type=INDIRECT_DATA, attributes=attributes_of(right, "data"))
        yield asked(f"said to be data, {by}", as_data.file(content=sequence(right)), right, "bad-attributes")
    for name, signer, rule in (
        ("SHA-1", Signer("rsa", content=right, content_type=INDIRECT_DATA, digest="sha1"), "weak-digest"),
        ("1024 bits", Signer("short", content=right, content_type=INDIRECT_DATA), "weak-rsa"),
    ):
        yield asked(f"weak by {name}", signer.file(content=sequence(right)), right, rule)
    for by, of, rule in (
        ("rsa", signing.pss_parameters(), "algorithm-of-key"),
        ("rsa", algorithm(signing.WITH_RSA["sha512"], NULL), "digest-of-signature"),
        ("p256", algorithm(signing.WITH_ECDSA["sha512"]), "digest-of-signature"),
    ):
        signer = Signer(by, content=right, content_type=INDIRECT_DATA, algorithm=of)
        yield asked(f"signed by SHA-256, against {rule}, {by}", signer.file(content=sequence(right)), right, rule)
    signer = Signer("rsa", content=right, content_type=INDIRECT_DATA)
    yield asked("other content given", signer.file(content=sequence(right)), right, "other-content", given(wrong)[0])
    yield asked(
        "given with other content in it", signer.file(content=sequence(wrong)), right, "other-content", given(right)[0],
    )
    two = signer.file(content=sequence(right), certificates=[certificate("rsa"), twin()])
    yield asked("two certificates", two, right, "same-issuer-and-serial")


# ---- time stamps


def stamp_info(data, digest="sha256", imprint=None, version=1, named=None):
    """A TSTInfo over octets (RFC 3161, 2.4.2), whose digest may have another name than its own."""
    hashed = digest_of(digest, data) if imprint is None else imprint
    time = element(0x18, b"20261129000000Z")
    imprinted = sequence(algorithm(named or DIGESTS[digest], NULL), octet_string(hashed))
    return sequence(integer(version), oid("1.2.3.4.1"), imprinted, integer(7), time)


def stamp_attributes(info, whole, ess=None):
    """The signed attributes of a time stamp: also the digest of its certificate (RFC 5816)."""
    identifier = sequence(sequence(sequence(octet_string(digest_of("sha256", whole) if ess is None else ess))))
    return [*attributes_of(info, "TSTInfo"), attribute(SIGNING_CERTIFICATE, identifier)]


def stamp_signer(info, by="tsa", whole=None, **other):
    whole = whole or certificate(by)
    those = other.pop("attributes", stamp_attributes(info, whole))
    return Signer(by, content=info, content_type="TSTInfo", certificate=whole, attributes=those, **other)


def token(data, by="tsa", whole=None, info=None, **other):
    """A time stamp over octets."""
    return stamp_signer(info or stamp_info(data), by, whole, **other).file(version=3)


def response(of, status=0):
    """A response of an authority of time stamps (RFC 3161, 2.4.2)."""
    return sequence(sequence(integer(status)), of)


def ts(name, content, signer="tsa.pem", is_token=True, trust=None):
    """What openssl is asked of a time stamp over the content of a file."""
    trusted_by = ("-CAfile", signer, "-partial_chain", "-no_check_time") if trust is None else ("-CAfile", trust)
    return ("ts", "-verify", *(["-token_in"] if is_token else []), "-data", content, "-in", name, *trusted_by)


@functools.lru_cache(maxsize=None)
def stamping(name, of="again", by="ca", *extensions):
    """A certificate for time stamps."""
    certificate(by)
    return certify(name, *(extensions or STAMPS), of=of, by=by)


def wrong_stamps(data):
    """Time stamps over octets that are wrong, by name, each with the rule that is to refuse it."""
    yield "of other content", token(OTHER), "tsa", None
    made = digest_of("sha256", data)
    yield "of a shorter imprint", token(data, info=stamp_info(data, imprint=made[:20])), "tsa", None
    yield "of an empty imprint", token(data, info=stamp_info(data, imprint=b"")), "tsa", None
    yield "of an imprint by another algorithm", token(data, info=stamp_info(data, "sha512", made)), "tsa", None
    yield "of version 2", token(data, info=stamp_info(data, version=2)), "tsa", None
    info, whole = stamp_info(data), certificate("tsa")
    of_another = stamp_attributes(info, whole, bytes(32))
    yield "with the digest of another certificate", token(data, attributes=of_another), "tsa", None
    yield "without a certificate's digest", token(data, attributes=attributes_of(info, "TSTInfo")), "tsa", None
    yield "without attributes", token(data, attributes=None), "tsa", None
    sign = lambda it: changed(signing.signature_by("tsa", "sha256", it), 40)  # noqa: E731
    yield "of another signature", token(data, sign=sign), "tsa", None
    yield "by who may not stamp", token(data, "rsa"), "rsa", None
    lax = stamping("lax", "again", "ca", *SIGNS, "extendedKeyUsage=timeStamping")
    yield "by a usage that isn't critical", token(data, "again", lax), "lax", None
    more = stamping("wide", "again", "ca", *SIGNS, "extendedKeyUsage=critical,timeStamping,emailProtection")
    yield "by a usage with another", token(data, "again", more), "wide", None
    both = [stamp_signer(info), stamp_signer(info, "again", stamping("other-tsa"))]
    yield "with two signers", signed_data(both, version=3), "tsa", "stamp-signers"
    twice = [stamp_signer(info), stamp_signer(info)]
    yield "with a signer twice", signed_data(twice, version=3), "tsa", "stamp-signers"
    none = signed_data([], octet_string(info), "TSTInfo", [whole], [], version=3)
    yield "without a signer", none, "tsa", "no-signers"
    yield "by SHA-1", token(data, digest="sha1", attributes=[
        *attributes_of(info, "TSTInfo", "sha1"), *stamp_attributes(info, whole)[2:]]), "tsa", "weak-digest"
    for name in ("sha1", "md5"):
        yield f"over a digest {name}", token(data, info=stamp_info(data, name)), "tsa", "weak-digest"
        named = token(data, info=stamp_info(data, name, named=signing.WITH_RSA[name]))
        yield f"over a digest {name} by the name of its signatures", named, "tsa", "weak-digest"
    yield "by a key of 1024 bits", token(data, "short", stamping("short-tsa", "short")), "short-tsa", "weak-rsa"
    yield "whose content is data", Signer("tsa", content=info).file(), "tsa", None
    other = algorithm(signing.WITH_ECDSA["sha512"])
    yield "by SHA-256, said to be by SHA-512", token(data, algorithm=other), "tsa", "digest-of-signature"
    padded = token(data, "again", stamping("rsa-tsa"), algorithm=signing.pss_parameters())
    yield "by PKCS #1 v1.5, said to be by RSASSA-PSS", padded, "rsa-tsa", "algorithm-of-key"


def namesake():
    """A certificate for time stamps with the serial number of another, under another issuer."""
    return certify("namesake", *STAMPS, of="p256", by=None, number=serial_number(certificate("tsa")))


def respelt(*certificates):
    """A time stamp whose signer has its issuer's name in other letters, which openssl takes for the same."""
    signer, issuer = stamp_signer(stamp_info(CONTENT)), part(certificate("tsa"), 0, 3)
    named = sequence(set_of(sequence(oid("commonName"), element(0x13, b"CA"))))
    return signer.file(version=3, certificates=certificates).replace(signer.info, signer.info.replace(issuer, named, 1))


def stamps():
    """Time stamps, and responses with them, that aren't of the content given, or aren't right (RFC 3161)."""
    ours, name = given(CONTENT)[0], given(CONTENT)[1][1]
    other, other_name = given(OTHER)[0], given(OTHER)[1][1]
    for what, of, signer, rule in wrong_stamps(CONTENT):
        signer = f"{signer}.pem"
        for form, octets in (("stamp", of), ("response", response(of)))[: 1 if "imprint" in what else 2]:
            file = f"{form} {what}"
            yield attack(file, octets, rule, ours, questions=(ts(of_file(file), name, signer, form == "stamp"),))
    right = token(CONTENT)
    for form, octets in (("stamp", right), ("response", response(right))):
        is_token = form == "stamp"
        file = f"{form} beside other content"
        yield attack(file, octets, None, other, questions=(ts(of_file(file), other_name, is_token=is_token),))
        file = f"{form} beside no content"
        yield attack(file, octets, None, (), questions=(ts(of_file(file), other_name, is_token=is_token),))
        file = f"{form} of an issuer not under the root"
        words = (*ours, "--ca", root("elsewhere") + ".pem")
        yield attack(
            file, octets, None, words, questions=(ts(of_file(file), name, is_token=is_token, trust="elsewhere.pem"),),
        )
        file = f"{form} whose content is longer"
        words, given_name = given(CONTENT + b"\n")
        yield attack(file, octets, None, words, questions=(ts(of_file(file), given_name[1], is_token=is_token),))
    for number, those in enumerate(((namesake(), certificate("tsa")), (certificate("tsa"), namesake()))):
        file = f"stamp by certificate {2 - number}, beside another of its serial number"
        yield attack(file, respelt(*those), "signing-certificate", ours, questions=(ts(of_file(file), name),))
    for status in (2, 3, 4, 5, 6, 77):
        file = f"response of status {status}"
        yield attack(file, response(right, status), None, ours, questions=(ts(of_file(file), name, is_token=False),))
    file = "response without a stamp"
    yield attack(file, sequence(sequence(integer(0))), None, ours, questions=(ts(of_file(file), name, is_token=False),))


def stamped(signer_arguments, tokens, which=signing.STAMP_TOKEN):
    """A signed file with time stamps over its signature among its unsigned attributes."""
    return Signer(*signer_arguments, unsigned=attribute(which, *tokens)).file()


def stamps_of_signatures():
    """Time stamps among unsigned attributes that are of other octets than the signature, or aren't right."""
    signature = Signer("rsa").signature
    data, other = put("signature.octets", signature), put("other.octets", OTHER)
    for what, of, signer, rule in wrong_stamps(signature):
        for kind, which in (("CMS", signing.STAMP_TOKEN), ("Microsoft", signing.STAMP_OF_MICROSOFT)):
            if kind == "Microsoft" and what not in ("of other content", "with two signers", "by SHA-1"):
                continue
            name = f"signature with a stamp {what}, {kind}"
            inner = put(f"{of_file(name)}.stamp", of)
            questions = (cms(of_file(name)), ts(inner, data, f"{signer}.pem"))
            yield attack(name, stamped(["rsa"], [of], which), rule, questions=questions)
    right = token(signature)
    wrong, no_stamp = put("wrong.stamp", token(OTHER)), Signer("p256").file()
    for name, tokens, rule, questions in (
        ("two stamps, the second wrong", [right, token(OTHER)], None, (ts(wrong, data),)),
        ("two stamps, the first wrong", [token(OTHER), right], None, (ts(wrong, data),)),
        ("a stamp of the content", [token(CONTENT)], None, (ts(put("content.stamp", token(CONTENT)), data),)),
        ("a response as stamp", [response(right)], UNNAMED, ()),
        ("an empty SEQUENCE as stamp", [sequence()], UNNAMED, ()),
        ("signed data as stamp", [no_stamp], None, (ts(put("data.stamp", no_stamp), data, "p256.pem"),)),
        ("enveloped data as stamp", [content_info("enveloped data", sequence())], UNNAMED, ()),
    ):
        yield attack(name, stamped(["rsa"], tokens), rule, questions=(cms(of_file(name)), *questions))
    name = "a signature with a right stamp, changed"
    bad = Signer("rsa", unsigned=attribute(signing.STAMP_TOKEN, right), content=CONTENT).file(
        content=octet_string(OTHER),
    )
    yield attack(name, bad, None)
    foreign = stamping("foreign-tsa", "again", "elsewhere")
    of = token(signature, "again", foreign)
    name = "a stamp of a signature, of an issuer not under the root"
    questions = (cms(of_file(name), trust=under("ca.pem")), ts(put("foreign.stamp", of), data, trust="ca.pem"))
    yield attack(name, stamped(["rsa"], [of]), None, ("--ca", "ca.pem"), questions=questions)


# ---- signatures in signatures


def around(inner, outer=None, which=signing.NESTED_SIGNATURE):
    """A signed file with others in an unsigned attribute."""
    return (outer or Signer)("rsa", unsigned=attribute(which, *inner)).file()


def nested():
    """A signature among unsigned attributes, as Authenticode has it: one of both is wrong."""
    right, wrong = Signer("p256").file(), Signer("p256").file(content=octet_string(OTHER))
    weak, alone = Signer("short").file(), Signer("p256").file(certificates=[])
    detached = Signer("p256").file(content=False)
    untold = Signer("p256", content_type="1.2.3.4", attributes=None).file()
    retagged = Signer("p256").file(content=signing.element(0x0C, signing.CONTENT))
    good = put("inner.right", right)
    for name, inner, rule, asked in (
        ("a wrong one in a right one", [wrong], None, wrong),
        ("a wrong one beside a right one in a right one", [right, wrong], None, wrong),
        ("a wrong one before a right one in a right one", [wrong, right], None, wrong),
        ("a weak one in a right one", [weak], "weak-rsa", weak),
        ("one without a certificate in a right one", [alone], None, alone),
        ("one without a signer in a right one", [signed_data([])], None, signed_data([])),
        ("one without content in a right one", [detached], None, detached),
        ("an empty SEQUENCE in a right one", [sequence()], None, sequence()),
        ("enveloped data in a right one", [content_info("enveloped data", sequence())], None, sequence()),
        ("one without attributes over another type in a right one", [untold], "bad-attributes", untold),
        ("one with its content as UTF8String in a right one", [retagged], "content-form", retagged),
    ):
        name = f"nested, {name}"
        questions = (cms(of_file(name)), cms(put(f"{of_file(name)}.inner", asked)))
        yield attack(name, around(inner), rule, questions=questions)
    outer = Signer("rsa", unsigned=attribute(signing.NESTED_SIGNATURE, right))
    for name, octets in (
        ("a right one in a wrong one", outer.file(content=octet_string(OTHER))),
        ("a right one in one without a certificate", outer.file(certificates=[])),
        ("a right one in a weak one", Signer("short", unsigned=attribute(signing.NESTED_SIGNATURE, right)).file()),
    ):
        name = f"nested, {name}"
        rule = "weak-rsa" if "weak" in name else None
        yield attack(name, octets, rule, questions=(cms(of_file(name)), cms(good)))
    for levels in (2, 3, 8, 9, 10):
        of_levels = wrong if levels < 9 else right
        for _ in range(levels):
            of_levels = around([of_levels])
        name = f"nested, {levels} levels"
        asked = put(f"{of_file(name)}.inner", wrong if levels < 9 else right)
        yield attack(name, of_levels, UNNAMED if levels > 8 else None, questions=(cms(of_file(name)), cms(asked)))


CLASSES = (
    *(two_certificates, named_certificates, unread_certificates, chains, indirect_data, stamps, stamps_of_signatures),
    nested,
)
