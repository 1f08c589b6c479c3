"""Signed data (RFC 5652, 5) that keys of openssl sign (signing.py): parts of it at random, with what openssl has to say
of what is built of them; and files that openssl signs, or makes of certificates and lists."""
import calendar
import datetime
import functools
import re
from pathlib import Path
from typing import NamedTuple, Optional

from . import built, making, signing, tools
from .containers import NULL, SHA256, attribute
from .elements import contents, element, explicit, integer, octet_string, part, sequence, set_of
from .given_signed import DATA, Parts
from .inputs import IMAGE
from .oids import contents as contents_of_oid
from .oids import octets, oid

# Keys that sign, those of them whose signatures openssl verifies in PKCS #7, and digests.
KEYS, OF_PKCS7, DIGESTS = ("rsa", "p256", "p384", "pss"), ("rsa", "p256"), ("sha256", "sha384", "sha512")
# Types of contents, with id-data as often as others, and how many octets contents have.
TYPES, SIZES = (DATA, DATA, contents_of_oid("1.2.3.4"), octets("TSTInfo")), (0, 1, 15, 127, 128, 300, 70_000)
# How content is in the file: as octets, as an element that is an OCTET STRING, as another element, which is PKCS #7,
# and not at all.
OCTETS, STRING, ELEMENT, DETACHED = FORMS = "octets", "string", "element", "detached"
# What indirect data says of a program (Authenticode).
IMAGE_DATA = sequence(element(0x03, b"\5\x80"), explicit(0, explicit(2, element(0x80))))
# Other certificates and lists than X.509 in CMS (RFC 5652, 10.2), as openssl reads them.
CHOICES = element(0xA0, NULL), element(0xA1, integer(1)), element(0xA2, integer(2)), element(0xA3, oid("1.2.3"), NULL)
OTHER_LIST = element(0xA1, oid("1.2.3"), NULL)
# What openssl shows of a time.
TIME = re.compile(rb"^ +(UTCTIME|GENERALIZEDTIME):(\w+) +(\d+) (\d+):(\d+):(\d+) (\d+) GMT$", re.M)
MONTHS = list(calendar.month_abbr)
TRUSTED = "-CAfile", "ca.pem", "-purpose", "any"


class SignedBy(NamedTuple):
    """A signer whose signature is right: the set of its parts, what its signature covers, the set of parts of its
    signed attributes, and the time in these. The last two may be None."""

    parts: dict
    covered: bytes
    attributes: Optional[dict]
    time: Optional[datetime.datetime]


class Made(NamedTuple):
    """Parts of signed data with such signers: the form and the octets of the content that was signed, and the keys
    whose certificates aren't in the file."""

    parts: Parts
    form: str
    content: bytes
    signers: list
    outside: list


@functools.lru_cache(maxsize=None)
def room():
    """The folder of files beside those of the keys."""
    folder = built.room() / "signed_by_openssl"
    folder.mkdir()
    return folder


def put(name, octets_of_file):
    """Keeps octets in a file of the folder, and returns its path."""
    (room() / name).write_bytes(octets_of_file)
    return room() / name


# Signers


def fit_attributes(chance):
    """Further attributes as openssl reads them, in any order, one of them twice. An attribute has one value or two in
    the order of DER, in which openssl puts them before it verifies."""
    values = octet_string(chance.randbytes(chance.choice((0, 20, 200)))), integer(chance.getrandbits(40)), NULL
    its = [
        attribute(chance.choice(("1.2.3", "2.999.7")), *sorted(chance.sample(values, chance.choice((1, 1, 2)))))
        for _ in range(chance.randrange(4))
    ]
    its += its[:1]
    chance.shuffle(its)
    return its


def some_time(chance):
    """A time in the years 1949 to 2051, often in one next to which times are written otherwise."""
    year = chance.choice((1949, 1950, 2049, 2050, 2051, *5 * [chance.randrange(1949, 2052)]))
    seconds = chance.choice((0, 365 * 86400 - 1, chance.randrange(365 * 86400)))
    return datetime.datetime(year, 1, 1) + datetime.timedelta(seconds=seconds)


def attributes_of(chance, content_type, digest):
    """A set of parts of signed attributes, and the time in it, or None."""
    time, further = some_time(chance) if chance.random() < 0.7 else None, fit_attributes(chance)
    its = {"has_content_type": 1, "content_type": content_type, "has_message_digest": 1, "message_digest": digest}
    its |= {"has_signing_time": int(bool(time)), "has_attributes": int(bool(further)), "attributes": set_of(*further)}
    return {**its, **({"signing_time": f"{time:%Y%m%d%H%M%S}Z".encode()} if time else {})}, time


def algorithms(chance, key, digest):
    """A digest algorithm, with NULL or without, and a signature algorithm, by RSA in each of two ways to name it."""
    of_digest = signing.algorithm(signing.DIGESTS[digest], *chance.choice(([], [NULL])))
    of_key = signing.algorithm_by(key, digest)
    if key == "rsa":
        of_key = chance.choice((of_key, signing.algorithm(signing.WITH_RSA[digest], NULL)))
    return {"digest_algorithm": of_digest, "signature_algorithm": of_key}


def named(chance, key, form):
    """What names a signer: in PKCS #7 its certificate."""
    certificate = signing.certificate(key)
    if chance.random() < 0.4 and form != ELEMENT:
        return {"has_key_identifier": 1, "key_identifier": contents(signing.key_identifier(certificate))}
    return {"has_key_identifier": 0, "certificate": certificate}


def some_signer(chance, key, form, content_type, content, written):
    """A signer of content by a key. What its signature covers is what `written` makes of a set of parts of attributes,
    or the content."""
    digest, further, those, time = chance.choice(DIGESTS), fit_attributes(chance), None, None
    if content_type != DATA or chance.random() < 0.6:
        those, time = attributes_of(chance, content_type, signing.digest_of(digest, content))
    covered = content if those is None else written(those)
    its = {"has_signed_attributes": int(those is not None), "signature": signing.signature_by(key, digest, covered)}
    its |= {} if those is None else {"signed_attributes": covered}
    its |= {"has_unsigned_attributes": int(bool(further)), "unsigned_attributes": set_of(*further)}
    return SignedBy({**its, **named(chance, key, form), **algorithms(chance, key, digest)}, covered, those, time)


# Files


@functools.lru_cache(maxsize=None)
def revocation_list():
    """A revocation list of the authority."""
    signing.certificate("ca")
    key, certificate = (signing.room() / f"ca.{it}" for it in ("key", "pem"))
    with making.inside(room()):
        making.list_configuration()
        making.put("index", "")
        making.revocation_list("list.crl", f"ca.cnf -keyfile {key} -cert {certificate}")
        return Path("list.crl").read_bytes()


def others(chance, form):
    """Certificates and revocation lists beside those of signers: in CMS also of other types."""
    certificates = [signing.certificate(it) for it in ("ca", "elsewhere") if chance.random() < 0.3]
    crls = [revocation_list()] if chance.random() < 0.3 else []
    if form != ELEMENT:
        certificates += [it for it in CHOICES if chance.random() < 0.15]
        crls += [OTHER_LIST] if chance.random() < 0.15 else []
    return certificates, crls


def some_content(chance):
    """The form of content, the set of its parts, and what is signed of it."""
    form, text = chance.choice((*FORMS, OCTETS, DETACHED)), chance.randbytes(chance.choice(SIZES))
    if form == ELEMENT:
        whole = sequence(sequence(oid(IMAGE), IMAGE_DATA), sequence(SHA256, octet_string(text)))
        its = {"content_type": contents_of_oid(signing.INDIRECT_DATA), "is_element": 1, "content": whole}
        return form, {**its, "has_content": 1}, contents(whole)
    its = {"content_type": chance.choice(TYPES), "has_content": int(form != DETACHED)}
    if form != DETACHED:
        is_element = form == STRING
        its |= {"is_element": int(is_element), "content": octet_string(text) if is_element else text}
    return form, its, text


def some_made(chance, written):
    """Parts of signed data whose signatures are right, of one to four signers, by some keys. `written` makes signed
    attributes of a set of their parts."""
    form, its, content = some_content(chance)
    keys = chance.choices(OF_PKCS7 if form == ELEMENT else KEYS, k=chance.choice((1, 1, 2, 4)))
    signers = [some_signer(chance, key, form, its["content_type"], content, written) for key in keys]
    certificates, crls = others(chance, form)
    outside = [key for key in dict.fromkeys(keys) if chance.random() < 0.2]
    certificates += [signing.certificate(key) for key in dict.fromkeys(keys) if key not in outside]
    chance.shuffle(certificates)
    return Made(Parts(its, certificates, crls, [it.parts for it in signers]), form, content, signers, outside)


def with_another_signature(made):
    """These parts, but for an octet of the last signature."""
    *signers, last = made.parts.signers
    signature = last["signature"][:-1] + bytes([last["signature"][-1] ^ 1])
    return made.parts._replace(signers=[*signers, {**last, "signature": signature}])


def with_another_content(made):
    """These parts, but for an octet more in the content, if that is in the file; and that content."""
    other = made.content + b"\0"
    held = {OCTETS: other, STRING: octet_string(other), ELEMENT: element(0x30, other)}
    its = {"content": held[made.form]} if made.form in held else {}
    return made.parts._replace(content={**made.parts.content, **its}), other


# What openssl says


def verified(made, text, content):
    """What openssl says that a file holds whose signatures it verifies; None where one isn't right. The content is
    beside the file where it is detached. Of an element in the file openssl is given the contents octets."""
    command, file = "smime" if made.form == ELEMENT else "cms", put("made.p7s", text)
    words = [command, "-verify", "-binary", "-inform", "DER", "-in", file, *TRUSTED]
    if made.form == DETACHED:
        words += ["-content", put("made.content", content)]
    if made.form == ELEMENT:
        words += ["-content", put("made.content", contents(part(text, 1, 0, 2, 1, 0)))]
    if made.outside:
        certificates = b"".join(signing.octets(f"{key}.pem") for key in made.outside)
        words += ["-certfile", put("outside.pem", certificates)]
    ran = tools.ended("openssl", *words, cwd=signing.room())
    return ran.stdout if ran.returncode == 0 else None


def times_of(made, text):
    """The times in a file, each after whether it is UTCTime, as openssl shows them."""
    words = ["pkcs7", "-print", "-noout"] if made.form == ELEMENT else ["cms", "-cmsout", "-print", "-noout"]
    shown, found = tools.openssl(*words, "-inform", "DER", text=text), []
    for kind, month, day, hour, minute, second, year in TIME.findall(shown):
        date = int(year), MONTHS.index(month.decode()), int(day)
        found.append((kind == b"UTCTIME", datetime.datetime(*date, int(hour), int(minute), int(second))))
    return sorted(found)


# Files of openssl

SIGN = "-sign", "-binary", "-outform", "DER"
# How openssl signs: by which keys, and with which other words.
OF_CMS = {
    "attached": ("rsa", "-nodetach"),
    "detached": ("rsa", ""),
    "on a curve": ("p256", "-nodetach"),
    "by another digest": ("p384", "-nodetach -md sha512"),
    "by PSS": ("rsa", "-nodetach -keyopt rsa_padding_mode:pss"),
    "by a key for PSS": ("pss", "-nodetach"),
    "without attributes": ("rsa", "-nodetach -noattr"),
    "without attributes, detached": ("p256", "-noattr"),
    "by a key identifier": ("rsa", "-nodetach -keyid"),
    "by a key identifier, detached": ("p256", "-keyid -noattr"),
    "without certificates": ("rsa", "-nodetach -nocerts"),
    "with other certificates": ("p256", "-nodetach -certfile ca.pem -certfile elsewhere.pem"),
    "without capabilities": ("rsa", "-nodetach -nosmimecap"),
    "of another type": ("rsa", "-nodetach -econtent_type 1.2.3.4"),
    "of another type, detached": ("p256", "-econtent_type 1.2.3.4"),
    "of a time stamp's type": ("p256", "-nodetach -econtent_type 1.2.840.113549.1.9.16.1.4 -keyid"),
    "with a certificate's digest": ("rsa", "-nodetach -cades"),
    "asking for a receipt": ("rsa", "-nodetach -receipt_request_all -receipt_request_to me@example.org"),
    "by two": ("rsa p256", "-nodetach"),
    "by two by a key identifier": ("p256 pss", "-keyid"),
    "by four, detached": ("rsa p256 p384 pss", ""),
    "twice by one": ("p256 p256", "-nodetach -nocerts"),
}
# The same as PKCS #7.
OF_SMIME = {
    "attached": ("rsa", "-nodetach"),
    "detached": ("rsa", ""),
    "without attributes": ("p256", "-noattr"),
    "without certificates": ("rsa", "-nodetach -nocerts"),
    "by two, with another certificate": ("rsa p256", "-certfile ca.pem"),
}
# What openssl crl2pkcs7 makes of certificates and a list.
OF_LISTS = {
    "a certificate": "-nocrl -certfile rsa.pem",
    "certificates": "-nocrl -certfile rsa.pem -certfile p256.pem -certfile ca.pem",
    "the same certificate twice": "-nocrl -certfile rsa.pem -certfile rsa.pem",
    "a list": "-in {list} -inform DER",
    "a list and certificates": "-in {list} -inform DER -certfile ca.pem -certfile elsewhere.pem",
    "nothing": "-nocrl",
}


@functools.lru_cache(maxsize=None)
def signed_by_openssl():
    """Files that openssl signs, by what they are."""
    content, found = put("content", signing.CONTENT), {}
    for name in (*KEYS, "ca", "elsewhere"):
        signing.certificate(name)
    for command, ways in (("cms", OF_CMS), ("smime", OF_SMIME)):
        for name, (keys, words) in ways.items():
            by = [word for key in keys.split() for word in ("-signer", f"{key}.pem", "-inkey", f"{key}.key")]
            given = command, *SIGN, "-in", content, *by, *words.split()
            found[f"{command}, {name}"] = tools.openssl(*given, cwd=signing.room())
    return found


def algorithm(name, *more):
    """An AlgorithmIdentifier that openssl makes of a name of its own, and of further lines that it reads."""
    lines = "asn1=SEQUENCE:algorithm", "[algorithm]", f"algorithm=OID:{name}", *more
    words = "-genconf", put("algorithm.cnf", "\n".join(lines).encode()), "-noout", "-out", room() / "algorithm.der"
    tools.openssl("asn1parse", *words)
    return (room() / "algorithm.der").read_bytes()


def lists_by_openssl():
    """Files of certificates and lists that openssl makes, by what they are."""
    revocation_list()
    for name in ("rsa", "p256", "elsewhere"):
        signing.certificate(name)
    made = {}
    for name, words in OF_LISTS.items():
        given = words.format(list=room() / "list.crl").split()
        made[name] = tools.openssl("crl2pkcs7", "-outform", "DER", *given, cwd=signing.room())
    return made
