"""Sets of parts as der_build_attributes and der_build_signed take them, by the names of the fields of their structs: a
part as octets, and a flag as 0 or 1; and certificates and revocation lists as octets. All are laid out in one input.
And such of which a part is broken, with the name of that part in der.h. Certificates, algorithms and signatures are
made up here."""
from typing import NamedTuple

from . import given_stores
from .containers import NULL, attribute, bit_string
from .elements import element, explicit, integer, octet_string, sequence, set_of
from .given import NO_ELEMENTS, NO_IDENTIFIERS, some_element, some_identifier, some_octets, there_or_not
from .given_stores import some_attribute, wrong_attributes
from .oids import contents, octets, oid

# What has to be in the input, of attributes and of content; and the two parts of a signer that name it, which are one
# part in der.h.
RANGES_OF_ATTRIBUTES = "content_type", "message_digest", "signing_time", "attributes"
RANGES_OF_CONTENT = "content_type", "content"
NAMES_OF_SIGNER = "certificate", "key_identifier"
DATA, ITS_OWN = octets("data"), ("contentType", "messageDigest", "signingTime")
# Tags of certificates and of revocation lists (RFC 5652, 10.2), and others, most of which are near them.
CHOICES, LISTS = (0x30, 0xA0, 0xA1, 0xA2, 0xA3), (0x30, 0xA1)
TAGS = *CHOICES, 0x02, 0x04, 0x05, 0x10, 0x11, 0x20, 0x31, 0x70, 0x80, 0x81, 0x82, 0x83, 0xA4, 0xB0, 0xBE, 0xE1
# Times that are right: at both ends of what is written as UTCTime, of all that can be written, and of each month, and
# February 29 in years that have one.
TIMES = (
    b"20261130144504Z", b"19491231235959Z", b"19500101000000Z", b"19991231235959Z", b"20000101000000Z",
    b"20491231235959Z", b"20500101000000Z", b"20510615120000Z", b"00000101000000Z", b"00000229000000Z",
    b"00010101000000Z", b"99991231235959Z", b"20240229000000Z", b"20000229235959Z", b"20480229010203Z",
    b"20260101000000Z", b"20260131235959Z", b"20260228000000Z", b"20260331000000Z", b"20260430000000Z",
    b"20260531000000Z", b"20260630000000Z", b"20260731000000Z", b"20260831000000Z", b"20260930000000Z",
    b"20261031000000Z", b"20261231000000Z",
)
# What is no time: a month, a day, an hour, a minute or a second that there isn't; another length; other characters;
# another zone; a fraction; and a whole element.
NO_TIMES = (
    b"20261330144504Z", b"20260030144504Z", b"20261100144504Z", b"20261131144504Z", b"20261232144504Z",
    b"20230229000000Z", b"19000229000000Z", b"21000229000000Z", b"20240230000000Z", b"20269930144504Z",
    b"20261130244504Z", b"20261130240000Z", b"20261130146004Z", b"20261130144560Z", b"20261231235960Z",
    b"", b"Z", b"261130144504Z", b"202611301445Z", b"2026113014450Z", b"20261130144504", b"202611301445040Z",
    b"20261130144504ZZ", b"20261130144504z", b"20261130144504 ", b"20261130144504\0", b"20261130T44504Z",
    b"2026113 144504Z", b" 0261130144504Z", b"+0261130144504Z", b"-0261130144504Z", b"20261130 44504Z",
    b"2026-11-30T144Z", b"2026113014450aZ", b"2026113014450/Z", b"2026113014450:Z", b"2026113014450\xB2Z",
    b"\xFF0261130144504Z", bytes(15), 15 * b"Z", b"20261130144504+", b"20261130144504+0000", b"20261130144504-0100",
    b"20261130144504.5Z", b"20261130144504.0Z", b"20261130144504,5Z", b"2026113014450.5Z",
    element(0x18, b"20261130144504Z"), element(0x17, b"261130144504Z"),
)


# Attributes


def some_time(chance):
    """A time in the years 0 to 9999, often near those that are written as UTCTime."""
    year = chance.choice((chance.randrange(10000), chance.randrange(1945, 2055)))
    date = year, chance.randrange(1, 13), chance.randrange(1, 29)
    clock = chance.randrange(24), chance.randrange(60), chance.randrange(60)
    return chance.choice((b"%04d%02d%02d%02d%02d%02dZ" % (*date, *clock), chance.choice(TIMES)))


def some_type(chance):
    """The contents octets of a content type."""
    return chance.choice((DATA, contents("1.2.3.4"), octets("TSTInfo"), some_identifier(chance)))


def some_further(chance):
    """Attributes in any order, some of them twice, among which a signer's own types may be, with any values."""
    its = [some_attribute(chance) for _ in range(chance.randrange(4))]
    its += chance.sample(its, chance.randrange(len(its) + 1))
    for name in ITS_OWN:
        values = [chance.choice((oid("data"), octet_string(b"digest"), NULL)) for _ in range(chance.randrange(3))]
        its += chance.choice(([], [attribute(name, *values)], 2 * [attribute(name, *values)]))
    chance.shuffle(its)
    return its


def attribute_sets(chance):
    """Sets of parts of attributes: with each of the parts, and without it."""
    for content_type in there_or_not("content_type", some_type(chance)):
        for digest in there_or_not("message_digest", some_octets(chance)):
            for time in there_or_not("signing_time", some_time(chance)):
                for further in there_or_not("attributes", set_of(*some_further(chance))):
                    yield {**content_type, **digest, **time, **further}


def broken_attributes(its):
    """The set of parts of attributes with one of its parts broken, and the name of that part."""
    wrong_parts = {"content_type": NO_IDENTIFIERS, "signing_time": NO_TIMES, "attributes": wrong_attributes()}
    for name, wrong in wrong_parts.items():
        yield from ((name, {**its, f"has_{name}": 1, name: it}) for it in wrong)


# Certificates, which name signers


def some_name(chance):
    """A Name: also without a RelativeDistinguishedName, or with one that has no attribute."""
    def pair():
        return sequence(element(0x06, some_identifier(chance)), some_element(chance))

    return sequence(*(set_of(*(pair() for _ in range(chance.randrange(3)))) for _ in range(chance.randrange(4))))


def certificate_of(issuer, serial, version=explicit(0, integer(2)), rest=b""):
    """A certificate (RFC 5280, 4.1) of the elements of its issuer and its serial number, with a version, or none."""
    algorithm = sequence(oid("1.2.3"))
    subject = sequence(set_of(sequence(oid("commonName"), element(0x0C, b"subject"))))
    key = sequence(algorithm, bit_string(b"key"))
    tbs = sequence(version, serial, algorithm, issuer, sequence(), subject, key, rest)
    return sequence(tbs, algorithm, bit_string(b"signature"))


def some_serial(chance):
    """An INTEGER, also a negative one."""
    long = b"\x7F" + chance.randbytes(19)
    return element(0x02, chance.choice((b"\0", b"\1", b"\x7F", b"\0\x80", b"\xFF", b"\x80", long)))


def some_certificate(chance):
    rest = chance.choice((b"", explicit(3, sequence()), element(0x81, b"\0id") + NULL, some_element(chance)))
    versions = b"", *(explicit(0, integer(number)) for number in range(3))
    return certificate_of(some_name(chance), some_serial(chance), chance.choice(versions), rest)


def wrong_names():
    """What is no Name."""
    kind = oid("commonName")
    yield from (NULL, set_of(), octet_string(b""), sequence(sequence()), sequence(set_of(NULL)))
    yield from (sequence(set_of(its)) for its in (sequence(), sequence(kind), sequence(kind, NULL, NULL)))


def wrong_tbs(*right):
    """The fields of a TBSCertificate of which one is wrong or isn't there, or with a version that there isn't."""
    wrong = {
        0: (NULL, element(0x02), octet_string(b"\1")), 1: (NULL, sequence()), 2: wrong_names(), 4: wrong_names(),
    }
    for place, those in wrong.items():
        yield from ((*right[:place], it, *right[place + 1 :]) for it in those)
    yield from (right[:count] for count in range(len(right)))
    for version in (explicit(0), explicit(0, NULL), explicit(0, integer(3)), explicit(0, integer(2), NULL)):
        yield version, *right
    yield explicit(1, integer(2)), *right


def wrong_certificates():
    """What is no certificate, as far as what names a signer goes."""
    name, serial, algorithm, bits = sequence(), integer(1), sequence(oid("1.2.3")), bit_string(b"")
    right = serial, algorithm, name, sequence(), name, sequence()
    tbs = sequence(*right)
    its = sequence(tbs, algorithm, bits)
    yield from NO_ELEMENTS
    yield from (NULL, sequence(), tbs, sequence(its), its + NULL, its[:-1], element(0xA0, its[2:]))
    yield from (sequence(tbs), sequence(tbs, algorithm), set_of(tbs, algorithm, bits))
    yield from (sequence(tbs, bits, algorithm), sequence(tbs, algorithm, bits, NULL))
    yield from (sequence(set_of(*right), algorithm, bits), sequence(tbs, octet_string(b""), bits))
    yield from (sequence(tbs, it, bits) for it in (NULL, sequence(), sequence(NULL), oid("1.2.3")))
    yield from (sequence(tbs, algorithm, it) for it in (NULL, octet_string(b""), element(0x03), element(0x03, b"\1")))
    yield from (sequence(sequence(*fields), algorithm, bits) for fields in wrong_tbs(*right))


# Signers


def some_algorithm(chance):
    """An AlgorithmIdentifier, with parameters or without."""
    return sequence(element(0x06, some_identifier(chance)), chance.choice((b"", NULL, some_element(chance))))


def wrong_algorithms():
    """What is no AlgorithmIdentifier."""
    kind = oid("SHA-256")
    yield from NO_ELEMENTS
    yield from (NULL, kind, sequence(), sequence(NULL), sequence(NULL, kind), sequence(kind, NULL, NULL), set_of(kind))
    yield from (sequence(sequence(kind)), explicit(0, kind), sequence(kind, b"\5"), sequence(kind) + NULL)
    yield sequence(kind, NULL)[:-1]
    yield from (sequence(element(0x06, it)) for it in NO_IDENTIFIERS)


def signing_time(time):
    """The element of a time of signing (RFC 5652, 11.3), by its 15 characters."""
    is_short = 1950 <= int(time[:4]) <= 2049
    return element(0x17, time[2:]) if is_short else element(0x18, time)


def right_attributes(content_type, *further, digest=b"digest"):
    """The signed attributes that RFC 5652 asks for with content of a type, and further ones."""
    its = attribute("contentType", element(0x06, content_type)), attribute("messageDigest", octet_string(digest))
    return [*its, *further]


def some_signed(chance, content_type):
    """A SET OF signed attributes with content of a type, in any order."""
    its = right_attributes(content_type, digest=some_octets(chance))
    its += chance.choice(([], [attribute("signingTime", signing_time(some_time(chance)))]))
    its += [some_attribute(chance) for _ in range(chance.randrange(3))]
    chance.shuffle(its)
    return set_of(*its)


def wrong_values(right, other, others):
    """Values of an attribute that has to have one, by what is wrong with them: of a right one, and of others."""
    yield from (("no value", []), ("twice the value", [right, right]), ("two values", [right, other]))
    yield from ((f"the value {it.hex()}", [it]) for it in others)


def wrong_signed(content_type):
    """Signed attributes that RFC 5652, 5.3 and 11.1 to 11.3, forbid with content of a type, by what is wrong."""
    kind, digest = right_attributes(content_type)
    right, time = element(0x06, content_type), signing_time(TIMES[0])
    another = oid("1.2.3") if content_type != contents("1.2.3") else oid("1.2.4")
    other_kind = attribute("contentType", another)
    other_digest, timed = attribute("messageDigest", octet_string(b"another")), attribute("signingTime", time)
    yield from (("no attributes", []), ("no contentType", [digest]), ("no messageDigest", [kind]))
    yield from (("others alone", [attribute("1.2.3", NULL)]), ("signingTime alone", [timed]))
    yield from (("contentType twice", [kind, kind, digest]), ("messageDigest twice", [kind, digest, digest]))
    yield from (("two of contentType", [kind, other_kind, digest]), ("the other first", [other_kind, kind, digest]))
    yield from (("two of messageDigest", [kind, digest, other_digest]), ("another type", [other_kind, digest]))
    for what, values in wrong_values(right, another, (NULL, octet_string(content_type), element(0x06), right + b"\1")):
        yield f"contentType with {what}", [attribute("contentType", *values), digest]
    for near in (content_type + b"\1", content_type[:-1]):
        yield f"contentType {near.hex()}", [attribute("contentType", element(0x06, near)), digest]
    value = octet_string(b"digest")
    others = NULL, bit_string(b"digest"), element(0x24, value), sequence(value)
    for what, values in wrong_values(value, octet_string(b"other"), others):
        yield f"messageDigest with {what}", [kind, attribute("messageDigest", *values)]
    later = element(0x17, b"261130144505Z")
    yield from (("signingTime twice", [kind, digest, timed, timed]),)
    yield "two of signingTime", [kind, digest, timed, attribute("signingTime", later)]
    for what, values in wrong_values(time, later, wrong_signing_times()):
        yield f"signingTime with {what}", [kind, digest, attribute("signingTime", *values)]


def wrong_signing_times():
    """Elements that are no time of signing: of another type, UTCTime without seconds or with a zone, GeneralizedTime
    with a fraction, or of a day that there isn't."""
    yield from (NULL, octet_string(b"261130144504Z"), element(0x17), element(0x18))
    for its in (b"261330144504Z", b"230229000000Z", b"2611301445Z", b"261130144504+0000", b"20261130144504Z"):
        yield element(0x17, its)
    for its in (b"20230229000000Z", b"20501130144504.5Z", b"205011301445Z", b"261130144504Z"):
        yield element(0x18, its)


def some_signer(chance, content_type=DATA):
    """A set of parts of a signer of content of a type."""
    by_key = chance.random() < 0.4
    named = {"key_identifier": some_octets(chance)} if by_key else {"certificate": some_certificate(chance)}
    signed, without = there_or_not("signed_attributes", some_signed(chance, content_type))
    if content_type == DATA and chance.random() < 0.4:
        signed = without
    its = {"has_key_identifier": int(by_key), **named, **signed, "signature": some_octets(chance)}
    its |= {name: some_algorithm(chance) for name in ("digest_algorithm", "signature_algorithm")}
    unsigned = set_of(*(some_further(chance) or [attribute("1.2.3")]))
    return its | chance.choice(there_or_not("unsigned_attributes", unsigned))


def broken_signers(its, content_type):
    """The set of parts of a signer of content of a type with one of its parts broken, and the name of that part in
    der.h."""
    by_certificate = {name: it for name, it in its.items() if name != "key_identifier"} | {"has_key_identifier": 0}
    yield from (("identifier", {**by_certificate, "certificate": it}) for it in wrong_certificates())
    for name in ("digest_algorithm", "signature_algorithm"):
        yield from ((name, {**its, name: it}) for it in wrong_algorithms())
    forbidden = [set_of(*those) for _, those in wrong_signed(content_type)]
    for name, more in (("signed_attributes", forbidden), ("unsigned_attributes", [set_of()])):
        yield from ((name, {**its, f"has_{name}": 1, name: it}) for it in (*wrong_attributes(), *more))
    if content_type != DATA:
        yield "signed_attributes", {**its, "has_signed_attributes": 0}


# Signed data


class Parts(NamedTuple):
    """Parts of signed data: those of its content and of each signer as sets, and the others as octets."""

    content: dict
    certificates: list = []
    crls: list = []
    signers: list = []


def some_content(chance, content_type):
    """A set of parts of content of a type: none, octets, or an element, which may be an OCTET STRING too."""
    its, form = {"content_type": content_type}, chance.randrange(4)
    if form == 0:
        return {**its, "has_content": 0}
    if form == 1:
        return {**its, "has_content": 1, "is_element": 0, "content": some_octets(chance)}
    held = some_element(chance) if form == 2 else octet_string(some_octets(chance))
    return {**its, "has_content": 1, "is_element": 1, "content": held}


def some_choices(chance, tags):
    """Elements with these tags in any order, some of them twice, whatever they hold."""
    found = [element(chance.choice(tags), some_octets(chance)) for _ in range(chance.choice((0, 0, 1, 2, 5)))]
    found += chance.sample(found, chance.randrange(len(found) + 1))
    chance.shuffle(found)
    return found


def some_parts(chance):
    """Parts of signed data, with signers or without."""
    content_type, lists = some_type(chance), [some_choices(chance, tags) for tags in (CHOICES, LISTS)]
    count = chance.choice((0, 1, 1, 2, 3))
    if count == 0:
        return Parts({"content_type": DATA, "has_content": 0}, *lists)
    signers = [some_signer(chance, content_type) for _ in range(count)]
    signers += signers[:1] if chance.random() < 0.2 else []
    lists[0] += [it["certificate"] for it in signers if not it["has_key_identifier"] and chance.random() < 0.5]
    return Parts(some_content(chance, content_type), *lists, signers)


def laid_out(chance, those):
    """An input that has some parts of signed data, and the fields of the content, the ranges of certificates and of
    revocation lists, and the fields of each signer."""
    items, count = [{"octets": it} for it in (*those.certificates, *those.crls)], len(those.certificates)
    text, (content, *fields) = given_stores.laid_out(chance, [those.content, *items, *those.signers])
    places = [it["octets"] for it in fields[: len(items)]]
    return text, (content, places[:count], places[count:], fields[len(items) :])


def wrong_choices(tags):
    """What is no element with one of these tags."""
    yield from NO_ELEMENTS
    for tag in (it for it in TAGS if it not in tags):
        yield from (element(tag), element(tag, integer(1)))


def broken_contents(its, has_signers):
    """The set of parts of content with one of its parts broken, and the name of that part. Without signers there is no
    content, and its type is id-data."""
    yield from (("content_type", {**its, "content_type": it}) for it in NO_IDENTIFIERS)
    for it in NO_ELEMENTS:
        yield "content", {**its, "has_content": 1, "is_element": 1, "content": it}
    if not has_signers:
        for is_element, held in ((0, b""), (0, b"octets"), (1, octet_string(b"")), (1, NULL), (1, sequence())):
            yield "content", {**its, "has_content": 1, "is_element": is_element, "content": held}
        for other in (contents("1.2.3.4"), DATA + b"\1", DATA[:-1] + b"\2", octets("TSTInfo")):
            yield "content", {**its, "content_type": other}
